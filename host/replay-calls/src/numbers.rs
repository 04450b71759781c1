//! The calls that take numbers alone, a file a module of the library.

use crate::library::Library;
use crate::{HEAD, Kind, arm, kinds, uses};
use taripomune_header::Prototype;

/// The file of a module: a function for the calls of the same kinds, so that each number is read in one place.
pub fn module(library: &Library, module: &str) -> String {
    let mut calls = library.calls_of_numbers(module);
    calls.sort_by_key(|call| (kinds(call).len(), kinds(call)));
    let names = ["crate::answer::Answer", "crate::line::Line"].map(str::to_string);
    let uses = uses(names.into_iter().chain([format!("taripomune::{module} as calls")]));
    let groups: Vec<&[&Prototype]> = calls.chunk_by(|one, other| kinds(one) == kinds(other)).collect();
    let functions: String = groups.iter().map(|group| of_kinds(group)).collect();
    let names = groups.iter().map(|group| function_of(&kinds(group[0])));
    format!("{HEAD}\n{uses}\n{functions}{}", answer(names))
}

/// The function that asks others one after the other.
fn answer(functions: impl Iterator<Item = String>) -> String {
    let asked: Vec<String> = functions.map(|function| format!("{function}(line)")).collect();
    let (first, others) = asked.split_first().expect("a module has calls");
    let others: String = others.iter().map(|other| format!("\n        .or_else(|| {other})")).collect();
    format!("pub fn answer_of(line: &Line<'_>) -> Option<Answer> {{\n    {first}{others}\n}}\n")
}

/// The name of the function for some kinds, as `of_4_u32_2_u64` or `of_coset_u64`.
fn function_of(kinds: &[Kind]) -> String {
    if kinds.is_empty() { "of_none".to_string() } else { format!("of{}", parts_in_name(kinds)) }
}

/// What some numbers are in a name, as `_4_u32_2_u64`.
pub fn parts_in_name(kinds: &[Kind]) -> String {
    let name = |part: &[Kind]| match part.len() {
        _ if part == COSET => "_coset".to_string(),
        1 => format!("_{}", type_of(part[0])),
        count => format!("_{count}_{}", type_of(part[0])),
    };
    parts(kinds).into_iter().map(name).collect()
}

/// The index and the point that a coset begins with, those of its step, and its log size.
const COSET: [Kind; 7] = [Kind::U64, Kind::U32, Kind::U32, Kind::U64, Kind::U32, Kind::U32, Kind::U32];

/// How many numbers a line takes: as many as `Arguments::take` gives, which stay on one line.
const MOST_TAKEN: usize = 8;

/// The kinds of some numbers in parts: a coset, or numbers of one type.
fn parts(kinds: &[Kind]) -> Vec<&[Kind]> {
    let mut rest = kinds;
    let mut parts = vec![];
    while let Some(first) = rest.first() {
        let count = if rest.starts_with(&COSET) {
            COSET.len()
        } else {
            rest.iter().take_while(|kind| *kind == first).count().min(MOST_TAKEN)
        };
        let (part, after) = rest.split_at(count);
        parts.push(part);
        rest = after;
    }
    parts
}

/// The Rattle type of a number.
fn type_of(kind: Kind) -> &'static str {
    match kind {
        Kind::U32 => "u32",
        Kind::U64 => "u64",
        Kind::I32 => "i32",
        Kind::I64 => "i64",
        Kind::Read | Kind::Written | Kind::Scratch => panic!("a slice is no number"),
    }
}

/// The lines that take arguments, a line a part. They are named `a0` and so on from a number on.
pub fn taken(reader: &str, from: usize, kinds: &[Kind]) -> String {
    let mut names = (from..).map(|i| format!("a{i}"));
    let line = |part: &[Kind]| {
        let names: Vec<String> = names.by_ref().take(part.len()).collect();
        let list = names.join(", ");
        if part == COSET {
            return format!("    let ({list}) = {reader}.take_coset()?;\n");
        }
        format!("    let [{list}] = {reader}.take::<{}, {}>()?;\n", type_of(part[0]), part.len())
    };
    let lines: String = parts(kinds).into_iter().map(line).collect();
    format!("{lines}    {reader}.end()?;\n")
}

/// The function for calls of the same kinds.
fn of_kinds(calls: &[&Prototype]) -> String {
    let kinds = kinds(calls[0]);
    let arguments: Vec<String> = (0..kinds.len()).map(|i| format!("a{i}")).collect();
    let arms: String = calls.iter().map(|call| arm(call, &format!("calls::{}", call.name), &arguments)).collect();
    let reader = if kinds.is_empty() { "let arguments" } else { "let mut arguments" };
    format!(
        "fn {}(line: &Line<'_>) -> Option<Answer> {{\n    {reader} = line.arguments();\n{}    \
         Some(match line.name {{\n{arms}        _ => return None,\n    }})\n}}\n\n",
        function_of(&kinds),
        taken("arguments", 0, &kinds)
    )
}

/// The file that declares the others.
pub fn root(library: &Library) -> String {
    let modules = library.modules_of_numbers();
    let mut files: Vec<String> = modules.iter().map(|module| format!("mod {module};\n")).collect();
    files.extend(["pub mod on_slices;\n".to_string(), "mod replies;\n".to_string()]);
    files.sort_by_key(|line| line.trim_start_matches("pub ").to_string());
    let answer = answer(modules.iter().map(|module| format!("{module}::answer_of")));
    let comment = "/// The answer to a call that takes numbers alone, where there is one of this name and the arguments are its. \
                   Each call is\n/// an arm of a `match` on names: a table would need a wrapper for each, since they \
                   take numbers of different types.";
    format!("{HEAD}\n{}\nuse crate::answer::Answer;\nuse crate::line::Line;\n\n{comment}\n{answer}", files.concat())
}
