//! The calls that take slices. What they leave in the slices is read by `crates/replay/src/slices.rt`.

use crate::library::Library;
use crate::numbers::{parts_in_name, taken};
use crate::{HEAD, Kind, WIDTH, arm, kinds, name, uses};
use taripomune_header::Prototype;

/// The file: what each call takes, and a function for the calls with the same numbers before and after their slices.
pub fn file(library: &Library) -> String {
    let calls = library.calls_on_slices();
    let names = ["answer::Answer", "arguments::Arguments", "slices::Access", "slices::Parameters"];
    let names = names.map(|name| format!("crate::{name}"));
    let modules = calls.iter().map(|call| format!("taripomune::{}", library.module_of_call(call)));
    let uses = uses(names.into_iter().chain(modules));
    let parameters: String = alike(&calls, kinds).iter().map(|calls| parameters_of(calls)).collect();
    let groups = alike(&calls, |call| Parts::of(call).numbers());
    let functions: String = groups.iter().map(|calls| of_numbers(library, calls)).collect();
    let asked: Vec<String> = groups.iter().map(|calls| asked(calls)).collect();
    let (last, others) = asked.split_last().expect("there are calls on slices");
    let others: String = others
        .iter()
        .map(|asked| format!("    if let Some(answer) = {asked} {{\n        return Some(answer);\n    }}\n"))
        .collect();
    let all = PARAMETERS.map(|(name, of)| format!("    {name}: {of},\n")).concat();
    format!(
        "{HEAD}\n{uses}\npub fn parameters_of(name: &str) -> Option<Parameters> {{\n    Some(match name {{\n\
         {parameters}        _ => return None,\n    }})\n}}\n\n{functions}\
         pub fn answer_of(\n{all}) -> Option<Answer> {{\n{others}    {last}\n}}\n"
    )
}

/// What a call on slices is found by and takes.
const PARAMETERS: [(&str, &str); 5] =
    [("name", "&str"), ("before", "&[i128]"), ("first", "&mut [u32]"), ("second", "&mut [u32]"), ("after", "&[i128]")];

/// Those of them that calls with the same numbers take.
fn parameters(calls: &[&Prototype]) -> Vec<(&'static str, &'static str)> {
    let parts = calls.iter().map(|call| Parts::of(call));
    let takes = |name: &str| match name {
        "before" => parts.clone().any(|parts| !parts.before.is_empty()),
        "second" => parts.clone().any(|parts| parts.slices.len() == 2),
        "after" => parts.clone().any(|parts| !parts.after.is_empty()),
        _ => true,
    };
    PARAMETERS.into_iter().filter(|(name, _)| takes(name)).collect()
}

/// The call of the function for calls with the same numbers.
fn asked(calls: &[&Prototype]) -> String {
    let names: Vec<&str> = parameters(calls).into_iter().map(|(name, _)| name).collect();
    format!("{}({})", Parts::of(calls[0]).function(), names.join(", "))
}

/// The kinds of a call's arguments: those before its slices, these, and those after them.
struct Parts {
    before: Vec<Kind>,
    slices: Vec<Kind>,
    after: Vec<Kind>,
}

impl Parts {
    fn of(call: &Prototype) -> Parts {
        let kinds = kinds(call);
        let parts: Vec<&[Kind]> = kinds.chunk_by(|one, other| one.is_slice() == other.is_slice()).collect();
        let (before, slices, after): (&[Kind], _, &[Kind]) = match parts[..] {
            [slices] => (&[], slices, &[]),
            [before, slices] if slices[0].is_slice() => (before, slices, &[]),
            [slices, after] => (&[], slices, after),
            [before, slices, after] if slices[0].is_slice() => (before, slices, after),
            _ => panic!("{}: slices with numbers between", call.name),
        };
        Parts { before: before.to_vec(), slices: slices.to_vec(), after: after.to_vec() }
    }

    fn numbers(self) -> (Vec<Kind>, Vec<Kind>) {
        (self.before, self.after)
    }

    /// As `of_u32_slices`.
    fn function(&self) -> String {
        format!("of{}_slices{}", parts_in_name(&self.before), parts_in_name(&self.after))
    }
}

/// The calls in groups that have the same key, each where its first one is.
fn alike<'a, K: PartialEq>(calls: &[&'a Prototype], key: impl Fn(&Prototype) -> K) -> Vec<Vec<&'a Prototype>> {
    let mut groups: Vec<Vec<&Prototype>> = vec![];
    for call in calls {
        match groups.iter_mut().find(|group| key(group[0]) == key(call)) {
            Some(group) => group.push(call),
            None => groups.push(vec![call]),
        }
    }
    groups
}

/// The arm that says what calls of the same kinds take.
fn parameters_of(calls: &[&Prototype]) -> String {
    let names: Vec<String> = calls.iter().map(|call| format!("\"{}\"", name(call))).collect();
    let parts = Parts::of(calls[0]);
    let (first, second) = match parts.slices[..] {
        [first] => (access(first), "None".to_string()),
        [first, second] => (access(first), format!("Some({})", access(second))),
        _ => panic!("{} takes more than two slices", calls[0].name),
    };
    let pattern = names.join(" | ");
    let (head, indent) = if pattern.len() + 24 <= WIDTH {
        (format!("        {pattern} => "), 8)
    } else if pattern.len() + 11 <= WIDTH {
        (format!("        {pattern} =>\n            "), 12)
    } else {
        (format!("        {} => ", names.join("\n        | ")), 8)
    };
    format!(
        "{head}Parameters {{\n{0:indent$}    before: {1},\n{0:indent$}    first: {first},\n{0:indent$}    \
         second: {second},\n{0:indent$}    after: {2},\n{0:indent$}}},\n",
        "",
        parts.before.len(),
        parts.after.len()
    )
}

fn access(kind: Kind) -> &'static str {
    match kind {
        Kind::Read => "Access::Reads",
        Kind::Written => "Access::Writes",
        Kind::Scratch => "Access::Scratch",
        Kind::U32 | Kind::U64 | Kind::I32 | Kind::I64 => panic!("a number is no slice"),
    }
}

/// The function for calls with the same numbers.
fn of_numbers(library: &Library, calls: &[&Prototype]) -> String {
    let parts = Parts::of(calls[0]);
    let before = parts.before.len();
    let arms: String = calls
        .iter()
        .map(|call| arm(call, &format!("{}::{}", library.module_of_call(call), call.name), &passed(call)))
        .collect();
    let read = |numbers: &str, from: usize, kinds: &[Kind]| match kinds {
        [] => String::new(),
        kinds => format!("    let mut {numbers} = Arguments::new({numbers});\n{}", taken(numbers, from, kinds)),
    };
    let read = read("before", 0, &parts.before) + &read("after", before, &parts.after);
    let list = parameters(calls).into_iter().map(|(name, of)| format!("{name}: {of}")).collect::<Vec<_>>();
    let head = format!("fn {}({}) -> Option<Answer> {{", parts.function(), list.join(", "));
    let head = if head.len() <= WIDTH {
        head
    } else {
        format!("fn {}(\n    {},\n) -> Option<Answer> {{", parts.function(), list.join(",\n    "))
    };
    format!("{head}\n{read}    Some(match name {{\n{arms}        _ => return None,\n    }})\n}}\n\n")
}

/// The arguments of a call.
fn passed(call: &Prototype) -> Vec<String> {
    let (mut numbers, mut slices) = (0.., ["first", "second"].into_iter());
    let passed = |kind: Kind| {
        if kind.is_slice() {
            return slices.next().expect("at most two slices").to_string();
        }
        format!("a{}", numbers.next().unwrap())
    };
    kinds(call).into_iter().map(passed).collect()
}
