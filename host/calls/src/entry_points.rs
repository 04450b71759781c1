//! The entry points of `crates/taripomune_c`: the contract of each, and what its names stand for.

use crate::imports::Imports;
use crate::specs::{Named, words};
use std::fs;
use std::path::Path;

pub struct EntryPoint {
    pub name: String,
    /// The file, from the repository's root.
    pub file: String,
    /// The names of its parameters.
    pub parameters: Vec<String>,
    /// What its contract says of the reply `result` and of the slices.
    pub contract: Vec<String>,
    /// What of specs the contract names, in its order.
    pub names: Vec<Named>,
}

/// The functions with C linkage.
pub fn read(root: &Path) -> Vec<EntryPoint> {
    let folder = root.join("crates/taripomune_c/src");
    let mut files: Vec<_> = fs::read_dir(&folder).expect("the entry points are there").collect();
    files.sort_by_key(|entry| entry.as_ref().unwrap().file_name());
    let mut found = vec![];
    for entry in files {
        let name = entry.unwrap().file_name().into_string().unwrap();
        let text = fs::read_to_string(folder.join(&name)).expect("an entry point can be read");
        let imports = Imports::read(&text);
        for function in text.split("pub extern \"C\" fn ").skip(1) {
            found.push(entry_point(function, &imports, &format!("crates/taripomune_c/src/{name}")));
        }
    }
    found
}

fn entry_point(function: &str, imports: &Imports, file: &str) -> EntryPoint {
    let (name, rest) = function.split_once('(').expect("a function has parameters");
    let name = name.to_string();
    let list = rest.split_once(')').expect("parameters end").0;
    let parameters: Vec<String> =
        list.split(',').filter_map(|parameter| Some(parameter.split_once(':')?.0.trim().to_string())).collect();
    let contract = contract_of(function).unwrap_or_else(|| panic!("{name} hasn't one contract"));
    let mut names: Vec<Named> = vec![];
    let said = contract.replace('\n', " ");
    let words = words(&said).map(|word| imports.without_fields(word));
    for word in words.filter(|word| !parameters.iter().any(|parameter| parameter == word)) {
        let Some((module, name)) = imports.resolve(word) else { continue };
        let named = Named { key: (module, name.to_string()), word: word.to_string() };
        if !names.contains(&named) {
            names.push(named);
        }
    }
    let contract = at_margin(contract);
    EntryPoint { name, file: file.to_string(), parameters, contract, names }
}

/// What stands in the braces of `ensures`. A function with several of them, or with a `requires`, has none.
fn contract_of(function: &str) -> Option<&str> {
    let (head, clause) = function.split_once("ensures {")?;
    let mut open = 1;
    let end = clause.find(|c| {
        open += i32::from(c == '{') - i32::from(c == '}');
        open == 0
    })?;
    let (contract, rest) = clause.split_at(end);
    (!head.contains("requires") && rest.strip_prefix('}')?.trim_start().starts_with('{')).then_some(contract)
}

/// The lines of a contract from the left margin on, its first line's place being that of the word before it.
fn at_margin(contract: &str) -> Vec<String> {
    let mut lines = contract.trim().lines();
    let first = lines.next().unwrap_or_default().to_string();
    let rest: Vec<&str> = lines.collect();
    let indent = rest.iter().map(|line| line.len() - line.trim_start().len()).min().unwrap_or(0);
    [first].into_iter().chain(rest.iter().map(|line| format!("  {}", &line[indent..]))).collect()
}
