//! The Rattle files by which the program `replay` calls every function of `include/taripomune.h` by its name.

#![forbid(unsafe_code)]

mod library;
mod numbers;
mod replies;
mod slices;

use library::Library;
use std::collections::BTreeMap;
use std::path::Path;
use taripomune_header::{Pointer, Prototype, Variable};

/// Where the files belong, from the repository's root.
pub const FOLDER: &str = "crates/replay/src";

/// The first line of every file.
const HEAD: &str = "// Written by host/replay-calls from include/taripomune.h.";

/// How long a line may be.
const WIDTH: usize = 100;

/// How long the arguments of a call may be that stand on one line.
const CALL_WIDTH: usize = 60;

/// The files by name, in `rt fmt`'s layout.
pub fn files(root: &Path) -> BTreeMap<String, String> {
    let library = Library::read(root);
    let mut files = BTreeMap::new();
    files.insert("calls.rt".to_string(), numbers::root(&library));
    files.insert("calls/replies.rt".to_string(), replies::file(&library));
    files.insert("calls/on_slices.rt".to_string(), slices::file(&library));
    for module in library.modules_of_numbers() {
        files.insert(format!("calls/{module}.rt"), numbers::module(&library, module));
    }
    files
}

/// What a function of the library takes as an argument.
#[derive(Clone, Copy, PartialEq, Eq, PartialOrd, Ord)]
enum Kind {
    U32,
    U64,
    I32,
    I64,
    Read,
    Written,
    Scratch,
}

impl Kind {
    fn of(variable: &Variable) -> Kind {
        match (&variable.pointer, variable.rust_type) {
            (Some(Pointer::Const), "u32") => Kind::Read,
            (Some(Pointer::Mut), "u32") if variable.name == "scratch" => Kind::Scratch,
            (Some(Pointer::Mut), "u32") => Kind::Written,
            (None, "u32") => Kind::U32,
            (None, "u64") => Kind::U64,
            (None, "i32") => Kind::I32,
            (None, "i64") => Kind::I64,
            _ => panic!("replay has no kind for the parameter {}", variable.name),
        }
    }

    fn is_slice(self) -> bool {
        matches!(self, Kind::Read | Kind::Written | Kind::Scratch)
    }
}

fn kinds(prototype: &Prototype) -> Vec<Kind> {
    prototype.rattle_parameters().map(Kind::of).collect()
}

fn name(prototype: &Prototype) -> &str {
    prototype.name.strip_prefix("tari_").unwrap()
}

/// An arm of the `match` on a call's name.
fn arm(prototype: &Prototype, function: &str, arguments: &[String]) -> String {
    let head = format!("        \"{}\" => ", name(prototype));
    let list = arguments.join(", ");
    let call = format!("{function}({list}).into()");
    if head.len() + call.len() < WIDTH && list.len() <= CALL_WIDTH {
        return format!("{head}{call},\n");
    }
    if 12 + call.len() <= WIDTH && list.len() <= CALL_WIDTH {
        return format!("{head}{{\n            {call}\n        }}\n");
    }
    let end = if list.len() <= CALL_WIDTH { ").into()" } else { ")\n        .into()" };
    format!("{head}{function}(\n{}        {end},\n", filled(arguments, 12))
}

/// The lines that bring names into a file, one for the names of a module.
fn uses(names: impl IntoIterator<Item = String>) -> String {
    let mut modules: BTreeMap<String, Vec<String>> = BTreeMap::new();
    for path in names {
        let (module, name) = path.rsplit_once("::").expect("a name has a module");
        modules.entry(module.to_string()).or_default().push(name.to_string());
    }
    let line = |(module, mut names): (String, Vec<String>)| {
        names.sort();
        names.dedup();
        let list = names.join(", ");
        match names.len() {
            1 => format!("use {module}::{list};\n"),
            _ if module.len() + list.len() + 9 <= WIDTH => format!("use {module}::{{{list}}};\n"),
            _ => format!("use {module}::{{\n{}}};\n", filled(&names, 4)),
        }
    };
    modules.into_iter().map(line).collect()
}

/// Words with a comma after each, as many a line as fit.
fn filled(words: &[String], indent: usize) -> String {
    let mut lines: Vec<String> = vec![];
    for word in words {
        match lines.last_mut() {
            Some(line) if line.len() + word.len() + 2 <= WIDTH => *line += &format!(" {word},"),
            _ => lines.push(format!("{:indent$}{word},", "")),
        }
    }
    lines.join("\n") + "\n"
}
