//! What the names of a file stand for, by its `use` lines.

use std::collections::HashMap;

/// A module of a crate's specs, such as `Check` of `fields`, or of the checker's library.
#[derive(Clone, Debug, PartialEq, Eq, Hash, PartialOrd, Ord)]
pub struct Module {
    pub crate_name: String,
    pub name: String,
}

impl Module {
    pub fn new(crate_name: &str, name: &str) -> Module {
        Module { crate_name: crate_name.to_string(), name: name.to_string() }
    }
}

/// The names that a file takes from modules of specs and of the library.
#[derive(Default)]
pub struct Imports {
    names: HashMap<String, Module>,
    aliases: HashMap<String, Module>,
}

impl Imports {
    /// The imports of a file; other lines are passed over.
    pub fn read(text: &str) -> Imports {
        let mut imports = Imports::default();
        let mut lines = text.lines();
        while let Some(line) = lines.next() {
            let Some(start) = line.trim_start_matches("ghost ").strip_prefix("use ") else { continue };
            let mut import = start.to_string();
            while import.contains('{') && !import.contains('}') {
                import += lines.next().expect("a list of names ends");
            }
            imports.add(import.trim_end_matches(';'));
        }
        imports
    }

    fn add(&mut self, import: &str) {
        if let Some((path, alias)) = import.split_once(" as ") {
            if let Some(module) = module_of(path) {
                self.aliases.insert(alias.trim().to_string(), module);
            }
        } else if let Some((path, names)) = import.split_once(".{")
            && let Some(module) = module_of(path)
        {
            // An operator is written by its signs, without the places of its arguments.
            let names = names.trim_end_matches('}').split(',').flat_map(|name| name.split('◌'));
            for name in names.map(str::trim).filter(|name| !name.is_empty()) {
                self.names.insert(name.to_string(), module.clone());
            }
        }
    }

    /// A word without the fields that are taken of what it stands for: `a` of `a.x`, `X.a` of `X.a.x` where X is a module.
    pub fn without_fields<'a>(&self, word: &'a str) -> &'a str {
        let Some((head, rest)) = word.split_once('.') else { return word };
        match self.aliases.get(head) {
            Some(_) => &word[..head.len() + 1 + rest.find('.').unwrap_or(rest.len())],
            None => head,
        }
    }

    /// The module and the name in it that a word of the file stands for, if it is taken from one.
    pub fn resolve<'a>(&self, word: &'a str) -> Option<(Module, &'a str)> {
        if let Some(module) = self.names.get(word) {
            return Some((module.clone(), word));
        }
        let (alias, name) = word.split_once('.')?;
        Some((self.aliases.get(alias)?.clone(), name))
    }
}

/// `Rattle.fields.specs.Check`; the library has also `Rattle.std.proofs.Common`, `lib.ListN` and the like.
fn module_of(path: &str) -> Option<Module> {
    let path = path.trim();
    match path.strip_prefix("Rattle.") {
        Some(path) => {
            let of_library = || path.split_once(".proofs.").filter(|(crate_name, _)| *crate_name == "std");
            path.split_once(".specs.").or_else(of_library).map(|(crate_name, name)| Module::new(crate_name, name))
        }
        None => path.split_once('.').map(|(library, name)| Module::new(library, name)),
    }
}
