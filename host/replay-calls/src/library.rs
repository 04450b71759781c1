//! What the header declares, and in which module of `crates/taripomune` each function and reply is.

use std::collections::BTreeMap;
use std::fs;
use std::path::Path;
use taripomune_header::{Header, Prototype};

pub struct Library {
    pub header: Header,
    /// The modules' texts.
    modules: BTreeMap<String, String>,
}

impl Library {
    pub fn read(root: &Path) -> Library {
        let header = Header::read(&fs::read_to_string(root.join("include/taripomune.h")).unwrap());
        let folder = fs::read_dir(root.join("crates/taripomune/src")).unwrap();
        let modules = folder.map(|entry| {
            let path = entry.unwrap().path();
            (path.file_stem().unwrap().to_str().unwrap().to_string(), fs::read_to_string(&path).unwrap())
        });
        Library { header, modules: modules.collect() }
    }

    /// The module that declares an item.
    pub fn module_of(&self, item: &str) -> &str {
        let found = self.modules.iter().find(|(_, text)| text.contains(item));
        found.unwrap_or_else(|| panic!("crates/taripomune has no `{item}`")).0
    }

    pub fn module_of_call(&self, prototype: &Prototype) -> &str {
        self.module_of(&format!("fn {}(", prototype.name))
    }

    /// The calls of a module that take numbers alone, in the header's order.
    pub fn calls_of_numbers(&self, module: &str) -> Vec<&Prototype> {
        let prototypes = self.header.prototypes.iter().filter(|p| !p.has_slices());
        prototypes.filter(|p| self.module_of_call(p) == module).collect()
    }

    /// The modules that have such calls.
    pub fn modules_of_numbers(&self) -> Vec<&str> {
        let modules = self.modules.keys().map(String::as_str);
        modules.filter(|module| !self.calls_of_numbers(module).is_empty()).collect()
    }

    /// The calls that take slices.
    pub fn calls_on_slices(&self) -> Vec<&Prototype> {
        self.header.prototypes.iter().filter(|p| p.has_slices()).collect()
    }
}
