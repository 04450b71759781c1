//! The types that the code of a crate declares, which its specs speak of.

use crate::imports::Module;
use crate::specs::{Definition, Key, Named};
use std::collections::BTreeMap;
use std::fs;
use std::path::Path;

/// The public structs and enums of a crate.
pub fn types(root: &Path, krate: &str) -> Vec<(Key, Definition)> {
    let mut found = vec![];
    read_folder(&root.join("crates").join(krate).join("src"), krate, &[], &mut found);
    found
}

/// Lets each declared type name the types of its fields. No two types have the same name.
pub fn name_types_of_fields(definitions: &mut BTreeMap<Key, Definition>) {
    let types: Vec<Key> =
        definitions.keys().filter(|(module, _)| module.name.starts_with("declared.")).cloned().collect();
    for key in &types {
        let definition = definitions.get_mut(key).expect("a type is a definition");
        let code = definition.text.iter().filter(|line| !line.trim_start().starts_with("//"));
        let words = code.flat_map(|line| line.split(|c: char| !c.is_alphanumeric() && c != '_'));
        let named = words.filter_map(|word| types.iter().find(|other| other.1 == word));
        let mut names: Vec<Named> = vec![];
        for other in named.filter(|other| *other != key) {
            let named = Named { key: other.clone(), word: other.1.clone() };
            if !names.contains(&named) {
                names.push(named);
            }
        }
        definition.names = names;
    }
}

fn read_folder(folder: &Path, krate: &str, above: &[String], found: &mut Vec<(Key, Definition)>) {
    for entry in fs::read_dir(folder).into_iter().flatten() {
        let path = entry.unwrap().path();
        let name = path.file_stem().unwrap().to_str().unwrap().to_string();
        let inside = [above, std::slice::from_ref(&name)].concat();
        if path.is_dir() {
            read_folder(&path, krate, &inside, found);
        } else {
            let module = if name == "lib" { above } else { &inside[..] };
            let file = format!("crates/{krate}/src/{}.rt", inside.join("/"));
            found.extend(types_of(&fs::read_to_string(&path).unwrap(), krate, module, &file));
        }
    }
}

fn types_of(text: &str, krate: &str, module: &[String], file: &str) -> Vec<(Key, Definition)> {
    let lines: Vec<&str> = text.lines().collect();
    let mut found = vec![];
    for (at, line) in lines.iter().enumerate() {
        let head = line.strip_prefix("pub struct ").or(line.strip_prefix("pub enum "));
        let Some(name) = head.and_then(|head| head.split(['(', '<', ' ', '{']).next()) else { continue };
        let more = if line.ends_with(';') { Some(0) } else { lines[at..].iter().position(|line| *line == "}") };
        let text = lines[at..=at + more.expect("a type ends")].iter().map(|line| line.to_string()).collect();
        let above = lines[..at].iter().rev().filter(|line| !line.starts_with("#["));
        let mut comment: Vec<String> = above.map_while(|line| line.strip_prefix("// ")).map(str::to_string).collect();
        comment.reverse();
        let path = [&["declared".to_string()], module, &[name.to_string()]].concat().join(".");
        let key = (Module::new(krate, &path), name.to_string());
        found.push((key, Definition { file: file.to_string(), comment, text, result: String::new(), names: vec![] }));
    }
    found
}
