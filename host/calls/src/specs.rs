//! The definitions of the specs: their names, comments, texts and what they use.

use crate::declared;
use crate::imports::{Imports, Module};
use std::collections::BTreeMap;
use std::fs;
use std::path::Path;

pub struct Specs {
    pub definitions: BTreeMap<Key, Definition>,
}

/// A definition's module and name.
pub type Key = (Module, String);

pub struct Definition {
    /// The file, from the repository's root.
    pub file: String,
    /// The comment above it, without its dashes.
    pub comment: Vec<String>,
    /// Its text, without what only directs the prover.
    pub text: Vec<String>,
    /// What its type ends with.
    pub result: String,
    /// What its text names, in its order.
    pub names: Vec<Named>,
}

/// A definition, a declared type or one of its cases, by the word that stands for it.
#[derive(Clone, PartialEq, Eq)]
pub struct Named {
    pub key: Key,
    pub word: String,
}

impl Specs {
    /// The specs of the crates of a repository, and the types that their code declares.
    pub fn read(root: &Path) -> Specs {
        let mut specs = Specs { definitions: BTreeMap::new() };
        for krate in names_in(&root.join("crates")) {
            let folder = root.join("crates").join(&krate).join("specs");
            for file in names_in(&folder).iter().filter(|file| file.ends_with(".antt")) {
                let text = fs::read_to_string(folder.join(file)).expect("a spec can be read");
                let module = Module::new(&krate, file.trim_end_matches(".antt"));
                specs.add(&module, &format!("crates/{krate}/specs/{file}"), &text);
            }
            specs.definitions.extend(declared::types(root, &krate));
        }
        declared::name_types_of_fields(&mut specs.definitions);
        specs
    }

    fn add(&mut self, module: &Module, file: &str, text: &str) {
        let imports = Imports::read(text);
        let paragraphs = paragraphs(text);
        let own: Vec<&str> = paragraphs.iter().filter_map(|paragraph| paragraph.name()).collect();
        for paragraph in &paragraphs {
            let Some(name) = paragraph.name() else { continue };
            let bound = paragraph.bound();
            // What `open F use {x, ..}` lists are fields of F.
            let context = paragraph.context.iter().map(|line| line.split(" use {").next().unwrap_or(line));
            let lines = context.chain(paragraph.code.iter().map(String::as_str));
            let words = lines.flat_map(words).map(|word| imports.without_fields(word));
            let words = words.filter(|word| !bound.contains(word));
            let key = |word: &str| match imports.resolve(word) {
                Some((module, name)) => Some((module, name.to_string())),
                None => own.contains(&word).then(|| (module.clone(), word.to_string())),
            };
            let own_key = (module.clone(), name.to_string());
            let mut names: Vec<Named> = vec![];
            for named in words.filter_map(|word| Some(Named { key: key(word)?, word: word.to_string() })) {
                if named.key != own_key && !names.contains(&named) {
                    names.push(named);
                }
            }
            let definition = Definition {
                file: file.to_string(),
                comment: paragraph.comment.clone(),
                text: paragraph.text(),
                result: paragraph.result(),
                names,
            };
            self.definitions.insert(own_key, definition);
        }
    }
}

/// The names of what a folder holds; none where there is no such folder.
fn names_in(folder: &Path) -> Vec<String> {
    let entries = fs::read_dir(folder).into_iter().flatten();
    let mut names: Vec<String> = entries.map(|entry| entry.unwrap().file_name().into_string().unwrap()).collect();
    names.sort();
    names
}

/// The words of a line of specs or of a contract, without fields that are taken (`.x`) or given (`x = ..`).
pub fn words(line: &str) -> impl Iterator<Item = &str> {
    let code = line.split("-- ").next().unwrap_or("");
    let words: Vec<&str> = code
        .split(|c: char| c.is_whitespace() || "(){},;".contains(c))
        .map(|word| word.trim_end_matches('.'))
        .filter(|word| !word.is_empty())
        .collect();
    let given = |at: usize| words.get(at + 1) == Some(&"=");
    let kept: Vec<&str> = (0..words.len()).filter(|at| !given(*at)).map(|at| words[at]).collect();
    kept.into_iter().filter(|word| !word.starts_with('.'))
}

/// A public definition or law, with the comment above it.
#[derive(Default)]
struct Paragraph {
    /// The lines `module .. where` and `open ..` that it stands below.
    context: Vec<String>,
    comment: Vec<String>,
    code: Vec<String>,
}

/// The paragraphs below the imports, which are set apart by empty lines.
fn paragraphs(text: &str) -> Vec<Paragraph> {
    let mut found: Vec<Paragraph> = vec![];
    // A line of the context, and how far a line must be indented to stand below it.
    let mut context: Vec<(usize, &str)> = vec![];
    let mut open = Paragraph::default();
    for line in text.lines().chain([""]) {
        let code = line.trim_start();
        let indent = line.len() - code.len();
        if code.is_empty() {
            found.push(std::mem::take(&mut open));
            continue;
        }
        context.retain(|(least, _)| *least <= indent);
        if code.starts_with("module ") {
            context.push((indent + 1, line));
        } else if code.starts_with("open ") {
            context.push((indent, line));
        } else if !code.starts_with("infix") {
            open.context = context.iter().map(|(_, line)| line.to_string()).collect();
            match code.strip_prefix("-- ") {
                Some(comment) if open.code.is_empty() => open.comment.push(comment.to_string()),
                _ => open.code.push(line.to_string()),
            }
        }
    }
    found.retain(|paragraph| paragraph.name().is_some());
    found
}

impl Paragraph {
    /// The first line without the words that direct the prover.
    fn head(&self) -> Option<&str> {
        let first = self.code.first()?.trim();
        let first = first.strip_prefix("unfoldable ").or(first.strip_prefix("abbrev ")).unwrap_or(first);
        first.strip_prefix("pub ")
    }

    fn name(&self) -> Option<&str> {
        let head = self.head()?;
        match head.strip_prefix("record ").or(head.strip_prefix("data ")) {
            Some(rest) => rest.split_whitespace().next(),
            None => head.split_once(" : ").map(|(name, _)| name).filter(|name| !name.contains(' ')),
        }
    }

    /// The names that it binds: its parameters, and what its equations take apart.
    fn bound(&self) -> Vec<&str> {
        let equation = format!("{} ", self.name().unwrap_or_default());
        let mut bound = vec![];
        for line in &self.code {
            let binders = line.split(['(', '{']).filter_map(|part| part.split_once(" : "));
            bound.extend(binders.flat_map(|(names, _)| names.split_whitespace()));
            if let Some((taken, _)) = line.trim().strip_prefix(&equation).and_then(|line| line.split_once('=')) {
                bound.extend(words(taken));
            }
        }
        bound.retain(|name| Some(*name) != self.name());
        bound
    }

    /// What the type ends with, up to the line that begins with the name: the first equation.
    fn result(&self) -> String {
        let equation = format!("{} ", self.name().unwrap_or_default());
        let is_type = |line: &&str| !line.starts_with(&equation) && !line.starts_with("unfolding ");
        let lines = self.code[1..].iter().map(|line| line.trim()).take_while(is_type);
        let signature: Vec<&str> = self.head().into_iter().chain(lines).collect();
        let signature = signature.join(" ");
        signature.rsplit(['→', ':']).next().unwrap_or("").trim().to_string()
    }

    /// The lines of its context and its own, without those that direct the prover.
    fn text(&self) -> Vec<String> {
        let indent = self.code[0].len() - self.code[0].trim_start().len();
        let head = format!("{}{}", " ".repeat(indent), self.head().unwrap_or_default());
        let rest = self.code[1..].iter().filter(|line| !line.trim_start().starts_with("unfolding "));
        self.context.iter().cloned().chain([head]).chain(rest.cloned()).collect()
    }
}
