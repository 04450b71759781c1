//! The list of calls as a page of Markdown.

use crate::entry_points::EntryPoint;
use crate::refusals;
use crate::specs::{Definition, Key, Named, Specs};
use std::collections::BTreeSet;
use taripomune_header::{Header, Prototype, Section};

pub struct Page<'a> {
    pub header: &'a Header,
    pub specs: &'a Specs,
    pub entry_points: &'a [EntryPoint],
}

impl Page<'_> {
    /// The words of the checker's library in the contracts, in the definitions that they use, and so on.
    pub fn library_words(&self) -> BTreeSet<&str> {
        let own: BTreeSet<&str> = self.specs.definitions.keys().map(|(module, _)| module.crate_name.as_str()).collect();
        let mut open: Vec<&Named> = self.entry_points.iter().flat_map(|entry| &entry.names).collect();
        let mut seen: BTreeSet<&Key> = BTreeSet::new();
        let mut found = BTreeSet::new();
        while let Some(Named { key, .. }) = open.pop() {
            if !seen.insert(key) {
                continue;
            }
            if let Some(definition) = self.specs.definitions.get(key) {
                open.extend(&definition.names);
            } else if !own.contains(key.0.crate_name.as_str()) {
                found.insert(key.1.as_str());
            }
        }
        found
    }

    /// The calls by the header's sections, then the definitions that theirs use. A call that the header and the
    /// contracts tell differently is an error.
    pub fn write(&self) -> Result<String, String> {
        let mut text = self.contents();
        let mut used: BTreeSet<Key> = BTreeSet::new();
        for section in &self.header.sections {
            let calls: Vec<&Prototype> =
                self.header.prototypes.iter().filter(|call| call.section == section.title).collect();
            if !calls.is_empty() {
                text += &format!("\n## {}\n\n{}", section.title, wrapped(&section.text));
            }
            for call in calls {
                text += &self.call(call, &mut used)?;
            }
        }
        let known: Vec<&str> = self.header.prototypes.iter().map(|call| call.name.as_str()).collect();
        if let Some(entry) = self.entry_points.iter().find(|entry| !known.contains(&entry.name.as_str())) {
            return Err(format!("{} isn't in the header", entry.name));
        }
        Ok(text + &self.definitions(used))
    }

    /// A link to each call, by sections.
    fn contents(&self) -> String {
        let mut text = "\n## Contents\n\n".to_string();
        for Section { title, .. } in &self.header.sections {
            let calls = self.header.prototypes.iter().filter(|call| call.section == *title);
            let links: Vec<String> = calls.map(|call| format!("[{0}](#{0})", call.name)).collect();
            if !links.is_empty() {
                text += &format!("- {title}: {}.\n", links.join(", "));
            }
        }
        text + "- [The definitions that these use](#the-definitions-that-these-use).\n"
    }

    fn call(&self, call: &Prototype, used: &mut BTreeSet<Key>) -> Result<String, String> {
        let name = &call.name;
        let entry = self.entry_points.iter().find(|entry| entry.name == *name);
        let entry = entry.ok_or_else(|| format!("{name} isn't an entry point"))?;
        let refusals = refusals::of(&entry.names, self.specs);
        if call.refusals().as_ref() != Some(&refusals) {
            return Err(format!("{name}: the contract refuses with {refusals:?}, its comment says: {}", call.comment));
        }
        if !call.rattle_parameters().map(|parameter| &parameter.name).eq(&entry.parameters) {
            return Err(format!("{name} has other parameters in the header than {:?}", entry.parameters));
        }
        let mut text = format!("\n### {name}\n\n{}\n", indented(call.declaration.lines()));
        text += &wrapped(&format!("{}. {}", call.meaning(), self.refusal_sentence(&refusals)));
        text += &format!("\nPromised in `{}`:\n\n{}", entry.file, indented(entry.contract.iter().map(String::as_str)));
        let (shown, others): (Vec<&Named>, Vec<&Named>) = entry.names.iter().partition(|named| is_shown(&named.key.1));
        let mut uses: Vec<Named> = others.into_iter().cloned().collect();
        let with_answers = shown.into_iter().flat_map(|named| [vec![&named.key], self.answers_of(&named.key)].concat());
        let mut written: BTreeSet<&Key> = BTreeSet::new();
        for key in with_answers.filter(|key| written.insert(*key)) {
            let Some(definition) = self.specs.definitions.get(key) else { continue };
            text +=
                &format!("\n{}\n", wrapped(&format!("`{}` in `{}`{}", key.1, definition.file, comment(definition))));
            text += &indented(definition.text.iter().map(String::as_str));
            uses.extend(definition.names.iter().cloned());
        }
        Ok(text + &self.uses(&uses, used))
    }

    /// The answers that a definition is made of, as M31's sum is that of any field: they are shown with it.
    fn answers_of(&self, key: &Key) -> Vec<&Key> {
        let Some(definition) = self.specs.definitions.get(key) else { return vec![] };
        let used = definition.names.iter().map(|named| &named.key);
        used.filter(|used| refusals::is_answer(used, self.specs)).collect()
    }

    /// The refusals in words: the header's name of each.
    fn refusal_sentence(&self, refusals: &[u32]) -> String {
        let named = |number: &u32| {
            let constant = self
                .header
                .constants
                .iter()
                .find(|constant| constant.value == *number && constant.name.starts_with("TARI_REFUSED_"));
            let name = constant.map_or(String::new(), |constant| constant.name.replace("TARI_REFUSED_", ""));
            format!("{number} ({})", name.to_lowercase().replace('_', " "))
        };
        match refusals {
            [] => "Never refuses.".to_string(),
            _ => format!("Refuses {}.", refusals.iter().map(named).collect::<Vec<_>>().join(", ")),
        }
    }

    /// A line with links to definitions, which are added to those used.
    fn uses(&self, names: &[Named], used: &mut BTreeSet<Key>) -> String {
        let mut links: Vec<String> = vec![];
        for Named { key, word } in names.iter().filter(|named| self.specs.definitions.contains_key(&named.key)) {
            used.insert(key.clone());
            let link = format!("[{word}](#{})", anchor(key));
            if !links.contains(&link) {
                links.push(link);
            }
        }
        if links.is_empty() { String::new() } else { format!("\n{}", wrapped(&format!("Uses {}.", links.join(", ")))) }
    }

    /// The definitions used, and those that these use.
    fn definitions(&self, mut used: BTreeSet<Key>) -> String {
        let mut open: Vec<Key> = used.iter().cloned().collect();
        while let Some(key) = open.pop() {
            for Named { key, .. } in &self.specs.definitions[&key].names {
                if self.specs.definitions.contains_key(key) && used.insert(key.clone()) {
                    open.push(key.clone());
                }
            }
        }
        let mut text = "\n## The definitions that these use\n".to_string();
        let mut file = String::new();
        for key in &used {
            let definition = &self.specs.definitions[key];
            if definition.file != file {
                file = definition.file.clone();
                text += &format!("\n### {file}\n");
            }
            let title = format!("<a id=\"{}\"></a>`{}`{}", anchor(key), key.1, comment(definition));
            text += &format!("\n{}\n", wrapped(&title));
            text += &indented(definition.text.iter().map(String::as_str));
            text += &self.uses(&definition.names, &mut BTreeSet::new());
        }
        text
    }
}

/// Whether a contract's name says what is answered or left: not one that only makes a record or a reply of numbers.
fn is_shown(name: &str) -> bool {
    !name.starts_with("of_") && !name.ends_with("_of_numbers") && !name.ends_with("_reply")
}

fn anchor((module, name): &Key) -> String {
    format!("{}-{}-{name}", module.crate_name, module.name)
}

fn comment(definition: &Definition) -> String {
    let lines: Vec<&str> =
        definition.comment.iter().map(String::as_str).filter(|line| !line.starts_with("----")).collect();
    if lines.is_empty() { ":".to_string() } else { format!(": {}", lines.join(" ")) }
}

/// A block of code.
fn indented<'a>(lines: impl Iterator<Item = &'a str>) -> String {
    lines.map(|line| format!("    {line}\n")).collect()
}

/// A text in lines of at most 120 characters.
fn wrapped(text: &str) -> String {
    let mut lines: Vec<String> = vec![String::new()];
    for word in text.split_whitespace() {
        let line = lines.last_mut().unwrap();
        if !line.is_empty() && line.chars().count() + 1 + word.chars().count() > 120 {
            lines.push(word.to_string());
        } else {
            *line += if line.is_empty() { "" } else { " " };
            *line += word;
        }
    }
    lines.join("\n") + "\n"
}
