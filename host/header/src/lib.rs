//! Reads `include/taripomune.h`, the one list of the library's functions, for the programs that need its declarations.

#![forbid(unsafe_code)]

/// What the header declares.
pub struct Header {
    pub constants: Vec<Constant>,
    pub replies: Vec<Reply>,
    pub sections: Vec<Section>,
    pub prototypes: Vec<Prototype>,
}

/// A name for a number.
pub struct Constant {
    pub name: String,
    pub value: u32,
}

/// A struct that a function answers with.
pub struct Reply {
    pub name: String,
    /// `number`, `position`, and then the values.
    pub fields: Vec<Variable>,
}

/// A heading, `/* ---- TITLE ----` and a text, over the declarations up to the next one.
pub struct Section {
    pub title: String,
    pub text: String,
}

pub struct Prototype {
    pub name: String,
    pub reply: String,
    pub parameters: Vec<Variable>,
    /// As the header has it.
    pub declaration: String,
    /// The comment above it.
    pub comment: String,
    /// The title of the section that it stands in.
    pub section: String,
}

/// A field of a reply or a parameter of a function.
pub struct Variable {
    pub name: String,
    pub rust_type: &'static str,
    pub pointer: Option<Pointer>,
}

pub enum Pointer {
    Const,
    Mut,
}

impl Header {
    /// What the header declares. At a declaration of another kind it panics, which stops a build.
    pub fn read(text: &str) -> Header {
        let mut header = Header { constants: vec![], replies: vec![], sections: vec![], prototypes: vec![] };
        let mut comment = String::new();
        let mut rest = text.trim_start();
        while !rest.is_empty() {
            if let Some(inside) = rest.strip_prefix("/*") {
                let (text, after) = inside.split_once("*/").expect("a comment ends");
                comment = plain(text);
                if let Some((title, text)) = comment.strip_prefix("---- ").and_then(|c| c.split_once(" ----")) {
                    header.sections.push(Section { title: title.to_string(), text: text.trim().to_string() });
                }
                rest = after;
            } else if rest.starts_with('#') {
                rest = header.read_directive(rest);
            } else {
                let end = end_of_declaration(rest).unwrap_or_else(|| panic!("a declaration doesn't end: {rest}"));
                header.read_declaration(&rest[..end], std::mem::take(&mut comment));
                rest = &rest[end..];
            }
            rest = rest.trim_start();
        }
        header
    }

    /// Takes a line for the preprocessor, or all that is for C++ alone, and gives what follows.
    fn read_directive<'a>(&mut self, text: &'a str) -> &'a str {
        if text.starts_with("#ifdef __cplusplus") {
            return text.split_once("#endif").expect("what is for C++ alone ends").1;
        }
        let (line, after) = text.split_once('\n').unwrap_or((text, ""));
        if let ["#define", name, value] = line.split_whitespace().collect::<Vec<_>>()[..] {
            let value = value.parse().unwrap_or_else(|_| panic!("{name} isn't a number"));
            self.constants.push(Constant { name: name.to_string(), value });
        }
        after
    }

    fn read_declaration(&mut self, declaration: &str, comment: String) {
        let line = declaration.split_whitespace().collect::<Vec<_>>().join(" ");
        if let Some(rest) = line.strip_prefix("typedef struct {") {
            self.replies.push(read_reply(rest).unwrap_or_else(|| panic!("unknown kind of reply: {line}")));
        } else {
            let (name, reply, parameters) =
                read_prototype(&line).unwrap_or_else(|| panic!("unknown kind of prototype: {line}"));
            let section = self.sections.last().map_or(String::new(), |section| section.title.clone());
            let declaration = declaration.to_string();
            self.prototypes.push(Prototype { name, reply, parameters, declaration, comment, section });
        }
    }

    /// The reply of a function of this header.
    pub fn reply_of(&self, prototype: &Prototype) -> &Reply {
        let reply = self.replies.iter().find(|reply| reply.name == prototype.reply);
        reply.unwrap_or_else(|| panic!("{} has an unknown reply", prototype.name))
    }

    /// The number that a name stands for.
    pub fn constant(&self, name: &str) -> Option<u32> {
        self.constants.iter().find(|constant| constant.name == name).map(|constant| constant.value)
    }
}

impl Reply {
    /// The values that are compared with the Rust's and recorded: all but the counts of a batch (decision 125).
    pub fn compared(&self) -> Vec<&Variable> {
        let is_count = |name: &str| ["multiplications", "inversions"].contains(&name);
        self.fields[2..].iter().filter(|field| !is_count(&field.name)).collect()
    }
}

impl Prototype {
    /// Whether it takes a slice.
    pub fn has_slices(&self) -> bool {
        self.parameters.iter().any(|parameter| parameter.pointer.is_some())
    }

    /// The parameters without the lengths of slices, which Rattle's slices have in themselves.
    pub fn rattle_parameters(&self) -> impl Iterator<Item = &Variable> {
        let is_length = |name: &str| {
            let slice = name.strip_suffix("_len");
            slice.is_some_and(|slice| self.parameters.iter().any(|p| p.name == slice && p.pointer.is_some()))
        };
        self.parameters.iter().filter(move |p| !is_length(&p.name))
    }

    /// The first part of its comment, which says what it answers or does.
    pub fn meaning(&self) -> &str {
        self.comment.rsplit_once(". ").map_or("", |(meaning, _)| meaning)
    }

    /// The numbers of its refusals in the order of checking, which the last sentence of its comment names.
    pub fn refusals(&self) -> Option<Vec<u32>> {
        match self.comment.rsplit_once(". ")?.1.strip_suffix('.')? {
            "Never refuses" => Some(vec![]),
            last => last.strip_prefix("Refuses ")?.split(", ").map(|number| number.parse().ok()).collect(),
        }
    }
}

/// The text of a comment on one line, without the stars that begin its lines.
fn plain(comment: &str) -> String {
    let lines = comment.lines().map(|line| line.trim().trim_start_matches('*').trim());
    lines.filter(|line| !line.is_empty()).collect::<Vec<_>>().join(" ")
}

/// Where a declaration ends: after the first semicolon outside braces.
fn end_of_declaration(text: &str) -> Option<usize> {
    let mut depth = 0;
    for (at, c) in text.char_indices() {
        match c {
            '{' => depth += 1,
            '}' => depth -= 1,
            ';' if depth == 0 => return Some(at + 1),
            _ => {}
        }
    }
    None
}

fn read_reply(rest: &str) -> Option<Reply> {
    let (fields, name) = rest.split_once('}')?;
    let fields: Vec<Variable> =
        fields.trim().trim_end_matches(';').split(';').map(read_variable).collect::<Option<_>>()?;
    let first: Vec<(&str, &str)> = fields.iter().take(2).map(|f| (f.name.as_str(), f.rust_type)).collect();
    (first == [("number", "u32"), ("position", "u64")]).then_some(())?;
    Some(Reply { name: name.trim().strip_suffix(';')?.to_string(), fields })
}

/// Its name, its reply and its parameters.
fn read_prototype(line: &str) -> Option<(String, String, Vec<Variable>)> {
    let (reply, rest) = line.split_once(' ')?;
    let (name, parameters) = rest.strip_suffix(");")?.split_once('(')?;
    let parameters = match parameters {
        "void" => Vec::new(),
        list => list.split(',').map(read_variable).collect::<Option<_>>()?,
    };
    name.starts_with("tari_").then_some(())?;
    Some((name.to_string(), reply.to_string(), parameters))
}

fn read_variable(text: &str) -> Option<Variable> {
    let (c_type, name) = text.trim().rsplit_once([' ', '*'])?;
    let pointer = match (text.contains('*'), text.contains("const ")) {
        (true, true) => Some(Pointer::Const),
        (true, false) => Some(Pointer::Mut),
        (false, _) => None,
    };
    let rust_type = match c_type.trim_start_matches("const ").trim_end_matches([' ', '*']).trim() {
        "uint32_t" => "u32",
        "uint64_t" => "u64",
        "int32_t" => "i32",
        "int64_t" => "i64",
        _ => return None,
    };
    Some(Variable { name: name.to_string(), rust_type, pointer })
}
