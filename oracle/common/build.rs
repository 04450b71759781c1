//! Reads the C header and writes what `src/library.rs` includes: one `Function` a prototype, and the version.

use std::env;
use std::fs;
use std::path::{Path, PathBuf};
use taripomune_header::{Header, Pointer, Prototype, Variable};

fn main() {
    let header = PathBuf::from(env::var("CARGO_MANIFEST_DIR").unwrap()).join("../../include/taripomune.h");
    println!("cargo::rerun-if-changed={}", header.display());
    let functions = functions(&Header::read(&fs::read_to_string(&header).unwrap()));
    fs::write(Path::new(&env::var("OUT_DIR").unwrap()).join("functions.rs"), functions).unwrap();
}

fn functions(header: &Header) -> String {
    let functions: String = header.prototypes.iter().map(|prototype| function(prototype, header)).collect();
    let version = header.constant("TARI_VERSION").expect("the header has a version");
    format!("pub const VERSION: u32 = {version};\n\npub const FUNCTIONS: &[Function] = &[\n{functions}];\n")
}

/// Both closures read the arguments from left to right; a slice is its length and then its words.
fn function(prototype: &Prototype, header: &Header) -> String {
    let Prototype { name, parameters, .. } = prototype;
    let declared: String = parameters.iter().filter_map(|parameter| declared(parameter, parameters)).collect();
    let taken: String = parameters.iter().map(|parameter| taken(parameter, parameters)).collect();
    let exits: String = parameters.iter().map(exit).collect();
    let fields = header.reply_of(prototype).compared();
    let indices: Vec<usize> = (0..fields.len()).filter(|place| is_index(&fields[*place].name)).collect();
    let values: Vec<String> = fields.iter().map(|f| format!("reply.{} as u64", f.name)).collect();
    format!(
        "Function {{
            name: \"{name}\",
            parameters: &[{declared}],
            indices: &{indices:?},
            call: |args| {{
                {taken}
                let reply = {call};
                let mut values = vec![{values}]; {exits}
                Answer {{ number: reply.number, position: reply.position, values }}
            }},
            refused: |args| {{
                {taken}
                let mut values = vec![0; {zeros}]; {exits}
                values
            }},
        }},\n",
        name = name.strip_prefix("tari_").unwrap(),
        call = call(prototype),
        values = values.join(", "),
        zeros = fields.len(),
    )
}

/// Whether a value of this name is a point index: an index, or the current one or the step of an iterator.
fn is_index(name: &str) -> bool {
    name.rsplit('_').next().is_some_and(|last| ["index", "cur", "step"].contains(&last))
}

/// Only a function that takes a slice is declared `unsafe`.
fn call(prototype: &Prototype) -> String {
    let passed: Vec<String> = prototype.parameters.iter().map(passed).collect();
    let call = format!("{}({})", prototype.name, passed.join(", "));
    if prototype.has_slices() {
        format!("unsafe {{ {call} }}")
    } else {
        call
    }
}

/// The slice whose length a parameter is.
fn slice_of<'a>(Variable { name, .. }: &'a Variable, parameters: &[Variable]) -> Option<&'a str> {
    name.strip_suffix("_len").filter(|slice| parameters.iter().any(|parameter| parameter.name == *slice))
}

/// A `Parameter`, unless it is the length of a slice.
fn declared(parameter: &Variable, parameters: &[Variable]) -> Option<String> {
    let Variable { name, rust_type, pointer } = parameter;
    let range = match pointer {
        Some(_) => "None".to_string(),
        None => format!("Some(({rust_type}::MIN as i128, {rust_type}::MAX as i128))"),
    };
    slice_of(parameter, parameters).is_none().then(|| format!("Parameter {{ name: \"{name}\", range: {range} }}, "))
}

/// Takes a parameter into a variable, whose `arg_` keeps it apart from the other names.
fn taken(parameter: &Variable, parameters: &[Variable]) -> String {
    let Variable { name, rust_type, pointer } = parameter;
    let value = match (pointer, slice_of(parameter, parameters)) {
        (Some(_), _) => "Lent::new(args.slice())".to_string(),
        (None, Some(slice)) => format!("arg_{slice}.len() as {rust_type}"),
        (None, None) => "args.take()".to_string(),
    };
    let variable_type = if pointer.is_some() { "Lent" } else { rust_type };
    format!("let mut arg_{name}: {variable_type} = {value}; ")
}

fn passed(Variable { name, pointer, .. }: &Variable) -> String {
    match pointer {
        None => format!("arg_{name}"),
        Some(_) => format!("arg_{name}.pointer()"),
    }
}

/// Adds to the values what a slice is after the call.
fn exit(Variable { name, pointer, .. }: &Variable) -> String {
    match pointer {
        None => String::new(),
        Some(Pointer::Const) => format!("values.extend(arg_{name}.read()); "),
        Some(Pointer::Mut) => format!("values.extend(arg_{name}.written()); "),
    }
}
