//! The header's declarations in Rust.

use taripomune_header::{Header, Pointer, Prototype, Reply, Variable};

pub fn write(header: &Header) -> String {
    let replies: String = header.replies.iter().map(reply).collect();
    let functions: String = header.prototypes.iter().map(function).collect();
    format!("{replies}unsafe extern \"C\" {{\n{functions}}}\n")
}

fn reply(Reply { name, fields }: &Reply) -> String {
    let fields: String = fields.iter().map(|f| format!("    pub {}: {},\n", f.name, f.rust_type)).collect();
    format!(
        "#[repr(C)]\n#[derive(Clone, Copy, Debug, PartialEq, Eq)]\npub struct {name} {{\n{fields}}}\n\n\
         impl Reply for {name} {{\n\
         \x20   fn refusal(&self) -> (u32, u64) {{\n        (self.number, self.position)\n    }}\n}}\n\n"
    )
}

/// A function of numbers alone ends on every input and touches nothing, so that any caller may call it.
fn function(prototype: &Prototype) -> String {
    let Prototype { name, reply, parameters, .. } = prototype;
    let parameters: Vec<String> = parameters.iter().map(declared).collect();
    let safety = if prototype.has_slices() { "unsafe" } else { "safe" };
    format!("    pub {safety} fn {name}({}) -> {reply};\n", parameters.join(", "))
}

fn declared(Variable { name, rust_type, pointer }: &Variable) -> String {
    match pointer {
        None => format!("{name}: {rust_type}"),
        Some(Pointer::Const) => format!("{name}: *const {rust_type}"),
        Some(Pointer::Mut) => format!("{name}: *mut {rust_type}"),
    }
}
