//! Writes the declarations of `include/taripomune.h` in Rust, makes the archive where it is missing or older than a
//! source, and names it to the linker.

mod archive;
mod cargo;
mod declarations;

use std::env;
use std::fs;
use std::path::Path;
use std::process::exit;
use taripomune_header::Header;

fn main() {
    let root = Path::new(&env::var("CARGO_MANIFEST_DIR").unwrap()).join("../..").canonicalize().unwrap();
    let header = root.join("include/taripomune.h");
    println!("cargo::rerun-if-changed={}", header.display());
    let text = fs::read_to_string(&header).unwrap_or_else(|error| stop(&format!("{}: {error}", header.display())));
    let declarations = declarations::write(&Header::read(&text));
    fs::write(Path::new(&env::var("OUT_DIR").unwrap()).join("declarations.rs"), declarations).unwrap();
    archive::link(&root);
}

/// Ends the build with a plain message.
fn stop(message: &str) -> ! {
    eprintln!("{message}");
    exit(1)
}
