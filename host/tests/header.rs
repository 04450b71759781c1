//! What the header says: every function is called by the crate, the names of numbers are the library's, and the file
//! compiles as C and as C++.

use std::fs;
use std::path::{Path, PathBuf};
use std::process::Command;
use taripomune::Refusal;
use taripomune_header::{Header, Prototype};

fn header_file() -> PathBuf {
    Path::new(env!("CARGO_MANIFEST_DIR")).join("../include/taripomune.h")
}

fn header() -> Header {
    Header::read(&fs::read_to_string(header_file()).unwrap())
}

/// The text of all Rust files below a folder.
fn sources(folder: &Path) -> String {
    let text = |path: &Path| if path.is_dir() { sources(path) } else { fs::read_to_string(path).unwrap() };
    fs::read_dir(folder).unwrap().map(|entry| text(&entry.unwrap().path())).collect()
}

#[test]
fn every_function_is_called() {
    let header = header();
    let sources = sources(&Path::new(env!("CARGO_MANIFEST_DIR")).join("src"));
    let is_name = |c: char| c.is_ascii_alphanumeric() || c == '_';
    let names: Vec<&str> = sources.split(|c| !is_name(c)).collect();
    let missing: Vec<&String> =
        header.prototypes.iter().map(|p| &p.name).filter(|name| !names.contains(&name.as_str())).collect();
    assert!(header.prototypes.len() > 150);
    assert_eq!(missing, Vec::<&String>::new());
}

#[test]
fn the_names_of_numbers_are_the_crates() {
    let header = header();
    let refusals = [
        ("LOG_SIZE", Refusal::LogSize),
        ("INDEX", Refusal::Index),
        ("SCALAR", Refusal::Scalar),
        ("LENGTH", Refusal::Length),
        ("CHUNK", Refusal::Chunk),
        ("WORD", Refusal::Word(0)),
        ("CONTRADICTION", Refusal::Contradiction),
        ("REDUCTION", Refusal::Reduction),
        ("INVERSE", Refusal::Inverse(0)),
        ("HALVING", Refusal::Halving),
        ("DOUBLINGS", Refusal::Doublings),
        ("CIRCLE", Refusal::Circle),
        ("NARROWING", Refusal::Narrowing),
    ];
    let names = header.constants.iter().filter(|constant| constant.name.starts_with("TARI_REFUSED_"));
    assert_eq!(names.count(), refusals.len());
    for (name, refusal) in refusals {
        assert_eq!(header.constant(&format!("TARI_REFUSED_{name}")), Some(refusal.number()));
    }
    assert_eq!(header.constant("TARI_ACCEPTED"), Some(0));
}

#[test]
fn the_version_is_the_librarys() {
    assert_eq!(header().constant("TARI_VERSION"), Some(taripomune::version()));
}

/// The version, and a sum over the declarations that it goes with. Where the declarations change, raise `TARI_VERSION`
/// and `crates/taripomune/specs/Version.antt`, and write both numbers here.
const DECLARED: (u32, u64) = (4, 12_811_459_882_376_575_015);

#[test]
fn other_declarations_have_another_version() {
    let header = header();
    let declared = |call: &Prototype| call.declaration.split_whitespace().collect::<String>();
    let replies = header.replies.iter().flat_map(|reply| {
        let fields = reply.fields.iter().map(|field| format!("{} {}", field.rust_type, field.name));
        fields.chain([reply.name.clone()]).collect::<Vec<_>>()
    });
    let constants = header.constants.iter().map(|constant| format!("{} {}", constant.name, constant.value));
    let all: Vec<String> = header.prototypes.iter().map(declared).chain(replies).chain(constants).collect();
    // FNV-1a of 64 bits.
    let sum = all
        .join("\n")
        .bytes()
        .fold(0xcbf2_9ce4_8422_2325, |sum: u64, byte| (sum ^ u64::from(byte)).wrapping_mul(0x100_0000_01b3));
    assert_eq!((header.constant("TARI_VERSION").unwrap(), sum), DECLARED);
}

/// Compiles a file that only includes the header, with all warnings as errors.
fn compiles(compiler: &str, language: &str, standard: &str) {
    let output = Command::new(compiler)
        .args(["-x", language, standard, "-Wall", "-Wextra", "-Wpedantic", "-Werror", "-fsyntax-only"])
        .arg(header_file())
        .output()
        .unwrap_or_else(|error| panic!("this test needs the compiler {compiler}: {error}"));
    assert!(output.status.success(), "{}", String::from_utf8_lossy(&output.stderr));
}

#[test]
fn it_is_c() {
    compiles("cc", "c", "-std=c99");
}

#[test]
fn it_is_cpp() {
    compiles("c++", "c++", "-std=c++11");
}
