//! Names the eight files for `src/lib.rs` where they lie, as `find-stwo` has found and checked them.

use std::env;
use std::fs;
use std::path::{Path, PathBuf};
use std::process::{exit, Command};

fn main() {
    let here = PathBuf::from(env::var("CARGO_MANIFEST_DIR").unwrap());
    let script = here.join("../find-stwo");
    let hashes = here.join("files.sha256");
    let folder = find(&script);
    println!("cargo::rerun-if-env-changed=STWO_SRC");
    println!("cargo::rerun-if-changed={}", script.display());
    println!("cargo::rerun-if-changed={}", hashes.display());
    for line in fs::read_to_string(&hashes).unwrap().lines() {
        let file = line.split_whitespace().nth(1).unwrap();
        println!("cargo::rerun-if-changed={}", folder.join(file).display());
    }
    let core = folder.join("crates/stwo/src/core");
    let circle = core.join("poly/circle");
    let files = [("circle", "circle.rs"), ("fields", "fields/mod.rs"), ("utils", "utils.rs")];
    write_modules("core.rs", &core, &files);
    write_modules("poly_circle.rs", &circle, &[("canonic", "canonic.rs"), ("domain", "domain.rs")]);
}

/// Ends the build with a plain message.
fn stop(message: &str) -> ! {
    eprintln!("{message}");
    exit(1)
}

/// The folder of the sources. A build script runs in the folder of its package, where a path from the caller's leads
/// elsewhere.
fn find(script: &Path) -> PathBuf {
    let given = env::var_os("STWO_SRC").map(PathBuf::from).filter(|folder| folder != Path::new(""));
    if let Some(folder) = given.filter(|folder| folder.is_relative()) {
        stop(&format!("STWO_SRC is {}: give the folder's whole path", folder.display()));
    }
    match Command::new(script).output() {
        Err(error) => stop(&format!("{} can't be started: {error}", script.display())),
        Ok(found) if !found.status.success() => stop(String::from_utf8_lossy(&found.stderr).trim_end()),
        Ok(found) => PathBuf::from(String::from_utf8_lossy(&found.stdout).trim_end()),
    }
}

/// Writes a file of `mod` lines that name files of `folder`.
fn write_modules(name: &str, folder: &Path, modules: &[(&str, &str)]) {
    let line = |(module, file): &(&str, &str)| format!("#[path = {:?}]\npub mod {module};\n", folder.join(file));
    let text: String = modules.iter().map(line).collect();
    fs::write(Path::new(&env::var("OUT_DIR").unwrap()).join(name), text).unwrap();
}
