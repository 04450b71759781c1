//! The calls of `crates/replay` are those that `replay-calls` writes from the header.

use replay_calls::{FOLDER, files};
use std::collections::BTreeSet;
use std::fs;
use std::path::Path;

#[test]
fn calls_are_those_of_the_header() {
    let root = Path::new(env!("CARGO_MANIFEST_DIR")).join("..");
    let folder = root.join(FOLDER);
    let written = files(&root);
    let below = fs::read_dir(folder.join("calls")).unwrap();
    let mut names: BTreeSet<String> =
        below.map(|entry| format!("calls/{}", entry.unwrap().file_name().to_str().unwrap())).collect();
    names.insert("calls.rt".to_string());
    let old: Vec<&String> = names
        .iter()
        .chain(written.keys().filter(|name| !names.contains(*name)))
        .filter(|name| fs::read_to_string(folder.join(name)).ok().as_ref() != written.get(*name))
        .collect();
    let command = "cargo run --manifest-path host/Cargo.toml --package replay-calls";
    assert!(old.is_empty(), "{old:?} of {FOLDER} aren't those of the header: run `{command}`");
}
