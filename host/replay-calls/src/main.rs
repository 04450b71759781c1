//! Writes `crates/replay/src/calls.rt` and the files below `calls/` anew.

use replay_calls::{FOLDER, files};
use std::fs;
use std::path::Path;

fn main() {
    let root = Path::new(env!("CARGO_MANIFEST_DIR")).join("../..");
    let folder = root.join(FOLDER);
    let _ = fs::remove_dir_all(folder.join("calls"));
    fs::create_dir_all(folder.join("calls")).unwrap();
    for (name, text) in files(&root) {
        fs::write(folder.join(name), text).unwrap();
    }
}
