//! Writes the list of calls in `docs/CALLS.md` anew.

use std::path::Path;
use std::process::exit;

fn main() {
    let root = Path::new(env!("CARGO_MANIFEST_DIR")).join("../..");
    let written = taripomune_calls::page(&root)
        .and_then(|page| std::fs::write(root.join("docs/CALLS.md"), page).map_err(|error| error.to_string()));
    if let Err(message) = written {
        eprintln!("{message}");
        exit(1);
    }
}
