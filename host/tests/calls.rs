//! `docs/CALLS.md` is what its program writes from the header, the entry points and the specs, with a glossary of the
//! library's words, and `docs/DIFFERENCES.md` has a row for every refusal of every call.

use std::collections::{BTreeMap, BTreeSet};
use std::fs;
use std::path::Path;
use taripomune_header::Header;

#[test]
fn the_list_of_calls_is_as_written() {
    let root = Path::new(env!("CARGO_MANIFEST_DIR")).join("..");
    let expected = taripomune_calls::page(&root).unwrap();
    let found = fs::read_to_string(root.join("docs/CALLS.md")).unwrap();
    let differs = expected.lines().zip(found.lines()).position(|(expected, found)| expected != found);
    let line = differs.map_or("its end".to_string(), |at| format!("line {}", at + 1));
    assert!(expected == found, "docs/CALLS.md is stale at {line}: run cargo run -p taripomune-calls in host/");
}

#[test]
fn a_word_of_the_library_that_the_glossary_lacks_is_an_error() {
    let root = Path::new(env!("CARGO_MANIFEST_DIR")).join("..");
    let page = fs::read_to_string(root.join("docs/CALLS.md")).unwrap();
    for (row, word) in [("| `nat_lt a b`", "nat_eq"), ("| `is_negative z`", "unsigned_abs"), ("| `a ≡ b`", "<")] {
        let others: Vec<&str> = page.lines().filter(|line| !line.starts_with(row)).collect();
        let error = taripomune_calls::rewritten(&root, &others.join("\n")).unwrap_err();
        assert!(error.contains(&format!("{word:?}")), "without the row of {word}: {error}");
    }
}

/// The refusals of each function in the rows of the smallest inputs, in their order.
fn refusals_with_a_row(document: &str) -> BTreeMap<String, Vec<u32>> {
    let mut found: BTreeMap<String, Vec<u32>> = BTreeMap::new();
    let tables = document.split("| function | smallest input |").skip(1);
    for row in tables.flat_map(|table| table.lines().skip(2).take_while(|line| line.starts_with('|'))) {
        let cells: Vec<&str> = row.split(" | ").collect();
        let name = cells[0].trim_matches(['|', ' ', '`']);
        let number = cells[2].split(' ').next().unwrap().parse().unwrap();
        found.entry(format!("tari_{name}")).or_default().push(number);
    }
    found
}

/// Each number where it first stands: a call may check for it in two places, and has one smallest input of it.
fn once(mut numbers: Vec<u32>) -> Vec<u32> {
    let mut seen = BTreeSet::new();
    numbers.retain(|number| seen.insert(*number));
    numbers
}

#[test]
fn every_refusal_of_every_call_has_a_row_of_differences() {
    let root = Path::new(env!("CARGO_MANIFEST_DIR")).join("..");
    let header = Header::read(&fs::read_to_string(root.join("include/taripomune.h")).unwrap());
    let declared: BTreeMap<String, Vec<u32>> =
        header.prototypes.iter().map(|call| (call.name.clone(), once(call.refusals().unwrap()))).collect();
    let rows = refusals_with_a_row(&fs::read_to_string(root.join("docs/DIFFERENCES.md")).unwrap());
    let unknown: Vec<&String> = rows.keys().filter(|name| !declared.contains_key(*name)).collect();
    assert_eq!(unknown, Vec::<&String>::new(), "these have rows and aren't in the header");
    for (name, declared) in declared {
        assert_eq!(rows.get(&name).cloned().unwrap_or_default(), declared, "{name}: its rows, and the header");
    }
}
