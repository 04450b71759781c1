//! The glossary of `docs/CALLS.md`, which is written by hand.

use crate::specs::words;
use std::collections::BTreeSet;

/// Those of the words for which the glossary has no row.
pub fn lacks<'a>(by_hand: &str, mut words: BTreeSet<&'a str>) -> BTreeSet<&'a str> {
    let explained = explained(by_hand);
    words.retain(|word| !explained.contains(*word));
    words
}

/// The words in backticks in the first cells of its rows. Letters that stand for arguments are none.
fn explained(by_hand: &str) -> BTreeSet<String> {
    let (_, glossary) = by_hand.split_once("\n## Glossary\n").unwrap_or_default();
    let cells = glossary.lines().filter_map(|line| line.strip_prefix("| ")?.split(" | ").next());
    let quoted = cells.flat_map(|cell| cell.split('`').skip(1).step_by(2)).map(|text| text.replace("\\|", "|"));
    let explained = quoted.flat_map(|text| words(&text).map(str::to_string).collect::<Vec<_>>());
    explained.filter(|word| !matches!(word.as_bytes(), [letter] if letter.is_ascii_alphabetic())).collect()
}
