//! The fixed list of answers of a module, as text.

use crate::check::{answers, Pair};
use crate::entry::Entry;
use crate::inputs::{selection, Input};
use common::library::Function;
use common::random::Random;

/// `replay` reads lines of at most so many numbers.
const MOST_NUMBERS: usize = 64;

/// What the list is and how it was made.
pub fn header(module: &str, functions: &[&Function], free: bool, seed: u64) -> String {
    let slices = functions.iter().any(|function| function.slices());
    let indices = functions.iter().any(|function| !function.indices.is_empty());
    let records = functions.iter().any(|function| function.parameters.iter().any(|p| p.name == "step_index"));
    let text = format!(
        "# Answers of the functions with C linkage: {module}.\n\
         # Recorded by `oracle/` with seed {seed}, beside the Rust of starkware-libs/stwo, commit 826591c6c3.\n\
         # Accepted inputs have the Rust's answer, refused ones the refusal of the table in docs/CALLS.md.\n\
         # Each line is NAME ARG .. ARG = NUMBER POSITION VALUE .. VALUE, the name without `tari_`, in decimal.\n\
         # NUMBER and POSITION are 0 0 or the refusal. A 128-bit number is two arguments, high and low.\n"
    );
    let slice =
        "# A slice is its length and then its words; a destination's words, as the call leaves them, are values.\n";
    let scratch = "# Where NUMBER is 0, the first words of scratch end as anything: they are recorded as they were.\n";
    let reduced =
        "# Point indices are below 2^31, and those of the Rust are read modulo 2^31. Where a step index is 0,\n\
         # is_canonic and is_doubling_of have the answers of their definitions, not the Rust's.\n";
    let since_2 =
        "# Recorded anew for version 2 of the interface. Lines of version 1 that no longer hold take or answer with\n\
         # the index 2^31: they are retired, or have the new answer.\n";
    let since_3 = "# Recorded anew for version 3 of the interface. Lines of version 2 that no longer hold are in\n\
         # contradicting_records.txt, with the refusals that are made instead.\n";
    let anew = match (records, indices) {
        (true, _) => since_3,
        (false, true) => since_2,
        (false, false) => "",
    };
    let notes = [(slices, slice), (free, scratch), (indices, reduced)];
    text + &notes.into_iter().filter(|(has, _)| *has).map(|(_, note)| note).collect::<String>() + anew
}

/// The lines of a function, about `share` bytes at most; an error where the library doesn't answer as it should.
pub fn lines(entry: &Entry, function: &Function, seed: u64, share: usize) -> Result<String, String> {
    let short = |input: &Input| {
        let pair = answers(entry, function, input);
        pair.numbers.len() + 2 + pair.expected.values.len() <= MOST_NUMBERS
    };
    let mut lines = Vec::new();
    for input in selection(entry.takes, &mut Random::new(seed, entry.name), &short) {
        let pair = answers(entry, function, &input);
        if pair.library != pair.expected {
            return Err(format!("{} differs on {:?}", entry.name, pair.numbers));
        }
        lines.push(line(entry.name, &pair));
    }
    Ok(evenly(&lines, share))
}

fn line(name: &str, Pair { numbers, expected, .. }: &Pair) -> String {
    let mut words = vec![name.to_string()];
    words.extend(numbers.iter().map(i128::to_string));
    words.extend(["=".to_string(), expected.number.to_string(), expected.position.to_string()]);
    words.extend(expected.values.iter().map(u64::to_string));
    words.join(" ") + "\n"
}

/// All lines, or where these have more than `most` bytes an even choice of them, the first among it.
fn evenly(lines: &[String], most: usize) -> String {
    let all: usize = lines.iter().map(String::len).sum();
    let mut text = String::new();
    let mut seen = 0;
    for line in lines {
        seen += line.len();
        if text.len() * all < seen * most {
            text += line;
        }
    }
    text
}
