//! Compares every function of the library's C interface with the Rust of stwo.

use compare::check::{check, Tally};
use compare::long_columns::{check_long_columns, DIRECTIONS};
use compare::walk::{check_walk, WALKS};
use compare::{check_names, function, record, record_long, MODULES, ON_LONG_SLICES};
use std::fs;
use std::path::{Path, PathBuf};
use std::process::ExitCode;

/// `replay` reads shorter files only.
const MOST_BYTES: usize = 65_536;

const USAGE: &str = "compare [--seed NUMBER] [--count INPUTS_A_FUNCTION] [--record FOLDER]";

struct Options {
    seed: u64,
    count: u64,
    record: Option<PathBuf>,
}

fn main() -> ExitCode {
    match read_options().and_then(run) {
        Ok(()) => ExitCode::SUCCESS,
        Err(message) => {
            eprintln!("compare: {message}");
            ExitCode::FAILURE
        }
    }
}

fn read_options() -> Result<Options, String> {
    let mut options = Options { seed: 1, count: 60_000, record: None };
    let mut words = std::env::args().skip(1);
    while let Some(word) = words.next() {
        let value = words.next().ok_or(USAGE)?;
        match word.as_str() {
            "--seed" => options.seed = value.parse().map_err(|_| USAGE)?,
            "--count" => options.count = value.parse().map_err(|_| USAGE)?,
            "--record" => options.record = Some(value.into()),
            _ => return Err(USAGE.into()),
        }
    }
    Ok(options)
}

/// Compares everything, and records only where nothing differed.
fn run(options: Options) -> Result<(), String> {
    check_names()?;
    let mut total = Tally::default();
    println!("{:<44}{:>10}{:>10}{:>10}", "function", "compared", "refused", "different");
    for entry in MODULES.iter().flat_map(|(_, entries, _)| *entries) {
        add(&mut total, entry.name, check(entry, function(entry)?, options.seed, options.count));
    }
    for walk in &WALKS {
        add(&mut total, walk.name, check_walk(walk, options.seed));
    }
    for direction in &DIRECTIONS {
        add(&mut total, direction.name, check_long_columns(direction, options.seed));
    }
    print("total", &total);
    if total.different != 0 {
        return Err(format!("{} answers differ", total.different));
    }
    options.record.map_or(Ok(()), |folder| record_all(&folder, options.seed))
}

fn add(total: &mut Tally, name: &str, tally: Tally) {
    print(name, &tally);
    total.compared += tally.compared;
    total.refused += tally.refused;
    total.different += tally.different;
}

fn print(name: &str, tally: &Tally) {
    println!("{name:<44}{:>10}{:>10}{:>10}", tally.compared, tally.refused, tally.different);
}

fn record_all(folder: &Path, seed: u64) -> Result<(), String> {
    for (module, entries, share) in MODULES {
        let functions = entries.iter().map(function).collect::<Result<Vec<_>, _>>()?;
        let free = entries.iter().any(|entry| entry.free.is_some());
        let mut text = record::header(module, &functions, free, seed);
        for (entry, function) in entries.iter().zip(functions) {
            text += &record::lines(entry, function, seed, *share)?;
        }
        write(folder, module, &text)?;
    }
    let mut text = record_long::HEADER.to_string();
    for entry in ON_LONG_SLICES.iter().flat_map(|entries| *entries) {
        text += &record_long::lines(entry, function(entry)?)?;
    }
    write(folder, record_long::NAME, &text)
}

fn write(folder: &Path, name: &str, text: &str) -> Result<(), String> {
    let file = folder.join(name).with_extension("txt");
    if text.len() >= MOST_BYTES {
        return Err(format!("{} would be {} bytes, too many", file.display(), text.len()));
    }
    fs::write(&file, text).map_err(|error| format!("{}: {error}", file.display()))
}
