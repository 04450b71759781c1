//! Runs the Rust of stwo where the library refuses or answers otherwise, and holds docs/DIFFERENCES.md to what it does.

mod call;
mod chains;
mod document;
mod further;
mod process;
mod rust;
mod smallest;
mod tables;

use process::{answer, Builds, ANSWER};
use std::env;
use std::fs;
use std::process::ExitCode;

const USAGE: &str = "differences write|check DOCUMENT PROGRAM_BUILT_FOR_RELEASE, or differences answer NAME NUMBER ..";

fn main() -> ExitCode {
    let words: Vec<String> = env::args().skip(1).collect();
    let words: Vec<&str> = words.iter().map(String::as_str).collect();
    let done = match words[..] {
        [ANSWER, name, ref numbers @ ..] => print_answer(name, numbers),
        ["write", document, release] => write(document, release),
        ["check", document, release] => check(document, release),
        _ => Err(USAGE.to_string()),
    };
    match done {
        Ok(()) => ExitCode::SUCCESS,
        Err(message) => {
            eprintln!("{message}");
            ExitCode::FAILURE
        }
    }
}

fn print_answer(name: &str, numbers: &[&str]) -> Result<(), String> {
    let numbers: Result<Vec<i128>, _> = numbers.iter().map(|number| number.parse()).collect();
    println!("{}", answer(name, &numbers.map_err(|_| USAGE)?)?);
    Ok(())
}

fn write(document: &str, release: &str) -> Result<(), String> {
    let (_, written) = texts(document, release)?;
    fs::write(document, written).map_err(|error| format!("{document}: {error}"))
}

fn check(document: &str, release: &str) -> Result<(), String> {
    let (text, written) = texts(document, release)?;
    document::check(&text, &written).map_err(|difference| format!("{document}: {difference}"))
}

/// The document as it is, and with what the Rust does.
fn texts(document: &str, release: &str) -> Result<(String, String), String> {
    let text = fs::read_to_string(document).map_err(|error| format!("{document}: {error}"))?;
    let debug = env::current_exe().map_err(|error| format!("this program's file: {error}"))?;
    let tables = tables::tables(&Builds { debug, release: release.into() })?;
    let written = document::with_tables(&text, &tables).map_err(|missing| format!("{document}: {missing}"))?;
    Ok((text, written))
}
