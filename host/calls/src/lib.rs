//! The list of calls in `docs/CALLS.md`: each with its meaning, its refusals, its contract and the text of its
//! definition, from the header, the entry points and the specs.

#![forbid(unsafe_code)]

mod declared;
mod entry_points;
mod glossary;
mod imports;
mod page;
mod refusals;
mod specs;

use page::Page;
use specs::Specs;
use std::fs;
use std::path::Path;
use taripomune_header::Header;

/// Above it the page is written by hand, below it by this package.
pub const MARK: &str =
    "<!-- What follows is written by `cargo run --manifest-path host/Cargo.toml -p taripomune-calls`. -->\n";

/// The page as it should be: what is written by hand, then the list.
pub fn page(root: &Path) -> Result<String, String> {
    rewritten(root, &read(root, "docs/CALLS.md")?)
}

/// This page with its list made anew.
pub fn rewritten(root: &Path, page: &str) -> Result<String, String> {
    let header = Header::read(&read(root, "include/taripomune.h")?);
    let specs = Specs::read(root);
    let (by_hand, _) = page.split_once(MARK).ok_or("docs/CALLS.md has no line that ends what is written by hand")?;
    same_refusals(by_hand, &header, &specs)?;
    let page = Page { header: &header, specs: &specs, entry_points: &entry_points::read(root) };
    let lacks = glossary::lacks(by_hand, page.library_words());
    if !lacks.is_empty() {
        return Err(format!("the glossary of docs/CALLS.md lacks words of the checker's library: {lacks:?}"));
    }
    let list = page.write()?;
    Ok(format!("{by_hand}{MARK}{list}"))
}

fn read(root: &Path, file: &str) -> Result<String, String> {
    fs::read_to_string(root.join(file)).map_err(|error| format!("{file}: {error}"))
}

/// The table by hand and the header's names have the refusals of the specs, in their order.
fn same_refusals(by_hand: &str, header: &Header, specs: &Specs) -> Result<(), String> {
    let cases = refusals::cases(specs);
    let in_specs: Vec<u32> = cases.iter().map(|(_, number)| *number).collect();
    let rows = by_hand.lines().filter_map(|line| line.strip_prefix("| ")?.split(" | ").next()?.parse::<u32>().ok());
    let in_table: Vec<u32> = rows.collect();
    if in_table != in_specs {
        return Err(format!("docs/CALLS.md has the refusals {in_table:?}, the specs have {in_specs:?}"));
    }
    let named: Vec<(&str, u32)> = header.constants.iter().map(|c| (c.name.as_str(), c.value)).collect();
    let names: Vec<(String, u32)> = cases.iter().map(|(case, number)| (constant_of(case), *number)).collect();
    let in_header: Vec<(String, u32)> = named
        .iter()
        .filter_map(|(name, number)| Some((name.strip_prefix("TARI_REFUSED_")?.to_string(), *number)))
        .collect();
    if in_header != names {
        return Err(format!("the header names the refusals {in_header:?}, the specs {names:?}"));
    }
    Ok(())
}

/// `LogSize` as `LOG_SIZE`.
fn constant_of(case: &str) -> String {
    let mut name = String::new();
    for c in case.chars() {
        if c.is_uppercase() && !name.is_empty() {
            name.push('_');
        }
        name.extend(c.to_uppercase());
    }
    name
}
