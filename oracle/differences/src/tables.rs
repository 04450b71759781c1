//! The tables of the document: by module, the smallest input of every refusal of every call, and further inputs; then
//! chains of calls.

use crate::call::Call;
use crate::chains;
use crate::further::{Further, FURTHER};
use crate::process::Builds;
use crate::rust::shown;
use crate::smallest::smallest;
use compare::entry::Entry;
use compare::kinds::Refusal;
use compare::{check_names, MODULES};

/// The headings of the modules.
const HEADINGS: [(&str, &str); 13] = [
    ("version", "The version"),
    ("m31", "M31"),
    ("cm31", "CM31"),
    ("qm31", "QM31"),
    ("batch", "Batch inversion"),
    ("point", "Points over M31"),
    ("secure_point", "Points over QM31"),
    ("index", "Point indices"),
    ("orders", "Column orders"),
    ("coset", "Cosets"),
    ("canonic_coset", "Canonic cosets"),
    ("circle_domain", "Circle domains"),
    ("transform", "The transform"),
];

const SMALLEST_HEAD: &str = "| function | smallest input | refusal | the Rust |\n|---|---|---|---|\n";
const FURTHER_HEAD: &str = "| function | further input | refusal | the Rust | remark |\n|---|---|---|---|---|\n";

pub fn tables(builds: &Builds) -> Result<String, String> {
    check_names()?;
    for Further { function, .. } in FURTHER {
        Call::named(function)?;
    }
    let sections = MODULES.iter().map(|(module, entries, _)| section(module, entries, builds));
    sections.chain([chains::table()]).collect()
}

fn section(module: &str, entries: &'static [Entry], builds: &Builds) -> Result<String, String> {
    let heading = HEADINGS.iter().find(|(name, _)| *name == module);
    let (_, heading) = heading.ok_or_else(|| format!("the module {module} has no heading"))?;
    let calls = entries.iter().map(Call::new).collect::<Result<Vec<_>, _>>()?;
    let smallest: String = calls.iter().map(|call| smallest_rows(call, builds)).collect::<Result<_, _>>()?;
    let further: String = calls.iter().map(|call| further_rows(call, builds)).collect::<Result<_, _>>()?;
    let mut text = format!("### {heading}\n\n");
    if !smallest.is_empty() {
        text += &format!("{SMALLEST_HEAD}{smallest}\n");
    }
    if !further.is_empty() {
        text += &format!("{FURTHER_HEAD}{further}\n");
    }
    let never: Vec<String> = calls.iter().filter(|call| call.refusals().is_empty()).map(quoted).collect();
    if !never.is_empty() {
        text += &format!("Never refused: {}.\n\n", never.join(", "));
    }
    Ok(text)
}

fn quoted(call: &Call) -> String {
    format!("`{}`", call.entry.name)
}

fn smallest_rows(call: &Call, builds: &Builds) -> Result<String, String> {
    let row = |number| row(call, &smallest(call, number)?, builds);
    call.refusals().into_iter().map(|number| Ok(row(number)? + "\n")).collect()
}

fn further_rows(call: &Call, builds: &Builds) -> Result<String, String> {
    let of_call = FURTHER.iter().filter(|further| further.function == call.entry.name);
    let row = |further: &Further| {
        let numbers = further.numbers(call)?;
        if let Some(refusal) = call.refusal(&numbers) {
            if smallest(call, refusal.number)? == numbers {
                return Err(format!("{} of {numbers:?} is no further input, it is a smallest one", call.entry.name));
            }
        }
        Ok(format!("{} {} |\n", row(call, &numbers, builds)?, further.remark))
    };
    of_call.map(row).collect()
}

/// A row for an input, of which the library must say what the document says. Where the input is accepted, the Rust must
/// do otherwise.
fn row(call: &Call, numbers: &[i128], builds: &Builds) -> Result<String, String> {
    let library = shown(&call.library(numbers)?.values);
    let rust = builds.answer(call.entry.name, numbers)?;
    let refusal = match call.refusal(numbers) {
        Some(Refusal { number, position: 0 }) => number.to_string(),
        Some(Refusal { number, position }) => format!("{number} at {position}"),
        None if rust == library => return Err(format!("{} of {numbers:?} is {rust} on both sides", call.entry.name)),
        None => "none".to_string(),
    };
    Ok(format!("| {} | {} | {refusal} | {rust} |", quoted(call), call.named_arguments(numbers)))
}
