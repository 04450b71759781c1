//! The library's speed beside the Rust's.

#[cfg(feature = "baselines")]
mod documents;
#[cfg(feature = "baselines")]
mod plot;

use crate::failure::Failure;
#[cfg(feature = "baselines")]
use crate::json::Object;
use crate::output::Output;
use std::path::Path;

#[cfg(not(feature = "baselines"))]
pub fn bench(_: Option<&Path>, _: Output) -> Result<(), Failure> {
    let sentence = "this program was built without the Rust to measure against: build it with --features baselines";
    Err(Failure::Unavailable(sentence.to_string()))
}

/// Measures and prints a table. With a folder it also writes the table and a plot there.
#[cfg(feature = "baselines")]
pub fn bench(folder: Option<&Path>, output: Output) -> Result<(), Failure> {
    use crate::names::shown;
    use speed::{RECORD_ROWS, ROWS, TRANSFORM_ROWS, heading, measured};

    if let Some(folder) = folder.filter(|folder| !folder.is_dir()) {
        return Err(Failure::Arguments(format!("{} is no folder", shown(folder))));
    }
    let rows = measured(&[TRANSFORM_ROWS, ROWS, RECORD_ROWS].concat());
    output.say(&heading());
    for row in &rows {
        output.say(&row.line());
        row.work.iter().for_each(|work| output.say(&work.line()));
        output.object(&object(row, output));
    }
    if rows.iter().any(|row| !row.equal) {
        return Err(Failure::Wrong("the library and the Rust give different answers".to_string()));
    }
    folder.map_or(Ok(()), |folder| documents::write(folder, &rows, output))
}

#[cfg(feature = "baselines")]
fn object(row: &speed::Row, output: Output) -> Object {
    let object = output.event("row").text("what", row.what).number("rust", row.rust).number("library", row.library);
    let object = object.number("ratio", row.ratio()).number("equal", row.equal);
    let object = match row.work {
        Some(work) => object.number("multiplications", work.multiplications).number("inversions", work.inversions),
        None => object,
    };
    match row.limit.is_finite() {
        true => object.number("limit", row.limit),
        false => object.null("limit"),
    }
}
