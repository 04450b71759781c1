//! Measures the library against the Rust of stwo, built as for a release.

use speed::{avx2_rows, heading, measured, Row, PARTLY_ROWS, RECORD_ROWS, ROWS, TRANSFORM_ROWS};
use std::process::ExitCode;

fn main() -> ExitCode {
    let rows = measured(&[ROWS, RECORD_ROWS, TRANSFORM_ROWS, PARTLY_ROWS, avx2_rows()].concat());
    println!("{}", heading());
    for row in &rows {
        println!("{}", row.line());
        if let Some(work) = row.work {
            println!("{}", work.line());
        }
    }
    if rows.iter().all(Row::passes) {
        ExitCode::SUCCESS
    } else {
        ExitCode::FAILURE
    }
}
