//! The table and the plot as files.

use super::plot::plot;
use crate::access::Access;
use crate::failure::Failure;
use crate::names::shown;
use crate::output::Output;
use crate::result_file::write_beside;
use speed::Row;
use std::fs;
use std::io::Write;
use std::path::Path;

/// Writes `benchmark.md` and `benchmark.svg`.
pub fn write(folder: &Path, rows: &[Row], output: Output) -> Result<(), Failure> {
    for (name, text) in [("benchmark.md", table(rows)), ("benchmark.svg", plot(rows))] {
        let path = folder.join(name);
        let written = write_beside(&path, "bench", Access::FOR_READERS, |file| file.write_all(text.as_bytes()));
        written.map_err(Failure::unwritable(&path))?;
        output.say(&shown(&path));
    }
    Ok(())
}

fn table(rows: &[Row]) -> String {
    let line = |row: &Row| {
        let Row { what, rust, library, .. } = row;
        format!("| {what} | {rust:.3} | {library:.3} | {:.3} | {} |\n", row.ratio(), row.shown_limit())
    };
    let lines: String = rows.iter().map(line).collect();
    let work = |row: &Row| {
        let work = row.work?;
        Some(format!("| {} | {:.6} | {:.6} |\n", row.what, work.multiplications, work.inversions))
    };
    let worked: String = rows.iter().filter_map(work).collect();
    format!(
        "# Benchmark\n\n\
        Written by `taripomune bench`: nanoseconds an element of the Rust and of the library, measured in turn in one\n\
        run, the time of the library divided by that of the Rust, and what this may be at most. The Rust of the transform\n\
        is the library's algorithm (`oracle/speed`), the other one is stwo's. A row without a limit has no bar in the\n\
        plot.{}\n\n\
        ![The times of the library divided by those of the Rust](benchmark.svg)\n\n\
        | what | Rust | library | ratio | limit |\n|---|---|---|---|---|\n{lines}\n\
        The multiplications and inversions of batch inversion for each element, as the library counts them:\n\n\
        | what | multiplications | inversions |\n|---|---|---|\n{worked}",
        processor().map_or(String::new(), |name| format!(" Processor: {name}."))
    )
}

/// The processor's name, as Linux tells it.
fn processor() -> Option<String> {
    let text = fs::read_to_string("/proc/cpuinfo").ok()?;
    let line = text.lines().find(|line| line.starts_with("model name"))?;
    Some(line.split_once(':')?.1.trim().to_string())
}
