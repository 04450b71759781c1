//! Lines for whoever started cargo, which shows what a build script writes only if the script fails.

use std::fs::{self, File, OpenOptions};
use std::io::{IsTerminal, Write};
use std::os::unix::process::parent_id;

/// Cargo's own standard error, if it can be written to.
pub struct CargoError(Option<File>);

impl CargoError {
    /// Cargo is the process that started this one.
    pub fn open() -> CargoError {
        let process = format!("/proc/{}", parent_id());
        let file = OpenOptions::new().append(true).open(format!("{process}/fd/2")).ok();
        CargoError(file.filter(|file| !is_file(file) || appends(&process)))
    }

    /// Writes a line. That it can't be written is no failure.
    pub fn say(&self, line: &str) {
        let Some(mut file) = self.0.as_ref() else { return };
        // On a terminal the line may have cargo's bar.
        let clear = if file.is_terminal() { "\r\x1b[K" } else { "" };
        // In one piece, so that it doesn't mix with a line of cargo's.
        let _ = file.write_all(format!("{clear}{line}\n").as_bytes());
    }
}

fn is_file(file: &File) -> bool {
    file.metadata().map_or(true, |found| found.is_file())
}

/// Whether the process writes at the end of its standard error. Into a file it would else write over our lines.
fn appends(process: &str) -> bool {
    const O_APPEND: u32 = 0o2000;
    let flags = |text: String| {
        let flags = text.lines().find_map(|line| line.strip_prefix("flags:"))?;
        u32::from_str_radix(flags.trim(), 8).ok()
    };
    let info = fs::read_to_string(format!("{process}/fdinfo/2")).ok();
    info.and_then(flags).is_some_and(|flags| flags & O_APPEND != 0)
}
