//! A column file there, or back.

use crate::column_file::{Buffers, Direction, Source};
use crate::failure::Failure;
use crate::output::Output;
use crate::result_file::{is_place, write_beside, write_words};
use crate::run::report::Line;
use std::fs;
use std::io;
use std::path::Path;
use std::time::Instant;

/// Writes the transform of a column file to another one.
pub fn transform(direction: Direction, from: &Path, to: &Path, output: Output) -> Result<(), Failure> {
    let start = Instant::now();
    let transform = || {
        let source = Source::named(from)?;
        let mut buffers = Buffers::default();
        let words = buffers.transform(direction, &source)?;
        if !is_place(to) {
            return Err(Failure::unwritable(to)(io::Error::other("what is there isn't a regular file")));
        }
        let own = std::process::id().to_string();
        let written = write_beside(to, &own, source.access(), |file| write_words(words, file));
        written.map(|_| ()).map_err(Failure::unwritable(to))
    };
    told(output, from, start, transform())
}

/// Tells in JSON what became of a column file that the command line names.
pub fn told<T>(output: Output, path: &Path, start: Instant, outcome: Result<T, Failure>) -> Result<T, Failure> {
    let bytes = fs::metadata(path).ok().filter(|found| found.is_file()).map(|found| found.len());
    let line = match &outcome {
        Ok(_) => Some(Line::accepted(bytes, start.elapsed())),
        Err(Failure::Machine(..)) => None,
        Err(failure) => Some(Line::of(failure, bytes, start.elapsed())),
    };
    line.iter().for_each(|line| output.object(&line.object(output, path.as_os_str())));
    outcome
}
