//! What a run does with one column.

use super::entry::Entry;
use super::folders::is_one;
use super::report::Line;
use super::results::Results;
use crate::access::Access;
use crate::column_file::{Buffers, Direction, Source};
use crate::failure::Failure;
use crate::result_file::{Unwritten, is_place, part_of_run, remove, sync, write_beside, write_words};
use crate::system;
use std::ffi::{OsStr, OsString};
use std::fs::{self, File, Metadata};
use std::os::unix::fs::MetadataExt;
use std::path::Path;
use std::time::Instant;

/// What is done with each column of a folder.
#[derive(Clone, Copy)]
pub struct Job<'a> {
    pub direction: Direction,
    pub columns: &'a Path,
    pub results: &'a Results,
    /// Longer columns are passed over.
    pub max_log_size: u32,
}

/// A column to treat.
#[derive(Clone)]
pub struct Column {
    pub name: OsString,
    /// Whether a file in the place of its result is one that no run is known to have written.
    pub is_kept: bool,
}

/// What became of a column.
pub struct Treated {
    pub line: Line,
    /// Why it has no result, if it hasn't.
    pub failure: Option<Failure>,
    /// None if it is to be tried again.
    pub entry: Option<Entry>,
}

impl Job<'_> {
    /// Whether the file is the one that the entry speaks of, and so is its result.
    pub fn is_done(&self, name: &OsStr, is_kept: bool, entry: &Entry) -> bool {
        let same = fs::symlink_metadata(self.columns.join(name)).is_ok_and(|found| entry.is_of(&found));
        let result = fs::symlink_metadata(self.results.path(name));
        same && match entry.is_accepted() {
            true => result.is_ok_and(|result| entry.has_result(&result)),
            false => is_kept || !result.is_ok_and(|result| result.is_file()),
        }
    }

    /// The length of a column's file.
    pub fn bytes(&self, name: &OsStr) -> Option<u64> {
        let found = fs::symlink_metadata(self.columns.join(name)).ok()?;
        found.is_file().then_some(found.len())
    }

    /// Transforms a column. That it is refused, can't be read or is passed over is no reason to stop. `worker` is the number
    /// of the thread.
    pub fn treat(&self, column: &Column, worker: usize, buffers: &mut Buffers) -> Result<Treated, Failure> {
        let start = Instant::now();
        let source = match Source::in_folder(&self.columns.join(&column.name)) {
            Ok(source) => source,
            Err(failure) => return Ok(self.tried_in_vain(column, failure, self.bytes(&column.name), start)),
        };
        source.wait_for_tick();
        let bytes = Some(source.found.len());
        let outcome = self.transform(column, &source, worker, buffers);
        match outcome.or_else(|failure| self.without_result(column, failure)) {
            Ok(written) => {
                let entry = Entry::accepted(&source.found, &written, start.elapsed());
                Ok(Treated { line: entry.line(), failure: None, entry: Some(entry) })
            }
            Err(failure @ Failure::Refused(_, refusal)) => {
                let entry = Entry::refused(&source.found, refusal, start.elapsed());
                Ok(Treated { line: entry.line(), failure: Some(failure), entry: Some(entry) })
            }
            Err(failure @ (Failure::Unreadable(..) | Failure::PassedOver(..))) => {
                Ok(self.tried_in_vain(column, failure, bytes, start))
            }
            Err(failure) => Err(failure),
        }
    }

    /// A column that is to be tried again. Its earlier result stays, with no more permissions than the column has now.
    fn tried_in_vain(&self, column: &Column, failure: Failure, bytes: Option<u64>, start: Instant) -> Treated {
        let path = self.columns.join(&column.name);
        let found = fs::symlink_metadata(&path).ok().filter(Metadata::is_file);
        let result = system::without_following().read(true).open(self.results.path(&column.name)).ok();
        // A file that has another name as well may be somebody else's.
        let is_ours = |result: &File| result.metadata().is_ok_and(|result| result.is_file() && result.nlink() == 1);
        if let (Some(found), Some(result), false) = (found, result.filter(is_ours), column.is_kept) {
            // Where that can't be done, it isn't ours either.
            let _ = Access::of_result(&found, system::has_access_list_at(&path)).narrow(&result);
        }
        Treated { line: Line::of(&failure, bytes, start.elapsed()), failure: Some(failure), entry: None }
    }

    /// Puts the result of a column into its place, and answers what the file was before it got its name.
    fn transform(
        &self,
        column: &Column,
        source: &Source,
        worker: usize,
        buffers: &mut Buffers,
    ) -> Result<Metadata, Failure> {
        let passed_over = |why: &str| Failure::passed_over(&self.columns.join(&column.name), why);
        if source.log_size()? > self.max_log_size {
            return Err(passed_over(&format!("it is over the limit of 2^{} words", self.max_log_size)));
        }
        let place = self.results.path(&column.name);
        if !is_place(&place) {
            return Err(passed_over(NO_FILE));
        }
        if fs::symlink_metadata(&place).is_ok_and(|found| is_one(&found, &source.found)) {
            return Err(passed_over("it is in the place of its result"));
        }
        let words = buffers.transform(self.direction, source)?;
        if column.is_kept && fs::symlink_metadata(&place).is_ok() && !holds(&place, words) {
            return Err(passed_over(KEPT));
        }
        self.results.check()?;
        let own = part_of_run(&worker.to_string());
        let written = write_beside(&place, &own, source.access(), |file| write_words(words, file));
        written.map(|(_, found)| found).map_err(|unwritten| match unwritten {
            Unwritten::Folder(error) => Failure::unwritable(&self.results.named(&column.name))(error),
            // A folder may have come there meanwhile.
            Unwritten::File(_) if !is_place(&place) => passed_over(NO_FILE),
            Unwritten::File(error) => passed_over(&format!("its result can't be written: {error}")),
        })
    }

    /// Sees to it that a refused column has no result: an earlier file of its name may have left one. What no run wrote stays.
    fn without_result<T>(&self, column: &Column, failure: Failure) -> Result<T, Failure> {
        let place = self.results.path(&column.name);
        let is_result = !column.is_kept && fs::symlink_metadata(&place).is_ok_and(|found| found.is_file());
        let Failure::Refused(path, refusal) = &failure else { return Err(failure) };
        if !is_result {
            return Err(failure);
        }
        self.results.check()?;
        let named = self.results.named(&column.name);
        match remove(&place).map_err(Unwritten::of_place) {
            Ok(()) => sync(self.results.folder()).map_err(Failure::unwritable(&named)).and(Err(failure)),
            Err(Unwritten::Folder(error)) => Err(Failure::unwritable(&named)(error)),
            Err(Unwritten::File(error)) => {
                let sentence = format!("it is refused ({refusal}), and its earlier result can't be removed: {error}");
                Err(Failure::passed_over(path, &sentence))
            }
        }
    }
}

const NO_FILE: &str = "what is in the place of its result isn't a regular file";
const KEPT: &str = "a file that no run is known to have written is in the place of its result";

/// Whether a file holds the words of a result.
fn holds(place: &Path, words: &[u32]) -> bool {
    Source::in_folder(place).and_then(|source| source.holds(words)).unwrap_or(false)
}
