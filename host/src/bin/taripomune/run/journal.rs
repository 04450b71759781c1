//! What a run has done, kept in the folder of results, so that a run after it can go on.
//!
//! Each line carries a check. The first one has the direction. A line for a column is added when its result is in its place;
//! if it is lost or damaged, its column is done again, with the same result. If the first line is, or the journal itself, it
//! isn't known which files in the folder are results: these are kept, and no result takes their place.

use super::entry::{Entry, Record};
use super::results::Results;
use crate::access::Access;
use crate::column_file::Direction;
use crate::failure::Failure;
use crate::memory;
use crate::names::shown;
use crate::result_file::{own_name, part_of_run, write_beside};
use crate::system;
use std::collections::{HashMap, HashSet};
use std::ffi::{OsStr, OsString};
use std::fs::{self, File, Metadata};
use std::io::{Read, Write};
use std::path::Path;

/// The name of the journal in the folder of results.
pub fn name() -> String {
    own_name("journal")
}

pub struct Journal<'a> {
    results: &'a Results,
    direction: Direction,
    file: File,
    lines: usize,
    known: Known,
}

impl<'a> Journal<'a> {
    /// The journal of a folder of results, written anew with what is known of the columns that are there.
    pub fn open(results: &'a Results, direction: Direction, columns: &HashSet<&OsStr>) -> Result<Journal<'a>, Failure> {
        let text = contents(&results.path(name())).unwrap_or_default();
        let mut known = read(&text, direction).ok_or_else(|| {
            let results = shown(&results.named(""));
            Failure::Arguments(format!(
                "{results} has the results of a run of the other direction: name another folder"
            ))
        })?;
        if !known.is_all_ours_but_kept {
            let is_ours = |name: &OsString| known.entries.get(name).is_some_and(Entry::is_accepted);
            let kept: Vec<OsString> = results.file_names()?.into_iter().filter(|name| !is_ours(name)).collect();
            known.kept.extend(kept);
        }
        let (file, lines) = write(results, direction, &mut known, columns)?;
        Ok(Journal { results, direction, file, lines, known })
    }

    pub fn entry(&self, name: &OsStr) -> Option<&Entry> {
        self.known.entries.get(name)
    }

    /// Whether a file of this name in the folder of results is one that no run is known to have written.
    pub fn is_kept(&self, name: &OsStr) -> bool {
        self.known.kept.contains(name)
    }

    pub fn add(&mut self, name: &OsStr, entry: Entry) -> Result<(), Failure> {
        let record = Record::Done(name.to_os_string(), entry);
        let written = self.file.write_all(record.write(self.direction).as_bytes());
        written.map_err(Failure::unwritable(&self.results.named(self::name())))?;
        self.lines += 1;
        self.known.add(record);
        Ok(())
    }

    /// Writes it anew if most of its lines are of no use any more, or if it is gone.
    pub fn tidy(&mut self, columns: &HashSet<&OsStr>) -> Result<(), Failure> {
        let is_there = fs::symlink_metadata(self.results.path(name())).is_ok_and(|found| found.is_file());
        let useful = if columns.is_empty() { self.known.entries.len() } else { columns.len() };
        if !is_there || self.lines > 1000 + 2 * (useful + self.known.kept.len()) {
            (self.file, self.lines) = write(self.results, self.direction, &mut self.known, columns)?;
        }
        Ok(())
    }
}

/// The lines of a journal, what they say and the lines that are written anew take so many times its length.
const LINES: u64 = 6;

/// The bytes of a journal, if it is a file that can be read and has room in memory.
fn contents(path: &Path) -> Option<Vec<u8>> {
    let mut file = system::without_following().read(true).open(path).ok()?;
    let found = file.metadata().ok().filter(Metadata::is_file)?;
    memory::ask(found.len().saturating_mul(LINES), "to be read").ok()?;
    let mut text = Vec::new();
    file.read_to_end(&mut text).ok()?;
    Some(text)
}

/// Writes a journal of the columns that are there. Answers with the file, to add lines to, and how many it has.
fn write(
    results: &Results,
    direction: Direction,
    known: &mut Known,
    columns: &HashSet<&OsStr>,
) -> Result<(File, usize), Failure> {
    // A folder of columns that isn't mounted is an empty one.
    known.entries.retain(|name, _| columns.is_empty() || columns.contains(name.as_os_str()));
    let kept = known.kept.iter().map(|name| Record::Kept(name.clone()));
    let done = known.entries.iter().map(|(name, entry)| Record::Done(name.clone(), *entry));
    let records = [Record::Head(known.kept.len())].into_iter().chain(kept).chain(done);
    let text: String = records.map(|record| record.write(direction)).collect();
    let write = |file: &mut File| file.write_all(text.as_bytes());
    let written = write_beside(&results.path(name()), &part_of_run("journal"), Access::PRIVATE, write);
    let (file, _) = written.map_err(Failure::unwritable(&results.named(name())))?;
    Ok((file, 1 + known.kept.len() + known.entries.len()))
}

#[derive(Debug, Default, PartialEq, Eq)]
struct Known {
    entries: HashMap<OsString, Entry>,
    kept: HashSet<OsString>,
    /// Whether `kept` has all files in the folder of results that no run is known to have written.
    is_all_ours_but_kept: bool,
}

impl Known {
    fn add(&mut self, record: Record) {
        match record {
            Record::Head(_) => {}
            Record::Kept(name) => {
                self.kept.insert(name);
            }
            Record::Done(name, entry) => {
                if entry.is_accepted() {
                    self.kept.remove(&name);
                }
                self.entries.insert(name, entry);
            }
        }
    }
}

/// What the good lines of a journal say, or none if it is of the other direction.
fn read(text: &[u8], direction: Direction) -> Option<Known> {
    let other = match direction {
        Direction::Interpolate => Direction::Evaluate,
        Direction::Evaluate => Direction::Interpolate,
    };
    let mut lines = text.split_inclusive(|byte| *byte == b'\n').peekable();
    if let Some(Record::Head(_)) = lines.peek().and_then(|line| Record::read(other, line)) {
        return None;
    }
    let mut known = Known::default();
    let head = match lines.peek().and_then(|line| Record::read(direction, line)) {
        Some(Record::Head(kept)) => Some(kept),
        _ => None,
    };
    let mut kept = 0;
    for record in lines.filter_map(|line| Record::read(direction, line)) {
        kept += usize::from(matches!(&record, Record::Kept(name) if !known.kept.contains(name)));
        known.add(record);
    }
    known.is_all_ours_but_kept = head == Some(kept);
    Some(known)
}

#[cfg(test)]
mod tests {
    use super::*;
    use crate::result_file;

    fn entry() -> Entry {
        let found = fs::metadata(".").unwrap();
        Entry::accepted(&found, &found, std::time::Duration::ZERO)
    }

    fn journal(records: &[Record]) -> Vec<String> {
        records.iter().map(|record| record.write(Direction::Interpolate)).collect()
    }

    fn known(lines: &[String]) -> Option<(usize, usize, bool)> {
        let known = read(lines.concat().as_bytes(), Direction::Interpolate)?;
        Some((known.entries.len(), known.kept.len(), known.is_all_ours_but_kept))
    }

    #[test]
    fn a_damaged_line_costs_its_column_alone() {
        let done = |name: &str| Record::Done(name.into(), entry());
        let mut lines = journal(&[Record::Head(0), done("a"), done("b"), done("c")]);
        assert_eq!(known(&lines), Some((3, 0, true)));
        lines[2] = lines[2].replace("done", "dome");
        assert_eq!(known(&lines), Some((2, 0, true)));
        lines[3].pop();
        assert_eq!(known(&lines), Some((1, 0, true)));
        assert_eq!(read(lines.concat().as_bytes(), Direction::Evaluate), None);
    }

    #[test]
    fn without_its_first_lines_a_journal_does_not_say_what_is_ours() {
        let lines = journal(&[Record::Head(1), Record::Kept("k".into()), Record::Done("a".into(), entry())]);
        assert_eq!(known(&lines), Some((1, 1, true)));
        assert_eq!(known(&lines[1..]), Some((1, 1, false)));
        assert_eq!(known(&[lines[0].clone(), lines[2].clone()]), Some((1, 0, false)));
        let lines = journal(&[Record::Head(2), Record::Kept("k".into()), Record::Kept("k".into())]);
        assert_eq!(known(&lines), Some((0, 1, false)));
        assert_eq!(known(&[]), Some((0, 0, false)));
        assert_eq!(known(&["taripomune run 1 interpolate\n".to_string()]), Some((0, 0, false)));
    }

    #[test]
    fn a_column_that_was_accepted_has_its_file() {
        let lines = journal(&[Record::Head(1), Record::Kept("a".into()), Record::Done("a".into(), entry())]);
        assert_eq!(known(&lines), Some((1, 0, true)));
    }

    #[test]
    fn a_journal_is_no_column() {
        assert!(name().starts_with('.') && result_file::own_name("journal") == name());
    }
}
