//! Lines of the journal.

use super::report::{Line, Outcome};
use crate::column_file::{Direction, Stamp};
use crate::names::{escaped, unescaped};
use std::ffi::{OsStr, OsString};
use std::fs::Metadata;
use std::time::Duration;
use taripomune::Refusal;

/// A column that is done: what its file was, and what came of it.
#[derive(Clone, Copy, Debug, PartialEq, Eq)]
pub struct Entry {
    stamp: Stamp,
    outcome: Result<Written, Refusal>,
    time: Duration,
}

/// What a result was when it was written: its inode, and when its contents were changed last.
#[derive(Clone, Copy, Debug, PartialEq, Eq)]
struct Written {
    inode: u64,
    modified: i128,
}

impl Written {
    fn of(found: &Metadata) -> Written {
        let Stamp { inode, modified, .. } = Stamp::of(found);
        Written { inode, modified }
    }
}

impl Entry {
    pub fn accepted(found: &Metadata, result: &Metadata, time: Duration) -> Entry {
        Entry { stamp: Stamp::of(found), outcome: Ok(Written::of(result)), time: whole(time) }
    }

    pub fn refused(found: &Metadata, refusal: Refusal, time: Duration) -> Entry {
        Entry { stamp: Stamp::of(found), outcome: Err(refusal), time: whole(time) }
    }

    pub fn is_accepted(&self) -> bool {
        self.outcome.is_ok()
    }

    /// Whether a file is still the one that was read.
    pub fn is_of(&self, found: &Metadata) -> bool {
        found.is_file() && self.stamp == Stamp::of(found)
    }

    /// Whether a result is still the one that was written.
    pub fn has_result(&self, found: &Metadata) -> bool {
        found.is_file() && self.stamp.bytes == found.len() && self.outcome == Ok(Written::of(found))
    }

    pub fn line(&self) -> Line {
        let outcome = self.outcome.map_or_else(Outcome::Refused, |_| Outcome::Accepted);
        let why = self.outcome.err().map(|refusal| refusal.sentence().to_string());
        Line { bytes: Some(self.stamp.bytes), outcome, time: self.time, why }
    }
}

/// Microseconds are kept.
fn whole(time: Duration) -> Duration {
    Duration::from_micros(time.as_micros() as u64)
}

/// A line of the journal.
#[derive(Clone, Debug, PartialEq, Eq)]
pub enum Record {
    /// The first one: the direction of all, and how many lines come next of names that aren't the run's.
    Head(usize),
    /// A file in the folder of results that no run is known to have written.
    Kept(OsString),
    Done(OsString, Entry),
}

impl Record {
    /// Its text, after a check. The check depends on the direction, so that a line of the other one is none.
    pub fn write(&self, direction: Direction) -> String {
        let text = match self {
            Record::Head(kept) => format!("taripomune run 2 {} {kept}", direction.name()),
            Record::Kept(name) => format!("kept {}", escaped(name)),
            Record::Done(name, entry) => done(name, entry),
        };
        format!("{:016x} {text}\n", check(direction, &text))
    }

    /// The record of a whole line, if its check is right.
    pub fn read(direction: Direction, line: &[u8]) -> Option<Record> {
        let line = std::str::from_utf8(line).ok()?.strip_suffix('\n')?;
        let (sum, text) = line.split_at_checked(16)?;
        let text = text.strip_prefix(' ')?;
        if sum != format!("{:016x}", check(direction, text)) {
            return None;
        }
        let (kind, rest) = text.split_once(' ')?;
        match kind {
            "taripomune" => {
                let kept = rest.strip_prefix("run 2 ")?.strip_prefix(direction.name())?.strip_prefix(' ')?;
                Some(Record::Head(kept.parse().ok()?))
            }
            "kept" => Some(Record::Kept(unescaped(rest)?)),
            "done" => read_done(rest),
            _ => None,
        }
    }
}

/// Number and position of the refusal, or two zeros; the stamp of the file; what the result was, or two zeros; microseconds;
/// name.
fn done(name: &OsStr, Entry { stamp, outcome, time }: &Entry) -> String {
    let (number, position) = outcome.map_or_else(|refusal| (refusal.number(), refusal.position()), |_| (0, 0));
    let Stamp { bytes, inode, modified, changed } = stamp;
    let written = outcome.unwrap_or(Written { inode: 0, modified: 0 });
    let result = format!("{} {}", written.inode, written.modified);
    let (microseconds, name) = (time.as_micros(), escaped(name));
    format!("done {number} {position} {bytes} {inode} {modified} {changed} {result} {microseconds} {name}")
}

fn read_done(text: &str) -> Option<Record> {
    let mut words = text.splitn(10, ' ');
    let refusal = match (words.next()?.parse().ok()?, words.next()?.parse().ok()?) {
        (0, 0) => None,
        (1, position) => Some(Refusal::Word(position)),
        (6, 0) => Some(Refusal::LogSize),
        (8, 0) => Some(Refusal::Length),
        (0u32, _) | (2.., _) => return None,
    };
    let mut number = || words.next()?.parse::<i128>().ok();
    let (bytes, inode) = (number()?.try_into().ok()?, number()?.try_into().ok()?);
    let stamp = Stamp { bytes, inode, modified: number()?, changed: number()? };
    let written = Written { inode: number()?.try_into().ok()?, modified: number()? };
    let time = Duration::from_micros(number()?.try_into().ok()?);
    Some(Record::Done(unescaped(words.next()?)?, Entry { stamp, outcome: refusal.map_or(Ok(written), Err), time }))
}

/// The 64-bit FNV-1a sum of the direction and the text. Each step is one to one, so that a change of one byte changes it.
fn check(direction: Direction, text: &str) -> u64 {
    let bytes = direction.name().bytes().chain(text.bytes());
    bytes.fold(0xcbf29ce484222325, |sum, byte| (sum ^ u64::from(byte)).wrapping_mul(0x100000001b3))
}

#[cfg(test)]
mod tests {
    use super::*;

    const DIRECTIONS: [Direction; 2] = [Direction::Interpolate, Direction::Evaluate];

    fn records() -> Vec<Record> {
        let stamp = Stamp { bytes: 16, inode: u64::MAX, modified: -5, changed: 6 };
        let written = Written { inode: 3, modified: 7 };
        let outcomes = [Ok(written), Err(Refusal::Word(u64::MAX)), Err(Refusal::Length), Err(Refusal::LogSize)];
        let entry = |outcome| Entry { stamp, outcome, time: Duration::from_micros(1234) };
        let done = outcomes.map(|outcome| Record::Done("a b\n\\".into(), entry(outcome)));
        [Record::Head(0), Record::Head(3), Record::Kept("a b".into())].into_iter().chain(done).collect()
    }

    #[test]
    fn a_record_comes_back_from_its_line() {
        for record in records() {
            for direction in DIRECTIONS {
                let line = record.write(direction);
                assert_eq!(Record::read(direction, line.as_bytes()), Some(record.clone()), "{line}");
            }
        }
    }

    #[test]
    fn a_damaged_line_is_none() {
        for record in records() {
            let line = record.write(Direction::Interpolate).into_bytes();
            assert_eq!(Record::read(Direction::Evaluate, &line), None);
            for bit in 0..8 * line.len() {
                let mut damaged = line.clone();
                damaged[bit / 8] ^= 1 << (bit % 8);
                assert_eq!(Record::read(Direction::Interpolate, &damaged), None, "bit {bit}");
            }
            for end in 0..line.len() {
                assert_eq!(Record::read(Direction::Interpolate, &line[..end]), None);
            }
        }
    }
}
