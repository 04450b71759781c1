//! Column files: 2^n words, n from 1 to 30, each as four bytes, the lowest first.

use crate::access::Access;
use crate::failure::Failure;
use crate::memory;
use crate::system;
use std::fs::{self, File, Metadata};
use std::io::{self, ErrorKind, Read, Seek};
use std::os::unix::fs::MetadataExt;
use std::path::{Path, PathBuf};
use std::thread::sleep;
use std::time::{Duration, UNIX_EPOCH};
use taripomune::{MAX_CIRCLE_DOMAIN_LOG_SIZE, MIN_CIRCLE_DOMAIN_LOG_SIZE, Refusal, evaluate, interpolate};

pub const WORD: usize = size_of::<u32>();

/// Files are read and written in pieces of so many bytes.
pub const PIECE: usize = 1 << 16;

#[derive(Clone, Copy, PartialEq, Eq)]
pub enum Direction {
    Interpolate,
    Evaluate,
}

impl Direction {
    pub fn name(self) -> &'static str {
        match self {
            Direction::Interpolate => "interpolate",
            Direction::Evaluate => "evaluate",
        }
    }
}

/// What tells whether a file is still the one that it was: its length, its inode, and when its contents and anything about
/// it were changed last, in nanoseconds since 1970.
#[derive(Clone, Copy, Debug, PartialEq, Eq)]
pub struct Stamp {
    pub bytes: u64,
    pub inode: u64,
    pub modified: i128,
    pub changed: i128,
}

impl Stamp {
    pub fn of(found: &Metadata) -> Stamp {
        let nanoseconds = |seconds: i64, more: i64| i128::from(seconds) * 1_000_000_000 + i128::from(more);
        Stamp {
            bytes: found.len(),
            inode: found.ino(),
            modified: nanoseconds(found.mtime(), found.mtime_nsec()),
            changed: nanoseconds(found.ctime(), found.ctime_nsec()),
        }
    }
}

/// A file opened to be read, and what it was then.
pub struct Source {
    path: PathBuf,
    file: File,
    pub found: Metadata,
}

impl Source {
    /// A file that the command line names. A link leads to it.
    pub fn named(path: &Path) -> Result<Source, Failure> {
        Source::open(path, fs::metadata(path), system::without_waiting()).map_err(|failure| match failure {
            Failure::PassedOver(path, why) => Failure::Unreadable(path, io::Error::other(why)),
            failure => failure,
        })
    }

    /// A file of a folder that others may write to. A link isn't followed: it could lead to what they may not read.
    pub fn in_folder(path: &Path) -> Result<Source, Failure> {
        Source::open(path, fs::symlink_metadata(path), system::without_following())
    }

    /// It is judged before it is opened, since opening a device can do something, and by what was opened: another file may
    /// have taken its place.
    fn open(path: &Path, before: io::Result<Metadata>, mut options: fs::OpenOptions) -> Result<Source, Failure> {
        let unreadable = || Failure::unreadable(path);
        check_file(path, &before.map_err(unreadable())?)?;
        let file = options.read(true).open(path).map_err(|error| match system::is_unfollowed(&error) {
            true => Failure::passed_over(path, LINK),
            false => unreadable()(error),
        })?;
        let found = file.metadata().map_err(unreadable())?;
        check_file(path, &found)?;
        Ok(Source { path: path.to_path_buf(), file, found })
    }

    /// Who may read and write its result.
    pub fn access(&self) -> Access {
        Access::of_result(&self.found, system::has_access_list(&self.file))
    }

    /// Waits until a change of the file would show in its times, which go by a clock that ticks. As long as the file is open
    /// no other one gets its inode, so that from then on its stamp is its own.
    pub fn wait_for_tick(&self) {
        let now = UNIX_EPOCH.elapsed().map_or(0, |time| time.as_nanos() as i128);
        sleep(time_to_tick(Stamp::of(&self.found).changed, now));
    }

    /// How many words it has, as a log size.
    pub fn log_size(&self) -> Result<u32, Failure> {
        log_size(self.found.len()).map_err(|refusal| self.refused(refusal))
    }

    pub fn refused(&self, refusal: Refusal) -> Failure {
        Failure::Refused(self.path.clone(), refusal)
    }

    /// Hands on its words, which must be so many, piece by piece. A file that changes after it was opened is none of the
    /// columns that it was.
    pub fn read(&self, words: usize, take: impl FnMut(&[[u8; WORD]])) -> Result<(), Failure> {
        let read = || {
            (&self.file).rewind()?;
            read_words(&self.file, words, take)?;
            match Stamp::of(&self.found) == Stamp::of(&self.file.metadata()?) {
                true => Ok(()),
                false => Err(io::Error::other("it changed while it was read")),
            }
        };
        read().map_err(Failure::unreadable(&self.path))
    }

    /// Whether it holds just these words.
    pub fn holds(&self, column: &[u32]) -> Result<bool, Failure> {
        let mut same = self.found.len() == (column.len() * WORD) as u64;
        let mut read = 0;
        if same {
            self.read(column.len(), |piece| {
                same &= column[read..].iter().zip(piece).all(|(word, bytes)| word.to_le_bytes() == *bytes);
                read += piece.len();
            })?;
        }
        Ok(same)
    }
}

/// How long to wait after a file was changed, until a later change has another time: times of whole seconds are of a file
/// system that keeps no others, and some count by two. Nanoseconds since 1970.
fn time_to_tick(changed: i128, now: i128) -> Duration {
    let tick = if changed % 1_000_000_000 == 0 { Duration::from_secs(2) } else { Duration::from_millis(20) };
    let age = Duration::from_nanos((now - changed).try_into().unwrap_or(0));
    tick.saturating_sub(age)
}

const LINK: &str = "it is a link";

fn check_file(path: &Path, found: &Metadata) -> Result<(), Failure> {
    match found.file_type() {
        kind if kind.is_file() => Ok(()),
        kind if kind.is_symlink() => Err(Failure::passed_over(path, LINK)),
        _ => Err(Failure::passed_over(path, "it isn't a regular file")),
    }
}

/// The words of a column and of scratch, kept from column to column.
#[derive(Default)]
pub struct Buffers {
    column: Vec<u32>,
    scratch: Vec<u32>,
}

impl Buffers {
    /// Reads a column file and transforms its words.
    pub fn transform(&mut self, direction: Direction, source: &Source) -> Result<&[u32], Failure> {
        let log_size = source.log_size()?;
        let words = 1 << log_size;
        let room = memory::make_room([&mut self.column, &mut self.scratch], words);
        room.map_err(Failure::unreadable(&source.path))?;
        let (column, scratch) = (&mut self.column[..words], &mut self.scratch[..words]);
        let mut read = 0;
        source.read(words, |piece| {
            for (word, bytes) in column[read..].iter_mut().zip(piece) {
                *word = u32::from_le_bytes(*bytes);
            }
            read += piece.len();
        })?;
        let transform = match direction {
            Direction::Interpolate => interpolate::<u32>,
            Direction::Evaluate => evaluate::<u32>,
        };
        transform(log_size, column, scratch).map_err(|refusal| source.refused(refusal))?;
        Ok(column)
    }
}

/// The log size of a column file of so many bytes. A length that is no power of two has none, so that it is refused as
/// a length; one that has a log size is refused by that.
fn log_size(bytes: u64) -> Result<u32, Refusal> {
    let words = bytes / WORD as u64;
    if words * WORD as u64 != bytes || !words.is_power_of_two() {
        return Err(Refusal::Length);
    }
    let log_sizes = MIN_CIRCLE_DOMAIN_LOG_SIZE..=MAX_CIRCLE_DOMAIN_LOG_SIZE;
    Some(words.ilog2()).filter(|log_size| log_sizes.contains(log_size)).ok_or(Refusal::LogSize)
}

/// Hands on so many words, which must be all that there are.
fn read_words(mut source: impl Read, words: usize, mut take: impl FnMut(&[[u8; WORD]])) -> io::Result<()> {
    let changed = |what| io::Error::new(ErrorKind::UnexpectedEof, format!("it became {what} while it was read"));
    let mut piece = vec![0; PIECE];
    let mut left = words * WORD;
    while left > 0 {
        let bytes = left.min(PIECE);
        source.read_exact(&mut piece[..bytes]).map_err(|error| match error.kind() {
            ErrorKind::UnexpectedEof => changed("shorter"),
            _ => error,
        })?;
        take(piece[..bytes].as_chunks().0);
        left -= bytes;
    }
    match source.read(&mut piece[..1])? {
        0 => Ok(()),
        _ => Err(changed("longer")),
    }
}

#[cfg(test)]
mod tests {
    use super::*;

    #[test]
    fn a_log_size_is_that_of_a_power_of_two() {
        let refused =
            [(0, 8), (1, 8), (4, 6), (6, 8), (7, 8), (12, 8), (4 << 31, 6), ((4 << 30) + 4, 8), (u64::MAX, 8)];
        for (bytes, number) in refused {
            assert_eq!(log_size(bytes).map_err(Refusal::number), Err(number), "{bytes} bytes");
        }
        for n in 1..=30 {
            assert_eq!(log_size(4 << n), Ok(n));
        }
    }

    #[test]
    fn a_file_is_waited_for_until_its_times_would_be_others() {
        let milliseconds = |changed: i128, now: i128| time_to_tick(changed * 1_000_000, now * 1_000_000).as_millis();
        assert_eq!(milliseconds(5_001, 5_001), 20);
        assert_eq!(milliseconds(5_001, 5_015), 6);
        assert_eq!(milliseconds(5_001, 5_021), 0);
        assert_eq!(milliseconds(5_001, 9_999_999), 0);
        // Whole seconds.
        assert_eq!(milliseconds(5_000, 5_300), 1_700);
        assert_eq!(milliseconds(5_000, 7_000), 0);
        // The clock was set back.
        assert_eq!(milliseconds(5_001, 1_001), 20);
    }

    #[test]
    fn a_file_that_changes_while_it_is_read_is_no_column() {
        let bytes = [1, 0, 0, 0, 2, 0, 0, 0];
        let read = |bytes: &[u8]| {
            let mut column = Vec::new();
            let take = |words: &[[u8; WORD]]| column.extend(words.iter().map(|word| u32::from_le_bytes(*word)));
            read_words(bytes, 2, take).map(|()| column).map_err(|error| error.to_string())
        };
        assert_eq!(read(&bytes), Ok(vec![1, 2]));
        assert_eq!(read(&bytes[..7]), Err("it became shorter while it was read".to_string()));
        assert_eq!(read(&bytes[..0]), Err("it became shorter while it was read".to_string()));
        assert_eq!(read(&[&bytes[..], &[0]].concat()), Err("it became longer while it was read".to_string()));
    }
}
