//! What is in the folder of columns and in the folder of results.

use super::report;
use crate::failure::Failure;
use crate::memory;
use std::ffi::{OsStr, OsString};
use std::fs::{self, DirEntry, Metadata};
use std::io::{self, ErrorKind};
use std::os::unix::fs::MetadataExt;
use std::path::Path;

/// What is in the folder of columns.
pub struct Listing {
    /// In their order.
    pub names: Vec<OsString>,
    /// How many names there are besides: folders, what begins with a dot, the report of another run.
    pub not_taken: usize,
}

/// Memory is asked for after so many names again.
const NAMES: usize = 4096;

/// Lists the folder of columns.
pub struct Lister<'a> {
    folder: &'a Path,
    /// How much memory was asked for, which an earlier listing has.
    asked: u64,
}

impl Lister<'_> {
    pub fn new(folder: &Path) -> Lister<'_> {
        Lister { folder, asked: 0 }
    }

    /// What isn't a file is listed too, but for folders, so that it is told.
    pub fn list(&mut self) -> Result<Listing, Failure> {
        let mut list = || {
            let mut listing = Listing { names: Vec::new(), not_taken: 0 };
            let mut bytes = 0;
            for entry in fs::read_dir(self.folder)? {
                let entry = entry?;
                let name = entry.file_name();
                if !is_taken(&entry, &name)? {
                    listing.not_taken += 1;
                    continue;
                }
                bytes += memory_of(&name);
                listing.names.push(name);
                if listing.names.len().is_multiple_of(NAMES) {
                    memory::ask(bytes.saturating_sub(self.asked), "more to keep its names")?;
                }
            }
            self.asked = self.asked.max(bytes);
            listing.names.sort();
            Ok(listing)
        };
        list().map_err(Failure::unreadable_folder(self.folder))
    }
}

fn is_taken(entry: &DirEntry, name: &OsStr) -> io::Result<bool> {
    match entry.file_type() {
        // It went away meanwhile, which is seen when it is opened.
        Err(error) if error.kind() == ErrorKind::NotFound => Ok(!is_own(name)),
        kind => Ok(!kind?.is_dir() && !is_own(name)),
    }
}

/// What is kept for a name: it stands in lists, in the journal's lines and in the report's.
fn memory_of(name: &OsStr) -> u64 {
    8 * name.len() as u64 + 1100
}

/// The names in the folder of results that results could have.
pub fn file_names(results: &Path) -> io::Result<Vec<OsString>> {
    let names: io::Result<Vec<OsString>> = fs::read_dir(results)?.map(|entry| Ok(entry?.file_name())).collect();
    Ok(names?.into_iter().filter(|name| !is_own(name)).collect())
}

/// Whether a name is none of a column.
fn is_own(name: &OsStr) -> bool {
    name.as_encoded_bytes().starts_with(b".") || name == report::NAME
}

/// Whether two paths led to one file or folder.
pub fn is_one(one: &Metadata, other: &Metadata) -> bool {
    (one.dev(), one.ino()) == (other.dev(), other.ino())
}
