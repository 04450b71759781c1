//! The folder of results, which a run has for itself.

use super::folders::{file_names, is_one};
use super::{journal, report};
use crate::access::{Access, PRIVATE_MODE};
use crate::failure::Failure;
use crate::names::shown;
use crate::result_file::{own_name, remove_parts_of_runs};
use crate::system;
use std::ffi::OsString;
use std::fs::{self, DirBuilder, File, TryLockError};
use std::io::{self, ErrorKind, Read, Write};
use std::os::fd::AsRawFd;
use std::os::unix::fs::{DirBuilderExt, MetadataExt, OpenOptionsExt};
use std::path::{Path, PathBuf};

pub struct Results {
    /// As the command line has it.
    named: PathBuf,
    /// A path to the folder that was opened, wherever the other one leads to later.
    opened: PathBuf,
    folder: File,
    /// Keeps other runs away as long as it is open. Nobody but its owner can open the file, and so hold its lock.
    lock: File,
}

impl Results {
    /// Takes a folder for this run alone. It is made if it isn't there.
    pub fn take(columns: &Path, named: &Path) -> Result<Results, Failure> {
        make(columns, named)?;
        check_apart(columns, named)?;
        let folder = File::open(named).map_err(Failure::unreadable_folder(named))?;
        let opened = path_of(&folder, named);
        check_signs(named, &opened)?;
        let lock = take_lock(named, &opened)?;
        let results = Results { named: named.to_path_buf(), opened, folder, lock };
        remove_parts_of_runs(&results.opened).map_err(Failure::unreadable_folder(named))?;
        Ok(results)
    }

    /// The path to open a file of the folder by.
    pub fn path(&self, name: impl AsRef<Path>) -> PathBuf {
        self.opened.join(name)
    }

    /// The path to tell people.
    pub fn named(&self, name: impl AsRef<Path>) -> PathBuf {
        self.named.join(name)
    }

    /// The folder, to be synced.
    pub fn folder(&self) -> &File {
        &self.folder
    }

    /// The names in it that results could have.
    pub fn file_names(&self) -> Result<Vec<OsString>, Failure> {
        file_names(&self.opened).map_err(Failure::unreadable_folder(&self.named))
    }

    /// The path must still lead to the folder and its lock: else another run may have come, or the folder isn't ours.
    pub fn check(&self) -> Result<(), Failure> {
        let path = self.named(lock_name());
        let same = || Ok(is_one(&fs::symlink_metadata(&path)?, &self.lock.metadata()?));
        let same = same().or_else(|error: io::Error| match error.kind() {
            ErrorKind::NotFound | ErrorKind::NotADirectory => Ok(false),
            _ => Err(error),
        });
        match same.map_err(Failure::machine(&path))? {
            true => Ok(()),
            false => Err(Failure::Machine(path, io::Error::other("it was removed during the run"))),
        }
    }
}

/// Makes the folder of results if it isn't there. Whoever may look into the folder of columns may look into it.
fn make(columns: &Path, results: &Path) -> Result<(), Failure> {
    let make = || {
        results.parent().map_or(Ok(()), fs::create_dir_all)?;
        match DirBuilder::new().mode(0o700).create(results) {
            // It was there, or another run has made it.
            Err(error) if error.kind() == ErrorKind::AlreadyExists && results.is_dir() => Ok(()),
            Err(error) => Err(error),
            Ok(()) => {
                let columns = File::open(columns)?;
                let access = Access::of_results(&columns.metadata()?, system::has_access_list(&columns));
                access.give(&File::open(results)?)
            }
        }
    };
    make().map_err(Failure::unwritable(results))
}

/// A column's result must not take the column's place.
pub fn check_apart(columns: &Path, results: &Path) -> Result<(), Failure> {
    let found = |path| fs::metadata(path).ok();
    match found(columns).zip(found(results)).is_some_and(|(one, other)| is_one(&one, &other)) {
        true => Err(Failure::Arguments("IN_DIR and OUT_DIR are the same folder: name another one".to_string())),
        false => Ok(()),
    }
}

/// A path to an opened folder, where Linux's /proc has it.
fn path_of(folder: &File, named: &Path) -> PathBuf {
    let path = PathBuf::from(format!("/proc/self/fd/{}", folder.as_raw_fd()));
    match fs::metadata(&path).ok().zip(folder.metadata().ok()).is_some_and(|(one, other)| is_one(&one, &other)) {
        true => path,
        false => named.to_path_buf(),
    }
}

/// A folder that bears no sign of a run must have no files: somebody else keeps them there.
fn check_signs(named: &Path, opened: &Path) -> Result<(), Failure> {
    let signs = [journal::name(), lock_name(), report::NAME.to_string()];
    let is_ours = signs.iter().any(|name| fs::symlink_metadata(opened.join(name)).is_ok());
    let is_empty = || file_names(opened).map(|names| names.is_empty());
    match is_ours || is_empty().map_err(Failure::unreadable_folder(named))? {
        true => Ok(()),
        false => Err(Failure::Arguments(format!("{} has files that no run wrote: name another folder", shown(named)))),
    }
}

fn lock_name() -> String {
    own_name("lock")
}

/// Takes the lock, and leaves the number of this process in its file.
fn take_lock(named: &Path, opened: &Path) -> Result<File, Failure> {
    let path = named.join(lock_name());
    let file = open_lock(&opened.join(lock_name())).map_err(Failure::machine(&path))?;
    match file.try_lock() {
        Ok(()) => {
            let number = std::process::id().to_string();
            let written = file.set_len(0).and_then(|()| (&file).write_all(number.as_bytes()));
            written.map(|()| file).map_err(Failure::unwritable(&path))
        }
        Err(TryLockError::WouldBlock) => {
            let holder = holder(&file).map_or(String::new(), |number| format!(", process {number},"));
            Err(Failure::Machine(
                named.to_path_buf(),
                io::Error::other(format!("another run{holder} is writing to it")),
            ))
        }
        Err(TryLockError::Error(error)) => Err(Failure::Machine(path, error)),
    }
}

fn open_lock(path: &Path) -> io::Result<File> {
    let file = system::without_following().read(true).write(true).create(true).mode(PRIVATE_MODE).open(path)?;
    let found = file.metadata()?;
    // A file that has another name as well may be somebody else's, whose permissions aren't ours to change.
    if !found.is_file() || found.nlink() > 1 {
        return Err(io::Error::other("it isn't a regular file of its own"));
    }
    Access::PRIVATE.give(&file).map(|()| file)
}

/// The number of the process that has a lock.
fn holder(file: &File) -> Option<u32> {
    let mut text = String::new();
    file.take(20).read_to_string(&mut text).ok()?;
    text.parse().ok()
}
