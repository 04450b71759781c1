//! Files that the program writes: whole or not at all.

use crate::access::{Access, PRIVATE_MODE};
use crate::column_file::{PIECE, WORD};
use std::fs::{self, File, Metadata};
use std::io::{self, ErrorKind, Write};
use std::os::unix::fs::OpenOptionsExt;
use std::path::{Path, PathBuf};

pub fn write_words(column: &[u32], file: &mut File) -> io::Result<()> {
    let mut piece = Vec::with_capacity(PIECE);
    for words in column.chunks(PIECE / WORD) {
        piece.clear();
        piece.extend(words.iter().flat_map(|word| word.to_le_bytes()));
        file.write_all(&piece)?;
    }
    Ok(())
}

/// Whether a result may be put there: it takes the place of a regular file only.
pub fn is_place(path: &Path) -> bool {
    fs::symlink_metadata(path).map_or(true, |found| found.is_file())
}

/// Why a file isn't written.
pub enum Unwritten {
    /// No file can be written there now.
    Folder(io::Error),
    /// This one can't.
    File(io::Error),
}

impl Unwritten {
    /// Why a file can't get its name or lose it, as a folder there can't.
    pub fn of_place(error: io::Error) -> Unwritten {
        match error.kind() {
            ErrorKind::StorageFull | ErrorKind::QuotaExceeded | ErrorKind::ReadOnlyFilesystem | ErrorKind::NotFound => {
                Unwritten::Folder(error)
            }
            _ => Unwritten::File(error),
        }
    }

    fn of_contents(error: io::Error) -> Unwritten {
        match error.kind() {
            ErrorKind::FileTooLarge => Unwritten::File(error),
            _ => Unwritten::Folder(error),
        }
    }
}

impl From<Unwritten> for io::Error {
    fn from(unwritten: Unwritten) -> io::Error {
        match unwritten {
            Unwritten::Folder(error) | Unwritten::File(error) => error,
        }
    }
}

/// Writes a file under a name of its own beside `path`, syncs it and renames it. If something fails before it is renamed,
/// nothing is left under the name of its own, and `path` is as it was. Nobody else can read it before it is whole. Answers
/// with the file, which can be written to further, and with what it was when nobody else could have changed it.
pub fn write_beside(
    path: &Path,
    own: &str,
    access: Access,
    contents: impl FnOnce(&mut File) -> io::Result<()>,
) -> Result<(File, Metadata), Unwritten> {
    let folder = File::open(folder_of(path)).map_err(Unwritten::Folder)?;
    let (mut file, part) = create(folder_of(path), own).map_err(Unwritten::Folder)?;
    let write = || {
        contents(&mut file)?;
        let found = file.metadata()?;
        access.give(&file)?;
        file.sync_all().map(|()| found)
    };
    let written = write().map_err(Unwritten::of_contents);
    let renamed = written.and_then(|found| fs::rename(&part, path).map(|()| found).map_err(Unwritten::of_place));
    let found = renamed.inspect_err(|_| {
        // The first error is the one to tell.
        let _ = remove(&part);
    })?;
    sync(&folder).map_err(Unwritten::Folder).map(|()| (file, found))
}

/// A new file in a folder, for the owner alone. What another process has under such a name isn't touched.
fn create(folder: &Path, own: &str) -> io::Result<(File, PathBuf)> {
    let mut name = own.to_string();
    let mut count = 0;
    loop {
        let part = folder.join(own_name(&format!("{name}{PART_END}")));
        match File::options().write(true).create_new(true).mode(PRIVATE_MODE).open(&part) {
            Err(error) if error.kind() == ErrorKind::AlreadyExists => count += 1,
            created => return created.map(|file| (file, part)),
        }
        name = format!("{own}-{count}");
    }
}

/// The name of a file that the program makes for itself; no column has such a name.
pub fn own_name(what: &str) -> String {
    format!(".taripomune-{what}")
}

/// How the name of a file ends before it is renamed.
const PART_END: &str = ".part";

/// A name of its own for a file that a run writes, which no other process uses.
pub fn part_of_run(what: &str) -> String {
    format!("{RUN}{}-{what}", std::process::id())
}

/// How such names begin.
const RUN: &str = "run-";

/// Removes what other runs had begun to write.
pub fn remove_parts_of_runs(folder: &Path) -> io::Result<()> {
    for entry in fs::read_dir(folder)? {
        let name = entry?.file_name();
        if name.to_str().is_some_and(|name| name.starts_with(&own_name(RUN)) && name.ends_with(PART_END)) {
            // What can't be removed, as a folder, is in nobody's way.
            let _ = remove(&folder.join(name));
        }
    }
    Ok(())
}

/// Removes a file if it is there.
pub fn remove(path: &Path) -> io::Result<()> {
    match fs::remove_file(path) {
        Err(error) if error.kind() == ErrorKind::NotFound => Ok(()),
        done => done,
    }
}

/// Makes the names in a folder last, where the file system can do that.
pub fn sync(folder: &File) -> io::Result<()> {
    match folder.sync_all() {
        Err(error) if matches!(error.kind(), ErrorKind::InvalidInput | ErrorKind::Unsupported) => Ok(()),
        done => done,
    }
}

fn folder_of(path: &Path) -> &Path {
    match path.parent() {
        Some(folder) if folder != Path::new("") => folder,
        _ => Path::new("."),
    }
}
