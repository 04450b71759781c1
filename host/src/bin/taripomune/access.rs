//! Who may read and write a file that the program writes.

use crate::system;
use std::fs::{File, Metadata, Permissions};
use std::io::{self, ErrorKind};
use std::os::unix::fs::{MetadataExt, PermissionsExt, fchown};

/// Reading and writing for the owner alone.
pub const PRIVATE_MODE: u32 = 0o600;

#[derive(Clone, Copy, Debug, PartialEq, Eq)]
pub struct Access {
    mode: u32,
    /// The group that the permissions are meant for, where that matters.
    group: Option<u32>,
}

impl Access {
    pub const PRIVATE: Access = Access { mode: PRIVATE_MODE, group: None };

    #[cfg(feature = "baselines")]
    pub const FOR_READERS: Access = Access { mode: 0o644, group: None };

    /// Of a result: to read and to write, as its column, and nothing else. A program, or one that runs as its owner, can't be
    /// made by way of a column. Where a list says more about the column, its result is for the owner alone: then the
    /// permissions of the group are a bound for all on the list.
    pub fn of_result(column: &Metadata, has_access_list: bool) -> Access {
        let mask = if has_access_list { 0o600 } else { 0o666 };
        Access { mode: column.mode() & mask, group: Some(column.gid()) }
    }

    /// Of a folder of results: to look into it, as into the folder of columns.
    pub fn of_results(columns: &Metadata, has_access_list: bool) -> Access {
        let mask = if has_access_list { 0o700 } else { 0o755 };
        Access { mode: (columns.mode() & mask) | 0o700, group: Some(columns.gid()) }
    }

    /// Gives it to a file, where the file system has permissions.
    pub fn give(self, file: &File) -> io::Result<()> {
        let is_foreign = |group| Ok::<bool, io::Error>(file.metadata()?.gid() != group);
        let mode = match self.group {
            // The folder of the file has given it a list of its own.
            _ if system::has_access_list(file) => self.mode & 0o700,
            Some(group) if is_foreign(group)? && fchown(file, None, Some(group)).is_err() => {
                for_another_group(self.mode)
            }
            _ => self.mode,
        };
        match file.set_permissions(Permissions::from_mode(mode)) {
            Err(error) if matches!(error.kind(), ErrorKind::PermissionDenied | ErrorKind::Unsupported) => Ok(()),
            done => done,
        }
    }

    /// Takes from a file what this doesn't give.
    pub fn narrow(self, file: &File) -> io::Result<()> {
        let found = file.metadata()?;
        let is_foreign = self.group.is_some_and(|group| group != found.gid());
        let mode = if is_foreign { for_another_group(self.mode) } else { self.mode };
        match found.mode() & 0o7777 & !mode {
            0 => Ok(()),
            _ => file.set_permissions(Permissions::from_mode(found.mode() & mode)),
        }
    }
}

/// The permissions of a file whose group isn't the one that they were meant for: its users were others there, and the users of
/// that group are others here, so that both get what both had.
fn for_another_group(mode: u32) -> u32 {
    let both = (mode >> 3) & mode & 0o7;
    (mode & 0o700) | (both << 3) | both
}

#[cfg(test)]
mod tests {
    use super::*;

    #[test]
    fn another_group_gets_no_more_than_everybody() {
        let modes = [(0o640, 0o600), (0o644, 0o644), (0o660, 0o600), (0o664, 0o644), (0o604, 0o600), (0o750, 0o700)];
        for (mode, given) in modes {
            assert_eq!(for_another_group(mode), given, "{mode:o}");
        }
    }
}
