//! Why a command, or a column of a run, has no result.

use crate::names::shown;
use crate::status::Status;
use std::fmt;
use std::io;
use std::path::{Path, PathBuf};
use taripomune::Refusal;

pub enum Failure {
    /// The words of the command line aren't a command.
    Arguments(String),
    /// The library, or the program by the same table, refuses a file.
    Refused(PathBuf, Refusal),
    /// A file can't be read, or there is no room for it in memory.
    Unreadable(PathBuf, io::Error),
    /// A file isn't one to take.
    PassedOver(PathBuf, String),
    /// A file can't be written, or something else of the machine fails.
    Machine(PathBuf, io::Error),
    /// This program can't do it.
    Unavailable(String),
    /// A signal came.
    Stopped,
    /// A check came out wrong.
    Wrong(String),
}

impl Failure {
    pub fn machine(path: &Path) -> impl FnOnce(io::Error) -> Failure {
        let path = path.to_path_buf();
        |error| Failure::Machine(path, error)
    }

    pub fn unreadable(path: &Path) -> impl FnOnce(io::Error) -> Failure {
        let path = path.to_path_buf();
        |error| Failure::Unreadable(path, error)
    }

    pub fn passed_over(path: &Path, why: &str) -> Failure {
        Failure::PassedOver(path.to_path_buf(), why.to_string())
    }

    /// A command can't go on where a folder can't be read.
    pub fn unreadable_folder(path: &Path) -> impl FnOnce(io::Error) -> Failure {
        let path = path.to_path_buf();
        |error| Failure::Machine(path, io::Error::new(error.kind(), format!("can't be read: {error}")))
    }

    pub fn unwritable<E: Into<io::Error>>(path: &Path) -> impl FnOnce(E) -> Failure {
        let path = path.to_path_buf();
        |error| {
            let error = error.into();
            Failure::Machine(path, io::Error::new(error.kind(), format!("can't be written: {error}")))
        }
    }

    pub fn status(&self) -> Status {
        match self {
            Failure::Arguments(_) => Status::Arguments,
            Failure::Refused(..) => Status::Refused,
            Failure::Unreadable(..) | Failure::PassedOver(..) => Status::Unreadable,
            Failure::Machine(..) | Failure::Unavailable(_) => Status::CouldNotGoOn,
            Failure::Stopped => Status::Stopped,
            Failure::Wrong(_) => Status::CheckFailed,
        }
    }

    /// Why, without what became of the file.
    pub fn why(&self) -> String {
        match self {
            Failure::Arguments(why) | Failure::Unavailable(why) | Failure::Wrong(why) => why.clone(),
            Failure::PassedOver(_, why) => why.clone(),
            Failure::Stopped => "stopped by a signal".to_string(),
            Failure::Refused(_, refusal) => refusal.sentence().to_string(),
            Failure::Unreadable(_, error) | Failure::Machine(_, error) => error.to_string(),
        }
    }

    /// Whether there was no memory for a column, or for the names of all.
    pub fn is_of_memory(&self) -> bool {
        let is = |error: &io::Error| error.kind() == io::ErrorKind::OutOfMemory;
        matches!(self, Failure::Unreadable(_, error) | Failure::Machine(_, error) if is(error))
    }

    fn sentence(&self) -> String {
        match self {
            Failure::Refused(_, refusal) => refusal.to_string(),
            Failure::Unreadable(..) => format!("can't be read: {}", self.why()),
            Failure::PassedOver(..) => format!("passed over: {}", self.why()),
            _ => self.why(),
        }
    }

    fn path(&self) -> Option<&Path> {
        match self {
            Failure::Arguments(_) | Failure::Unavailable(_) | Failure::Stopped | Failure::Wrong(_) => None,
            Failure::Refused(path, _) => Some(path),
            Failure::Unreadable(path, _) | Failure::Machine(path, _) => Some(path),
            Failure::PassedOver(path, _) => Some(path),
        }
    }
}

impl fmt::Display for Failure {
    fn fmt(&self, f: &mut fmt::Formatter<'_>) -> fmt::Result {
        match self.path() {
            Some(path) => write!(f, "{}: {}", shown(path), self.sentence()),
            None => write!(f, "{}", self.sentence()),
        }
    }
}
