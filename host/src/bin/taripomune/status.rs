//! How a command ended, for a supervisor to tell apart.

use std::process::ExitCode;

#[derive(Clone, Copy, Debug, PartialEq, Eq)]
pub enum Status {
    /// Done; of a run: every column was accepted.
    Done = 0,
    /// Something can't be written, or the machine fails otherwise.
    CouldNotGoOn = 1,
    /// The words of the command line aren't a command.
    Arguments = 2,
    /// Finished, but a column was refused.
    Refused = 3,
    /// Finished, but a column couldn't be read or was passed over.
    Unreadable = 4,
    /// There is no column file.
    NothingToDo = 5,
    /// A check came out wrong.
    CheckFailed = 6,
    /// A signal ended a run before all columns were done.
    Stopped = 7,
}

impl Status {
    pub fn number(self) -> u8 {
        self as u8
    }
}

impl From<Status> for ExitCode {
    fn from(status: Status) -> ExitCode {
        ExitCode::from(status.number())
    }
}
