//! What a command prints.

use crate::json::Object;
use std::io::{self, ErrorKind, Write};
use std::sync::atomic::{AtomicBool, Ordering};

#[derive(Clone, Copy)]
pub struct Output {
    /// None where the words of the command line aren't a command.
    pub command: Option<&'static str>,
    /// Lines of JSON on standard output, and nothing else there.
    pub json: bool,
    /// Nothing but JSON, and why a command couldn't be done.
    pub quiet: bool,
}

impl Output {
    /// Writes lines to standard output, for people.
    pub fn say(self, text: &str) {
        if !self.quiet {
            self.print(text);
        }
    }

    /// Writes what was asked for, also if the command is to be quiet.
    pub fn print(self, text: &str) {
        if !self.json {
            write(&format!("{}\n", text.trim_end()));
        }
    }

    /// Writes a line to standard error.
    pub fn tell(self, line: &str) {
        if !self.quiet {
            tell(line);
        }
    }

    /// Writes a line of JSON to standard output.
    pub fn object(self, object: &Object) {
        if self.json {
            write(&format!("{}\n", object.line()));
        }
    }

    /// The object of an event of this command.
    pub fn event(self, event: &str) -> Object {
        Object::event(event).maybe_text("command", self.command)
    }
}

/// Whether something couldn't be written to standard output.
static IS_CUT: AtomicBool = AtomicBool::new(false);

/// That nobody reads it is no failure.
fn write(text: &str) {
    let mut stdout = io::stdout();
    let written = stdout.write_all(text.as_bytes()).and_then(|()| stdout.flush());
    if written.is_err_and(|error| error.kind() != ErrorKind::BrokenPipe) {
        IS_CUT.store(true, Ordering::Relaxed);
    }
}

/// Whether all that was to be written to standard output is, or nobody reads it.
pub fn is_whole() -> bool {
    !IS_CUT.load(Ordering::Relaxed)
}

/// Writes a line to standard error, also if the command is to be quiet.
pub fn tell(line: &str) {
    // In one piece, so that the lines of two programs don't mix.
    let _ = io::stderr().write_all(format!("taripomune: {line}\n").as_bytes());
}
