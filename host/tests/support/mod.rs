//! For the tests that start other programs.

mod folder;

pub use folder::Folder;
use std::path::{Path, PathBuf};
use std::process::{Command, Output};

/// The repository.
pub fn root() -> PathBuf {
    Path::new(env!("CARGO_MANIFEST_DIR")).join("..").canonicalize().unwrap()
}

/// How a command ends and what it writes.
pub fn output(command: &mut Command) -> Output {
    command.output().unwrap_or_else(|error| panic!("{} can't be started: {error}", command.get_program().display()))
}

/// What a command writes to standard output. It must end well.
pub fn succeed(command: &mut Command) -> String {
    let output = output(command);
    let text = |bytes: &[u8]| String::from_utf8_lossy(bytes).into_owned();
    assert!(output.status.success(), "{command:?}\n{}{}", text(&output.stdout), text(&output.stderr));
    text(&output.stdout)
}
