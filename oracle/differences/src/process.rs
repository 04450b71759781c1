//! Calls the Rust in a process of its own, since it may panic, never end, or end the process.

use crate::call::Call;
use crate::rust::cell;
use std::os::unix::process::ExitStatusExt;
use std::panic::{catch_unwind, set_hook, AssertUnwindSafe, PanicHookInfo};
use std::path::PathBuf;
use std::process::{Child, Command, Stdio};
use std::sync::Mutex;
use std::thread::sleep;
use std::time::{Duration, Instant};

/// The word before the name and the numbers, where this program is the process.
pub const ANSWER: &str = "answer";

/// A call that takes longer doesn't end.
const SECONDS: u64 = 2;

/// Where stwo's files lie in the folder of its sources.
const STWO: &str = "/crates/stwo/src/core/";

/// Where the panics of this process came from.
static PANICS: Mutex<Vec<String>> = Mutex::new(Vec::new());

/// What the Rust does, in this process. A panic in code of our own is no answer of the Rust.
pub fn answer(name: &str, numbers: &[i128]) -> Result<String, String> {
    let call = Call::named(name)?;
    set_hook(Box::new(note));
    let returned = catch_unwind(AssertUnwindSafe(|| cell(&call, numbers)));
    let panics = PANICS.lock().map_err(|_| "a panic was noted by half")?;
    match panics.iter().find(|panic| !panic.contains(STWO)) {
        Some(panic) => Err(format!("{name} of {numbers:?} panics outside of stwo, at {panic}")),
        None => Ok(returned.unwrap_or_else(|_| "panics".to_string())),
    }
}

fn note(info: &PanicHookInfo) {
    let place = info.location().map_or("no place".to_string(), |location| location.to_string());
    PANICS.lock().expect("no panic happens while one is noted").push(place);
}

/// This program, built twice.
pub struct Builds {
    /// With overflow checks and debug assertions.
    pub debug: PathBuf,
    /// Without them.
    pub release: PathBuf,
}

impl Builds {
    pub fn answer(&self, name: &str, numbers: &[i128]) -> Result<String, String> {
        let started = Instant::now();
        let children = [&self.debug, &self.release].map(|program| start(program, name, numbers));
        let [debug, release] = children.map(|child| finish(child?, started, name));
        let (debug, release) = (debug?, release?);
        Ok(if debug == release { debug } else { format!("debug: {debug}; release: {release}") })
    }
}

fn start(program: &PathBuf, name: &str, numbers: &[i128]) -> Result<Child, String> {
    let mut command = Command::new(program);
    command.args([ANSWER, name]).args(numbers.iter().map(i128::to_string));
    let child = command.stdout(Stdio::piped()).stderr(Stdio::piped()).spawn();
    child.map_err(|error| format!("{}: {error}", program.display()))
}

fn finish(mut child: Child, started: Instant, name: &str) -> Result<String, String> {
    let failed = |error| format!("the process of {name}: {error}");
    while child.try_wait().map_err(failed)?.is_none() {
        if started.elapsed() > Duration::from_secs(SECONDS) {
            child.kill().and_then(|()| child.wait()).map_err(failed)?;
            return Ok(format!("does not end (cut off after {SECONDS} s)"));
        }
        sleep(Duration::from_millis(1));
    }
    let output = child.wait_with_output().map_err(failed)?;
    let text = |bytes: &[u8]| String::from_utf8_lossy(bytes).trim_end().to_string();
    match output.status.signal() {
        Some(signal) => Ok(format!("ends the process by signal {signal}")),
        None if output.status.success() => Ok(text(&output.stdout)),
        None => Err(text(&output.stderr)),
    }
}
