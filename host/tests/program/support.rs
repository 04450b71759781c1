//! Folders, columns and the program, for the tests.

pub use crate::folder::Folder;
use std::fs;
use std::hash::{BuildHasher, Hasher, RandomState};
use std::io::Read;
use std::os::unix::ffi::OsStrExt;
use std::os::unix::fs::PermissionsExt;
use std::path::{Path, PathBuf};
use std::process::{Child, Command, Output, Stdio};
use std::thread::sleep;
use std::time::{Duration, Instant};
use taripomune::{M31, P, evaluate, interpolate};

impl Folder {
    /// A folder below it.
    pub fn folder(&self, name: &str) -> PathBuf {
        fs::create_dir(self.path(name)).unwrap();
        self.path(name)
    }
}

/// A folder of columns, and one of results that isn't there yet.
pub struct Unit {
    pub folder: Folder,
    pub columns: PathBuf,
    pub results: PathBuf,
}

impl Unit {
    pub fn new(name: &str) -> Unit {
        let folder = Folder::new(name);
        let (columns, results) = (folder.folder("in"), folder.path("out"));
        Unit { folder, columns, results }
    }

    /// With good columns of these names.
    pub fn with(name: &str, names: &[&str]) -> Unit {
        let unit = Unit::new(name);
        names.iter().zip(1..).for_each(|(name, start)| unit.put(name, &bytes(&column(3, start))));
        unit
    }

    /// Puts a file into the folder of columns.
    pub fn put(&self, name: &str, contents: &[u8]) {
        fs::write(self.columns.join(name), contents).unwrap();
    }

    /// Puts a file of 2^`log_size` zeros there, which takes no room on the disk.
    pub fn put_sparse(&self, name: &str, log_size: u32) {
        fs::File::create(self.columns.join(name)).unwrap().set_len(4 << log_size).unwrap();
    }

    pub fn command(&self, options: &[&str]) -> Command {
        let mut command = program();
        command.arg("run").args(options).args([&self.columns, &self.results]);
        command
    }

    /// The command with no signal ignored, as some are where the tests run in the background.
    pub fn command_with_signals(&self, options: &[&str]) -> Command {
        let mut command = Command::new("env");
        command.args(["--default-signal=INT,TERM", PROGRAM, "run"]).args(options).args([&self.columns, &self.results]);
        command
    }

    /// The command, after others of the shell.
    pub fn command_after(&self, commands: &str, options: &[&str]) -> Command {
        let mut command = program_after(commands);
        command.arg("run").args(options).args([&self.columns, &self.results]);
        command
    }

    /// The command with a pause of so many microseconds before each call of a name, so that others can come between. Without
    /// strace there is none, which is said.
    pub fn command_with_pauses(&self, call: &str, microseconds: u32, options: &[&str]) -> Option<Command> {
        let strace = |inject: &str| {
            let mut strace = Command::new("strace");
            strace.args(["-f", "-qq", "-o", "/dev/null", "-e", &format!("trace={call}"), "-e", inject]);
            strace
        };
        let inject = format!("inject={call}:delay_enter={microseconds}");
        if !strace(&inject).arg("true").output().is_ok_and(|output| output.status.success()) {
            eprintln!("passed over, since there is no strace that can be used");
            return None;
        }
        let mut command = strace(&inject);
        command.args([PROGRAM, "run"]).args(options).args([&self.columns, &self.results]);
        Some(command)
    }

    pub fn run(&self, options: &[&str]) -> Ended {
        ended(&mut self.command(options))
    }

    /// Runs, and sees that every column is accepted.
    pub fn succeed(&self) -> Ended {
        let ended = self.run(&[]);
        assert_eq!((ended.status, ended.told.as_str()), (Some(0), ""), "{}", ended.said);
        ended
    }

    pub fn report(&self) -> Vec<String> {
        report(&self.results)
    }

    /// The results of these good columns must be there, each whole.
    pub fn assert_whole(&self, names: &[&str]) {
        for name in names {
            let words: Vec<u32> = words(&fs::read(self.columns.join(name)).unwrap());
            assert!(fs::read(self.results.join(name)).unwrap() == bytes(&interpolated(&words)), "{name} isn't whole");
        }
    }

    pub fn path_of_journal(&self) -> PathBuf {
        self.results.join(".taripomune-journal")
    }
}

/// A column of 2^`log_size` words below P, another one for each `start`.
pub fn column(log_size: u32, start: u32) -> Vec<u32> {
    let draw = |word: &M31| Some(*word * M31::from(16807));
    std::iter::successors(Some(M31::from(start + 1)), draw).skip(1).map(M31::word).take(1 << log_size).collect()
}

pub fn bytes(column: &[u32]) -> Vec<u8> {
    column.iter().flat_map(|word| word.to_le_bytes()).collect()
}

pub fn words(bytes: &[u8]) -> Vec<u32> {
    bytes.as_chunks().0.iter().map(|word| u32::from_le_bytes(*word)).collect()
}

/// What the library makes of a column.
pub fn interpolated(column: &[u32]) -> Vec<u32> {
    let mut column = column.to_vec();
    let mut scratch = vec![0; column.len()];
    interpolate(column.len().ilog2(), &mut column, &mut scratch).unwrap();
    column
}

pub fn evaluated(column: &[u32]) -> Vec<u32> {
    let mut column = column.to_vec();
    let mut scratch = vec![0; column.len()];
    evaluate(column.len().ilog2(), &mut column, &mut scratch).unwrap();
    column
}

/// A column with a word from P on at a position.
pub fn damaged(log_size: u32, position: usize) -> Vec<u32> {
    let mut damaged = column(log_size, 1);
    damaged[position] = P;
    damaged
}

pub const PROGRAM: &str = env!("CARGO_BIN_EXE_taripomune");

pub fn program() -> Command {
    Command::new(PROGRAM)
}

/// The program started by a shell after other commands, such as limits.
pub fn program_after(commands: &str) -> Command {
    let mut shell = Command::new("sh");
    shell.args(["-c", &format!("{commands}; exec \"$0\" \"$@\""), PROGRAM]);
    shell
}

/// How a command ended, and what it wrote to standard output and to standard error.
#[derive(Debug)]
pub struct Ended {
    pub status: Option<i32>,
    pub said: String,
    pub told: String,
}

impl From<Output> for Ended {
    fn from(output: Output) -> Ended {
        let text = |bytes: &[u8]| String::from_utf8(bytes.to_vec()).unwrap();
        Ended { status: output.status.code(), said: text(&output.stdout), told: text(&output.stderr) }
    }
}

/// A command that doesn't end within a minute hangs.
pub fn ended(command: &mut Command) -> Ended {
    let command = command.stdin(Stdio::null()).stdout(Stdio::piped()).stderr(Stdio::piped());
    let mut child = command.spawn().unwrap();
    // Both are read while it runs, so that it needn't wait for a reader.
    let (said, told) = (all_of(child.stdout.take().unwrap()), all_of(child.stderr.take().unwrap()));
    let status = end_of(&mut child);
    Ended { status: status.code(), said: said.join().unwrap(), told: told.join().unwrap() }
}

/// Reads a pipe to its end while other things go on.
pub fn all_of(mut pipe: impl Read + Send + 'static) -> std::thread::JoinHandle<String> {
    std::thread::spawn(move || {
        let mut text = String::new();
        pipe.read_to_string(&mut text).unwrap();
        text
    })
}

/// Waits for the end of a process, which must come within a minute.
pub fn end_of(child: &mut Child) -> std::process::ExitStatus {
    let start = Instant::now();
    loop {
        match child.try_wait().unwrap() {
            Some(status) => return status,
            None if start.elapsed() > Duration::from_secs(60) => {
                child.kill().unwrap();
                panic!("the program hangs");
            }
            None => sleep(Duration::from_millis(1)),
        }
    }
}

/// A process that is killed when this value goes.
pub struct Background(pub Child);

impl Background {
    pub fn start(command: &mut Command) -> Background {
        Background(command.spawn().unwrap())
    }
}

impl Drop for Background {
    fn drop(&mut self) {
        let _ = self.0.kill();
        let _ = self.0.wait();
    }
}

/// Waits until something holds, for a minute at most.
pub fn wait_until(what: &str, mut holds: impl FnMut() -> bool) {
    let start = Instant::now();
    while !holds() {
        assert!(start.elapsed() < Duration::from_secs(60), "{what}: not within a minute");
        sleep(Duration::from_millis(5));
    }
}

/// Sends a signal, by its name without SIG.
pub fn signal(child: &Child, name: &str) {
    assert!(Command::new("kill").args(["-s", name, &child.id().to_string()]).status().unwrap().success());
}

pub fn make_pipe(path: &Path) {
    assert!(Command::new("mkfifo").arg(path).status().unwrap().success());
}

pub fn mode(path: &Path) -> u32 {
    fs::symlink_metadata(path).unwrap().permissions().mode() & 0o7777
}

pub fn set_mode(path: &Path, mode: u32) {
    fs::set_permissions(path, fs::Permissions::from_mode(mode)).unwrap();
}

/// The names in a folder that begin with no dot, in their order.
pub fn names(folder: &Path) -> Vec<String> {
    let names = fs::read_dir(folder).unwrap().map(|entry| entry.unwrap().file_name());
    let kept = names.filter(|name| !name.as_bytes().starts_with(b"."));
    let mut kept: Vec<String> = kept.map(|name| name.to_string_lossy().into_owned()).collect();
    kept.sort();
    kept
}

/// What begins with a dot besides the journal and the lock: nothing that a run has begun may be left.
pub fn left_over(folder: &Path) -> Vec<PathBuf> {
    let paths = fs::read_dir(folder).unwrap().map(|entry| entry.unwrap().path());
    let own = |path: &PathBuf| path.file_name().unwrap().as_bytes().starts_with(b".");
    let known = |path: &PathBuf| path.ends_with(".taripomune-journal") || path.ends_with(".taripomune-lock");
    paths.filter(|path| own(path) && !known(path)).collect()
}

/// The lines of a report without the milliseconds, which must be numbers.
pub fn report(results: &Path) -> Vec<String> {
    let text = fs::read_to_string(results.join("taripomune-report.tsv")).unwrap();
    let without_time = |line: &str| {
        let [name, bytes, outcome, time, why] = line.split('\t').collect::<Vec<_>>().try_into().unwrap();
        time.parse::<f64>().unwrap();
        [name, bytes, outcome, why].join("\t")
    };
    text.lines().map(without_time).collect()
}

pub fn random(below: u64) -> u64 {
    RandomState::new().build_hasher().finish() % below
}

/// Whether the tests are root's. What needs it is passed over otherwise, and that is said.
pub fn is_root(what: &str) -> bool {
    let output = Command::new("id").arg("-u").output().unwrap();
    let is_root = output.stdout == b"0\n";
    if !is_root {
        eprintln!("passed over, since it needs root: {what}");
    }
    is_root
}
