//! The archive: where it is, and how it is made.

use crate::cargo::CargoError;
use crate::stop;
use std::env;
use std::fs;
use std::io::{self, BufRead, BufReader, Read};
use std::path::{Path, PathBuf};
use std::process::{self, Child, Command, Output, Stdio};
use std::thread;
use std::time::{Instant, SystemTime};

/// The crate of the static library, and the command that proves and compiles it, there: for every processor, since a
/// static library doesn't see what its own has.
const CRATE: &str = "crates/taripomune_c";
const COMMAND: &str = "`rt lib --cpu x86-64` in crates/taripomune_c";

/// Names the archive of the folder `TARIPOMUNE_LIB`, or else the repository's own, which is made here.
pub fn link(root: &Path) {
    println!("cargo::rerun-if-env-changed=TARIPOMUNE_LIB");
    if env::var("TARGET").unwrap() != "x86_64-unknown-linux-gnu" {
        stop("libtaripomune.a is compiled for x86_64-unknown-linux-gnu, and for no other target");
    }
    let given = env::var_os("TARIPOMUNE_LIB").filter(|folder| !folder.is_empty()).map(PathBuf::from);
    if let Some(folder) = given.as_ref().filter(|folder| folder.is_relative()) {
        stop(&format!("TARIPOMUNE_LIB is {}: give the folder's whole path", folder.display()));
    }
    let folder = given.clone().unwrap_or_else(|| root.join("target/staticlib"));
    let archive = folder.join("libtaripomune.a");
    println!("cargo::rerun-if-changed={}", archive.display());
    match given {
        Some(_) if !archive.exists() => stop(&format!("{} (TARIPOMUNE_LIB) isn't there", archive.display())),
        Some(_) => {}
        None => {
            println!("cargo::rerun-if-changed={}", root.join("crates.txt").display());
            let sources = sources(&root.join("crates"));
            for folder in &sources {
                println!("cargo::rerun-if-changed={}", folder.display());
            }
            let made = changed(&archive);
            if made.is_none() || sources.iter().filter_map(|folder| newest_source(folder)).max() > made {
                make(root, &archive);
            }
        }
    }
    println!("cargo::rustc-link-search=native={}", folder.display());
    println!("cargo::rustc-link-lib=static=taripomune");
}

/// Proves the library, compiles it and puts the archive into its place. What is proved already isn't proved again; from
/// nothing it takes some minutes.
fn make(root: &Path, archive: &Path) {
    let missing = format!("{} is missing or older than its sources", archive.display());
    let began = Instant::now();
    let folder = root.join(CRATE);
    let rt = match start(&folder) {
        Ok(rt) => rt,
        // A folder that isn't there is told by the same error.
        Err(error) if error.kind() == io::ErrorKind::NotFound && folder.is_dir() => stop(&format!(
            "{missing}, and the Rattle toolchain that makes it isn't here: there is no `rt` on PATH.\n\
             Install the toolchain, or name the folder of an archive made elsewhere in TARIPOMUNE_LIB."
        )),
        Err(error) => stop(&format!("{missing}, and {COMMAND} can't be started: {error}")),
    };
    let cargo = CargoError::open();
    cargo.say(&format!("taripomune: proving the library with {COMMAND}; from nothing this takes some minutes"));
    let mut verdicts = Verdicts::default();
    let tell = |line: &str| {
        if let Some(name) = verdicts.proved(line) {
            cargo.say(&format!("taripomune: proved the crate {name}"));
        }
    };
    match follow(rt, tell) {
        Err(error) => stop(&format!("{missing}, and {COMMAND} can't be read: {error}")),
        Ok(output) if !output.status.success() => stop(&format!(
            "{missing}, and {COMMAND} failed ({}):\n{}{}",
            output.status,
            String::from_utf8_lossy(&output.stdout),
            String::from_utf8_lossy(&output.stderr)
        )),
        Ok(_) => {}
    }
    if let Err(error) = put(&folder.join("out/libtaripomune_c.a"), archive) {
        stop(&format!("{missing}, and what {COMMAND} made can't be put there: {error}"));
    }
    cargo.say(&format!("taripomune: proved and compiled the library ({} s)", began.elapsed().as_secs()));
}

fn start(folder: &Path) -> io::Result<Child> {
    let mut command = Command::new("rt");
    command.args(["lib", "--cpu", "x86-64"]).current_dir(folder);
    command.stdin(Stdio::null()).stdout(Stdio::piped()).stderr(Stdio::piped()).spawn()
}

/// Copies a file to its place in one step, so that nobody finds a part of it there.
fn put(made: &Path, place: &Path) -> io::Result<()> {
    fs::create_dir_all(place.parent().unwrap())?;
    let part = place.with_extension(format!("{}.part", process::id()));
    let done = fs::copy(made, &part).and_then(|_| fs::rename(&part, place));
    if done.is_err() {
        let _ = fs::remove_file(&part);
    }
    done
}

/// Reads in rt's lines which crates are proved. It writes nothing of a crate that it needn't look at again.
#[derive(Default)]
struct Verdicts {
    /// The crate that was named last.
    name: String,
}

impl Verdicts {
    /// The crate that a line says is proved: after `crate NAME: ..` comes `logic=proved ..`, else `logic=not-proved`.
    fn proved(&mut self, line: &str) -> Option<&str> {
        if let Some((name, _)) = line.strip_prefix("crate ").and_then(|rest| rest.split_once(':')) {
            self.name = name.to_string();
        }
        line.starts_with("logic=proved ").then_some(&self.name)
    }
}

/// What a process writes until it ends, each line of its standard output shown as it comes.
fn follow(mut process: Child, show: impl FnMut(&str)) -> io::Result<Output> {
    let (stdout, stderr) = (process.stdout.take().unwrap(), process.stderr.take().unwrap());
    thread::scope(|scope| {
        let errors = scope.spawn(|| lines(stderr, |_| {}));
        let stdout = lines(stdout, show)?;
        let stderr = errors.join().unwrap()?;
        Ok(Output { status: process.wait()?, stdout, stderr })
    })
}

fn lines(stream: impl Read, mut show: impl FnMut(&str)) -> io::Result<Vec<u8>> {
    let mut stream = BufReader::new(stream);
    let (mut all, mut seen) = (Vec::new(), 0);
    while stream.read_until(b'\n', &mut all)? > 0 {
        show(String::from_utf8_lossy(&all[seen..]).trim_end());
        seen = all.len();
    }
    Ok(all)
}

fn changed(file: &Path) -> Option<SystemTime> {
    fs::metadata(file).and_then(|found| found.modified()).ok()
}

/// The folders of the crates' code. Beside them rt keeps its own files, copies of the code among them.
fn sources(crates: &Path) -> Vec<PathBuf> {
    let mut folders: Vec<PathBuf> =
        inside(crates).map(|folder| folder.join("src")).filter(|src| src.is_dir()).collect();
    folders.sort();
    folders
}

/// When a Rattle file below a folder was changed last.
fn newest_source(folder: &Path) -> Option<SystemTime> {
    let newest = |path: PathBuf| match path.extension() {
        _ if path.is_dir() => newest_source(&path),
        Some(extension) if extension == "rt" => changed(&path),
        _ => None,
    };
    inside(folder).filter_map(newest).max()
}

fn inside(folder: &Path) -> impl Iterator<Item = PathBuf> {
    let entries = fs::read_dir(folder).unwrap_or_else(|error| stop(&format!("{}: {error}", folder.display())));
    entries.filter_map(|entry| Some(entry.ok()?.path()))
}
