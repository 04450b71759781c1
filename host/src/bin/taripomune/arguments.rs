//! The words of the command line.

use crate::column_file::Direction;
use crate::failure::Failure;
use crate::help;
use crate::names::escaped;
use crate::output::Output;
use crate::run::{self, MAX_LOG_SIZE};
use std::ffi::{OsStr, OsString};
use std::path::PathBuf;
use std::time::Duration;
use taripomune::{MAX_CIRCLE_DOMAIN_LOG_SIZE, MIN_CIRCLE_DOMAIN_LOG_SIZE};

pub enum Command {
    Help(&'static str),
    Version,
    /// From a file to a file.
    Transform(Direction, PathBuf, PathBuf),
    /// From a folder to a folder.
    Run(run::Options),
    Verify(PathBuf, PathBuf),
    Total(PathBuf),
    Demo,
    /// With the folder that the table and the plot are written to.
    Bench(Option<PathBuf>),
}

/// The commands: their names, what `--help` says, and how a command is made of the words after its name.
const COMMANDS: [(&str, &str, Take); 7] = [
    ("run", help::RUN, |words| words.run()),
    ("interpolate", help::TRANSFORM, |words| words.transform(Direction::Interpolate)),
    ("evaluate", help::TRANSFORM, |words| words.transform(Direction::Evaluate)),
    ("verify", help::VERIFY, |words| {
        words.paths("VALUES and COEFFICIENTS").map(|[values, coefficients]| Command::Verify(values, coefficients))
    }),
    ("total", help::TOTAL, |words| words.paths("VALUES").map(|[values]| Command::Total(values))),
    ("demo", help::DEMO, |words| words.paths("nothing more").map(|[]| Command::Demo)),
    ("bench", help::BENCH, |words| words.bench()),
];

type Take = fn(Words) -> Result<Command, Failure>;

/// The command, and how it prints, which is known also if there is none.
pub fn read(words: &[OsString]) -> (Output, Result<Command, Failure>) {
    let mut read = Words::default();
    let failure = read.read(words).err();
    let (json, quiet) = (read.json, read.quiet);
    let known = read.plain.first().and_then(|name| COMMANDS.iter().find(|(known, ..)| name == known));
    let output = Output { command: known.map(|(name, ..)| *name), json, quiet };
    (output, failure.map_or_else(|| read.command(), Err))
}

fn bad(sentence: String) -> Failure {
    Failure::Arguments(sentence)
}

#[derive(Default)]
struct Words {
    help: bool,
    version: bool,
    json: bool,
    quiet: bool,
    evaluate: bool,
    watch: bool,
    max_log_size: Option<u32>,
    jobs: Option<u32>,
    heartbeat: Option<u32>,
    /// The command, then its paths.
    plain: Vec<OsString>,
}

impl Words {
    /// Reads all words, also after one that is wrong, since `--json` may be among them. The first failure is told.
    fn read(&mut self, words: &[OsString]) -> Result<(), Failure> {
        let mut words = words.iter().peekable();
        let mut outcome = Ok(());
        while let Some(word) = words.next() {
            let read = match word.to_str() {
                // What follows is no option, whatever it begins with.
                Some("--") => {
                    self.plain.extend(words.by_ref().cloned());
                    Ok(())
                }
                Some(text) if begins_with_dash(word) => match text.split_once('=') {
                    Some((name, value)) => self.number(name, || Some(OsStr::new(value))),
                    None => self.flag(text).map_or_else(
                        || self.number(text, || Some(words.next_if(|word| !begins_with_dash(word))?.as_os_str())),
                        Ok,
                    ),
                },
                None if begins_with_dash(word) => Err(no_option(word)),
                _ => {
                    self.plain.push(word.clone());
                    Ok(())
                }
            };
            outcome = outcome.and(read);
        }
        outcome
    }

    /// An option without a number.
    fn flag(&mut self, name: &str) -> Option<()> {
        *match name {
            "--help" | "-h" => &mut self.help,
            "--version" | "-V" => &mut self.version,
            "--json" => &mut self.json,
            "--quiet" => &mut self.quiet,
            "--evaluate" => &mut self.evaluate,
            "--watch" => &mut self.watch,
            _ => return None,
        } = true;
        Some(())
    }

    /// An option with a number.
    fn number<'a>(&mut self, name: &str, value: impl FnOnce() -> Option<&'a OsStr>) -> Result<(), Failure> {
        let (place, range) = match name {
            "--max-log-size" => (&mut self.max_log_size, MIN_CIRCLE_DOMAIN_LOG_SIZE..=MAX_CIRCLE_DOMAIN_LOG_SIZE),
            "--jobs" => (&mut self.jobs, 1..=64),
            "--heartbeat" => (&mut self.heartbeat, 1..=86400),
            _ => return Err(no_option(OsStr::new(name))),
        };
        let number = value().and_then(|value| value.to_str()?.parse().ok()).filter(|number| range.contains(number));
        let number =
            number.ok_or_else(|| bad(format!("{name} takes a number from {} to {}", range.start(), range.end())));
        match place.replace(number?) {
            None => Ok(()),
            Some(_) => Err(bad(format!("{name} stands there twice"))),
        }
    }

    fn command(mut self) -> Result<Command, Failure> {
        if self.version {
            return Ok(Command::Version);
        }
        if self.plain.first().is_some_and(|word| word == "help") {
            self.plain.remove(0);
            self.help = true;
        }
        let Some(name) = self.plain.first().cloned() else {
            return match self.help || self.is_bare() {
                true => Ok(Command::Help(help::PROGRAM)),
                false => Err(bad("a command is missing; 'taripomune --help' lists them".to_string())),
            };
        };
        let Some((_, text, take)) = COMMANDS.iter().find(|(known, ..)| name == *known) else {
            return Err(bad(format!("{} is no command; 'taripomune --help' lists them", escaped(&name))));
        };
        match self.help {
            true => Ok(Command::Help(text)),
            false => {
                self.plain.remove(0);
                take(self)
            }
        }
    }

    /// Whether no option says what to do.
    fn is_bare(&self) -> bool {
        !self.evaluate && !self.watch && self.max_log_size.or(self.jobs).or(self.heartbeat).is_none()
    }

    /// So many paths, and no options of a run.
    fn paths<const N: usize>(self, names: &str) -> Result<[PathBuf; N], Failure> {
        if !self.is_bare() {
            return Err(bad("an option stands there that is for 'taripomune run' alone".to_string()));
        }
        let paths: Vec<PathBuf> = self.plain.into_iter().map(PathBuf::from).collect();
        paths.try_into().map_err(|_| bad(format!("the command takes {names}; --help after it says more")))
    }

    fn transform(self, direction: Direction) -> Result<Command, Failure> {
        self.paths("IN and OUT").map(|[input, output]| Command::Transform(direction, input, output))
    }

    fn run(self) -> Result<Command, Failure> {
        if self.heartbeat.is_some() && !self.watch {
            return Err(bad("--heartbeat goes with --watch".to_string()));
        }
        let watch = self.watch.then(|| Duration::from_secs(self.heartbeat.unwrap_or(60).into()));
        let direction = if self.evaluate { Direction::Evaluate } else { Direction::Interpolate };
        let max_log_size = self.max_log_size.unwrap_or(MAX_LOG_SIZE);
        let jobs = self.jobs.unwrap_or(1) as usize;
        let [columns, results] = Words { plain: self.plain, ..Words::default() }.paths("IN_DIR and OUT_DIR")?;
        Ok(Command::Run(run::Options { direction, columns, results, max_log_size, jobs, watch }))
    }

    fn bench(self) -> Result<Command, Failure> {
        match self.plain.len() {
            0 => self.paths("one DIR at most").map(|[]| Command::Bench(None)),
            _ => self.paths("one DIR at most").map(|[folder]| Command::Bench(Some(folder))),
        }
    }
}

fn no_option(word: &OsStr) -> Failure {
    bad(format!("{} is no option", escaped(word)))
}

fn begins_with_dash(word: &OsStr) -> bool {
    word.as_encoded_bytes().starts_with(b"-") && word.len() > 1
}
