//! The unattended unit: every column file of a folder.

mod column;
mod entry;
mod folders;
mod heartbeat;
mod journal;
mod progress;
pub mod report;
mod results;
mod watch;
mod workers;

use crate::access::Access;
use crate::column_file::{Buffers, Direction};
use crate::failure::Failure;
use crate::output::Output;
use crate::result_file::{part_of_run, remove, write_beside};
use crate::system;
use column::{Column, Job, Treated};
use folders::{Lister, Listing};
use heartbeat::Heartbeat;
use journal::Journal;
use progress::Progress;
use report::{Counts, Line, Lines, Summary};
use results::Results;
use std::collections::HashSet;
use std::ffi::OsStr;
use std::fs::File;
use std::io::Write;
use std::mem;
use std::path::PathBuf;
use std::time::{Duration, Instant};

/// Longer columns than these are passed over unless told otherwise: with scratch they take 8 MiB.
pub const MAX_LOG_SIZE: u32 = 20;

pub struct Options {
    pub direction: Direction,
    pub columns: PathBuf,
    pub results: PathBuf,
    pub max_log_size: u32,
    pub jobs: usize,
    /// Whether it stays for what comes later, and then how often it tells that it is there.
    pub watch: Option<Duration>,
}

/// Transforms the columns that aren't done yet, and writes the report of all. Answers nothing if there are none.
pub fn run(options: &Options, output: Output) -> Result<Option<Summary>, Failure> {
    let mut lister = Lister::new(&options.columns);
    let listing = lister.list()?;
    results::check_apart(&options.columns, &options.results)?;
    // A folder of columns that isn't mounted is an empty one, so that nothing of an earlier run is touched.
    if listing.names.is_empty() && options.watch.is_none() {
        return Ok(None);
    }
    system::note_signals();
    let results = Results::take(&options.columns, &options.results)?;
    let mut run = Run::begin(options, output, &listing, &results)?;
    match options.watch {
        None => run.pass(&listing, |_| true)?,
        Some(every) => watch::watch(&mut run, every, &mut lister, listing)?,
    }
    Ok(Some(run.summary()))
}

struct Run<'a> {
    job: Job<'a>,
    output: Output,
    /// For each thread.
    buffers: Vec<Buffers>,
    journal: Journal<'a>,
    /// What is known of the columns that were found last.
    lines: Lines,
    is_report_old: bool,
    heartbeat: Option<Heartbeat>,
    start: Instant,
    /// What isn't counted from `lines`.
    counted: Summary,
}

impl<'a> Run<'a> {
    fn begin(
        options: &'a Options,
        output: Output,
        listing: &Listing,
        results: &'a Results,
    ) -> Result<Run<'a>, Failure> {
        let Options { direction, columns, max_log_size, .. } = options;
        Ok(Run {
            job: Job { direction: *direction, columns, results, max_log_size: *max_log_size },
            output,
            buffers: (0..options.jobs).map(|_| Buffers::default()).collect(),
            journal: Journal::open(results, *direction, &names(listing))?,
            lines: Lines::new(),
            is_report_old: false,
            heartbeat: None,
            start: Instant::now(),
            counted: Summary { report: results.named(report::NAME), ..Summary::default() },
        })
    }

    /// Treats those of the columns found that aren't done and are due, and writes the report if something in it is new.
    fn pass(&mut self, listing: &Listing, is_due: impl Fn(&OsStr) -> bool) -> Result<(), Failure> {
        self.job.results.check()?;
        let is_first = self.lines.is_empty();
        if is_first && !listing.names.is_empty() {
            // It would be the report of another run. If it can't be removed, it can't be replaced later, which is told.
            let _ = remove(&self.job.results.path(report::NAME));
        }
        self.counted.not_taken = listing.not_taken;
        let (known, present) = (self.lines.len(), names(listing));
        self.lines.retain(|name, _| present.contains(name.as_os_str()));
        self.is_report_old |= self.lines.len() < known;
        let due = self.due(listing, is_first, is_due);
        self.treat(&due)?;
        self.journal.tidy(&present)?;
        match self.is_report_old && !self.lines.is_empty() {
            true => self.write_report(),
            false => Ok(()),
        }
    }

    /// The columns to treat. Those that are done get their lines.
    fn due(&mut self, listing: &Listing, is_first: bool, is_due: impl Fn(&OsStr) -> bool) -> Vec<Column> {
        let mut due = Vec::new();
        for name in &listing.names {
            let is_kept = self.journal.is_kept(name);
            match self.journal.entry(name).filter(|entry| self.job.is_done(name, is_kept, entry)) {
                Some(_) if self.lines.get(name).is_some_and(Line::is_done) => {}
                Some(entry) => {
                    let line = entry.line();
                    self.counted.before += usize::from(is_first);
                    self.say(name, line);
                }
                None if is_due(name) => due.push(Column { name: name.clone(), is_kept }),
                None => {}
            }
        }
        due
    }

    /// Tells in JSON what became of a column, and keeps it for the report. Answers what was known of it.
    fn say(&mut self, name: &OsStr, line: Line) -> Option<Line> {
        self.is_report_old = true;
        self.output.object(&line.object(self.output, name));
        self.lines.insert(name.to_os_string(), line)
    }

    /// Treats columns with all threads, and then those with one that had no room in memory beside the others.
    fn treat(&mut self, due: &[Column]) -> Result<(), Failure> {
        let mut progress = Progress::new(self.output, due.len());
        let threads = self.buffers.len();
        let without_room = self.treat_with(threads, due, &mut progress)?;
        if !without_room.is_empty() {
            self.buffers.fill_with(Buffers::default);
            self.treat_with(1, &without_room, &mut progress)?;
        }
        progress.clear();
        Ok(())
    }

    /// Treats columns with so many threads. Answers with those that have to wait until there is one alone.
    fn treat_with(&mut self, threads: usize, due: &[Column], progress: &mut Progress) -> Result<Vec<Column>, Failure> {
        let (job, mut buffers) = (self.job, mem::take(&mut self.buffers));
        let mut is_left = vec![true; due.len()];
        let mut without_room = Vec::new();
        workers::treat_all(&job, due, &mut buffers[..threads], |answer| {
            if let Some((place, treated)) = answer {
                is_left[place] = false;
                match threads > 1 && treated.failure.as_ref().is_some_and(Failure::is_of_memory) {
                    true => without_room.push(due[place].clone()),
                    false => self.take(&due[place].name, treated, progress)?,
                }
            }
            self.beat();
            Ok(())
        })?;
        self.buffers = buffers;
        for (column, _) in due.iter().zip(is_left).filter(|(_, is_left)| *is_left) {
            self.say(&column.name, Line::left(job.bytes(&column.name)));
        }
        Ok(without_room)
    }

    /// Takes what became of a column. What is tried again and again is told once.
    fn take(&mut self, name: &OsStr, treated: Treated, progress: &mut Progress) -> Result<(), Failure> {
        let Treated { line, failure, entry } = treated;
        entry.map_or(Ok(()), |entry| self.journal.add(name, entry))?;
        self.counted.treated += 1;
        let why = line.why.clone();
        let known = self.say(name, line);
        let is_told = entry.is_none() && known.is_some_and(|known| known.why == why);
        if let Some(failure) = failure.filter(|_| !is_told) {
            progress.clear();
            self.output.tell(&failure.to_string());
        }
        progress.count();
        Ok(())
    }

    /// Tells that it goes on, if it is to and it is time.
    fn beat(&mut self) {
        if let Some(heartbeat) = &mut self.heartbeat {
            heartbeat.beat(|| Counts::of(&self.lines));
        }
    }

    fn write_report(&mut self) -> Result<(), Failure> {
        self.is_report_old = false;
        let (path, text) = (self.job.results.path(report::NAME), report::text(&self.lines));
        let write = |file: &mut File| file.write_all(text.as_bytes());
        let written = write_beside(&path, &part_of_run("report"), Access::PRIVATE, write);
        written.map(|_| ()).map_err(Failure::unwritable(&self.counted.report))
    }

    fn summary(self) -> Summary {
        Summary { counts: Counts::of(&self.lines), time: self.start.elapsed(), ..self.counted }
    }
}

fn names(listing: &Listing) -> HashSet<&OsStr> {
    listing.names.iter().map(|name| name.as_os_str()).collect()
}
