//! A run that stays for what comes later.

use super::Run;
use super::folders::{Lister, Listing};
use super::heartbeat::Heartbeat;
use super::report::Outcome;
use crate::column_file::Stamp;
use crate::failure::Failure;
use crate::system;
use std::collections::{HashMap, HashSet};
use std::ffi::OsString;
use std::fs;
use std::thread::sleep;
use std::time::{Duration, Instant};

/// The folder is looked at after so long again.
const PAUSE: Duration = Duration::from_millis(500);

/// A signal is seen after so long at the latest.
const SLICE: Duration = Duration::from_millis(50);

/// What couldn't be read or was passed over is tried again after so long, if its file is still the same.
const RETRY: Duration = Duration::from_secs(60);

/// Treats the columns of a listing, and then what comes, until a signal does.
pub fn watch(run: &mut Run, every: Duration, lister: &mut Lister, first: Listing) -> Result<(), Failure> {
    run.heartbeat = Some(Heartbeat::start(run.output, every));
    let mut watch = Watch { stamps: run.stamps(&first), tried: HashMap::new(), is_told: false };
    while pause() {
        match lister.list() {
            Ok(listing) => {
                watch.is_told = false;
                watch.pass(run, &listing)?;
            }
            Err(failure) if failure.is_of_memory() => return Err(failure),
            // It may be mounted again.
            Err(failure) if !watch.is_told => {
                watch.is_told = true;
                run.output.tell(&failure.to_string());
            }
            Err(_) => {}
        }
        run.beat();
    }
    lister.list().map_or(Ok(()), |listing| run.leave(&listing))
}

/// Waits, and answers whether to go on.
fn pause() -> bool {
    let start = Instant::now();
    while start.elapsed() < PAUSE && !system::is_stopped() {
        sleep(SLICE);
    }
    !system::is_stopped()
}

struct Watch {
    /// What the files were when the folder was looked at last.
    stamps: HashMap<OsString, Stamp>,
    /// Files that have no result and aren't refused, and when they were tried.
    tried: HashMap<OsString, (Option<Stamp>, Instant)>,
    /// Whether it was told that the folder can't be read.
    is_told: bool,
}

impl Watch {
    /// Treats the files that are what they were at the last look: others may still be written to.
    fn pass(&mut self, run: &mut Run, listing: &Listing) -> Result<(), Failure> {
        let stamps = run.stamps(listing);
        let is_settled = |name: &OsString| self.stamps.get(name) == stamps.get(name);
        let is_tried = |name: &OsString| {
            let tried = self.tried.get(name);
            tried.is_some_and(|(stamp, time)| *stamp == stamps.get(name).copied() && time.elapsed() < RETRY)
        };
        let due: Vec<&OsString> = listing.names.iter().filter(|name| is_settled(name) && !is_tried(name)).collect();
        run.pass(listing, |name| due.binary_search_by(|one| one.as_os_str().cmp(name)).is_ok())?;
        let outcome = |name: &OsString| run.lines.get(name).map(|line| line.outcome);
        let failed = |name: &&&OsString| matches!(outcome(name), Some(Outcome::Unreadable | Outcome::PassedOver));
        let failed = due.iter().filter(failed).map(|name| (*name).clone());
        let tried = failed.map(|name| (stamps.get(&name).copied(), name)).collect::<Vec<_>>();
        self.tried.retain(|name, _| run.lines.contains_key(name));
        self.tried.extend(tried.into_iter().map(|(stamp, name)| (name, (stamp, Instant::now()))));
        self.stamps = stamps;
        Ok(())
    }
}

impl Run<'_> {
    /// Reports what isn't done, after a signal.
    fn leave(&mut self, listing: &Listing) -> Result<(), Failure> {
        let told = self.lines.iter().filter(|(_, line)| !line.is_done());
        let told: HashSet<OsString> = told.map(|(name, _)| name.clone()).collect();
        self.pass(listing, |name| !told.contains(name))
    }

    /// What the files of a listing are now.
    fn stamps(&self, listing: &Listing) -> HashMap<OsString, Stamp> {
        let stamp = |name: &OsString| {
            let found = fs::symlink_metadata(self.job.columns.join(name)).ok()?;
            Some((name.clone(), Stamp::of(&found)))
        };
        listing.names.iter().filter_map(stamp).collect()
    }
}
