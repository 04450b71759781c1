//! `taripomune run`, killed and signalled at random moments.

use crate::support::*;
use std::fs;
use std::os::unix::process::ExitStatusExt;
use std::path::{Path, PathBuf};
use std::process::Stdio;
use std::thread::sleep;
use std::time::{Duration, Instant};

const COLUMNS: u32 = 150;

/// A folder of columns, and what a run that never stopped makes of it.
fn unit(name: &str) -> (Unit, PathBuf, Duration) {
    let unit = Unit::new(name);
    for start in 0..COLUMNS {
        unit.put(&format!("{start:03}"), &bytes(&column(8 + start % 6, start)));
    }
    let never_stopped = unit.folder.path("never-stopped");
    let start = Instant::now();
    assert_eq!(ended(program().arg("run").args([&unit.columns, &never_stopped])).status, Some(0));
    (unit, never_stopped, start.elapsed())
}

/// What is there must be whole: as the run has it that never stopped. Answers how many results there are.
fn whole(results: &Path, never_stopped: &Path) -> usize {
    let names = if results.exists() { names(results) } else { Vec::new() };
    let results = names.iter().filter(|name| !name.ends_with(".tsv")).map(|name| {
        let same = fs::read(results.join(name)).unwrap() == fs::read(never_stopped.join(name)).unwrap();
        assert!(same, "{name} isn't whole");
    });
    results.count()
}

/// Starts a run again and again and kills it so many times, each time after at most `longest`. Answers how many results
/// there are at the end, or none if a run came to its end before.
fn killed(unit: &Unit, never_stopped: &Path, options: &[&str], kills: usize, longest: Duration) -> Option<usize> {
    let mut done = 0;
    for _ in 0..kills {
        let mut command = unit.command(options);
        let mut child = command.stdout(Stdio::null()).stderr(Stdio::null()).spawn().unwrap();
        sleep(Duration::from_nanos(random(longest.as_nanos() as u64)));
        child.kill().unwrap();
        child.wait().unwrap().signal()?;
        // With its report a run has come to its end.
        (!unit.results.join("taripomune-report.tsv").exists()).then_some(())?;
        done = whole(&unit.results, never_stopped);
    }
    Some(done)
}

/// Kills come while it works, so that it is tried again with others if nothing was done, or all.
fn killed_between(name: &str, options: &[&str]) {
    let (unit, never_stopped, time) = unit(name);
    let mut longest = time / 30;
    let is_between = (0..10).any(|_| {
        let _ = fs::remove_dir_all(&unit.results);
        let done = killed(&unit, &never_stopped, options, 50, longest);
        longest = if done == Some(0) { longest * 2 } else { longest / 2 };
        done.is_some_and(|done| done > 0)
    });
    assert!(is_between && names(&unit.results).len() < COLUMNS as usize);
    assert_eq!(unit.run(options).status, Some(0));
    assert_eq!(names(&unit.results), names(&never_stopped));
    assert_eq!(whole(&unit.results, &never_stopped), COLUMNS as usize);
    assert_eq!(unit.report(), report(&never_stopped));
    assert_eq!(left_over(&unit.results), Vec::<PathBuf>::new());
}

#[test]
fn a_run_killed_fifty_times_ends_as_one_that_never_stopped() {
    killed_between("killed", &[]);
}

#[test]
fn a_run_of_two_jobs_killed_fifty_times_ends_as_one_that_never_stopped() {
    killed_between("killed-jobs", &["--jobs", "2"]);
}

/// Sends a signal when some columns are done, and answers how the run ended then, or none if it was done before.
fn signalled(unit: &Unit, options: &[&str], name: &str) -> Option<Ended> {
    let _ = fs::remove_dir_all(&unit.results);
    let mut command = unit.command_with_signals(options);
    let mut child = command.stdout(Stdio::piped()).stderr(Stdio::piped()).spawn().unwrap();
    let done = 1 + random(20) as usize;
    let is_there = || unit.results.exists() && names(&unit.results).len() >= done;
    wait_until("some columns are done", || is_there() || child.try_wait().unwrap().is_some());
    signal(&child, name);
    let ended: Ended = child.wait_with_output().unwrap().into();
    (ended.status != Some(0)).then_some(ended)
}

#[test]
fn signals_end_a_run_after_the_columns_at_hand_with_the_report_written() {
    let (unit, never_stopped, _) = unit("signalled");
    for (name, options) in [("TERM", &[][..]), ("INT", &[]), ("TERM", &["--jobs", "2"]), ("INT", &["--jobs", "2"])] {
        let ended = (0..10).find_map(|_| signalled(&unit, options, name)).unwrap();
        assert_eq!((ended.status, ended.told.as_str()), (Some(7), ""));
        let done = whole(&unit.results, &never_stopped);
        let report = unit.report();
        let accepted = report.iter().filter(|line| line.ends_with("\taccepted\t-")).count();
        let left = report.iter().filter(|line| line.ends_with("\tleft\tthe run was stopped before")).count();
        assert!(accepted == done && accepted + left == COLUMNS as usize && left > 0, "{report:?}");
        let counts =
            format!("{COLUMNS} columns: {accepted} accepted, 0 refused, 0 unreadable, 0 passed over, {left} left");
        assert!(ended.said.starts_with(&counts), "{}", ended.said);
        assert_eq!(left_over(&unit.results), Vec::<PathBuf>::new());
        // What was done isn't done again.
        let said = unit.run(options).said;
        assert!(said.contains(&format!("; {done} columns done before; ")), "{said}");
        assert_eq!(unit.report(), self::report(&never_stopped));
    }
}

#[test]
fn a_second_signal_ends_a_run_at_once() {
    let unit = Unit::with("signalled-twice", &["a"]);
    for names in [["TERM", "INT"], ["INT", "TERM"]] {
        let mut child = unit.command_with_signals(&["--watch"]).stdout(Stdio::null()).spawn().unwrap();
        wait_until("it has begun", || unit.path_of_journal().exists());
        // Stopped, it gets both when it goes on.
        for name in ["STOP", names[0], names[1], "CONT"] {
            signal(&child, name);
        }
        assert!(end_of(&mut child).signal().is_some());
        fs::remove_dir_all(&unit.results).unwrap();
    }
}

#[test]
fn a_signal_that_was_ignored_stays_so() {
    let (unit, never_stopped, _) = unit("ignored");
    let mut command = unit.command_after("trap '' INT", &[]);
    let mut child = command.stdout(Stdio::null()).spawn().unwrap();
    wait_until("it has begun", || unit.path_of_journal().exists());
    signal(&child, "INT");
    assert!(end_of(&mut child).success());
    assert_eq!(unit.report(), report(&never_stopped));
}
