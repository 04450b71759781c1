//! Two runs at once.

use crate::support::*;
use std::fs;
use std::os::unix::fs::symlink;
use std::path::Path;
use std::process::Stdio;
use std::thread::sleep;
use std::time::Duration;

#[test]
fn one_of_two_runs_into_one_folder_is_told_and_the_other_goes_on() {
    let unit = Unit::new("two");
    for start in 0..100 {
        unit.put(&format!("{start:03}"), &bytes(&column(10, start)));
    }
    let mut is_told = false;
    for _ in 0..20 {
        let _ = fs::remove_dir_all(&unit.results);
        let start = || unit.command(&[]).stdout(Stdio::null()).stderr(Stdio::piped()).spawn().unwrap();
        let both = [start(), start()];
        let numbers = both.each_ref().map(|child| child.id());
        let both: [Ended; 2] = both.map(|child| child.wait_with_output().unwrap().into());
        // The second may have come after the first was done.
        assert!(both.iter().any(|ended| ended.status == Some(0)), "{both:?}");
        for (ended, other) in both.iter().zip([numbers[1], numbers[0]]).filter(|(ended, _)| ended.status != Some(0)) {
            assert_eq!(ended.status, Some(1));
            let with_number = format!("out: another run, process {other}, is writing to it\n");
            let is_right =
                ended.told.ends_with(&with_number) || ended.told.ends_with("out: another run is writing to it\n");
            assert!(is_right, "{}", ended.told);
            is_told = true;
        }
        assert_eq!(unit.report().iter().filter(|line| line.ends_with("\t4096\taccepted\t-")).count(), 100);
        unit.assert_whole(&["000", "050", "099"]);
    }
    assert!(is_told);
}

#[test]
fn two_runs_into_two_folders_do_not_disturb_one_another() {
    let unit = Unit::with("two-folders", &["a", "b", "c"]);
    let other = unit.folder.path("other");
    let runs = [&unit.results, &other]
        .map(|results| program().arg("run").args([&unit.columns, results]).stdout(Stdio::null()).spawn().unwrap());
    for mut run in runs {
        assert!(end_of(&mut run).success());
    }
    assert_eq!(unit.report(), report(&other));
}

/// A folder of somebody else, with files of the names of columns.
fn foreign(unit: &Unit, path: &Path) {
    fs::create_dir(path).unwrap();
    for name in names(&unit.columns) {
        fs::write(path.join(name), "of somebody").unwrap();
    }
}

fn assert_untouched(unit: &Unit, path: &Path) {
    let found = fs::read_dir(path).unwrap().map(|entry| entry.unwrap().path());
    let found: Vec<bool> = found.map(|path| fs::read(path).unwrap() == b"of somebody").collect();
    assert!(found.len() == names(&unit.columns).len() && found.iter().all(|same| *same), "{found:?}");
}

#[test]
fn a_folder_that_takes_the_place_of_the_folder_of_results_is_left_alone() {
    let unit = Unit::with("replaced", &["a", "b"]);
    let mut child = unit.command(&["--watch"]).stderr(Stdio::piped()).stdout(Stdio::null()).spawn().unwrap();
    wait_until("results", || unit.results.join("b").exists());
    fs::rename(&unit.results, unit.folder.path("aside")).unwrap();
    foreign(&unit, &unit.results);
    assert_eq!(end_of(&mut child).code(), Some(1));
    let ended: Ended = child.wait_with_output().unwrap().into();
    assert!(ended.told.ends_with(".taripomune-lock: it was removed during the run\n"), "{}", ended.told);
    assert_untouched(&unit, &unit.results);
    assert_eq!(unit.run(&[]).status, Some(2));
    assert_untouched(&unit, &unit.results);
}

#[test]
fn a_folder_that_takes_the_place_of_the_folder_of_results_for_a_moment_is_left_alone() {
    let unit = Unit::new("exchanged");
    for start in 0..20 {
        unit.put(&format!("{start:03}"), &bytes(&column(4, start)));
    }
    let [other, aside] = ["other", "aside"].map(|name| unit.folder.path(name));
    foreign(&unit, &other);
    for round in 0..12 {
        let _ = fs::remove_dir_all(&unit.results);
        // The folder was there a moment ago when it is opened.
        let Some(mut command) = unit.command_with_pauses("openat", 3000, &["--jobs", "2"]) else { return };
        let mut child = command.stderr(Stdio::null()).stdout(Stdio::null()).spawn().unwrap();
        wait_until("results", || unit.results.exists() && names(&unit.results).len() > round);
        sleep(Duration::from_micros(random(3000)));
        fs::rename(&unit.results, &aside).unwrap();
        symlink(&other, &unit.results).unwrap();
        sleep(Duration::from_millis(10));
        fs::remove_file(&unit.results).unwrap();
        fs::rename(&aside, &unit.results).unwrap();
        end_of(&mut child);
        assert_untouched(&unit, &other);
    }
}

#[test]
fn a_run_whose_lock_is_removed_writes_no_further_result() {
    let unit = Unit::new("unlocked");
    for start in 0..100 {
        unit.put(&format!("{start:03}"), &bytes(&column(4, start)));
    }
    let Some(mut command) = unit.command_with_pauses("fsync", 3000, &[]) else { return };
    let mut child = command.stderr(Stdio::null()).stdout(Stdio::null()).spawn().unwrap();
    wait_until("results", || unit.results.exists() && names(&unit.results).len() > 5);
    fs::remove_file(unit.results.join(".taripomune-lock")).unwrap();
    // The one at hand may still get its name.
    let most = names(&unit.results).len() + 1;
    assert_eq!(end_of(&mut child).code(), Some(1));
    assert!(names(&unit.results).len() <= most);
}

#[test]
fn a_run_whose_folder_of_results_was_emptied_stops() {
    let unit = Unit::with("emptied", &["a"]);
    let mut child = unit.command(&["--watch"]).stderr(Stdio::piped()).stdout(Stdio::null()).spawn().unwrap();
    wait_until("a result", || unit.results.join("a").exists());
    fs::remove_file(unit.results.join(".taripomune-lock")).unwrap();
    // Another run may write there now.
    unit.put("b", &bytes(&column(3, 2)));
    let ended: Ended = {
        assert_eq!(end_of(&mut child).code(), Some(1));
        child.wait_with_output().unwrap().into()
    };
    assert!(ended.told.ends_with(".taripomune-lock: it was removed during the run\n"), "{}", ended.told);
    assert!(!unit.results.join("b").exists());
    unit.succeed();
    unit.assert_whole(&["a", "b"]);
}
