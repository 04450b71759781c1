//! `taripomune run`, the unattended unit.

use crate::support::*;
use std::ffi::OsStr;
use std::fs;
use std::os::unix::ffi::OsStrExt;
use std::path::{Path, PathBuf};
use std::process::Command;
use std::thread::sleep;
use std::time::Duration;

const LENGTH: &str = "a column, its destination or scratch has a length that doesn't fit";
const WORD: &str = "a word is not below 2147483647";

#[test]
fn a_folder_is_done_past_refused_columns() {
    let unit = Unit::with("run", &["a", "c"]);
    unit.put("b", &bytes(&damaged(4, 7)));
    unit.put("d", b"12345");
    unit.put("e\n", &bytes(&column(2, 3)));
    fs::write(unit.columns.join(OsStr::from_bytes(b"f\xff")), bytes(&column(2, 4))).unwrap();
    unit.put(".hidden", b"no column");
    unit.put("taripomune-report.tsv", b"of a run before");
    fs::create_dir(unit.columns.join("g")).unwrap();
    let ended = unit.run(&[]);
    assert_eq!(ended.status, Some(3));
    let expected = [&format!("b: number 1, position 7: {WORD}"), &format!("d: number 8, position 0: {LENGTH}")];
    assert!(
        ended.told.lines().count() == 2 && expected.iter().all(|line| ended.told.contains(*line)),
        "{}",
        ended.told
    );
    let start = "6 columns: 4 accepted, 2 refused, 0 unreadable, 0 passed over; 3 other names not taken; ";
    assert!(ended.said.starts_with(start), "{}", ended.said);
    assert_eq!(
        unit.report(),
        [
            "a\t32\taccepted\t-",
            &format!("b\t64\tnumber 1, position 7\t{WORD}"),
            "c\t32\taccepted\t-",
            &format!("d\t5\tnumber 8, position 0\t{LENGTH}"),
            "e\\x0a\t16\taccepted\t-",
            "f\\xff\t16\taccepted\t-"
        ]
    );
    assert_eq!(names(&unit.results), ["a", "c", "e\n", "f\u{fffd}", "taripomune-report.tsv"]);
    assert_eq!(left_over(&unit.results), Vec::<PathBuf>::new());
    unit.assert_whole(&["a", "c", "e\n"]);
}

#[test]
fn there_and_back_is_the_same_folder() {
    let unit = Unit::new("run-back");
    let back = unit.folder.path("back");
    for log_size in 1..=12 {
        unit.put(&format!("{log_size:02}"), &bytes(&column(log_size, log_size)));
    }
    unit.succeed();
    assert_eq!(ended(program().args(["run", "--evaluate"]).args([&unit.results, &back])).status, Some(0));
    for name in names(&unit.columns) {
        assert_eq!(fs::read(unit.columns.join(&name)).unwrap(), fs::read(back.join(&name)).unwrap());
    }
    assert_eq!(report(&back).len(), 12);
}

#[test]
fn each_number_of_jobs_gives_the_same_results() {
    let unit = Unit::new("run-jobs");
    for start in 0..60 {
        unit.put(&format!("{start:02}"), &bytes(&column(1 + start % 12, start)));
    }
    unit.put("refused", &bytes(&damaged(9, 500)));
    assert_eq!(unit.run(&[]).status, Some(3));
    for jobs in ["2", "3", "64"] {
        let results = unit.folder.path(&format!("out-{jobs}"));
        let ended = ended(program().args(["run", "--jobs", jobs]).args([&unit.columns, &results]));
        assert_eq!(ended.status, Some(3));
        assert_eq!(report(&results), unit.report());
        for name in names(&unit.results).iter().filter(|name| !name.ends_with(".tsv")) {
            assert_eq!(fs::read(unit.results.join(name)).unwrap(), fs::read(results.join(name)).unwrap());
        }
    }
}

#[test]
fn a_run_does_again_what_changed_and_nothing_else() {
    let unit = Unit::with("run-again", &["a", "b", "c", "d", "e"]);
    unit.succeed();
    let time = |name: &str| fs::metadata(unit.results.join(name)).unwrap().modified().unwrap();
    let before = time("a");
    sleep(Duration::from_millis(20));
    // Another file of the same length, one that is refused, a result that got lost, and one that was overwritten with its
    // time set back.
    unit.put("b", &bytes(&column(3, 9)));
    unit.put("c", &bytes(&damaged(3, 3)));
    fs::remove_file(unit.results.join("d")).unwrap();
    let written = time("e");
    fs::write(unit.folder.path("other"), bytes(&column(3, 9))).unwrap();
    fs::rename(unit.folder.path("other"), unit.results.join("e")).unwrap();
    fs::File::open(unit.results.join("e")).unwrap().set_modified(written).unwrap();
    assert_eq!(unit.run(&[]).status, Some(3));
    assert_eq!(time("a"), before);
    unit.assert_whole(&["a", "b", "d", "e"]);
    assert_eq!(unit.report()[2], format!("c\t32\tnumber 1, position 3\t{WORD}"));
    assert_eq!(names(&unit.results), ["a", "b", "d", "e", "taripomune-report.tsv"]);
    let said = unit.run(&[]).said;
    let start = "5 columns: 4 accepted, 1 refused, 0 unreadable, 0 passed over; 5 columns done before\nreport: ";
    assert!(said.starts_with(start), "{said}");
}

#[test]
fn a_file_put_back_after_another_one_is_done_again() {
    let unit = Unit::with("run-put-back", &["a"]);
    let file = unit.columns.join("a");
    let time = fs::metadata(&file).unwrap().modified().unwrap();
    unit.succeed();
    sleep(Duration::from_millis(20));
    unit.put("a", &bytes(&column(3, 2)));
    unit.succeed();
    // As if that run had been killed before the last line, and then the first file came back with its time.
    let lines = fs::read_to_string(unit.path_of_journal()).unwrap();
    let last = lines.trim_end().rfind('\n').unwrap() + 1;
    fs::write(unit.path_of_journal(), &lines[..last]).unwrap();
    unit.put("a", &bytes(&column(3, 1)));
    fs::File::open(&file).unwrap().set_modified(time).unwrap();
    unit.succeed();
    unit.assert_whole(&["a"]);
}

#[test]
fn the_results_of_files_that_were_taken_out_stay() {
    let unit = Unit::with("run-taken-out", &["a", "b"]);
    unit.succeed();
    let result = fs::read(unit.results.join("a")).unwrap();
    fs::remove_file(unit.columns.join("a")).unwrap();
    unit.succeed();
    assert_eq!(unit.report(), ["b\t32\taccepted\t-"]);
    assert_eq!(fs::read(unit.results.join("a")).unwrap(), result);
}

#[test]
fn folders_that_do_not_fit_are_told() {
    let unit = Unit::with("run-folders", &["a"]);
    let ended_with = |command: &mut Command, status, sentence: &str| {
        let ended = ended(command);
        assert_eq!(ended.status, Some(status), "{}", ended.told);
        assert!(ended.told.contains(sentence) && ended.told.lines().count() == 1, "{}", ended.told);
    };
    let run = |columns: &Path, results: &Path| {
        let mut command = program();
        command.arg("run").args([columns, results]);
        command
    };
    let (columns, folder) = (&unit.columns, &unit.folder);
    ended_with(&mut run(columns, columns), 2, "the same folder");
    std::os::unix::fs::symlink(columns, folder.path("link")).unwrap();
    ended_with(&mut run(columns, &folder.path("link")), 2, "the same folder");
    fs::write(folder.folder("other").join("balances"), "of another program").unwrap();
    ended_with(&mut run(columns, &folder.path("other")), 2, "has files that no run wrote");
    assert_eq!(names(&folder.path("other")), ["balances"]);
    ended_with(&mut run(&folder.path("missing"), &unit.results), 1, "can't be read");
    ended_with(&mut run(columns, &columns.join("a")), 1, "a: ");
    assert!(!unit.results.exists());
    unit.succeed();
    ended_with(&mut unit.command(&["--evaluate"]), 2, "a run of the other direction");
    unit.assert_whole(&["a"]);
}
