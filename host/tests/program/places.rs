//! What others put into the folder of results.

use crate::support::*;
use std::fs;
use std::os::unix::fs::{MetadataExt, symlink};
use std::path::PathBuf;

#[test]
fn what_is_in_the_place_of_a_result_is_a_line_and_the_run_goes_on() {
    let unit = Unit::with("places-run", &["a", "b", "c", "d", "z"]);
    unit.put("r", b"12345");
    fs::create_dir(&unit.results).unwrap();
    fs::create_dir(unit.results.join("b")).unwrap();
    fs::write(unit.results.join(".taripomune-lock"), "").unwrap();
    fs::write(unit.folder.path("private"), "private").unwrap();
    symlink("../private", unit.results.join("c")).unwrap();
    make_pipe(&unit.results.join("d"));
    fs::create_dir(unit.results.join("r")).unwrap();
    for _ in 0..2 {
        let ended = unit.run(&[]);
        assert_eq!(ended.status, Some(4));
        let sentence = "32\tpassed over\twhat is in the place of its result isn't a regular file";
        let mut expected = ["b", "c", "d"].map(|name| format!("{name}\t{sentence}")).to_vec();
        expected.extend(["a", "z"].map(|name| format!("{name}\t32\taccepted\t-")));
        expected.sort();
        let report = unit.report();
        assert_eq!(
            report.iter().filter(|line| !line.starts_with('r')).collect::<Vec<_>>(),
            expected.iter().collect::<Vec<_>>()
        );
        assert!(report.iter().any(|line| line.starts_with("r\t5\tnumber 8, position 0\t")), "{report:?}");
        assert_eq!(fs::read(unit.folder.path("private")).unwrap(), b"private");
        assert!(unit.results.join("b").is_dir() && unit.results.join("r").is_dir());
        assert_eq!(left_over(&unit.results), Vec::<PathBuf>::new());
        unit.assert_whole(&["a", "z"]);
    }
    // They are done as soon as there is room.
    fs::remove_dir(unit.results.join("b")).unwrap();
    fs::remove_file(unit.results.join("c")).unwrap();
    fs::remove_file(unit.results.join("d")).unwrap();
    assert_eq!(unit.run(&[]).status, Some(3));
    unit.assert_whole(&["a", "b", "c", "d", "z"]);
}

#[test]
fn what_lies_behind_links_of_the_folder_of_results_is_neither_read_nor_changed() {
    for name in [".taripomune-journal", "taripomune-report.tsv", ".taripomune-lock"] {
        let unit = Unit::with("links-of-results", &["a"]);
        let private = unit.folder.path("private");
        fs::write(&private, "private").unwrap();
        set_mode(&private, 0o640);
        fs::create_dir(&unit.results).unwrap();
        symlink(&private, unit.results.join(name)).unwrap();
        let ended = unit.run(&[]);
        // Where the lock is a link, no run can hold it.
        let status = if name == ".taripomune-lock" { 1 } else { 0 };
        assert_eq!(ended.status, Some(status), "{}", ended.told);
        assert_eq!((fs::read(&private).unwrap(), mode(&private)), (b"private".to_vec(), 0o640));
    }
}

#[test]
fn pipes_of_the_folder_of_results_are_not_waited_for() {
    for name in [".taripomune-journal", "taripomune-report.tsv", ".taripomune-lock"] {
        let unit = Unit::with("pipes-of-results", &["a"]);
        fs::create_dir(&unit.results).unwrap();
        make_pipe(&unit.results.join(name));
        let status = if name == ".taripomune-lock" { 1 } else { 0 };
        assert_eq!(unit.run(&[]).status, Some(status));
    }
}

#[test]
fn a_lock_that_is_another_file_too_is_left_alone() {
    let unit = Unit::with("hard-lock", &["a"]);
    let private = unit.folder.path("private");
    fs::write(&private, "private").unwrap();
    set_mode(&private, 0o644);
    fs::create_dir(&unit.results).unwrap();
    fs::hard_link(&private, unit.results.join(".taripomune-lock")).unwrap();
    let ended = unit.run(&[]);
    assert_eq!(ended.status, Some(1));
    assert!(ended.told.contains("it isn't a regular file of its own"), "{}", ended.told);
    assert_eq!((fs::read(&private).unwrap(), mode(&private)), (b"private".to_vec(), 0o644));
}

#[test]
fn a_result_that_is_another_file_too_is_replaced_there_alone() {
    let unit = Unit::with("hard-result", &["a"]);
    unit.succeed();
    let private = unit.folder.path("private");
    fs::write(&private, "private").unwrap();
    fs::remove_file(unit.results.join("a")).unwrap();
    fs::hard_link(&private, unit.results.join("a")).unwrap();
    unit.succeed();
    unit.assert_whole(&["a"]);
    assert_eq!(fs::read(&private).unwrap(), b"private");
}

#[test]
fn a_column_in_the_place_of_its_result_is_passed_over() {
    let unit = Unit::with("one-file", &["a"]);
    unit.succeed();
    fs::remove_file(unit.results.join("a")).unwrap();
    fs::hard_link(unit.columns.join("a"), unit.results.join("a")).unwrap();
    set_mode(&unit.columns.join("a"), 0o755);
    assert_eq!(unit.run(&[]).status, Some(4));
    assert_eq!(format!("{:o}", mode(&unit.columns.join("a"))), "755");
    assert_eq!(unit.report(), ["a\t32\tpassed over\tit is in the place of its result"]);
    let [one, other] = [&unit.columns, &unit.results].map(|folder| fs::metadata(folder.join("a")).unwrap().ino());
    assert_eq!(one, other);
}

#[test]
fn a_good_result_is_kept_while_its_column_cannot_be_read() {
    let unit = Unit::with("kept", &["a", "b", "c"]);
    unit.succeed();
    let results = || ["a", "b", "c"].map(|name| fs::read(unit.results.join(name)).unwrap());
    let before = results();
    // A link, a pipe, and a file over the limit.
    for name in ["a", "b", "c"] {
        fs::remove_file(unit.columns.join(name)).unwrap();
    }
    symlink("nothing", unit.columns.join("a")).unwrap();
    make_pipe(&unit.columns.join("b"));
    unit.put_sparse("c", 26);
    assert_eq!(unit.run(&[]).status, Some(4));
    assert!(results() == before);
    assert_eq!(
        unit.report(),
        [
            "a\t-\tpassed over\tit is a link",
            "b\t-\tpassed over\tit isn't a regular file",
            "c\t268435456\tpassed over\tit is over the limit of 2^20 words"
        ]
    );
}

#[test]
fn what_runs_that_were_stopped_left_behind_is_removed_and_nothing_else() {
    let unit = Unit::with("parts", &["a"]);
    unit.succeed();
    // The number of a process may be that of another one now. Without "run" it is that of a single transform.
    let own = std::process::id();
    let parts =
        [".taripomune-run-4294967295-0.part", &format!(".taripomune-run-{own}-journal.part"), ".taripomune-77.part"];
    for part in parts {
        fs::write(unit.results.join(part), "half").unwrap();
    }
    unit.succeed();
    assert_eq!(parts.map(|part| unit.results.join(part).exists()), [false, false, true]);
}
