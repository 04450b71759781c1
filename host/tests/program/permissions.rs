//! Who can read, write or execute what the program leaves.

use crate::support::*;
use std::fs;
use std::os::unix::fs::{MetadataExt, chown};
use std::path::{Path, PathBuf};
use std::process::Command;

/// What a column's mode makes of its result's.
const MODES: [(u32, u32); 9] = [
    (0o600, 0o600),
    (0o640, 0o640),
    (0o444, 0o444),
    (0o644, 0o644),
    (0o755, 0o644),
    (0o4755, 0o644),
    (0o2755, 0o644),
    (0o1777, 0o666),
    (0o6750, 0o640),
];

/// A column whose result is a program: a script that says who runs it.
fn column_of_a_program() -> Vec<u32> {
    let mut script = b"#!/bin/sh\nid -u\nexit\n".to_vec();
    script.resize(64, b'\n');
    evaluated(&words(&script))
}

#[test]
fn a_result_of_a_run_is_never_a_program() {
    let unit = Unit::new("modes");
    for (mode, _) in MODES {
        unit.put(&format!("{mode:o}"), &bytes(&column_of_a_program()));
        set_mode(&unit.columns.join(format!("{mode:o}")), mode);
    }
    for umask in ["022", "000", "077"] {
        let _ = fs::remove_dir_all(&unit.results);
        let ended = ended(&mut unit.command_after(&format!("umask {umask}"), &[]));
        assert_eq!((ended.status, ended.told.as_str()), (Some(0), ""));
        for (column, result) in MODES {
            let path = unit.results.join(format!("{column:o}"));
            assert!(fs::read(&path).unwrap().starts_with(b"#!/bin/sh\nid -u\n"));
            assert_eq!(format!("{:o}", mode(&path)), format!("{result:o}"), "of {column:o} with umask {umask}");
            assert!(Command::new(&path).status().is_err());
        }
    }
}

#[test]
fn a_result_of_a_single_file_is_never_a_program() {
    let folder = Folder::new("modes-single");
    for (column, result) in MODES {
        let (input, output) = (folder.path(&format!("in-{column:o}")), folder.path(&format!("out-{column:o}")));
        fs::write(&input, bytes(&column_of_a_program())).unwrap();
        set_mode(&input, column);
        // What is there had other permissions.
        fs::write(&output, "").unwrap();
        set_mode(&output, 0o4777);
        assert_eq!(ended(program().arg("interpolate").args([&input, &output])).status, Some(0));
        assert_eq!(format!("{:o}", mode(&output)), format!("{result:o}"), "of {column:o}");
    }
}

#[test]
fn a_result_is_for_the_group_of_its_column() {
    if !is_root("files of another group") {
        return;
    }
    let unit = Unit::with("groups", &["a"]);
    set_mode(&unit.columns.join("a"), 0o640);
    chown(unit.columns.join("a"), None, Some(12345)).unwrap();
    unit.succeed();
    let result = fs::metadata(unit.results.join("a")).unwrap();
    assert_eq!((result.gid(), format!("{:o}", result.mode() & 0o7777)), (12345, "640".to_string()));
}

#[test]
fn journal_report_and_lock_are_for_their_owner_alone() {
    let unit = Unit::with("private", &["a"]);
    let command = |options| unit.command_after("umask 000", options);
    for _ in 0..2 {
        assert_eq!(ended(&mut command(&[])).status, Some(0));
        for name in [".taripomune-journal", ".taripomune-lock", "taripomune-report.tsv"] {
            let path = unit.results.join(name);
            assert_eq!(format!("{:o}", mode(&path)), "600", "{name}");
            // A run before may have left it open to all.
            set_mode(&path, 0o666);
        }
    }
    let private = |path: PathBuf| mode(&path) & 0o077 == 0;
    // Also while it is written.
    for start in 0..200 {
        unit.put(&format!("{start:03}"), &bytes(&column(8, start)));
    }
    let mut child = command(&["--jobs", "2"]).stdout(std::process::Stdio::null()).spawn().unwrap();
    let mut seen = 0;
    while child.try_wait().unwrap().is_none() {
        for part in left_over(&unit.results) {
            let Ok(found) = fs::symlink_metadata(&part) else { continue };
            // What is whole has the column's permissions just before it gets its name.
            assert!(found.mode() & 0o7133 == 0 && (found.len() == 1024 || found.mode() & 0o077 == 0), "{part:?}");
            seen += 1;
        }
    }
    assert!(seen > 0 && private(unit.path_of_journal()));
}

#[test]
fn a_folder_of_results_that_a_run_makes_is_no_more_open_than_that_of_the_columns() {
    let unit = Unit::with("private-folder", &["a"]);
    set_mode(&unit.columns, 0o750);
    assert_eq!(ended(&mut unit.command_after("umask 000", &[])).status, Some(0));
    assert_eq!(format!("{:o}", mode(&unit.results)), "750");
    if is_root("a folder of another group") {
        fs::remove_dir_all(&unit.results).unwrap();
        chown(&unit.columns, None, Some(12345)).unwrap();
        unit.succeed();
        let found = fs::metadata(&unit.results).unwrap();
        assert_eq!((found.gid(), format!("{:o}", found.mode() & 0o7777)), (12345, "750".to_string()));
    }
}

/// Gives a file an access control list: a user more may read and write it, its group may not. Where the file system has no
/// such lists, that is said.
fn give_access_list(path: &Path, kind: &str) -> bool {
    let script = "\
import os, struct, sys
entries = [(1, 7, -1), (2, 7, 1234), (4, 0, -1), (16, 7, -1), (32, 0, -1)]
value = struct.pack('<I', 2) + b''.join(struct.pack('<HHi', *entry) for entry in entries)
os.setxattr(sys.argv[1], 'system.posix_acl_' + sys.argv[2], value)";
    let given = Command::new("python3").args(["-c", script]).arg(path).arg(kind).output().unwrap().status.success();
    if !given {
        eprintln!("passed over, since the file system has no access control lists");
    }
    given
}

#[test]
fn a_column_with_an_access_control_list_has_a_private_result() {
    let unit = Unit::with("access-list", &["a"]);
    if !give_access_list(&unit.columns.join("a"), "access") {
        return;
    }
    assert_eq!(format!("{:o}", mode(&unit.columns.join("a"))), "770");
    unit.succeed();
    assert_eq!(format!("{:o}", mode(&unit.results.join("a"))), "600");
    // An earlier result that is kept, and a folder of results that a run makes.
    let earlier = Unit::with("access-list-earlier", &["a"]);
    earlier.succeed();
    assert_eq!(format!("{:o}", mode(&earlier.results.join("a"))), "644");
    earlier.put_sparse("a", 21);
    assert!(give_access_list(&earlier.columns.join("a"), "access"));
    assert_eq!(earlier.run(&[]).status, Some(4));
    assert_eq!(format!("{:o}", mode(&earlier.results.join("a"))), "600");
    fs::remove_dir_all(&earlier.results).unwrap();
    assert!(give_access_list(&earlier.columns, "access"));
    assert_eq!(earlier.run(&["--max-log-size", "21"]).status, Some(0));
    assert_eq!(format!("{:o}", mode(&earlier.results)), "700");
    // A list that the folder of results gives to its files.
    let other = Unit::with("access-list-results", &["a"]);
    set_mode(&other.columns.join("a"), 0o640);
    fs::create_dir(&other.results).unwrap();
    assert!(give_access_list(&other.results, "default"));
    other.succeed();
    assert_eq!(format!("{:o}", mode(&other.results.join("a"))), "600");
    assert_eq!(format!("{:o}", mode(&other.path_of_journal())), "600");
}
