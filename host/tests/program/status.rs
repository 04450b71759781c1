//! The exit status of each case, for a supervisor to tell apart.

use crate::support::*;
use std::fs;
use std::path::Path;

#[test]
fn each_case_has_its_status() {
    let unit = Unit::new("status");
    let nothing = unit.run(&[]);
    assert_eq!(nothing.status, Some(5));
    assert!(nothing.told.contains("nothing to do: ") && nothing.said.is_empty(), "{nothing:?}");
    assert!(!unit.results.exists());
    unit.put("a", &bytes(&column(3, 1)));
    assert_eq!(unit.run(&[]).status, Some(0));
    unit.put("b", b"12345");
    assert_eq!(unit.run(&[]).status, Some(3));
    unit.put_sparse("c", 21);
    assert_eq!(unit.run(&[]).status, Some(4), "what may be readable later comes before what is refused");
    assert_eq!(unit.run(&["--max-log-size", "21"]).status, Some(3));
    fs::write(unit.folder.path("file"), "").unwrap();
    let file = unit.folder.path("file");
    assert_eq!(ended(program().arg("run").args([&unit.columns, &file])).status, Some(1));
    assert_eq!(unit.run(&["--fast"]).status, Some(2));
    // 6 is that of a check (checks.rs), 7 that of a signal (killed.rs).
}

#[test]
fn an_empty_folder_of_columns_replaces_no_report() {
    let unit = Unit::with("status-empty", &["a", "b"]);
    unit.succeed();
    let kept = || {
        let mut names: Vec<_> = fs::read_dir(&unit.results).unwrap().map(|entry| entry.unwrap().path()).collect();
        names.sort();
        names
            .into_iter()
            .map(|path| (fs::read(&path).unwrap(), fs::metadata(&path).unwrap().modified().unwrap()))
            .collect::<Vec<_>>()
    };
    let before = kept();
    let mounted = unit.folder.path("mounted");
    fs::rename(&unit.columns, &mounted).unwrap();
    fs::create_dir(&unit.columns).unwrap();
    // A folder, and names that aren't columns', are nothing to do either.
    fs::create_dir(unit.columns.join("lost+found")).unwrap();
    fs::write(unit.columns.join(".hidden"), "").unwrap();
    for options in [&[][..], &["--evaluate"], &["--jobs", "2"]] {
        assert_eq!(unit.run(options).status, Some(5));
        assert!(kept() == before);
    }
    fs::remove_dir_all(&unit.columns).unwrap();
    assert_eq!(unit.run(&[]).status, Some(1), "a folder that isn't there can't be read");
    assert!(kept() == before);
}

#[test]
fn the_table_of_the_help_is_that_of_the_readme() {
    let help = ended(program().arg("--help")).said;
    let page = fs::read_to_string(Path::new(env!("CARGO_MANIFEST_DIR")).join("../README.md")).unwrap();
    for status in 0..=7 {
        let says = help.lines().find_map(|line| line.strip_prefix(&format!("  {status}  "))).unwrap();
        let row = page.lines().find(|line| line.starts_with(&format!("| {status} | "))).unwrap();
        assert_eq!(row.replace('`', ""), format!("| {status} | {says} |"));
    }
}
