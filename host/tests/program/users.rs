//! Other users on the machine.

use crate::support::*;
use std::fs;
use std::os::unix::fs::{MetadataExt, PermissionsExt, chown};
use std::path::Path;
use std::process::{Command, Stdio};
use std::thread::sleep;
use std::time::Duration;

/// The user and group of somebody else.
const SOMEBODY: u32 = 65534;

/// A command as somebody else starts it.
fn as_somebody(program: &Path) -> Command {
    let mut command = Command::new("setpriv");
    let number = SOMEBODY.to_string();
    command.args(["--reuid", &number, "--regid", &number, "--clear-groups", "--"]).arg(program);
    command
}

/// A unit whose folders anybody may look into, with a copy of the program that somebody else can start.
fn shared(name: &str, names: &[&str]) -> Option<Unit> {
    if !is_root("another user") {
        return None;
    }
    let unit = Unit::with(name, names);
    for folder in ["", "in"] {
        set_mode(&unit.folder.path(folder), 0o755);
    }
    fs::copy(PROGRAM, unit.folder.path("program")).unwrap();
    set_mode(&unit.folder.path("program"), 0o755);
    let is_startable =
        as_somebody(&unit.folder.path("program")).arg("--help").output().is_ok_and(|output| output.status.success());
    if !is_startable {
        eprintln!("passed over, since nobody else can look into the folder of temporary files");
    }
    is_startable.then_some(unit)
}

/// The unit run by somebody else.
fn run_by_somebody(unit: &Unit) -> Ended {
    fs::create_dir_all(&unit.results).unwrap();
    chown(&unit.results, Some(SOMEBODY), Some(SOMEBODY)).unwrap();
    ended(as_somebody(&unit.folder.path("program")).arg("run").args([&unit.columns, &unit.results]))
}

#[test]
fn nobody_else_can_hold_the_lock_or_read_journal_and_report() {
    let Some(unit) = shared("lock-of-somebody", &["a"]) else { return };
    unit.succeed();
    set_mode(&unit.results, 0o755);
    for name in [".taripomune-journal", ".taripomune-lock", "taripomune-report.tsv"] {
        let path = unit.results.join(name);
        assert!(!as_somebody(Path::new("cat")).arg(&path).output().unwrap().status.success(), "{name} is readable");
        let mut flock = as_somebody(Path::new("flock"));
        let locked = flock.arg("--nonblock").arg(&path).arg("true").output().unwrap();
        assert!(!locked.status.success(), "{name} can be locked");
    }
}

#[test]
fn a_private_file_is_not_read_through_a_link() {
    let Some(unit) = shared("private-file", &["a"]) else { return };
    let private = unit.folder.path("private");
    fs::write(&private, bytes(&column(3, 9))).unwrap();
    set_mode(&private, 0o600);
    // The folder is open to all, and somebody puts a link there.
    set_mode(&unit.columns, 0o777);
    let mut link = as_somebody(Path::new("ln"));
    assert!(link.arg("-s").arg(&private).arg(unit.columns.join("link")).status().unwrap().success());
    assert_eq!(unit.run(&[]).status, Some(4));
    assert!(!unit.results.join("link").exists());
    assert_eq!(unit.report()[1], "link\t-\tpassed over\tit is a link");
    // Another name of the file itself leads to a result that is as private.
    fs::hard_link(&private, unit.columns.join("name")).unwrap();
    assert_eq!(unit.run(&[]).status, Some(4));
    assert_eq!(mode(&unit.results.join("name")), 0o600);
}

#[test]
fn a_file_without_permission_is_a_line_and_its_result_is_kept() {
    let Some(unit) = shared("no-permission", &["a", "b", "c"]) else { return };
    assert_eq!(run_by_somebody(&unit).status, Some(0));
    let before = fs::read(unit.results.join("b")).unwrap();
    set_mode(&unit.columns.join("b"), 0o600);
    unit.put("c", &bytes(&column(3, 8)));
    let ended = run_by_somebody(&unit);
    assert_eq!(ended.status, Some(4));
    assert!(ended.told.contains("b: can't be read: ") && ended.told.lines().count() == 1, "{}", ended.told);
    assert!(unit.report()[1].starts_with("b\t32\tunreadable\t"), "{:?}", unit.report());
    assert!(fs::read(unit.results.join("b")).unwrap() == before);
    unit.assert_whole(&["a", "c"]);
    // It was open to all, as its column.
    assert_eq!(format!("{:o}", mode(&unit.results.join("b"))), "600");
    set_mode(&unit.columns.join("b"), 0o644);
    assert_eq!(run_by_somebody(&unit).status, Some(0));
    assert_eq!(format!("{:o}", mode(&unit.results.join("b"))), "644");
}

#[test]
fn a_group_that_the_column_was_not_for_gets_no_more_than_everybody() {
    let Some(unit) = shared("foreign-group", &[]) else { return };
    // Of a group that somebody isn't in.
    for (column, _) in [(0o644, 0), (0o664, 0), (0o666, 0), (0o604, 0)] {
        let path = unit.columns.join(format!("{column:o}"));
        fs::write(&path, bytes(&self::column(3, 1))).unwrap();
        chown(&path, None, Some(12345)).unwrap();
        fs::set_permissions(&path, fs::Permissions::from_mode(column)).unwrap();
    }
    assert_eq!(run_by_somebody(&unit).status, Some(0));
    for (column, result) in [(0o644, 0o644), (0o664, 0o644), (0o666, 0o666), (0o604, 0o600)] {
        let path = unit.results.join(format!("{column:o}"));
        assert_eq!(format!("{:o}", mode(&path)), format!("{result:o}"), "of {column:o}");
        assert_eq!(fs::metadata(&path).unwrap().gid(), SOMEBODY);
    }
}

#[test]
fn a_result_that_somebody_changes_when_it_has_its_name_is_made_again() {
    let Some(unit) = shared("changed-result", &[]) else { return };
    // Whoever may write to the column may write to its result.
    let script = "before=; while :; do now=$(stat -c %i \"$0\" 2>/dev/null); if [ \"$now\" != \"$before\" ]; then \
        printf '\\001' | dd of=\"$0\" conv=notrunc bs=1 2>/dev/null && before=$now; fi; done";
    for round in 0..3 {
        unit.put("new", &bytes(&column(3, round)));
        set_mode(&unit.columns.join("new"), 0o666);
        fs::rename(unit.columns.join("new"), unit.columns.join("a")).unwrap();
        // Between the name and what comes after it there is time to write.
        let Some(mut command) = unit.command_with_pauses("fsync", 20000, &[]) else { return };
        let mut shell = as_somebody(Path::new("sh"));
        let writer = Background::start(shell.args(["-c", script]).arg(unit.results.join("a")));
        assert_eq!(ended(&mut command).status, Some(0));
        drop(writer);
        assert_eq!(unit.run(&[]).status, Some(0));
        unit.assert_whole(&["a"]);
    }
}

#[test]
fn a_folder_that_can_only_be_listed_is_told_once() {
    let Some(unit) = shared("only-listed", &["a", "b"]) else { return };
    fs::create_dir(&unit.results).unwrap();
    chown(&unit.results, Some(SOMEBODY), Some(SOMEBODY)).unwrap();
    set_mode(&unit.columns, 0o744);
    let mut command = as_somebody(&unit.folder.path("program"));
    command.args(["run", "--watch", "--json"]).args([&unit.columns, &unit.results]);
    let mut child = command.stdout(Stdio::piped()).stderr(Stdio::null()).spawn().unwrap();
    wait_until("a report", || unit.results.join("taripomune-report.tsv").exists());
    sleep(Duration::from_millis(1500));
    signal(&child, "TERM");
    end_of(&mut child);
    let ended: Ended = child.wait_with_output().unwrap().into();
    assert_eq!((ended.status, ended.said.lines().count()), (Some(4), 3), "{}", ended.said);
}

#[test]
fn a_folder_of_results_that_cannot_be_written_to_is_told() {
    let Some(unit) = shared("foreign-results", &["a"]) else { return };
    fs::create_dir(&unit.results).unwrap();
    let ended = ended(as_somebody(&unit.folder.path("program")).arg("run").args([&unit.columns, &unit.results]));
    assert_eq!((ended.status, ended.told.lines().count()), (Some(1), 1), "{}", ended.told);
    assert_eq!(fs::read_dir(&unit.results).unwrap().count(), 0);
}
