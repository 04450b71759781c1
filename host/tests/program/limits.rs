//! Memory and long files.

use crate::support::*;
use std::fs;
use std::path::{Path, PathBuf};
use std::process::Stdio;

#[test]
fn a_long_file_is_passed_over_and_the_columns_behind_it_are_done() {
    let unit = Unit::with("over-the-limit", &["a", "c"]);
    unit.put_sparse("b", 26);
    unit.put_sparse("b20", 20);
    unit.put_sparse("b21", 21);
    // A length that the table refuses is refused, whatever the limit.
    unit.put_sparse("b31", 31);
    let ended = unit.run(&[]);
    assert_eq!(ended.status, Some(4));
    assert_eq!(
        unit.report(),
        [
            "a\t32\taccepted\t-",
            "b\t268435456\tpassed over\tit is over the limit of 2^20 words",
            "b20\t4194304\taccepted\t-",
            "b21\t8388608\tpassed over\tit is over the limit of 2^20 words",
            "b31\t8589934592\tnumber 6, position 0\ta log size is outside its range",
            "c\t32\taccepted\t-"
        ]
    );
    assert!(
        ended.said.starts_with("6 columns: 3 accepted, 1 refused, 0 unreadable, 2 passed over; "),
        "{}",
        ended.said
    );
    assert_eq!(unit.run(&["--max-log-size=2"]).status, Some(4));
    assert_eq!(unit.report()[0], "a\t32\taccepted\t-", "what is done stays done");
    assert_eq!(unit.run(&["--max-log-size", "21"]).status, Some(4));
    assert!(unit.report()[3].starts_with("b21\t8388608\taccepted"));
}

#[test]
fn a_column_too_long_for_the_memory_is_told() {
    let unit = Unit::with("no-memory", &["a", "c"]);
    unit.put_sparse("b", 30);
    for jobs in ["1", "2"] {
        // All memory that the process may have, used or not, in KiB.
        let ended = ended(&mut unit.command_after("ulimit -v 262144", &["--max-log-size", "30", "--jobs", jobs]));
        assert_eq!(ended.status, Some(4));
        assert!(ended.told.contains("b: can't be read: ") && ended.told.contains("memory"), "{}", ended.told);
        let report = unit.report();
        assert!(report[1].starts_with("b\t4294967296\tunreadable\t"), "{report:?}");
        unit.assert_whole(&["a", "c"]);
        fs::remove_dir_all(&unit.results).unwrap();
    }
}

#[test]
fn columns_of_2_to_the_20_words_fit_into_256_mib() {
    let unit = Unit::new("memory");
    for name in ["a", "b", "c"] {
        unit.put(name, &bytes(&vec![7; 1 << 20]));
    }
    let ended = ended(&mut unit.command_after("ulimit -v 262144", &[]));
    assert_eq!((ended.status, ended.told.as_str()), (Some(0), ""));
    assert_eq!(unit.report().len(), 3);
}

/// A control group with so many MiB of memory, which goes with this value.
struct Group(PathBuf);

impl Group {
    fn new(mebibytes: u64) -> Option<Group> {
        let first = Path::new("/sys/fs/cgroup/memory");
        let (root, limit) = match first.is_dir() {
            true => (first, "memory.limit_in_bytes"),
            false => (Path::new("/sys/fs/cgroup"), "memory.max"),
        };
        let group = Group(root.join(format!("taripomune-test-{}-{}", std::process::id(), random(u64::MAX))));
        let make = || {
            fs::create_dir(&group.0)?;
            fs::write(group.0.join(limit), (mebibytes << 20).to_string())
        };
        match make() {
            Ok(()) => Some(group),
            Err(error) => {
                eprintln!("passed over, since no control group can be made: {error}");
                None
            }
        }
    }

    /// The commands of a shell that enter it.
    fn enter(&self) -> String {
        format!("echo $$ > {}/cgroup.procs", self.0.display())
    }
}

impl Drop for Group {
    fn drop(&mut self) {
        // The last process may not be gone yet.
        for _ in 0..100 {
            if fs::remove_dir(&self.0).is_ok() {
                return;
            }
            std::thread::sleep(std::time::Duration::from_millis(10));
        }
    }
}

#[test]
fn a_column_too_long_for_the_control_group_is_told_and_kills_nothing() {
    let unit = Unit::with("control-group", &["a", "c"]);
    unit.put_sparse("b", 26);
    unit.put("d", &bytes(&vec![7; 1 << 20]));
    for options in [&["--max-log-size", "30"][..], &["--max-log-size", "30", "--jobs", "2"], &[]] {
        let Some(group) = Group::new(256) else { return };
        let _ = fs::remove_dir_all(&unit.results);
        let ended = ended(&mut unit.command_after(&group.enter(), options));
        assert_eq!(ended.status, Some(4), "{ended:?}");
        let why = match options {
            [] => "passed over\tit is over the limit of 2^20 words",
            _ => "unreadable\tit takes 512 MiB of memory with scratch, and the control group has ",
        };
        let report = unit.report();
        assert!(report[1].starts_with(&format!("b\t268435456\t{why}")), "{report:?}");
        unit.assert_whole(&["a", "c", "d"]);
    }
}

#[test]
fn names_that_have_no_room_are_told_and_kill_nothing() {
    let unit = Unit::new("names-without-room");
    for number in 0..40000 {
        fs::hard_link(first(&unit), unit.columns.join(format!("{number:0>250}"))).unwrap();
    }
    let is_told = |ended: Ended| {
        assert_eq!((ended.status, ended.told.lines().count()), (Some(1), 1), "{ended:?}");
        let told = ended.told;
        assert!(told.contains("in: can't be read: it takes ") && told.contains(" more to keep its names, "), "{told}");
    };
    let Some(group) = Group::new(64) else { return };
    is_told(ended(&mut unit.command_after(&group.enter(), &[])));
    // They come while it watches.
    let aside = unit.folder.path("aside");
    fs::rename(&unit.columns, &aside).unwrap();
    fs::create_dir(&unit.columns).unwrap();
    unit.put("a", &bytes(&column(3, 1)));
    let mut command = unit.command_after(&group.enter(), &["--watch"]);
    let mut child = command.stdout(Stdio::null()).stderr(Stdio::piped()).spawn().unwrap();
    wait_until("a result", || unit.results.join("a").exists());
    fs::rename(&unit.columns, unit.folder.path("one")).unwrap();
    fs::rename(&aside, &unit.columns).unwrap();
    end_of(&mut child);
    is_told(child.wait_with_output().unwrap().into());
}

/// A file beside the folder of columns.
fn first(unit: &Unit) -> PathBuf {
    let path = unit.folder.path("first");
    if !path.exists() {
        fs::write(&path, bytes(&column(1, 1))).unwrap();
    }
    path
}

#[test]
fn a_journal_that_has_no_room_is_a_lost_one() {
    let unit = Unit::with("long-journal", &["a", "b"]);
    unit.succeed();
    fs::File::options().write(true).open(unit.path_of_journal()).unwrap().set_len(1 << 30).unwrap();
    let Some(group) = Group::new(64) else { return };
    let ended = ended(&mut unit.command_after(&group.enter(), &[]));
    assert_eq!((ended.status, ended.told.as_str()), (Some(0), ""), "{ended:?}");
    unit.assert_whole(&["a", "b"]);
    assert!(fs::metadata(unit.path_of_journal()).unwrap().len() < 1000);
}

#[test]
fn columns_that_fit_only_one_at_a_time_are_done_one_at_a_time() {
    let unit = Unit::new("one-at-a-time");
    // Each takes 128 MiB with scratch, which two can't have at once.
    for name in ["a", "b", "c"] {
        unit.put_sparse(name, 24);
    }
    let Some(group) = Group::new(200) else { return };
    let ended = ended(&mut unit.command_after(&group.enter(), &["--max-log-size", "24", "--jobs", "2"]));
    assert_eq!((ended.status, ended.told.as_str()), (Some(0), ""), "{ended:?}");
    assert_eq!(unit.report(), ["a", "b", "c"].map(|name| format!("{name}\t67108864\taccepted\t-")));
}
