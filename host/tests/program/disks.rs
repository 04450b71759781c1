//! Full and read-only file systems.

use crate::support::*;
use std::fs;
use std::path::{Path, PathBuf};
use std::process::{Command, Stdio};
use std::thread::sleep;
use std::time::{Duration, UNIX_EPOCH};

/// A file system in memory of so many KiB, mounted at a folder as long as this value is there.
struct Mount(PathBuf);

impl Mount {
    fn new(folder: &Path, kibibytes: u32) -> Option<Mount> {
        if !is_root("a mount") {
            return None;
        }
        fs::create_dir_all(folder).unwrap();
        let mut mount = Command::new("mount");
        let made = mount.args(["-t", "tmpfs", "-o", &format!("size={kibibytes}k"), "taripomune-test"]).arg(folder);
        if !made.status().unwrap().success() {
            eprintln!("passed over, since nothing can be mounted");
            return None;
        }
        Some(Mount(folder.to_path_buf()))
    }

    /// The file system of an image.
    fn image(image: &Path, folder: &Path) -> Option<Mount> {
        let mut mount = Command::new("mount");
        let is_mounted = mount.args(["-o", "loop"]).args([image, folder]).output().unwrap().status.success();
        if !is_mounted {
            eprintln!("passed over, since no image can be mounted");
        }
        is_mounted.then(|| Mount(folder.to_path_buf()))
    }

    /// Mounts it anew with other options.
    fn change(&self, options: &str) {
        let mut mount = Command::new("mount");
        assert!(mount.args(["-o", &format!("remount,{options}")]).arg(&self.0).status().unwrap().success());
    }
}

impl Drop for Mount {
    fn drop(&mut self) {
        let _ = Command::new("umount").arg(&self.0).status();
    }
}

#[test]
fn a_run_on_a_full_disk_goes_on_when_there_is_room() {
    let unit = Unit::with("full-disk", &["a", "b"]);
    let Some(mount) = Mount::new(&unit.results, 64) else { return };
    unit.succeed();
    unit.put("c", &bytes(&column(15, 1)));
    unit.put("d", &bytes(&column(3, 9)));
    for jobs in ["1", "2"] {
        let ended = unit.run(&["--jobs", jobs]);
        assert_eq!(ended.status, Some(1));
        assert!(ended.told.contains("c: can't be written: "), "{}", ended.told);
        assert_eq!(left_over(&unit.results), Vec::<PathBuf>::new());
        // A report is of all columns, or it isn't there.
        assert!(!unit.results.join("c").exists() && !unit.results.join("taripomune-report.tsv").exists());
    }
    mount.change("size=1m");
    let said = unit.succeed().said;
    assert!(said.starts_with("4 columns: 4 accepted") && said.contains("columns done before"), "{said}");
    unit.assert_whole(&["a", "b", "c", "d"]);
}

/// Waits until a second has just begun.
fn wait_for_second() {
    while UNIX_EPOCH.elapsed().unwrap().subsec_millis() > 100 {
        sleep(Duration::from_millis(5));
    }
}

#[test]
fn a_column_that_is_another_one_within_a_second_is_done_again() {
    let unit = Unit::with("whole-seconds", &[]);
    let image = unit.folder.path("image");
    fs::File::create(&image).unwrap().set_len(4 << 20).unwrap();
    // Inodes of 128 bytes have room for whole seconds only.
    let mut make = Command::new("mkfs.ext4");
    let is_made = make.args(["-q", "-I", "128"]).arg(&image).output().is_ok_and(|output| output.status.success());
    let Some(_mount) = is_made.then(|| Mount::image(&image, &unit.columns)).flatten() else { return };
    let rename_in = |start| {
        fs::write(unit.columns.join(".new"), bytes(&column(3, start))).unwrap();
        fs::rename(unit.columns.join(".new"), unit.columns.join("a")).unwrap();
    };
    for round in 0..3 {
        wait_for_second();
        rename_in(10 * round);
        unit.run(&[]);
        // The second one has the inode of the first.
        rename_in(10 * round + 1);
        rename_in(10 * round + 2);
        unit.run(&[]);
        unit.assert_whole(&["a"]);
    }
}

#[test]
fn a_result_that_cannot_be_removed_is_told_once_and_the_run_goes_on() {
    let unit = Unit::with("immutable", &["a", "z"]);
    unit.succeed();
    let result = unit.results.join("a");
    let change =
        |flag: &str| Command::new("chattr").arg(flag).arg(&result).output().is_ok_and(|output| output.status.success());
    unit.put("a", b"12345");
    if !change("+i") {
        eprintln!("passed over, since no file can be made immutable");
        return;
    }
    let ended = unit.run(&[]);
    fs::remove_file(unit.results.join("taripomune-report.tsv")).unwrap();
    let mut watching =
        unit.command(&["--watch", "--json"]).stdout(Stdio::piped()).stderr(Stdio::null()).spawn().unwrap();
    wait_until("a report", || unit.results.join("taripomune-report.tsv").exists());
    sleep(Duration::from_millis(1500));
    signal(&watching, "TERM");
    end_of(&mut watching);
    assert!(change("-i"));
    assert_eq!(ended.status, Some(4));
    let watched: Ended = watching.wait_with_output().unwrap().into();
    assert_eq!(watched.status, Some(4));
    assert_eq!(watched.said.lines().filter(|line| line.contains("\"name\":\"a\"")).count(), 1, "{}", watched.said);
    let report = unit.report();
    let sentence = "a\t5\tpassed over\tit is refused (number 8, position 0: ";
    assert!(
        report[0].starts_with(sentence) && report[0].contains("and its earlier result can't be removed: "),
        "{report:?}"
    );
    assert_eq!(unit.run(&[]).status, Some(3));
    assert!(!result.exists());
}

#[test]
fn a_disk_too_full_for_a_journal_is_told_and_what_is_there_stays() {
    let unit = Unit::with("no-room", &["a"]);
    let Some(_mount) = Mount::new(&unit.results, 64) else { return };
    unit.succeed();
    let journal = fs::read(unit.path_of_journal()).unwrap();
    let filler = unit.results.join(".filler");
    fs::write(&filler, vec![0; 1 << 16]).unwrap_err();
    unit.put("b", &bytes(&column(3, 2)));
    for options in [&[][..], &["--jobs", "2"]] {
        let ended = unit.run(options);
        assert_eq!((ended.status, ended.told.lines().count()), (Some(1), 1), "{ended:?}");
        assert!(fs::read(unit.path_of_journal()).unwrap() == journal);
    }
    fs::remove_file(&filler).unwrap();
    let said = unit.succeed().said;
    assert!(said.contains("; 1 columns done before; "), "{said}");
    unit.assert_whole(&["a", "b"]);
}

#[test]
fn a_full_disk_leaves_a_single_result_as_it_was() {
    let folder = Folder::new("full-single");
    let (input, output) = (folder.path("in"), folder.path("out/a"));
    fs::write(&input, bytes(&column(15, 1))).unwrap();
    let Some(_mount) = Mount::new(&folder.path("out"), 64) else { return };
    fs::write(&output, "before").unwrap();
    let ended = ended(program().arg("interpolate").args([&input, &output]));
    assert_eq!(ended.status, Some(1));
    assert!(ended.told.contains("can't be written: "), "{}", ended.told);
    assert_eq!(fs::read(&output).unwrap(), b"before");
    assert_eq!(left_over(&folder.path("out")), Vec::<PathBuf>::new());
}

#[test]
fn a_read_only_disk_is_told_and_what_is_there_stays() {
    let unit = Unit::with("read-only", &["a"]);
    let Some(mount) = Mount::new(&unit.results, 1024) else { return };
    unit.succeed();
    let report = unit.report();
    mount.change("ro");
    unit.put("b", &bytes(&column(3, 2)));
    for options in [&[][..], &["--jobs", "2"], &["--watch"]] {
        let ended = unit.run(options);
        assert_eq!((ended.status, ended.told.lines().count()), (Some(1), 1), "{ended:?}");
        assert_eq!(
            (unit.report(), names(&unit.results)),
            (report.clone(), vec!["a".into(), "taripomune-report.tsv".into()])
        );
    }
    let single = ended(program().arg("interpolate").args([unit.columns.join("b"), unit.results.join("b")]));
    assert_eq!(single.status, Some(1));
    mount.change("rw");
    unit.succeed();
    unit.assert_whole(&["a", "b"]);
}

#[test]
fn a_result_that_may_not_be_so_long_is_a_line_and_the_run_goes_on() {
    let unit = Unit::with("short-files", &["a", "z"]);
    unit.put("m", &bytes(&column(15, 1)));
    // No file may have more than a few blocks, and the signal that comes with it ends nothing.
    let ended = ended(&mut unit.command_after("ulimit -f 20", &[]));
    assert_eq!(ended.status, Some(4), "{ended:?}");
    assert!(
        unit.report()[1].starts_with("m\t131072\tpassed over\tits result can't be written: "),
        "{:?}",
        unit.report()
    );
    unit.assert_whole(&["a", "z"]);
    assert_eq!(left_over(&unit.results), Vec::<PathBuf>::new());
    unit.succeed();
}
