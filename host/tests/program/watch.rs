//! `taripomune run --watch`.

use crate::support::*;
use std::fs;
use std::io::ErrorKind;
use std::os::unix::fs::{FileExt, symlink};
use std::os::unix::net::UnixDatagram;
use std::process::{Command, Stdio};
use std::thread::sleep;
use std::time::Duration;

/// A run that watches.
struct Watching(Background);

impl Watching {
    fn start(command: &mut Command) -> Watching {
        Watching(Background::start(command.stdout(Stdio::piped()).stderr(Stdio::piped())))
    }

    fn goes_on(&mut self) -> bool {
        self.0.0.try_wait().unwrap().is_none()
    }

    fn end(mut self, name: &str) -> Ended {
        assert!(self.goes_on());
        let child = &mut self.0.0;
        signal(child, name);
        let (said, told) = (all_of(child.stdout.take().unwrap()), all_of(child.stderr.take().unwrap()));
        Ended { status: end_of(child).code(), said: said.join().unwrap(), told: told.join().unwrap() }
    }
}

/// Puts a file into the folder of columns whole, by a rename.
fn rename_in(unit: &Unit, name: &str, contents: &[u8]) {
    fs::write(unit.folder.path("new"), contents).unwrap();
    fs::rename(unit.folder.path("new"), unit.columns.join(name)).unwrap();
}

fn wait_for_line(unit: &Unit, line: &str) {
    let is_there = || unit.results.join("taripomune-report.tsv").exists() && unit.report().contains(&line.to_string());
    wait_until(line, is_there);
}

#[test]
fn what_is_renamed_into_the_folder_is_taken() {
    let unit = Unit::with("watch", &["a"]);
    let mut watching = Watching::start(&mut unit.command(&["--watch"]));
    wait_for_line(&unit, "a\t32\taccepted\t-");
    rename_in(&unit, "b", &bytes(&column(3, 9)));
    wait_for_line(&unit, "b\t32\taccepted\t-");
    unit.assert_whole(&["a", "b"]);
    // Another file of the same name, a refused one, and one that isn't a file.
    rename_in(&unit, "b", &bytes(&column(4, 3)));
    wait_for_line(&unit, "b\t64\taccepted\t-");
    rename_in(&unit, "c", b"12345");
    wait_for_line(
        &unit,
        "c\t5\tnumber 8, position 0\ta column, its destination or scratch has a length that doesn't fit",
    );
    symlink("a", unit.columns.join("d")).unwrap();
    wait_for_line(&unit, "d\t-\tpassed over\tit is a link");
    fs::remove_file(unit.columns.join("c")).unwrap();
    wait_until("c is gone from the report", || unit.report().len() == 3);
    assert!(watching.goes_on());
    let ended = watching.end("TERM");
    assert_eq!(ended.status, Some(4), "{ended:?}");
    assert_eq!(ended.told.lines().count(), 2, "each is told once: {}", ended.told);
    assert!(
        ended.said.starts_with("3 columns: 2 accepted, 0 refused, 0 unreadable, 1 passed over; "),
        "{}",
        ended.said
    );
    unit.assert_whole(&["a", "b"]);
}

#[test]
fn a_folder_that_is_empty_at_the_start_is_watched() {
    let unit = Unit::new("watch-empty");
    let mut watching = Watching::start(&mut unit.command_with_signals(&["--watch", "--jobs", "2"]));
    sleep(Duration::from_millis(700));
    assert!(watching.goes_on());
    for start in 0..20 {
        rename_in(&unit, &format!("{start:02}"), &bytes(&column(8, start)));
    }
    wait_until("all are done", || unit.results.join("taripomune-report.tsv").exists() && unit.report().len() == 20);
    unit.assert_whole(&["00", "10", "19"]);
    let ended = watching.end("INT");
    assert_eq!((ended.status, ended.told.as_str()), (Some(0), ""));
}

#[test]
fn a_file_that_is_still_written_to_is_not_taken() {
    let unit = Unit::new("watch-written");
    let _watching = Watching::start(&mut unit.command(&["--watch"]));
    wait_until("it has begun", || unit.path_of_journal().exists());
    let file = fs::File::create(unit.columns.join("a")).unwrap();
    // It could be a column all the time.
    for word in column(6, 1) {
        file.write_all_at(&bytes(&[word, word]), 0).unwrap();
        sleep(Duration::from_millis(50));
        assert!(!unit.results.join("a").exists());
    }
    wait_for_line(&unit, "a\t8\taccepted\t-");
    unit.assert_whole(&["a"]);
}

/// The next message. A waiting with a time limit that a signal interrupts is begun again.
fn received(socket: &UnixDatagram) -> String {
    let mut buffer = [0; 100];
    let length = loop {
        match socket.recv(&mut buffer) {
            Err(error) if error.kind() == ErrorKind::Interrupted => {}
            length => break length.unwrap(),
        }
    };
    String::from_utf8(buffer[..length].to_vec()).unwrap()
}

#[test]
fn a_heartbeat_is_told_to_people_and_to_the_supervisor() {
    let unit = Unit::with("watch-heartbeat", &["a"]);
    let path = unit.folder.path("socket");
    let socket = UnixDatagram::bind(&path).unwrap();
    socket.set_read_timeout(Some(Duration::from_secs(30))).unwrap();
    let message = || received(&socket);
    let mut command = unit.command(&["--watch", "--json", "--heartbeat=1"]);
    let watching = Watching::start(command.env("NOTIFY_SOCKET", &path));
    assert_eq!(message(), "READY=1");
    wait_for_line(&unit, "a\t32\taccepted\t-");
    // The first may have come before.
    assert_eq!([message(), message(), message()], ["WATCHDOG=1"; 3]);
    let ended = watching.end("TERM");
    assert_eq!(std::iter::repeat_with(message).find(|message| message != "WATCHDOG=1").unwrap(), "STOPPING=1");
    assert_eq!(ended.status, Some(0));
    let beats = ended.said.lines().filter(|line| line.starts_with("{\"event\":\"heartbeat\",\"command\":\"run\","));
    assert!(beats.count() >= 2, "{}", ended.said);
    let told = "taripomune: watching: 1 columns: 1 accepted, 0 refused, 0 unreadable, 0 passed over";
    assert!(
        ended.told.lines().filter(|line| line.starts_with("taripomune: watching: ")).count() >= 2,
        "{}",
        ended.told
    );
    assert_eq!(ended.told.lines().next_back(), Some(told));
}

#[test]
fn a_supervisor_gets_signs_of_life_as_often_as_it_asks() {
    let unit = Unit::with("watch-watchdog", &["a"]);
    let path = unit.folder.path("socket");
    let socket = UnixDatagram::bind(&path).unwrap();
    socket.set_read_timeout(Some(Duration::from_secs(30))).unwrap();
    let mut command = unit.command(&["--watch", "--heartbeat", "3600"]);
    let _watching = Watching::start(command.env("NOTIFY_SOCKET", &path).env("WATCHDOG_USEC", "2000000"));
    let sizes = [(); 3].map(|()| received(&socket).len());
    assert_eq!(sizes, ["READY=1", "WATCHDOG=1", "WATCHDOG=1"].map(str::len));
}

#[test]
fn a_folder_of_columns_that_goes_away_may_come_back() {
    let unit = Unit::with("watch-unmounted", &["a"]);
    let mut watching = Watching::start(&mut unit.command(&["--watch"]));
    wait_for_line(&unit, "a\t32\taccepted\t-");
    let aside = unit.folder.path("aside");
    fs::rename(&unit.columns, &aside).unwrap();
    sleep(Duration::from_millis(1500));
    assert!(watching.goes_on());
    assert_eq!(unit.report(), ["a\t32\taccepted\t-"]);
    // Unmounted, it would be an empty folder.
    fs::create_dir(&unit.columns).unwrap();
    sleep(Duration::from_millis(1200));
    assert_eq!(unit.report(), ["a\t32\taccepted\t-"]);
    fs::remove_dir(&unit.columns).unwrap();
    fs::rename(&aside, &unit.columns).unwrap();
    rename_in(&unit, "b", &bytes(&column(3, 2)));
    wait_for_line(&unit, "b\t32\taccepted\t-");
    let ended = watching.end("TERM");
    assert_eq!(ended.status, Some(0), "{ended:?}");
    assert!(ended.told.contains("in: can't be read: ") && ended.told.lines().count() == 1, "{}", ended.told);
}

#[test]
fn what_was_done_is_known_after_the_folder_of_columns_was_empty() {
    let unit = Unit::with("watch-forgotten", &["a", "b"]);
    unit.succeed();
    let aside = unit.folder.path("aside");
    fs::rename(&unit.columns, &aside).unwrap();
    fs::create_dir(&unit.columns).unwrap();
    let written = || fs::metadata(unit.path_of_journal()).unwrap().modified().unwrap();
    let before = written();
    let watching = Watching::start(&mut unit.command(&["--watch"]));
    wait_until("it has begun", || written() > before);
    sleep(Duration::from_millis(700));
    assert_eq!(watching.end("TERM").status, Some(0));
    fs::remove_dir(&unit.columns).unwrap();
    fs::rename(&aside, &unit.columns).unwrap();
    assert!(unit.succeed().said.contains("; 2 columns done before"));
}
