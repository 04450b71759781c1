//! What others put into the folder of columns: links, pipes and names that mislead.

use crate::support::*;
use std::fs;
use std::os::unix::fs::symlink;
use std::os::unix::net::UnixListener;
use std::path::PathBuf;
use std::sync::atomic::{AtomicBool, Ordering};
use std::thread;

#[test]
fn links_are_not_followed() {
    let unit = Unit::with("links", &["a", "z"]);
    let private = unit.folder.path("private");
    fs::write(&private, bytes(&column(3, 7))).unwrap();
    set_mode(&private, 0o600);
    symlink(&private, unit.columns.join("absolute")).unwrap();
    symlink("../private", unit.columns.join("relative")).unwrap();
    symlink("a", unit.columns.join("inside")).unwrap();
    symlink("nothing", unit.columns.join("nothing-there")).unwrap();
    symlink(&unit.columns, unit.columns.join("to-a-folder")).unwrap();
    let links = ["absolute", "inside", "nothing-there", "relative", "to-a-folder"];
    let ended = unit.run(&[]);
    assert_eq!(ended.status, Some(4));
    let mut expected: Vec<String> = links.iter().map(|name| format!("{name}\t-\tpassed over\tit is a link")).collect();
    expected.extend(["a", "z"].map(|name| format!("{name}\t32\taccepted\t-")));
    expected.sort();
    assert_eq!(unit.report(), expected);
    assert_eq!(names(&unit.results), ["a", "taripomune-report.tsv", "z"]);
    for name in links {
        assert!(ended.told.contains(&format!("{name}: passed over: it is a link\n")), "{}", ended.told);
    }
}

#[test]
fn what_is_no_file_is_passed_over() {
    let unit = Unit::with("no-files", &["a", "z"]);
    make_pipe(&unit.columns.join("pipe"));
    let _socket = UnixListener::bind(unit.columns.join("socket")).unwrap();
    assert_eq!(unit.run(&[]).status, Some(4));
    let sentence = "-\tpassed over\tit isn't a regular file";
    let [pipe, socket] = ["pipe", "socket"].map(|name| format!("{name}\t{sentence}"));
    assert_eq!(unit.report(), ["a\t32\taccepted\t-", &pipe, &socket, "z\t32\taccepted\t-"]);
}

/// Ends the thread that looks at it, also where a test fails.
struct Over<'a>(&'a AtomicBool);

impl Drop for Over<'_> {
    fn drop(&mut self) {
        self.0.store(true, Ordering::Relaxed);
    }
}

/// Puts something else into the place of a column and the column back, again and again, while runs go on. Answers how often
/// the column was passed over; whatever was found, its result must be that of the column, or none.
fn exchanged(name: &str, make: impl Fn(&Unit)) -> usize {
    let unit = Unit::with(name, &["a"]);
    let [other, aside] = ["other", "aside"].map(|name| unit.folder.path(name));
    make(&unit);
    let (place, is_over) = (unit.columns.join("a"), AtomicBool::new(false));
    thread::scope(|scope| {
        let _over = Over(&is_over);
        scope.spawn(|| {
            while !is_over.load(Ordering::Relaxed) {
                fs::rename(&place, &aside).unwrap();
                fs::rename(&other, &place).unwrap();
                fs::rename(&place, &other).unwrap();
                fs::rename(&aside, &place).unwrap();
            }
        });
        let is_passed_over = |_: &i32| {
            let _ = fs::remove_dir_all(&unit.results);
            // A run that hangs ends the test.
            let ended = unit.run(&[]);
            assert!(matches!(ended.status, Some(0 | 4 | 5)), "{ended:?}");
            if ended.status == Some(0) {
                assert_eq!(fs::read(unit.results.join("a")).unwrap(), bytes(&interpolated(&column(3, 1))));
            }
            ended.status == Some(4)
        };
        (0..150).filter(is_passed_over).count()
    })
}

#[test]
fn a_pipe_that_takes_the_place_of_a_column_is_not_waited_for() {
    assert!(exchanged("pipe-exchanged", |unit| make_pipe(&unit.folder.path("other"))) > 0);
}

#[test]
fn a_link_that_takes_the_place_of_a_column_is_not_followed() {
    let exchanged = exchanged("link-exchanged", |unit| {
        fs::write(unit.folder.path("private"), bytes(&column(3, 7))).unwrap();
        symlink(unit.folder.path("private"), unit.folder.path("other")).unwrap();
    });
    assert!(exchanged > 0);
}

#[test]
fn names_are_printed_with_what_does_not_show_escaped() {
    let unit = Unit::new("names");
    let name = "in\u{202e}voice\u{1b}[2J\u{200b}\t\u{85}\\";
    unit.put(name, b"12345");
    let shown = "in\\xe2\\x80\\xaevoice\\x1b[2J\\xe2\\x80\\x8b\\x09\\xc2\\x85\\x5c";
    let ended = unit.run(&[]);
    assert!(ended.told.contains(&format!("{shown}: number 8, position 0")), "{}", ended.told);
    assert!(unit.report()[0].starts_with(&format!("{shown}\t5\tnumber 8")), "{:?}", unit.report());
    let json = unit.run(&["--json"]).said;
    assert!(json.contains(&format!("\"name\":\"{}\"", shown.replace('\\', "\\\\"))), "{json}");
    let journal = fs::read_to_string(unit.path_of_journal()).unwrap();
    let is_hidden =
        |character: char| character != '\n' && (character.is_control() || "\u{202e}\u{200b}".contains(character));
    for text in [ended.told, ended.said, json, journal] {
        assert!(!text.contains(is_hidden), "{text:?}");
    }
}

#[test]
fn a_single_file_is_told_with_what_does_not_show_escaped() {
    let folder = Folder::new("names-single");
    let input: PathBuf = folder.path("a\nb\u{85}\u{2066}");
    fs::write(&input, "12345").unwrap();
    for command in ["interpolate", "evaluate", "verify"] {
        let ended = ended(program().arg(command).arg(&input).arg(folder.path("out")));
        assert_eq!((ended.status, ended.told.lines().count()), (Some(3), 1));
        assert!(ended.told.contains("a\\x0ab\\xc2\\x85\\xe2\\x81\\xa6: number 8, position 0"), "{}", ended.told);
    }
}
