//! Journals that are damaged, lost or of an older program.

use crate::support::*;
use std::fs;
use std::path::PathBuf;

/// A folder of results with a journal that has good, refused and kept lines.
fn done(name: &str) -> Unit {
    let unit = Unit::with(name, &["a", "b", "c", "d"]);
    unit.put("r", &bytes(&damaged(3, 2)));
    assert_eq!(unit.run(&[]).status, Some(3));
    unit
}

/// Runs with a journal that was changed: every column must be done, rightly, and nothing else may be there.
fn assert_done(unit: &Unit, what: &str) {
    let ended = unit.run(&[]);
    assert_eq!(ended.status, Some(3), "{what}: {}", ended.told);
    unit.assert_whole(&["a", "b", "c", "d"]);
    let report = unit.report();
    assert_eq!(report.iter().filter(|line| line.ends_with("\t32\taccepted\t-")).count(), 4, "{what}: {report:?}");
    assert!(report[4].starts_with("r\t32\tnumber 1, position 2\t"), "{what}: {report:?}");
    assert_eq!(names(&unit.results), ["a", "b", "c", "d", "taripomune-report.tsv"], "{what}");
    assert_eq!(left_over(&unit.results), Vec::<PathBuf>::new());
}

#[test]
fn two_hundred_journals_with_flipped_bits_cost_a_second_transform_at_most() {
    let unit = done("flipped");
    let journal = fs::read(unit.path_of_journal()).unwrap();
    for round in 0..200 {
        let mut flipped = journal.clone();
        for _ in 0..1 + round % 4 {
            let bit = random(8 * journal.len() as u64) as usize;
            flipped[bit / 8] ^= 1 << (bit % 8);
        }
        // In some of the rounds the columns are others, too: no damaged line may vouch for what is no longer so.
        if round % 3 == 0 {
            unit.put("b", &bytes(&column(3, 100 + round)));
            fs::remove_file(unit.results.join("c")).unwrap();
        }
        fs::write(unit.path_of_journal(), &flipped).unwrap();
        let ended = unit.run(&[]);
        // Where the first line is lost, the earlier result of a changed column could be somebody else's.
        let is_kept = ended.status == Some(4);
        assert!(is_kept || ended.status == Some(3), "{}", ended.told);
        if is_kept {
            let kept = "b\t32\tpassed over\ta file that no run is known to have written is in the place of its result";
            assert!(round % 3 == 0 && unit.report().contains(&kept.to_string()), "{:?}", unit.report());
            fs::remove_file(unit.results.join("b")).unwrap();
        }
        assert_done(&unit, &format!("round {round}"));
    }
}

#[test]
fn a_journal_cut_anywhere_costs_a_second_transform_at_most() {
    let unit = done("cut");
    let journal = fs::read(unit.path_of_journal()).unwrap();
    for end in (0..journal.len()).step_by(7) {
        fs::write(unit.path_of_journal(), &journal[..end]).unwrap();
        assert_done(&unit, &format!("cut at {end}"));
    }
}

#[test]
fn a_lost_journal_or_another_text_in_its_place_stops_nothing() {
    let unit = done("lost");
    fs::remove_file(unit.path_of_journal()).unwrap();
    assert_done(&unit, "lost");
    // The journal of the program before this one, and something else.
    for text in ["", "\n", "balances\n", "taripomune run 1 interpolate\n0 0 32 1 2 3 4 5 a\n", "\0\0\0\0\0\0\0\0"] {
        fs::write(unit.path_of_journal(), text).unwrap();
        assert_done(&unit, text);
    }
    fs::write(unit.path_of_journal(), [0xff; 5000]).unwrap();
    assert_done(&unit, "bytes that aren't UTF-8");
    fs::remove_file(unit.path_of_journal()).unwrap();
    fs::remove_file(unit.results.join(".taripomune-lock")).unwrap();
    assert_done(&unit, "only the report left");
}

#[test]
fn a_lost_journal_lets_nothing_be_overwritten() {
    let unit = done("lost-and-kept");
    fs::remove_file(unit.path_of_journal()).unwrap();
    // It can't be known whose this is.
    fs::write(unit.results.join("b"), "balances").unwrap();
    fs::write(unit.results.join("r"), "of somebody").unwrap();
    for _ in 0..2 {
        let ended = unit.run(&[]);
        assert_eq!(ended.status, Some(4));
        assert!(unit.report()[1].starts_with("b\t32\tpassed over\ta file that no run is known to have written is in"));
        assert_eq!(fs::read(unit.results.join("b")).unwrap(), b"balances");
        assert_eq!(fs::read(unit.results.join("r")).unwrap(), b"of somebody");
        unit.assert_whole(&["a", "c", "d"]);
    }
    for name in ["b", "r"] {
        fs::remove_file(unit.results.join(name)).unwrap();
    }
    assert_done(&unit, "removed");
}

#[test]
fn a_damaged_line_of_a_file_that_is_kept_lets_it_be_kept() {
    let unit = Unit::new("kept-line");
    for name in ["a", "b"] {
        unit.put(name, b"12345");
    }
    fs::create_dir(&unit.results).unwrap();
    for name in ["a", "b"] {
        fs::write(unit.results.join(name), "of somebody").unwrap();
    }
    fs::write(unit.results.join(".taripomune-lock"), "").unwrap();
    assert_eq!(unit.run(&[]).status, Some(3));
    let journal = fs::read(unit.path_of_journal()).unwrap();
    assert!(String::from_utf8_lossy(&journal).contains(" kept a\n"));
    for bit in (0..8 * journal.len()).step_by(5) {
        let mut flipped = journal.clone();
        flipped[bit / 8] ^= 1 << (bit % 8);
        fs::write(unit.path_of_journal(), &flipped).unwrap();
        assert_eq!(unit.run(&[]).status, Some(3), "bit {bit}");
        for name in ["a", "b"] {
            assert_eq!(fs::read(unit.results.join(name)).ok().as_deref(), Some(&b"of somebody"[..]), "bit {bit}");
        }
    }
}

#[test]
fn lines_of_another_folder_are_no_lines_of_this_one() {
    let unit = done("foreign");
    let other = Unit::with("foreign-other", &["a", "b", "c", "d"]);
    other.succeed();
    // The inodes and times are others, so that every column is done again.
    fs::copy(other.path_of_journal(), unit.path_of_journal()).unwrap();
    assert_done(&unit, "of another folder");
}

#[test]
fn a_journal_does_not_grow_with_the_runs() {
    let unit = done("growing");
    let length = || fs::metadata(unit.path_of_journal()).unwrap().len();
    let before = length();
    for start in 0..10 {
        unit.put("a", &bytes(&column(3, 50 + start)));
        assert_done(&unit, "again");
    }
    assert!(length() < 2 * before);
}
