//! `taripomune interpolate` and `evaluate` on single files.

use crate::support::*;
use std::fs;
use std::os::unix::fs::{FileExt, symlink};
use std::path::{Path, PathBuf};
use std::process::Stdio;
use std::thread::sleep;
use std::time::Duration;

fn transform(direction: &str, input: &Path, output: &Path) -> (Option<i32>, String) {
    let ended = ended(program().arg(direction).args([input, output]));
    assert_eq!(ended.said, "");
    (ended.status, ended.told)
}

#[test]
fn a_file_goes_there_and_back() {
    let folder = Folder::new("there-and-back");
    let [values, coefficients, back] = ["values", "coefficients", "back"].map(|name| folder.path(name));
    for log_size in [1, 2, 3, 10, 15] {
        let column = column(log_size, 5);
        fs::write(&values, bytes(&column)).unwrap();
        assert_eq!(transform("interpolate", &values, &coefficients), (Some(0), String::new()));
        assert_eq!(fs::read(&coefficients).unwrap(), bytes(&interpolated(&column)));
        assert_eq!(transform("evaluate", &coefficients, &back), (Some(0), String::new()));
        assert_eq!(fs::read(&back).unwrap(), bytes(&column));
    }
    assert_eq!(names(&folder.path("")), ["back", "coefficients", "values"]);
    assert_eq!(left_over(&folder.path("")), Vec::<PathBuf>::new());
}

#[test]
fn a_file_may_become_its_own_result() {
    let folder = Folder::new("in-place");
    let file = folder.path("column");
    fs::write(&file, bytes(&column(6, 1))).unwrap();
    assert_eq!(transform("evaluate", &file, &file).0, Some(0));
    assert_eq!(fs::read(&file).unwrap(), bytes(&evaluated(&column(6, 1))));
}

#[test]
fn a_refused_file_has_one_line_status_3_and_no_result() {
    let folder = Folder::new("refused");
    let (input, output) = (folder.path("in"), folder.path("out"));
    let length = "number 8, position 0: a column, its destination or scratch has a length that doesn't fit";
    let log_size = "number 6, position 0: a log size is outside its range";
    let files = [
        (vec![], length),
        (vec![0; 7], length),
        (bytes(&column(2, 1)[..3]), length),
        (bytes(&column(3, 1))[..31].to_vec(), length),
        (vec![0; 4], log_size),
        (bytes(&damaged(4, 9)), "number 1, position 9: a word is not below 2147483647"),
        (bytes(&[u32::MAX; 2]), "number 1, position 0: a word is not below 2147483647"),
    ];
    for (contents, sentence) in files {
        fs::write(&input, contents).unwrap();
        for direction in ["interpolate", "evaluate"] {
            let line = format!("taripomune: {}: {sentence}\n", input.display());
            assert_eq!(transform(direction, &input, &output), (Some(3), line));
            assert!(!output.exists());
        }
    }
    assert_eq!(names(&folder.path("")), ["in"]);
}

#[test]
fn a_file_too_long_is_refused_unread() {
    let folder = Folder::new("too-long");
    let input = folder.path("in");
    // The file has a length and takes no room.
    fs::File::create(&input).unwrap().set_len(4 << 31).unwrap();
    let (status, line) = transform("interpolate", &input, &folder.path("out"));
    assert_eq!(status, Some(3));
    assert!(line.contains("number 6, position 0"), "{line}");
}

#[test]
fn a_file_that_cannot_be_read_is_told() {
    let folder = Folder::new("unreadable");
    symlink("loop", folder.path("loop")).unwrap();
    folder.folder("folder");
    make_pipe(&folder.path("pipe"));
    for name in ["missing", "loop", "folder", "pipe"] {
        let input = folder.path(name);
        let (status, line) = transform("evaluate", &input, &folder.path("out"));
        assert_eq!(status, Some(4));
        assert!(line.starts_with(&format!("taripomune: {}: can't be read: ", input.display())), "{line}");
        assert_eq!(line.lines().count(), 1);
        assert!(!folder.path("out").exists());
    }
}

#[test]
fn a_link_that_the_command_names_leads_to_its_file() {
    let folder = Folder::new("named-link");
    fs::write(folder.path("file"), bytes(&column(3, 1))).unwrap();
    symlink("file", folder.path("link")).unwrap();
    assert_eq!(transform("evaluate", &folder.path("link"), &folder.path("out")), (Some(0), String::new()));
}

#[test]
fn a_result_that_cannot_be_written_is_told() {
    let folder = Folder::new("unwritable");
    let input = folder.path("in");
    fs::write(&input, bytes(&column(3, 1))).unwrap();
    folder.folder("folder");
    for output in ["missing/out", "in/out", "folder", "folder/.."] {
        let (status, line) = transform("interpolate", &input, &folder.path(output));
        assert_eq!(status, Some(1), "{output}");
        assert!(line.contains("can't be written: "), "{line}");
    }
    assert_eq!(names(&folder.path("")), ["folder", "in"]);
    assert_eq!(left_over(&folder.path("")), Vec::<PathBuf>::new());
    assert_eq!(fs::read_dir(folder.path("folder")).unwrap().count(), 0);
}

#[test]
fn a_result_that_may_not_be_so_long_leaves_the_earlier_one() {
    let folder = Folder::new("limited");
    let (input, output) = (folder.path("in"), folder.path("out"));
    fs::write(&input, bytes(&column(15, 1))).unwrap();
    fs::write(&output, "before").unwrap();
    // No file may have more than a few blocks: writing fails in the middle, and the signal that comes with it ends nothing.
    let mut limited = program_after("ulimit -f 20");
    let ended = ended(limited.arg("interpolate").args([&input, &output]));
    assert_eq!(ended.status, Some(1));
    assert!(ended.told.contains("can't be written: "), "{}", ended.told);
    assert_eq!(fs::read(&output).unwrap(), b"before");
    assert_eq!(left_over(&folder.path("")), Vec::<PathBuf>::new());
}

#[test]
fn what_another_program_writes_beside_is_not_touched() {
    let folder = Folder::new("beside");
    fs::write(folder.path("in"), bytes(&column(3, 1))).unwrap();
    // The shell has the number of the process that the program will be.
    let mut command = program_after("echo other > .taripomune-$$.part");
    let ended = ended(command.args(["evaluate", "in", "out"]).current_dir(folder.path("")));
    assert_eq!((ended.status, ended.told.as_str()), (Some(0), ""));
    assert_eq!(fs::read(folder.path("out")).unwrap(), bytes(&evaluated(&column(3, 1))));
    let left = left_over(&folder.path(""));
    assert!(left.len() == 1 && fs::read(&left[0]).unwrap() == b"other\n");
}

type Disturb = fn(&fs::File);

/// Starts the program on a file of 2^24 zeros, disturbs the file when some of it was read, and answers how the program
/// ended.
fn disturbed(input: &Path, output: &Path, disturb: Disturb) -> Ended {
    let file = fs::File::create(input).unwrap();
    file.set_len(4 << 24).unwrap();
    let mut command = program();
    let mut child = command.arg("interpolate").args([input, output]).stderr(Stdio::piped()).spawn().unwrap();
    while child.try_wait().unwrap().is_none() && bytes_read(child.id()) < 1 << 20 {
        sleep(Duration::from_micros(200));
    }
    disturb(&file);
    child.wait_with_output().unwrap().into()
}

/// How many bytes a process has read.
fn bytes_read(process: u32) -> u64 {
    let text = fs::read_to_string(format!("/proc/{process}/io")).unwrap_or_default();
    text.lines().find_map(|line| line.strip_prefix("rchar: ")).map_or(0, |count| count.parse().unwrap())
}

#[test]
fn a_file_disturbed_while_it_is_read_is_no_column() {
    let disturbances: [(Disturb, &str); 3] = [
        (|file| file.set_len(1 << 20).unwrap(), "it became shorter while it was read"),
        (|file| file.set_len(4 << 25).unwrap(), "it became longer while it was read"),
        (|file| file.write_all_at(&[1], 0).unwrap(), "it changed while it was read"),
    ];
    let folder = Folder::new("disturbed");
    let (input, output) = (folder.path("in"), folder.path("out"));
    for (disturb, sentence) in disturbances {
        // The program may be done before; then it is tried again.
        let mut tries = (0..20).map(|_| {
            let _ = fs::remove_file(&output);
            disturbed(&input, &output, disturb)
        });
        let ended = tries.find(|ended| ended.status != Some(0)).unwrap();
        assert_eq!(ended.status, Some(4));
        assert!(ended.told.ends_with(&format!("in: can't be read: {sentence}\n")), "{}", ended.told);
        assert!(!output.exists());
    }
}

#[test]
fn a_result_takes_the_place_of_a_file_only() {
    let folder = Folder::new("places");
    fs::write(folder.path("in"), bytes(&column(3, 1))).unwrap();
    fs::write(folder.path("file"), "file").unwrap();
    symlink("file", folder.path("link")).unwrap();
    make_pipe(&folder.path("pipe"));
    for name in ["link", "pipe"] {
        let (status, line) = transform("interpolate", &folder.path("in"), &folder.path(name));
        assert_eq!(status, Some(1));
        assert!(line.ends_with("can't be written: what is there isn't a regular file\n"), "{line}");
    }
    assert_eq!(fs::read(folder.path("file")).unwrap(), b"file");
    assert_eq!(transform("interpolate", &folder.path("in"), &folder.path("file")).0, Some(0));
}

#[test]
fn a_name_may_begin_with_a_dash() {
    let folder = Folder::new("dash");
    fs::write(folder.path("-in"), bytes(&column(2, 1))).unwrap();
    let ended = ended(program().args(["evaluate", "--", "-in", "-out"]).current_dir(folder.path("")));
    assert_eq!((ended.status, ended.told.as_str()), (Some(0), ""));
    assert!(folder.path("-out").exists());
}
