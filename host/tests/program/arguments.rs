//! The words of the command line.

use crate::support::*;

const COMMANDS: [&str; 7] = ["run", "interpolate", "evaluate", "verify", "total", "demo", "bench"];

#[test]
fn bad_arguments_get_a_sentence_and_status_2() {
    let wrong: [&[&str]; 25] = [
        &[""],
        &["frobnicate"],
        &["help", "frobnicate"],
        &["--frobnicate"],
        &["--watch"],
        &["interpolate"],
        &["interpolate", "in"],
        &["evaluate", "in", "out", "more"],
        &["interpolate", "--fast", "in", "out"],
        &["evaluate", "--evaluate", "in", "out"],
        &["interpolate", "--jobs", "2", "in", "out"],
        &["run", "in"],
        &["run", "--evaluate", "in"],
        &["run", "--max-log-size", "0", "in", "out"],
        &["run", "--max-log-size", "31", "in", "out"],
        &["run", "--max-log-size=", "in", "out"],
        &["run", "--jobs", "0", "in", "out"],
        &["run", "--jobs", "2", "--jobs", "2", "in", "out"],
        &["run", "--heartbeat", "5", "in", "out"],
        &["run", "in", "out", "--jobs"],
        &["verify", "values"],
        &["total"],
        &["total", "values", "more"],
        &["demo", "in"],
        &["bench", "in", "out"],
    ];
    for words in wrong {
        let ended = ended(program().args(words));
        assert_eq!(ended.status, Some(2), "{words:?}");
        assert!(ended.told.starts_with("taripomune: ") && ended.told.lines().count() == 1, "{}", ended.told);
        assert_eq!(ended.said, "");
    }
}

#[test]
fn a_bad_argument_is_told_without_the_characters_that_do_not_show() {
    let ended = ended(program().args(["fro\u{1b}[31m\u{202e}b"]));
    assert_eq!(ended.told.lines().count(), 1);
    assert!(ended.told.contains("fro\\x1b[31m\\xe2\\x80\\xaeb is no command"), "{}", ended.told);
}

#[test]
fn no_arguments_show_the_help() {
    let help = ended(program().arg("--help"));
    assert_eq!((help.status, help.told.as_str()), (Some(0), ""));
    for words in [&[][..], &["-h"], &["help"], &["--help", "--quiet"]] {
        let ended = ended(program().args(words));
        assert_eq!((ended.status, ended.said == help.said, ended.told.as_str()), (Some(0), true, ""), "{words:?}");
    }
    for command in COMMANDS {
        assert!(help.said.contains(&format!("  taripomune {command} ")), "{command}");
    }
}

#[test]
fn each_command_has_help() {
    for command in COMMANDS {
        let help = ended(program().args([command, "--help"]));
        assert_eq!((help.status, help.told.as_str()), (Some(0), ""));
        assert!(help.said.contains(&format!("taripomune {command}")), "{}", help.said);
        assert_eq!(ended(program().args(["help", command])).said, help.said);
    }
}

#[test]
fn the_version_is_that_of_the_program_and_of_the_library() {
    let line = format!("taripomune {}, library interface {}\n", env!("CARGO_PKG_VERSION"), taripomune::version());
    for words in [&["--version"][..], &["-V"], &["run", "--version"], &["-V", "--quiet"]] {
        let ended = ended(program().args(words));
        assert_eq!((ended.status, ended.said.as_str(), ended.told.as_str()), (Some(0), line.as_str(), ""));
    }
}

#[test]
fn quiet_commands_say_only_why_they_could_not_be_done() {
    let unit = Unit::with("quiet", &["a"]);
    unit.put("b", b"12345");
    let ended = unit.run(&["--quiet"]);
    assert_eq!((ended.status, ended.said.as_str(), ended.told.as_str()), (Some(3), "", ""));
    assert_eq!(unit.report().len(), 2);
    let ended = unit.run(&["--quiet", "--evaluate"]);
    assert_eq!((ended.status, ended.said.as_str(), ended.told.lines().count()), (Some(2), "", 1));
}

#[test]
fn what_standard_output_does_not_take_is_a_failure() {
    let ended = ended(&mut program_after("exec > /dev/full"));
    assert_eq!((ended.status, ended.told.as_str()), (Some(1), "taripomune: standard output can't be written\n"));
}

#[test]
fn nobody_has_to_read_standard_output() {
    let folder = Folder::new("unread");
    // The reader ends at once; the status of the program goes to a file.
    let script = "(\"$0\" --help; echo $? > \"$1\") | true";
    let status = folder.path("status");
    let mut shell = std::process::Command::new("sh");
    assert_eq!(ended(shell.args(["-c", script, PROGRAM]).arg(&status)).told, "");
    assert_eq!(std::fs::read(status).unwrap(), b"0\n");
}
