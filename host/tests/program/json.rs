//! Lines of JSON, for programs that read standard output.

use crate::support::*;
use std::fs;
use std::io::Write;
use std::process::{Command, Stdio};

/// The lines, which must be JSON by the reader of another language, without the figures that differ from run to run.
fn lines(ended: &Ended) -> Vec<String> {
    let mut python = Command::new("python3");
    let script = "import json, sys\nfor line in sys.stdin.buffer: json.loads(line.decode())";
    let mut reader = python.args(["-c", script]).stdin(Stdio::piped()).spawn().unwrap();
    reader.stdin.take().unwrap().write_all(ended.said.as_bytes()).unwrap();
    assert!(reader.wait().unwrap().success(), "{}", ended.said);
    ended
        .said
        .lines()
        .map(|line| ["milliseconds", "seconds", "report"].iter().fold(line.to_string(), without))
        .collect()
}

/// A line with 0 for the value of a key.
fn without(line: String, key: &&str) -> String {
    let Some((before, after)) = line.split_once(&format!("\"{key}\":")) else { return line };
    let end = after.find([',', '}']).unwrap();
    format!("{before}\"{key}\":0{}", &after[end..])
}

#[test]
fn a_run_has_a_line_for_each_column_and_one_at_the_end() {
    let unit = Unit::with("json", &["a"]);
    unit.put("b", &bytes(&damaged(3, 5)));
    unit.put_sparse("c", 21);
    fs::create_dir(unit.columns.join("folder")).unwrap();
    let ended = unit.run(&["--json"]);
    assert_eq!(ended.status, Some(4));
    let column = |rest: &str| format!("{{\"event\":\"column\",\"command\":\"run\",{rest},\"milliseconds\":0}}");
    let why = "a word is not below 2147483647";
    let end = |before| {
        format!(
            "{{\"event\":\"end\",\"command\":\"run\",\"status\":4,\"columns\":3,\"accepted\":1,\"refused\":1,\
             \"unreadable\":0,\"passed_over\":1,\"left\":0,\"not_taken\":1,\"done_before\":{before},\"seconds\":0,\"report\":0}}"
        )
    };
    let mut expected = vec![
        column(r#""name":"a","bytes":32,"outcome":"accepted","number":0,"position":0,"why":null"#),
        column(&format!(r#""name":"b","bytes":32,"outcome":"refused","number":1,"position":5,"why":"{why}""#)),
        column(
            r#""name":"c","bytes":8388608,"outcome":"passed over","number":0,"position":0,"why":"it is over the limit of 2^20 words""#,
        ),
        end(0),
    ];
    assert_eq!(lines(&ended), expected);
    // The second time there is a line for each, too.
    expected[3] = end(2);
    assert_eq!(lines(&unit.run(&["--json"])), expected);
}

fn single(words: &[&str], folder: &Folder) -> (Option<i32>, Vec<String>) {
    let ended = ended(program().args(words).arg("--json").current_dir(folder.path("")));
    (ended.status, lines(&ended))
}

#[test]
fn each_command_has_a_line_for_each_column_and_one_at_the_end() {
    let folder = Folder::new("json-single");
    fs::write(folder.path("values"), bytes(&[1250, 0, 730, 2020])).unwrap();
    fs::write(folder.path("bad"), bytes(&damaged(2, 1))).unwrap();
    let column = |command: &str, name: &str, rest: &str| {
        format!(
            "{{\"event\":\"column\",\"command\":\"{command}\",\"name\":\"{name}\",\"bytes\":16,{rest},\"milliseconds\":0}}"
        )
    };
    let accepted = r#""outcome":"accepted","number":0,"position":0,"why":null"#;
    let refused = r#""outcome":"refused","number":1,"position":1,"why":"a word is not below 2147483647""#;
    let end = |command: &str, rest: &str| format!("{{\"event\":\"end\",\"command\":\"{command}\",{rest}}}");
    for command in ["interpolate", "evaluate"] {
        let lines = vec![column(command, "values", accepted), end(command, "\"status\":0")];
        assert_eq!(single(&[command, "values", "coefficients"], &folder), (Some(0), lines));
        let error = r#""status":3,"error":"bad: number 1, position 1: a word is not below 2147483647""#;
        let lines = vec![column(command, "bad", refused), end(command, error)];
        assert_eq!(single(&[command, "bad", "other"], &folder), (Some(3), lines));
    }
    single(&["interpolate", "values", "coefficients"], &folder);
    let both = [column("verify", "values", accepted), column("verify", "coefficients", accepted)];
    let mut lines = both.to_vec();
    lines.push(end("verify", r#""status":0,"same":true"#));
    assert_eq!(single(&["verify", "values", "coefficients"], &folder), (Some(0), lines));
    fs::write(folder.path("values"), bytes(&[1250, 0, 731, 2020])).unwrap();
    let mut lines = both.to_vec();
    lines.push(end("verify", r#""status":6,"same":false,"position":2,"expected":730,"found":731"#));
    assert_eq!(single(&["verify", "values", "coefficients"], &folder), (Some(6), lines));
    let total = end("total", r#""status":0,"total":"4001","total_modulo_p":4001,"by_coefficient_0":4001"#);
    assert_eq!(single(&["total", "values"], &folder), (Some(0), vec![column("total", "values", accepted), total]));
}

#[test]
fn failures_help_and_version_are_json_too() {
    let folder = Folder::new("json-failures");
    let last = |words: &[&str]| {
        let (status, lines) = single(words, &folder);
        assert_eq!(lines.iter().filter(|line| line.starts_with("{\"event\":\"end\"")).count(), 1, "{words:?}");
        assert!(lines.last().unwrap().contains(&format!("\"status\":{}", status.unwrap())), "{lines:?}");
        lines.last().unwrap().clone()
    };
    assert!(last(&["--version"]).ends_with(&format!("\"library\":{}}}", taripomune::version())));
    for words in [&[][..], &["--help"], &["help", "run"]] {
        assert!(last(words).contains("\"help\":\"taripomune"), "{words:?}");
    }
    for words in [
        &["frobnicate"][..],
        &["run", "in", "out", "--jobs"],
        &["--fast"],
        &["run", "in"],
        &["total"],
        &["interpolate", "missing", "out"],
        &["run", "missing", "out"],
    ] {
        assert!(last(words).contains("\"error\":\""), "{words:?}");
    }
    fs::create_dir(folder.path("in")).unwrap();
    assert!(last(&["run", "in", "out"]).contains("\"status\":5,\"columns\":0"));
    assert!(last(&["run", "fro\u{202e}b", "out"]).contains("fro\\\\xe2\\\\x80\\\\xaeb: can't be read"));
}

#[test]
fn the_demonstration_has_its_columns_as_json() {
    let folder = Folder::new("json-demo");
    let (status, lines) = single(&["demo"], &folder);
    assert_eq!((status, lines.len()), (Some(0), 25));
    assert!(
        lines[..24].iter().all(|line| line.contains("\"outcome\":\"accepted\"") && line.contains("\"returned\":true"))
    );
    assert_eq!(lines[24], "{\"event\":\"end\",\"command\":\"demo\",\"status\":0}");
}
