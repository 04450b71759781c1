//! The programs in `examples/` run as their first lines say, and print what a reader should see.

use std::collections::BTreeSet;
use std::fs;
use std::path::Path;
use std::process::Command;

/// A line that each example prints.
const PRINTED: [(&str, &str); 4] = [
    ("batch_inverse", "refused:  number 3, position 2: zero has no inverse"),
    ("domain_points", "position 1: (590768354, 1168891274)"),
    ("there_and_back", "values:       [1250, 0, 730, 2020, 5, 81, 0, 99]"),
    ("totals", "added up: 984576, by coefficient 0: 984576"),
];

#[test]
fn each_example_runs_and_prints_its_line() {
    let host = Path::new(env!("CARGO_MANIFEST_DIR"));
    let files = fs::read_dir(host.join("examples")).unwrap().map(|entry| entry.unwrap().path());
    let names: BTreeSet<String> = files.map(|file| file.file_stem().unwrap().to_str().unwrap().to_string()).collect();
    assert!(names.iter().map(String::as_str).eq(PRINTED.map(|(name, _)| name)), "{names:?}");
    for (name, line) in PRINTED {
        let mut cargo = Command::new(env!("CARGO"));
        cargo.args(["run", "--quiet", "--offline", "--example", name]).current_dir(host);
        // As this test was built, so that nothing is built again.
        if cfg!(feature = "baselines") {
            cargo.args(["--features", "baselines"]);
        }
        let output = cargo.output().unwrap();
        let [printed, told] = [&output.stdout, &output.stderr].map(|bytes| String::from_utf8_lossy(bytes));
        assert!(output.status.success() && printed.lines().any(|printed| printed == line), "{name}: {printed}{told}");
    }
}
