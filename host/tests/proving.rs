//! What a user of cargo sees while the library is proved. A script has the place of the toolchain's `rt`.

mod support;

use std::env;
use std::fs::{self, OpenOptions};
use std::io::{BufRead, BufReader};
use std::os::unix::fs::PermissionsExt;
use std::process::{Command, Stdio};
use support::{Folder, output, root, succeed};

const START: &str = "taripomune: proving the library with `rt lib --cpu x86-64` in crates/taripomune_c; \
                     from nothing this takes some minutes";

/// Writes what `rt lib` writes, and waits after the second crate, for ten seconds at most, until there is a file `go`.
const SLOW: &str = "\
echo 'rt: chose --jobs 2 for algebra'
echo 'crate algebra: modules loaded=46 checked=0'
echo 'logic=proved functions=0 libraries-built=trusted incremental=trusted'
echo 'rt: chose --jobs 2 for fields'
echo 'fn fields::m31::add: proved'
echo 'library algebra: modules loaded=46 checked=0'
echo 'crate fields: modules loaded=0 checked=3640'
echo 'axioms std: none reached of the 2 declared'
echo 'logic=proved functions=65 libraries-built=trusted incremental=trusted'
for i in $(seq 100); do [ -e ../../go ] || sleep 0.1; done
[ -e ../../go ] || exit 1
mkdir -p out
echo 'the archive' > out/libtaripomune_c.a
";

/// A copy of the package `sys` and what it needs, with this script as `rt`.
fn copy(name: &str, script: &str) -> Folder {
    let folder = Folder::new(name);
    for part in ["host", "bin", "crates/taripomune_c/src"] {
        fs::create_dir_all(folder.path(part)).unwrap();
    }
    fs::write(folder.path("crates.txt"), "taripomune_c staticlib:\n").unwrap();
    for (part, place) in [("include", "."), ("host/header", "host"), ("host/sys", "host")] {
        succeed(Command::new("cp").arg("-R").arg(root().join(part)).arg(folder.path(place)));
    }
    fs::write(folder.path("host/Cargo.toml"), "workspace = { resolver = \"3\", members = [\"sys\"] }\n").unwrap();
    let asked = "[ \"$*\" = 'lib --cpu x86-64' ] || exit 1\n";
    fs::write(folder.path("bin/rt"), format!("#!/bin/sh\n{asked}{script}")).unwrap();
    fs::set_permissions(folder.path("bin/rt"), fs::Permissions::from_mode(0o755)).unwrap();
    folder
}

/// `cargo check` of the copy, which runs the build script.
fn check(folder: &Folder) -> Command {
    let path = env::var_os("PATH").unwrap();
    let paths = [folder.path("bin")].into_iter().chain(env::split_paths(&path));
    let mut cargo = Command::new(env!("CARGO"));
    cargo.args(["check", "--offline", "--manifest-path"]).arg(folder.path("host/Cargo.toml"));
    cargo.arg("--target-dir").arg(folder.path("built"));
    cargo.env("PATH", env::join_paths(paths).unwrap()).env_remove("TARIPOMUNE_LIB");
    cargo
}

#[test]
fn a_proved_crate_is_told_while_the_next_one_is_proved() {
    let folder = copy("told", SLOW);
    let mut cargo = check(&folder).stderr(Stdio::piped()).spawn().unwrap();
    let mut told = Vec::new();
    for line in BufReader::new(cargo.stderr.take().unwrap()).lines().map(Result::unwrap) {
        if line == "taripomune: proved the crate fields" {
            fs::write(folder.path("go"), "").unwrap();
        }
        if line.starts_with("rt: ") || line.starts_with("taripomune: ") {
            told.push(line);
        }
    }
    assert!(cargo.wait().unwrap().success(), "{told:?}");
    let last = told.pop().unwrap();
    let crates = ["taripomune: proved the crate algebra", "taripomune: proved the crate fields"];
    assert_eq!(told, [&[START], &crates[..]].concat());
    assert!(last.starts_with("taripomune: proved and compiled the library ("), "{last}");
    let made: Vec<_> =
        fs::read_dir(folder.path("target/staticlib")).unwrap().map(|entry| entry.unwrap().path()).collect();
    assert_eq!(made, [folder.path("target/staticlib/libtaripomune.a")]);
    assert_eq!(fs::read_to_string(&made[0]).unwrap(), "the archive\n");
}

#[test]
fn what_rt_writes_is_shown_whole_where_it_fails() {
    let folder = copy(
        "failed",
        "echo 'fn fields::m31::add: not proved'\n\
         echo 'crate fields: modules loaded=0 checked=12'\n\
         echo 'logic=not-proved'\n\
         echo 'rt: the library fields did not build, so nothing above it was checked' >&2\n\
         exit 1\n",
    );
    let output = output(&mut check(&folder));
    let told = String::from_utf8_lossy(&output.stderr);
    assert!(!output.status.success());
    let fields = "rt: the library fields did not build, so nothing above it was checked";
    for line in [START, "fn fields::m31::add: not proved", "logic=not-proved", fields] {
        assert_eq!(told.lines().filter(|told| told.trim() == line).count(), 1, "{line}\n{told}");
    }
    assert!(!told.contains("proved the crate"), "{told}");
    assert!(!folder.path("target/staticlib/libtaripomune.a").exists());
}

#[test]
fn an_archive_that_rt_has_not_made_is_missed() {
    let folder = copy("missed", "exit 0\n");
    let output = output(&mut check(&folder));
    let told = String::from_utf8_lossy(&output.stderr);
    assert!(!output.status.success());
    assert!(told.contains("and what `rt lib --cpu x86-64` in crates/taripomune_c made can't be put there: "), "{told}");
    assert_eq!(fs::read_dir(folder.path("target/staticlib")).unwrap().count(), 0);
}

/// Cargo writes into a file where it stopped before, over what another process has added, unless it appends.
#[test]
fn nothing_is_told_in_a_file_that_cargo_writes_over() {
    let folder = copy("file", SLOW);
    fs::write(folder.path("go"), "").unwrap();
    for appends in [false, true] {
        let _ = fs::remove_dir_all(folder.path("target"));
        let log = folder.path(if appends { "appended" } else { "written" });
        let file = OpenOptions::new().create(true).write(true).append(appends).open(&log).unwrap();
        assert!(check(&folder).stderr(file).status().unwrap().success());
        let text = fs::read_to_string(&log).unwrap();
        assert_eq!((text.contains("proved the crate fields"), text.contains("Finished")), (appends, true), "{text}");
    }
}
