//! The script `install`: what it puts where, and that programs in C, C++ and Python work with it.

mod support;

use std::collections::BTreeMap;
use std::fs;
use std::os::unix::fs::PermissionsExt;
use std::path::{Path, PathBuf};
use std::process::Command;
use support::{Folder, output, root, succeed};
use taripomune_header::Header;

const DONE: &str = "there and back\n";

fn script() -> Command {
    let mut script = Command::new(root().join("install"));
    script.env_remove("DESTDIR");
    script
}

/// What the script installs, in a folder of its own.
struct Installed(Folder);

impl Installed {
    fn new(name: &str) -> Installed {
        let installed = Installed(Folder::new(&format!("install-{name}")));
        succeed(script().arg("--prefix").arg(installed.path("")));
        installed
    }

    fn path(&self, name: &str) -> PathBuf {
        self.0.path("prefix").join(name)
    }

    fn text(&self, name: &str) -> String {
        fs::read_to_string(self.path(name)).unwrap()
    }

    /// The words that `pkg-config` answers with.
    fn package(&self, options: &[&str]) -> Vec<String> {
        let mut command = Command::new("pkg-config");
        command.env("PKG_CONFIG_PATH", self.path("lib/pkgconfig")).args(options).arg("taripomune");
        succeed(&mut command).split_whitespace().map(str::to_string).collect()
    }
}

fn header() -> Header {
    Header::read(&fs::read_to_string(root().join("include/taripomune.h")).unwrap())
}

/// The name of the shared library.
fn shared() -> String {
    format!("libtaripomune.so.{}", header().constant("TARI_VERSION").unwrap())
}

fn source(name: &str) -> PathBuf {
    root().join("host/tests/install").join(name)
}

/// Every file, folder and link below a folder with its mode, a link without.
fn listed(folder: &Path) -> BTreeMap<PathBuf, u32> {
    let mut all = BTreeMap::new();
    for entry in fs::read_dir(folder).unwrap().map(Result::unwrap) {
        let found = entry.metadata().unwrap();
        let mode = if found.is_symlink() { 0 } else { found.permissions().mode() & 0o7777 };
        all.insert(entry.path(), mode);
        if found.is_dir() {
            all.extend(listed(&entry.path()));
        }
    }
    all
}

/// What `listed` must be.
fn expected(prefix: &Path) -> BTreeMap<PathBuf, u32> {
    let shared = format!("lib/{}", shared());
    let folders = "bin include lib lib/pkgconfig lib/systemd lib/systemd/system share share/doc share/doc/taripomune \
        share/doc/taripomune/docs share/doc/taripomune/LICENSES";
    let files = "include/taripomune.h lib/libtaripomune.a lib/pkgconfig/taripomune.pc \
        lib/systemd/system/taripomune.service share/doc/taripomune/README.md share/doc/taripomune/NOTICE \
        share/doc/taripomune/docs/CALLS.md share/doc/taripomune/LICENSES/Apache-2.0.txt";
    let executables = format!("bin/taripomune {shared}");
    let modes = [(folders, 0o755), (files, 0o644), (&executables, 0o755), ("lib/libtaripomune.so", 0)];
    let paths = modes.iter().flat_map(|(names, mode)| names.split_whitespace().map(|name| (prefix.join(name), *mode)));
    paths.collect()
}

#[test]
fn these_files_have_plain_modes_whatever_the_umask_and_a_second_time() {
    let folder = Folder::new("install-files");
    let prefix = folder.path("prefix");
    for umask in ["077", "000"] {
        let mut shell = Command::new("sh");
        shell.args(["-c", &format!("umask {umask} && exec \"$0\" --prefix=\"$1\"")]).env_remove("DESTDIR");
        succeed(shell.arg(root().join("install")).arg(&prefix));
        assert_eq!(listed(&prefix), expected(&prefix));
    }
    assert_eq!(fs::read_link(prefix.join("lib/libtaripomune.so")).unwrap(), Path::new(&shared()));
    for (name, installed) in [("include/taripomune.h", "include"), ("docs/CALLS.md", "share/doc/taripomune/docs")] {
        let installed = prefix.join(installed).join(Path::new(name).file_name().unwrap());
        assert!(fs::read(root().join(name)).unwrap() == fs::read(installed).unwrap(), "{name}");
    }
}

/// What a program or a shared library tells the linker at run time.
fn dynamic_section(file: &Path) -> String {
    succeed(Command::new("readelf").env("LC_ALL", "C").arg("-d").arg(file))
}

#[test]
fn the_shared_library_exports_the_functions_of_the_header_alone() {
    let installed = Installed::new("symbols");
    let library = installed.path("lib").join(shared());
    let symbols = succeed(Command::new("nm").args(["-D", "--format=posix"]).arg(&library));
    let symbols: Vec<String> = symbols.lines().map(|line| line.split(' ').next().unwrap().to_string()).collect();
    let mut functions: Vec<String> = header().prototypes.into_iter().map(|prototype| prototype.name).collect();
    functions.sort();
    assert_eq!(symbols, functions);
    let dynamic = dynamic_section(&library);
    assert!(dynamic.contains(&format!("soname: [{}]", shared())), "{dynamic}");
    assert!(!dynamic.contains("(NEEDED)") && !dynamic.contains("(TEXTREL)"), "{dynamic}");
}

/// Compiles and runs a program with the flags of `pkg-config`, with the shared library and with the archive.
fn compiles_and_runs(compiler: &str, standard: &str, name: &str) {
    let installed = Installed::new(name);
    let program = installed.0.path("program");
    let linked = |static_linking: bool| {
        let mut command = Command::new(compiler);
        command.args([standard, "-Wall", "-Wextra", "-Wpedantic", "-Werror"]).arg(source(name)).arg("-o").arg(&program);
        command.args(installed.package(&["--cflags"]));
        match static_linking {
            false => command.args(installed.package(&["--libs"])),
            true => command.arg("-Wl,-Bstatic").args(installed.package(&["--static", "--libs"])).arg("-Wl,-Bdynamic"),
        };
        succeed(&mut command);
        dynamic_section(&program).contains(&format!("[{}]", shared()))
    };
    assert!(linked(false), "{name} doesn't need the shared library");
    assert_eq!(succeed(Command::new(&program).env("LD_LIBRARY_PATH", installed.path("lib"))), DONE);
    assert!(!linked(true), "{name} needs the shared library");
    assert_eq!(succeed(Command::new(&program).env_remove("LD_LIBRARY_PATH")), DONE);
    assert_eq!(installed.package(&["--modversion"]), [header().constant("TARI_VERSION").unwrap().to_string()]);
}

#[test]
fn a_c_program_works_with_the_shared_library_and_with_the_archive() {
    compiles_and_runs("cc", "-std=c99", "column.c");
}

#[test]
fn a_cpp_program_works_with_the_shared_library_and_with_the_archive() {
    compiles_and_runs("c++", "-std=c++11", "column.cpp");
}

#[test]
fn a_python_program_works_with_the_shared_library() {
    let installed = Installed::new("python");
    let mut python = Command::new("python3");
    python
        .arg(source("column.py"))
        .arg(installed.path("lib").join(shared()))
        .arg(installed.path("include/taripomune.h"));
    assert_eq!(succeed(&mut python), DONE);
    let page = installed.text("share/doc/taripomune/README.md");
    assert!(page.contains(&format!("ctypes.CDLL(\"{}\")", shared())), "README.md names another library");
}

#[test]
fn the_installed_program_starts_and_its_service_names_it() {
    let installed = Installed::new("program");
    let program = installed.path("bin/taripomune");
    assert!(succeed(Command::new(&program).arg("--help")).starts_with("taripomune: "));
    let service = installed.text("lib/systemd/system/taripomune.service");
    assert!(service.contains(&format!("\nExecStart={} run --watch", program.display())), "{service}");
    let mut verify = Command::new("systemd-analyze");
    verify.arg("verify").arg(installed.path("lib/systemd/system/taripomune.service"));
    if let Ok(found) = verify.output() {
        let told = String::from_utf8_lossy(&found.stderr);
        assert!(found.status.success() && !told.contains("taripomune"), "{told}");
    }
}

#[test]
fn what_is_installed_below_destdir_names_the_prefix_alone() {
    let installed = Installed(Folder::new("install-destdir"));
    let destdir = installed.0.path("prefix");
    succeed(script().args(["--prefix", "/opt/taripomune/"]).env("DESTDIR", &destdir));
    let prefix = destdir.join("opt/taripomune");
    assert_eq!(listed(&prefix), expected(&prefix));
    let (package, service) = ("lib/pkgconfig/taripomune.pc", "lib/systemd/system/taripomune.service");
    for (name, line) in [(package, "prefix=/opt/taripomune"), (service, "ExecStart=/opt/taripomune/bin/taripomune run")]
    {
        let text = fs::read_to_string(prefix.join(name)).unwrap();
        assert!(text.lines().any(|found| found.starts_with(line)), "{text}");
        assert!(!text.contains(destdir.to_str().unwrap()) && !text.contains("/usr/local"), "{text}");
    }
}

#[test]
fn wrong_arguments_end_with_status_2_and_help_with_0() {
    for wrong in [&["--static"][..], &["here"], &["--prefix"], &["--prefix", "here"], &["--prefix", "/with a space"]] {
        let output = output(script().args(wrong));
        let told = String::from_utf8_lossy(&output.stderr);
        assert_eq!((output.status.code(), told.lines().count()), (Some(2), 1), "{wrong:?}: {told}");
    }
    assert!(succeed(script().arg("--help")).starts_with("./install [--prefix DIR]\n"));
}
