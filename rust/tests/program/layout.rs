//! The scripts in a folder laid out like the checkout, over programs of the test's own in place of
//! the kit, the clearing program and cargo: when they build, and what they say and hand on.

use super::folder::{age, Folder};
use super::{assert_answer, assert_no_answer, output, printed, root, run, said};
use std::env;
use std::fs;
use std::os::unix::fs::symlink;
use std::path::PathBuf;
use std::process::{Command, Output, Stdio};

const PROGRAM: &str = "target/bin/clear";
const PROGRAM_BUILT: &str = "target/built-clear";
const ARCHIVE: &str = "target/staticlib/libentry.a";
const ARCHIVE_BUILT: &str = "target/built-libentry.a";
const SOURCE: &str = "crates/x/src/lib.rt";

/// The sources of the Rust programs beside the library's.
const RUST: [&str; 5] = [
    "rust/Cargo.toml",
    "rust/Cargo.lock",
    "rust/build.rs",
    "rust/src/lib.rs",
    "rust/tools/src/lib.rs",
];

/// What the scripts and the test's own programs call.
const COMMANDS: [&str; 14] = [
    "cat", "chmod", "cp", "dirname", "find", "flock", "head", "mkdir", "readlink", "rm", "rmdir",
    "sleep", "test", "touch",
];

/// A program that prints one line and ends as one that cleared.
fn cleared(line: &str) -> String {
    format!("echo {line}; printf 0 >&3")
}

/// What the kit keeps of the clearing program, in the crate's folder, and its stamp.
const KEPT: &str = "crates/clear/out/clear";
const STAMP: &str = "crates/clear/out/clear.stamp";

/// The kit's build, in the crate's folder: a new clearing program, where the old one's stamp is not
/// there.
const BUILDS: &str = "
    [ ! -e out/clear.stamp ] || exit 0
    mkdir -p out
    printf '%s\\n' '#!/bin/sh' 'echo new; printf 0 >&3' >out/clear
    chmod +x out/clear";

struct Layout(Folder);

impl Layout {
    /// A checkout whose program is newer than its sources, and a kit of the name in KIT.
    fn new(name: &str) -> Layout {
        let layout = Layout(Folder::new(name));
        for part in ["bin", "KIT"] {
            let mut copy = Command::new("cp");
            let copied = output(copy.arg("-R").arg(root().join(part)).arg(layout.path("")));
            assert!(copied.status.success(), "{}", said(&copied));
        }
        for command in COMMANDS {
            let link = layout.0.room_for(&format!("tools/{command}"));
            symlink(found(command), link).expect("a link");
        }
        for file in [SOURCE, "crates.txt"].iter().chain(&RUST) {
            layout.0.write(file, "");
        }
        let folders = [
            "crates",
            "crates/x",
            "crates/x/src",
            "crates/clear",
            "crates/entry",
        ];
        for folder in folders {
            fs::create_dir_all(layout.path(folder)).expect("a new folder");
        }
        let rust_folders = ["rust/src", "rust/tools", "rust/tools/src"];
        let files = ["KIT", "crates.txt", SOURCE];
        for source in [&folders[..], &rust_folders, &files, &RUST].concat() {
            age(&layout.path(source), 200);
        }
        layout.executable(PROGRAM, &cleared("old"));
        age(&layout.0.write(PROGRAM_BUILT, ""), 100);
        layout.kit(BUILDS);
        layout
    }

    fn path(&self, name: &str) -> PathBuf {
        self.0.path(name)
    }

    /// Writes a shell program, by another process: one that is still open here could not be run.
    fn executable(&self, name: &str, body: &str) {
        let mut write = Command::new("sh");
        write.args(["-c", "cat >\"$1\" && chmod +x \"$1\"", "sh"]);
        let path = self.0.room_for(name);
        let (written, _) = run(write.arg(path), format!("#!/bin/sh\n{body}\n").as_bytes());
        assert!(written.status.success(), "{}", said(&written));
    }

    /// A kit that keeps a list of its calls.
    fn kit(&self, build: &str) {
        let version = fs::read_to_string(self.path("KIT")).expect("KIT is there");
        self.kit_of(version.trim_end(), build);
    }

    fn kit_of(&self, version: &str, build: &str) {
        let list = "echo \"$* ${PWD##*/}\" >>../../calls";
        let body =
            format!("[ \"$1\" != version ] || {{ echo '{version}'; exit; }}\n{list}\n{build}");
        self.executable("tools/rt", &body);
    }

    /// The archive, newer than its sources.
    fn archive(&self) {
        self.0.write(ARCHIVE, "");
        self.0.write(ARCHIVE_BUILT, "");
    }

    /// A cargo that keeps a list of its calls and makes the given program, whatever it is to be called.
    fn cargo(&self, program: &str) {
        self.0.write("made", format!("#!/bin/sh\n{program}\n"));
        let make = "
            echo \"$* ${CLEARING_ARCHIVE-}\" >>builds
            mkdir -p \"$CARGO_TARGET_DIR/release\"
            for last; do :; done
            cat made >\"$CARGO_TARGET_DIR/release/$last\"
            chmod +x \"$CARGO_TARGET_DIR/release/$last\"";
        self.executable("tools/cargo", make);
    }

    fn builds(&self) -> String {
        fs::read_to_string(self.path("builds")).unwrap_or_default()
    }

    fn remove(&self, name: &str) {
        fs::remove_file(self.path(name)).expect("it is there");
    }

    fn command(&self, script: &str) -> Command {
        let mut command = Command::new(self.path("bin").join(script));
        command.current_dir(env::temp_dir());
        command.env("PATH", self.path("tools"));
        for variable in ["CARGO", "CARGO_TARGET_DIR", "CARGO_BUILD_TARGET"] {
            command.env_remove(variable);
        }
        command
    }

    fn calls(&self) -> String {
        fs::read_to_string(self.path("calls")).unwrap_or_default()
    }

    fn clears(&self, line: &str) -> String {
        let output = output(&mut self.command("clear"));
        assert_answer(&output, 0, &format!("{line}\n"));
        said(&output).to_string()
    }

    /// The message of a call that gives no answer.
    fn clears_nothing(&self) -> String {
        let output = output(&mut self.command("clear"));
        assert_no_answer(&output, "");
        let message = said(&output);
        assert!(!message.contains("clear: built\n"), "{message}");
        message.to_string()
    }
}

/// A command of this machine.
fn found(command: &str) -> PathBuf {
    let path = env::var_os("PATH").expect("a path");
    let files = env::split_paths(&path).map(|folder| folder.join(command));
    let mut there = files.filter(|file| file.is_file());
    there
        .next()
        .unwrap_or_else(|| panic!("{command} is missing"))
}

#[test]
fn a_new_program_is_not_built() {
    let layout = Layout::new("new");
    assert_eq!(layout.clears("old"), "");
    layout.remove("tools/rt");
    assert_eq!(layout.clears("old"), "");
    assert_eq!(layout.calls(), "");
}

#[test]
fn a_program_older_than_a_source_is_built() {
    for source in ["KIT", "crates.txt", "crates/x/src", SOURCE] {
        let layout = Layout::new("older");
        age(&layout.path(source), 50);
        let message = layout.clears("new");
        let building = format!("clear: building: {source} is newer than the program\n");
        assert!(message.starts_with(&building), "{message}");
        assert!(message.ends_with("clear: built\n"), "{message}");
        assert_eq!(layout.calls(), "run clear\n");
        assert_eq!(layout.clears("new"), "");
        assert_eq!(layout.calls(), "run clear\n");
    }
}

#[test]
fn a_missing_program_is_built_though_the_kit_has_its_stamp() {
    let layout = Layout::new("missing");
    layout.remove(PROGRAM);
    layout.executable(KEPT, &cleared("new"));
    layout.0.write(STAMP, "");
    let message = layout.clears("new");
    assert!(message.contains("the program is missing"), "{message}");
    assert!(message.ends_with("clear: built\n"), "{message}");
    assert_eq!(layout.clears("new"), "");
}

#[test]
fn a_build_that_changes_nothing_is_not_repeated() {
    let layout = Layout::new("touched");
    layout.kit("true");
    layout.executable(KEPT, &cleared("old"));
    age(&layout.path(SOURCE), 0);
    layout.clears("old");
    assert_eq!(layout.clears("old"), "");
    assert_eq!(layout.calls(), "run clear\n");
}

#[test]
fn a_source_edited_during_a_build_is_newer() {
    let layout = Layout::new("edited");
    layout.kit(&format!(
        "{BUILDS}\nsleep 0.1; touch ../../{SOURCE}; sleep 0.1"
    ));
    layout.remove(PROGRAM);
    layout.clears("new");
    assert!(layout.clears("new").contains(SOURCE));
    assert_eq!(layout.calls(), "run clear\nrun clear\n");
}

#[test]
fn a_program_that_cannot_be_built_is_not_run() {
    let layout = Layout::new("failing");
    age(&layout.path(SOURCE), 50);
    layout.kit("exit 1");
    assert!(layout.clears_nothing().contains("could not be built"));
    layout.kit(&format!("{BUILDS}\nexit 1"));
    for _ in 0..2 {
        assert!(layout.clears_nothing().contains("could not be built"));
    }
    layout.remove("tools/rt");
    let message = layout.clears_nothing();
    let reason = "the program is not known to be up to date, and rt";
    assert!(message.contains(reason), "{message}");
    layout.kit("true");
    layout.remove(KEPT);
    layout.remove(PROGRAM);
    assert!(layout.clears_nothing().contains("could not be built"));
}

#[test]
fn a_program_of_a_build_that_was_killed_is_not_run() {
    let layout = Layout::new("killed");
    age(&layout.path(SOURCE), 50);
    layout.kit(&format!("{BUILDS}\nkill -9 $PPID"));
    assert_eq!(
        output(&mut layout.command("clear")).status.code(),
        Some(2),
        "the build was killed"
    );
    layout.kit(BUILDS);
    let message = layout.clears("new");
    assert!(message.ends_with("clear: built\n"), "{message}");
    assert_eq!(layout.calls(), "run clear\nrun clear\n");
}

#[test]
fn a_program_that_the_kit_alone_built_is_looked_at_once() {
    let layout = Layout::new("unmarked");
    layout.remove(PROGRAM_BUILT);
    layout.executable(KEPT, &cleared("old"));
    layout.0.write(STAMP, "");
    layout.clears("old");
    assert_eq!(layout.clears("old"), "");
    assert_eq!(layout.calls(), "run clear\n");
}

#[test]
fn an_old_program_is_not_run_without_the_kit() {
    let layout = Layout::new("kitless");
    age(&layout.path(SOURCE), 50);
    layout.remove("tools/rt");
    let message = layout.clears_nothing();
    let reason = format!("{SOURCE} is newer than the program, and rt");
    assert!(message.contains(&reason), "{message}");
}

#[test]
fn a_program_whose_sources_are_gone_is_not_run() {
    let layout = Layout::new("sourceless");
    fs::remove_dir_all(layout.path("crates")).expect("they are there");
    let message = layout.clears_nothing();
    assert!(
        message.ends_with("clear: what the program is made of cannot be read\n"),
        "{message}"
    );
}

#[test]
fn another_kit_is_named_when_it_builds() {
    let layout = Layout::new("kits");
    let pinned = fs::read_to_string(layout.path("KIT")).expect("KIT is there");
    layout.kit_of("another kit", BUILDS);
    assert_eq!(layout.clears("old"), "");
    age(&layout.path(SOURCE), 50);
    let message = layout.clears("new");
    let first = message.lines().next().expect("a line");
    assert!(first.contains("another kit"), "{message}");
    assert!(first.contains(pinned.trim_end()), "{message}");
}

/// What two calls at once give.
fn two_at_once(layout: &Layout) -> [Output; 2] {
    let start = || {
        let mut command = layout.command("clear");
        let piped = command.stdin(Stdio::null()).stdout(Stdio::piped());
        piped.stderr(Stdio::piped()).spawn().expect("it starts")
    };
    let both = [start(), start()];
    both.map(|child| child.wait_with_output().expect("it ends"))
}

#[test]
fn two_at_once_build_once() {
    let layout = Layout::new("two");
    layout.kit(&format!(
        "mkdir busy || exit 1; sleep 0.3; rmdir busy\n{BUILDS}"
    ));
    layout.remove(PROGRAM);
    for output in two_at_once(&layout) {
        assert_answer(&output, 0, "new\n");
    }
    assert_eq!(layout.calls(), "run clear\n");
}

#[test]
fn a_program_that_is_still_being_built_is_not_run() {
    let layout = Layout::new("untried");
    age(&layout.path(SOURCE), 50);
    layout.kit(&format!("{BUILDS}\nsleep 0.3; exit 1"));
    for output in two_at_once(&layout) {
        assert_no_answer(&output, "could not be built");
    }
}

#[test]
fn the_programs_digit_is_the_status() {
    let layout = Layout::new("digits");
    for status in 0..=2 {
        layout.executable(PROGRAM, &format!("printf '%s' \"$#\"; printf {status} >&3"));
        assert_answer(&output(&mut layout.command("clear")), status, "1");
    }
    for body in [
        "true",
        "exit 1",
        "printf 7 >&3",
        "kill -9 $$",
        "printf 00 >&3",
    ] {
        layout.executable(PROGRAM, body);
        assert_no_answer(&output(&mut layout.command("clear")), "the program ended");
    }
}

/// What a Rust tool says, and that it ends well.
fn said_by(command: &mut Command) -> String {
    let output = output(command);
    assert_answer(&output, 0, "");
    said(&output).to_string()
}

#[test]
fn a_rust_tool_hands_on_its_words_and_its_status() {
    let layout = Layout::new("tools");
    layout.archive();
    layout.cargo("echo \"${0##*/} $PWD $*\"; exit 1");
    let here = env::temp_dir().canonicalize().expect("a folder");
    for tool in ["market", "feeder"] {
        let line = format!("{tool} {} --help a  b\n", here.display());
        let output = output(layout.command(tool).args(["--help", "a  b"]));
        assert_answer(&output, 1, &line);
    }
    assert_eq!(layout.calls(), "");
}

#[test]
fn a_rust_tool_is_built_where_a_source_is_newer_and_needs_nothing_else() {
    for source in ["KIT", SOURCE, "rust/tools/src/lib.rs", "rust/Cargo.lock"] {
        let layout = Layout::new("tool sources");
        layout.archive();
        layout.cargo("true");
        layout.kit("mkdir -p out; echo >out/libentry.a");
        let building = "market: building: the program is missing\nmarket: built\n";
        let mut market = layout.command("market");
        assert_eq!(said_by(market.env("CLEARING_ARCHIVE", "/else")), building);
        let build = "build --quiet --release --offline --manifest-path rust/Cargo.toml --package clearing-tools --bin market \n";
        assert_eq!(layout.builds(), build);
        for mark in ["target/built-market", ARCHIVE_BUILT] {
            age(&layout.path(mark), 100);
        }
        age(&layout.path(source), 50);
        let message = said_by(&mut layout.command("market"));
        let reason = format!("market: building: {source} is newer than the program\n");
        assert!(message.contains(&reason), "{message}");
        assert_eq!(layout.builds(), [build, build].concat());
        for gone in ["tools/cargo", "tools/rt"] {
            layout.remove(gone);
        }
        assert_eq!(said_by(&mut layout.command("market")), "");
    }
}

#[test]
fn a_rust_tool_has_a_new_archive() {
    let layout = Layout::new("archive");
    layout.cargo("true");
    layout.kit("mkdir -p out; echo >out/libentry.a");
    let message = said_by(&mut layout.command("market"));
    assert!(message.starts_with("market: building: the archive is missing\nmarket: built\n"));
    for mark in ["target/built-market", ARCHIVE_BUILT] {
        age(&layout.path(mark), 300);
    }
    let message = said_by(&mut layout.command("market"));
    assert!(
        message.contains(" is newer than the archive\n"),
        "{message}"
    );
    assert_eq!(said_by(&mut layout.command("market")), "");
    assert_eq!(layout.calls(), "lib entry\nlib entry\n");
}

#[test]
fn a_rust_tool_that_cannot_be_built_is_not_run() {
    let layout = Layout::new("toolless");
    layout.archive();
    let missing = output(&mut layout.command("market"));
    assert!(said(&missing).ends_with("and cargo, which builds it, was not found\n"));
    layout.executable("tools/cargo", "echo \"$1\"; exit 101");
    let failing = output(&mut layout.command("market"));
    assert!(said(&failing).ends_with("market: the program could not be built\n"));
    layout.executable("tools/cargo", "true");
    let empty = output(&mut layout.command("market"));
    assert!(said(&empty).ends_with("ended well, and made none\n"));
    layout.kit("exit 1");
    layout.remove(ARCHIVE);
    let unproved = output(&mut layout.command("market"));
    assert!(said(&unproved).ends_with("market: the archive could not be built\n"));
    for output in [missing, failing, empty, unproved] {
        assert_eq!(printed(&output), "");
        assert_eq!(output.status.code(), Some(2));
    }
}
