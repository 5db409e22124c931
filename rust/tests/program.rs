//! The program and the script over it: what they print for a market on standard input or in a file,
//! and how they end. `layout` has the scripts over programs of its own.

pub mod folder;
mod layout;

use crate::common::cases;
use crate::examples::committed;
use crate::files::random_file;
use crate::small::random_sheet;
use clearing::{clear, ANSWER_LIMIT, FILE_LIMIT};
use folder::Folder;
use std::env;
use std::fs::File;
use std::io::{ErrorKind, Write};
use std::os::fd::OwnedFd;
use std::os::unix::fs::symlink;
use std::os::unix::net::{UnixDatagram, UnixStream};
use std::path::{Path, PathBuf};
use std::process::{Command, Output, Stdio};
use std::time::Duration;

const A: &str = "P 1 -2 -100\nP 2 0 0\nP 3 2 180\nL 1 2 2 1000\nL 2 3 2 666\nT 80\n";

const BUILD: &str = "run `bin/build clear` in the repository's root first";

pub fn root() -> PathBuf {
    Path::new(env!("CARGO_MANIFEST_DIR")).join("..")
}

/// The program's path: CLEAR_PROGRAM, or where `bin/build clear` puts it.
fn program() -> PathBuf {
    let path = match env::var_os("CLEAR_PROGRAM") {
        Some(path) => path.into(),
        None => root().join("target/bin/clear"),
    };
    assert!(path.is_file(), "{} is missing: {BUILD}", path.display());
    path
}

/// Runs a command on the given standard input. Gives what came of it, and whether all of the input
/// was taken.
pub fn run(command: &mut Command, input: &[u8]) -> (Output, bool) {
    let piped = command
        .stdin(Stdio::piped())
        .stdout(Stdio::piped())
        .stderr(Stdio::piped());
    let mut child = piped.spawn().expect("the program starts");
    let mut stdin = child.stdin.take().expect("a pipe");
    let written = stdin.write_all(input);
    if let Err(error) = &written {
        assert_eq!(error.kind(), ErrorKind::BrokenPipe);
    }
    drop(stdin);
    let output = child.wait_with_output().expect("the program ends");
    (output, written.is_ok())
}

pub fn printed(output: &Output) -> &str {
    str::from_utf8(&output.stdout).expect("plain text")
}

pub fn said(output: &Output) -> &str {
    str::from_utf8(&output.stderr).expect("plain text")
}

fn assert_answer(output: &Output, status: i32, lines: &str) {
    assert_eq!(printed(output), lines, "{}", said(output));
    assert_eq!(output.status.code(), Some(status), "{}", said(output));
}

/// Status 2, no line of an answer, and a message with these words.
fn assert_no_answer(output: &Output, words: &str) {
    let messages = said(output);
    assert_eq!(printed(output), "", "{messages}");
    assert_eq!(output.status.code(), Some(2), "{messages}");
    let mut ours = messages.lines().filter(|line| line.starts_with("clear: "));
    assert!(ours.any(|line| line.contains(words)), "{messages}");
}

/// The lines of `docs/RULES.md`, "The program's lines", from the library's answer.
fn lines(file: &[u8]) -> String {
    let mut area = [0; ANSWER_LIMIT];
    let written = match clear(file, &mut area) {
        Ok(written) => written,
        Err(refusal) => return format!("R {} {}\n", refusal.number(), refusal.place()),
    };
    let (records, _) = area[..written].as_chunks();
    let line = |record: &[u8; 8]| match *record {
        [3, member, n0, n1, v0, v1, v2, v3] => {
            let net = i16::from_le_bytes([n0, n1]);
            format!(
                "P {member} {net} {}\n",
                i32::from_le_bytes([v0, v1, v2, v3])
            )
        }
        [4, a, b, _, f0, f1, l0, l1] => {
            let flow = i16::from_le_bytes([f0, f1]);
            format!("L {a} {b} {flow} {}\n", u16::from_le_bytes([l0, l1]))
        }
        [_, _, _, _, t0, t1, t2, t3] => {
            format!("T {}\n", i32::from_le_bytes([t0, t1, t2, t3]))
        }
    };
    records.iter().map(line).collect()
}

#[test]
fn the_program_prints_the_librarys_answer() {
    let program = program();
    cases("CLEARING_RUNS", 1000, |random| {
        let file = match random.one_in(2) {
            true => random_sheet(random).file(random),
            false => random_file(random),
        };
        let (output, _) = run(&mut Command::new(&program), &file);
        assert_eq!(printed(&output), lines(&file));
    });
}

#[test]
fn the_program_clears_a_as_documented() {
    let (output, _) = run(&mut Command::new(program()), &committed("A"));
    assert_eq!(printed(&output), A);
}

#[test]
fn the_program_does_not_read_endlessly() {
    let input = vec![2; 64 << 20];
    let (output, all_taken) = run(&mut Command::new(program()), &input);
    assert_eq!(printed(&output), "R 1 0\n");
    assert!(!all_taken, "{} bytes were read", input.len());
}

/// The script, called from a folder that is not the repository's. It would build the program, so the
/// program must be there.
fn script() -> Command {
    let mut command = Command::new(script_path());
    command.current_dir(env::temp_dir());
    command
}

fn script_path() -> PathBuf {
    let built = root().join("target/bin/clear");
    assert!(built.is_file(), "{} is missing: {BUILD}", built.display());
    root().join("bin/clear")
}

/// A script with a word of the shell's on its streams, as `<&-`, which closes standard input.
pub fn with_stream(stream: &str, script: PathBuf) -> Command {
    let mut command = Command::new("sh");
    let line = format!("exec \"$0\" \"$@\" {stream}");
    command.args(["-c", &line]).arg(script);
    command
}

fn script_with(stream: &str) -> Command {
    with_stream(stream, script_path())
}

/// A standard input that has 8 bytes of a market of 24 and does not wait for more, and the other end,
/// which has not ended.
pub fn part_of_a_market() -> (OwnedFd, UnixStream) {
    let (mut ours, theirs) = UnixStream::pair().expect("two sockets");
    theirs.set_nonblocking(true).expect("it does not wait");
    let market = committed("F");
    assert_eq!(market.len(), 24);
    ours.write_all(&market[..8]).expect("a part of it");
    (OwnedFd::from(theirs), ours)
}

fn example(name: &str) -> PathBuf {
    root().join("examples").join(name).with_extension("market")
}

pub fn output(command: &mut Command) -> Output {
    command.output().expect("the script starts")
}

#[test]
fn the_script_clears_a_file_and_standard_input() {
    assert_answer(&output(script().arg(example("A"))), 0, A);
    for words in [&[][..], &["-"], &["--"], &["--", "-"]] {
        let (output, _) = run(script().args(words), &committed("A"));
        assert_answer(&output, 0, A);
    }
}

#[test]
fn the_scripts_status_tells_a_refusal() {
    for name in ["A", "seven_bytes", "ring", "star", "battery", "star_spans"] {
        let lines = lines(&committed(name));
        let status = lines.starts_with('R').into();
        assert_answer(&output(script().arg(example(name))), status, &lines);
    }
    let refused = [&[9; 8][..], &[1; FILE_LIMIT + 8]];
    for file in refused {
        let (output, _) = run(&mut script(), file);
        assert_answer(&output, 1, &lines(file));
    }
}

#[test]
fn the_script_names_a_file_that_cannot_be_opened() {
    for name in ["no such.market", ".", ""] {
        let output = output(script().arg(name));
        assert_no_answer(&output, &format!("cannot open {name}: "));
    }
}

#[test]
fn the_script_helps() {
    for word in ["--help", "-h"] {
        let output = output(script().arg(word));
        assert_eq!(output.status.code(), Some(0));
        assert!(printed(&output).contains("exit status:"), "{word}");
        assert_eq!(said(&output), "", "{word}");
    }
    let full = File::options().write(true).open("/dev/full").expect("full");
    let output = output(script().arg("--help").stdout(full));
    assert_eq!(output.status.code(), Some(2));
}

#[test]
fn the_script_refuses_other_words() {
    for word in ["-x", "--halp", "--help=no", "-0"] {
        assert_no_answer(&output(script().arg(word)), word);
        assert_no_answer(&output(script().arg(word).arg(example("A"))), word);
    }
    let two = [example("A"), example("A")];
    assert_no_answer(&output(script().args(&two)), "one file");
    assert_no_answer(&output(script().arg("--").args(&two)), "one file");
}

#[test]
fn a_files_name_may_begin_with_a_dash() {
    let folder = Folder::new("dashes");
    for name in ["-x", "--help", "--"] {
        folder.write(name, committed("A"));
        let mut script = script();
        script.current_dir(folder.path("")).args(["--", name]);
        assert_answer(&output(&mut script), 0, A);
    }
}

#[test]
fn a_market_that_cannot_be_read_has_no_answer() {
    let folder = File::open(root()).expect("the folder is there");
    assert_no_answer(&output(script().stdin(folder)), "read");
    assert_no_answer(&output(&mut script_with("<&-")), "standard input");
}

#[test]
fn the_status_tells_even_where_no_message_can() {
    for words in [&["no such.market"][..], &["-x"], &["a", "b"]] {
        let full = File::options().write(true).open("/dev/full").expect("full");
        let output = output(script().args(words).stderr(full));
        assert_eq!(output.status.code(), Some(2), "{words:?}");
        assert_eq!(printed(&output), "");
    }
}

#[test]
fn a_closed_standard_input_does_not_matter_to_a_file() {
    assert_answer(&output(script_with("<&-").arg(example("A"))), 0, A);
    assert_answer(&output(script_with("<&- 2>&-").arg(example("A"))), 0, A);
}

#[test]
fn a_market_that_is_not_there_whole_has_no_answer() {
    let (part, _rest) = part_of_a_market();
    let output = output(script().stdin(part));
    assert_no_answer(&output, "read");
}

#[test]
fn an_answer_that_cannot_be_written_is_none() {
    let full = File::options().write(true).open("/dev/full").expect("full");
    let output_to_full = output(script().arg(example("A")).stdout(full));
    assert_no_answer(&output_to_full, "write");
    let closed = output(script_with(">&-").arg(example("A")));
    assert_no_answer(&closed, "standard output");
}

/// What the script writes for a file, each write by itself.
fn writes(file: &Path) -> Vec<Vec<u8>> {
    let (ours, theirs) = UnixDatagram::pair().expect("two sockets");
    let wait = Some(Duration::from_millis(50));
    ours.set_read_timeout(wait).expect("a time to wait");
    let mut command = script();
    command.arg(file).stdout(OwnedFd::from(theirs));
    let mut child = command.spawn().expect("the script starts");
    let mut writes = Vec::new();
    loop {
        let ended = child.try_wait().expect("a child").is_some();
        let mut area = [0; 4096];
        match ours.recv(&mut area) {
            Ok(n) => writes.push(area[..n].to_vec()),
            Err(_) if ended => return writes,
            Err(_) => {}
        }
    }
}

#[test]
fn an_answer_is_one_write() {
    for name in ["A", "seven_bytes", "star"] {
        let lines = lines(&committed(name)).into_bytes();
        let writes = writes(&example(name));
        assert!(writes == [lines], "{name}: {} writes", writes.len());
    }
}

#[test]
fn the_script_works_through_links() {
    let folder = Folder::new("links");
    let script = script_path().canonicalize().expect("the script is there");
    let first = folder.path("first");
    symlink(script, &first).expect("a link");
    folder.write("other/market", committed("A"));
    symlink("../first", folder.path("other/second")).expect("a link");
    symlink("second", folder.path("other/third")).expect("a link");
    for link in ["first", "other/second", "other/third"] {
        let mut command = Command::new(folder.path(link));
        let inside = command.current_dir(folder.path("other"));
        assert_answer(&output(inside.arg("market")), 0, A);
    }
    let mut relative = Command::new("sh");
    let inside = relative.current_dir(folder.path("other"));
    assert_answer(&output(inside.args(["second", "market"])), 0, A);
    let mut named = Command::new("sh");
    named.args(["-c", "PATH=$1:$PATH; third \"$1/market\"", "sh"]);
    assert_answer(&output(named.arg(folder.path("other"))), 0, A);
}
