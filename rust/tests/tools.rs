//! `bin/market` and `bin/feeder` as an operator runs them: what they write and how they end.

use crate::examples::committed;
use crate::program::{output, part_of_a_market, printed, root, run, said, with_stream};
use std::fs::File;
use std::path::PathBuf;
use std::process::{Command, Output};

fn tool(name: &str, words: &[&str]) -> Command {
    let mut command = Command::new(root().join("bin").join(name));
    command.args(words).current_dir(root().join("examples"));
    command
}

fn assert_failed(output: &Output, words: &str) {
    assert_eq!(printed(output), "", "{words}");
    assert_eq!(output.status.code(), Some(2), "{}", said(output));
    assert!(said(output).contains(words), "{}", said(output));
}

#[test]
fn market_gives_a_files_text_and_a_texts_bytes() {
    for name in ["A", "K", "seven_bytes", "street", "battery"] {
        let file = format!("{name}.market");
        let text = output(&mut tool("market", &["text", &file]));
        assert_eq!(text.status.code(), Some(0), "{}", said(&text));
        let (bytes, _) = run(&mut tool("market", &["bytes"]), &text.stdout);
        assert_eq!(bytes.status.code(), Some(0), "{}", said(&bytes));
        assert!(bytes.stdout == committed(name), "{name}");
        let made = output(&mut tool("market", &["bytes", &format!("{name}.txt")]));
        assert!(made.stdout == committed(name), "{name}");
    }
}

#[test]
fn market_names_the_line_that_it_cannot_read_and_writes_nothing() {
    let (output, _) = run(
        &mut tool("market", &["bytes", "-"]),
        b"link 1 2 2\nlink 1\n",
    );
    assert_failed(
        &output,
        "market: standard input, line 2: it must be: link A B CAPACITY",
    );
}

#[test]
fn a_tool_that_cannot_read_or_write_says_so() {
    for words in [&["text", "none"][..], &["text", "."], &["bytes", "/"]] {
        let output = output(&mut tool("market", words));
        assert_failed(&output, &format!("market: cannot read {}: ", words[1]));
    }
    assert_failed(
        &output(&mut tool("feeder", &["."])),
        "feeder: cannot read .: ",
    );
    let full = || File::options().write(true).open("/dev/full").expect("full");
    for (name, words) in [
        ("market", &["text", "A.market"][..]),
        ("feeder", &["A.market"]),
        ("feeder", &["--page", "A.market"]),
        ("feeder", &["--help"]),
    ] {
        let output = output(tool(name, words).stdout(full()));
        assert_failed(&output, &format!("{name}: cannot write: "));
    }
}

fn tool_with(stream: &str, name: &str, words: &[&str]) -> Command {
    let mut command = with_stream(stream, root().join("bin").join(name));
    command.args(words).current_dir(root().join("examples"));
    command
}

#[test]
fn a_closed_stream_is_no_market_and_no_answer() {
    for (name, words) in [
        ("market", &["text"][..]),
        ("market", &["bytes", "-"]),
        ("feeder", &[]),
    ] {
        let closed = output(&mut tool_with("<&-", name, words));
        assert_failed(&closed, &format!("{name}: cannot read standard input: "));
        let closed = output(&mut tool_with(">&-", name, words));
        assert_failed(&closed, &format!("{name}: standard output is closed"));
        let full = output(tool_with("2>/dev/full", name, words).arg("-x"));
        assert_eq!(full.status.code(), Some(2), "{name}");
    }
    let named = output(&mut tool_with("<&-", "feeder", &["A.market"]));
    assert_eq!(named.status.code(), Some(0), "{}", said(&named));
}

#[test]
fn a_market_that_is_not_there_whole_is_none() {
    for (name, words) in [("market", &["text"][..]), ("feeder", &["-"])] {
        let (part, _rest) = part_of_a_market();
        let output = output(tool(name, words).stdin(part));
        assert_failed(&output, &format!("{name}: cannot read standard input: "));
    }
}

#[test]
fn a_tool_says_what_it_does_not_understand() {
    for (name, words) in [
        ("market", &[][..]),
        ("market", &["words", "A.market"]),
        ("market", &["text", "A.market", "B.market"]),
        ("market", &["--page", "text", "A.market"]),
        ("feeder", &["A.market", "B.market"]),
        ("feeder", &["--pages", "A.market"]),
    ] {
        let (output, _) = run(&mut tool(name, words), b"");
        assert_failed(&output, &format!("{name}: "));
        assert!(said(&output).contains("--help"), "{}", said(&output));
    }
}

#[test]
fn feeder_shows_a_market_or_its_refusal() {
    for form in [&[][..], &["--page"]] {
        let shown = |name| output(tool("feeder", form).arg(PathBuf::from(name)));
        let cleared = shown("A.market");
        assert_eq!(cleared.status.code(), Some(0), "{}", said(&cleared));
        assert!(printed(&cleared).contains("total"), "{}", printed(&cleared));
        let refused = shown("D.market");
        assert_eq!(refused.status.code(), Some(1), "{}", said(&refused));
        let words = "no possible allocation (refusal 12)";
        assert!(printed(&refused).contains(words), "{}", printed(&refused));
        let (piped, _) = run(tool("feeder", form).arg("-"), &committed("A"));
        assert_eq!(piped.status.code(), Some(0), "{}", said(&piped));
    }
}
