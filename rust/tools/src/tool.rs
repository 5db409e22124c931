//! What every tool does in the same way: its arguments, what it reads, what it writes, and its exit
//! status (`docs/RULES.md`, "Exit status").

use std::env;
use std::ffi::{OsStr, OsString};
use std::fs::File;
use std::io::{self, Read, Write};
use std::os::fd::AsFd;
use std::process::ExitCode;

/// What a tool ends with, where it has done what it was asked.
#[derive(Clone, Copy, Debug, PartialEq, Eq)]
pub enum End {
    Done,
    /// The market is refused, and the refusal is on standard output.
    Refused,
}

/// What stands after a tool's name.
#[derive(Debug, PartialEq, Eq)]
pub struct Arguments {
    /// The options, each one that the tool knows.
    pub options: Vec<String>,
    /// The other words, in order. `-` stands for standard input.
    pub words: Vec<OsString>,
}

/// A tool: its name, its help, the options that it knows, and its work.
pub struct Tool {
    pub name: &'static str,
    pub help: &'static str,
    pub options: &'static [&'static str],
    pub work: fn(&Arguments) -> Result<End, String>,
}

impl Tool {
    /// Runs the tool on the program's arguments. A failure is a message on standard error.
    pub fn run(&self) -> ExitCode {
        match self.end() {
            Ok(End::Done) => ExitCode::from(0),
            Ok(End::Refused) => ExitCode::from(1),
            Err(message) => {
                // Where even the message cannot be written, the status still tells.
                let _ = writeln!(io::stderr(), "{}: {message}", self.name);
                ExitCode::from(2)
            }
        }
    }

    fn end(&self) -> Result<End, String> {
        let arguments = Arguments::read(self.options, env::args_os().skip(1))
            .map_err(|message| format!("{message}; try {} --help", self.name))?;
        if arguments.has("--help") {
            write(self.help.as_bytes())?;
            return Ok(End::Done);
        }
        (self.work)(&arguments)
    }
}

impl Arguments {
    /// Takes options and words apart. `--` ends the options; `--help` and `-h` are always known.
    fn read(
        known: &[&str],
        arguments: impl Iterator<Item = OsString>,
    ) -> Result<Arguments, String> {
        let (mut options, mut words) = (Vec::new(), Vec::new());
        let mut ended = false;
        for argument in arguments {
            match argument.to_str() {
                _ if ended => words.push(argument),
                Some("--") => ended = true,
                Some("-h" | "--help") => options.push("--help".to_string()),
                Some(option) if known.contains(&option) => options.push(option.to_string()),
                Some("-") => words.push(argument),
                _ if argument.as_encoded_bytes().starts_with(b"-") => {
                    return Err(format!("unknown option {}", argument.display()));
                }
                _ => words.push(argument),
            }
        }
        Ok(Arguments { options, words })
    }

    pub fn has(&self, option: &str) -> bool {
        self.options.iter().any(|given| given == option)
    }
}

/// The bytes of a file, or of standard input for `-`, up to a limit.
pub fn read(name: &OsStr, limit: usize) -> Result<Vec<u8>, String> {
    let read = || {
        let file = match name.to_str() {
            Some("-") => File::from(io::stdin().as_fd().try_clone_to_owned()?),
            _ => File::open(name)?,
        };
        let mut bytes = Vec::new();
        file.take(limit as u64).read_to_end(&mut bytes)?;
        Ok(bytes)
    };
    read().map_err(|error: io::Error| format!("cannot read {}: {error}", called(name)))
}

/// What a message calls a file.
pub fn called(name: &OsStr) -> String {
    match name.to_str() {
        Some("-") => "standard input".to_string(),
        _ => name.display().to_string(),
    }
}

/// Writes all of it to standard output, in one write where the system takes it in one.
pub fn write(bytes: &[u8]) -> Result<(), String> {
    let output = || File::from(io::stdout().as_fd().try_clone_to_owned()?).write_all(bytes);
    output().map_err(|error| format!("cannot write: {error}"))
}

#[cfg(test)]
mod tests {
    use super::*;

    fn read(arguments: &[&str]) -> Result<Arguments, String> {
        Arguments::read(&["--page"], arguments.iter().map(OsString::from))
    }

    #[test]
    fn options_end_at_two_dashes() {
        let arguments = read(&["--page", "-", "--", "--page", "-x"]).expect("arguments");
        assert_eq!(arguments.options, ["--page"]);
        assert_eq!(arguments.words, ["-", "--page", "-x"]);
    }

    #[test]
    fn an_unknown_option_is_named() {
        assert_eq!(read(&["a", "-x"]), Err("unknown option -x".to_string()));
        assert!(read(&["a", "-h"]).expect("arguments").has("--help"));
    }
}
