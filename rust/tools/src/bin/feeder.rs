//! A feeder with the loads of its links, as text or as a page: `bin/feeder`.

use clearing::{Market, FILE_LIMIT};
use clearing_tools::report::Report;
use clearing_tools::tool::{self, Arguments, End, Tool};
use clearing_tools::{drawing, page};
use std::env;
use std::ffi::OsStr;
use std::io::{self, IsTerminal};
use std::process::ExitCode;

const HELP: &str = "\
bin/feeder [--page] [FILE]    clears a market and shows its members and the loads of its links

    --page    writes one HTML page for a browser or for paper, in place of text

FILE holds a market's bytes (those of a text are made by bin/market bytes); it is standard input
where it is - or missing. A load is in percent of the link's own capacity, which is what the
cooperative leases of the cable. For each link that is full or closed, the market is cleared once
more with 40 units on that link alone, the most that a link can have: a member is held back where
it would trade more, or the other way. Prices are in hundredths of a cent. Text to a terminal is in
colour, unless NO_COLOR is set.
Exit status: 0 cleared; 1 refused, and the refusal is shown; 2 not done, and a message on standard
error.
";

fn main() -> ExitCode {
    let tool = Tool {
        name: "feeder",
        help: HELP,
        options: &["--page"],
        work,
    };
    tool.run()
}

fn work(arguments: &Arguments) -> Result<End, String> {
    let name = match arguments.words.as_slice() {
        [] => OsStr::new("-"),
        [name] => name.as_os_str(),
        _ => return Err("give the file of one market; try feeder --help".to_string()),
    };
    // One byte past the limit is enough for the library to refuse the file.
    let market = Market::from(tool::read(name, FILE_LIMIT + 1)?);
    let result = Report::of(&market);
    let shown = match arguments.has("--page") {
        true => page::page(&tool::called(name), &result),
        false => drawing::text(&result, colour()),
    };
    tool::write(shown.as_bytes())?;
    match result {
        Ok(_) => Ok(End::Done),
        Err(_) => Ok(End::Refused),
    }
}

fn colour() -> bool {
    let no_color = env::var_os("NO_COLOR");
    drawing::coloured(io::stdout().is_terminal(), no_color.as_deref())
}
