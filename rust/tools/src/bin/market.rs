//! A market as text, and back: `bin/market`.

use clearing::Market;
use clearing_tools::tool::{self, Arguments, End, Tool};
use std::ffi::OsStr;
use std::process::ExitCode;

const HELP: &str = "\
bin/market text [FILE]     prints a market as lines, one for each record, in order
bin/market bytes [FILE]    writes the bytes of such lines

    link A B CAPACITY         a link between members A and B
    offer MEMBER UNITS PRICE  an entry of a member's table; units below 0 are sold
    lower MEMBER UNITS BASE   where a span begins: an entry for each number of units up to its end
    upper MEMBER UNITS SLOPE  where it ends, always the next line; a price is SLOPE times units + BASE
    bytes XX XX ...           anything else, in hexadecimal

FILE is standard input where it is - or missing. Blank lines, and what follows a #, are passed over.
A line that cannot be read is named with its number, and nothing is written. Record k of a refusal
is line k + 1 of the file's text.
Exit status: 0 done; 2 not done, and a message on standard error.
";

fn main() -> ExitCode {
    let tool = Tool {
        name: "market",
        help: HELP,
        options: &[],
        work,
    };
    tool.run()
}

fn work(arguments: &Arguments) -> Result<End, String> {
    let (form, name) = match arguments.words.as_slice() {
        [form] => (form, OsStr::new("-")),
        [form, name] => (form, name.as_os_str()),
        _ => return Err("say text or bytes, and one file; try market --help".to_string()),
    };
    match form.to_str() {
        Some("text") => {
            let market = Market::from(tool::read(name, usize::MAX)?);
            tool::write(market.text().as_bytes())?;
        }
        Some("bytes") => {
            let text = tool::read(name, usize::MAX)?;
            let market = Market::from_text(&text)
                .map_err(|fault| format!("{}, {fault}", tool::called(name)))?;
            tool::write(market.file())?;
        }
        _ => return Err("say text or bytes first; try market --help".to_string()),
    }
    Ok(End::Done)
}
