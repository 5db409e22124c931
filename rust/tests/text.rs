//! A market as text: text and bytes are inverses on every file, and a line that cannot be read is
//! named.

use crate::common::{cases, Random};
use crate::files::random_file;
use clearing::{Market, Unreadable};

/// A file of any kind, with many records of every kind.
pub fn any_file(random: &mut Random) -> Vec<u8> {
    match random.one_in(2) {
        true => random_bytes(random),
        false => random_file(random),
    }
}

/// Bytes that are nearly records, or quite, or not at all.
fn random_bytes(random: &mut Random) -> Vec<u8> {
    let length = random.below(100);
    let mut bytes = random.bytes(length);
    for record in bytes.chunks_mut(8) {
        record[0] = random.pick(&[record[0], 1, 2, 6, 7]);
        for byte in record.iter_mut().skip(1) {
            *byte = random.pick(&[*byte, 0, 1]);
        }
    }
    bytes
}

#[test]
fn text_and_bytes_are_inverses_on_every_file() {
    let names = ["link", "offer", "lower", "upper", "bytes"];
    let mut seen = [0; 5];
    let count = cases("CLEARING_FILES", 20_000, |random| {
        let market = Market::from(any_file(random));
        let text = market.text();
        assert_eq!(text.lines().count(), market.file().len().div_ceil(8));
        for (name, seen) in names.iter().zip(&mut seen) {
            *seen += u64::from(text.contains(name));
        }
        assert!(
            Market::from_text(text.as_bytes()) == Ok(market),
            "not the same bytes:\n{text}"
        );
    });
    for (name, seen) in names.iter().zip(seen) {
        assert!(seen >= count / 10, "{seen} of {count} with {name}");
    }
}

#[test]
fn each_record_is_a_line() {
    for (bytes, line) in [
        (&[1, 1, 2, 0, 2, 0, 0, 0][..], "link 1 2 2"),
        (&[1, 9, 4, 0, 0xFF, 0x7F, 0, 0], "link 9 4 32767"),
        (
            &[2, 1, 0xFE, 0xFF, 0x9C, 0xFF, 0xFF, 0xFF],
            "offer 1 -2 -100",
        ),
        (
            &[2, 255, 0, 0x80, 0, 0, 0, 0x80],
            "offer 255 -32768 -2147483648",
        ),
        (
            &[1, 1, 2, 0, 0, 0x80, 0, 0],
            "bytes 01 01 02 00 00 80 00 00",
        ),
        (&[1, 1, 2, 1, 2, 0, 0, 0], "bytes 01 01 02 01 02 00 00 00"),
        (&[1, 1, 2, 0, 2, 0, 0, 9], "bytes 01 01 02 00 02 00 00 09"),
        (&[6, 1, 0xF9, 0xFF, 5, 0, 0, 0], "lower 1 -7 5"),
        (
            &[6, 0, 0xFF, 0x7F, 0xFF, 0xFF, 0xFF, 0x7F],
            "lower 0 32767 2147483647",
        ),
        (
            &[7, 1, 0xFE, 0xFF, 0xEC, 0xFF, 0xFF, 0xFF],
            "upper 1 -2 -20",
        ),
        (
            &[7, 255, 0, 0x80, 0, 0, 0, 0x80],
            "upper 255 -32768 -2147483648",
        ),
        (&[3, 0, 0, 0, 0, 0, 0, 0], "bytes 03 00 00 00 00 00 00 00"),
        (&[2, 1, 0, 0, 0, 0, 0], "bytes 02 01 00 00 00 00 00"),
        (&[7, 1, 0, 0, 0, 0, 0], "bytes 07 01 00 00 00 00 00"),
        (&[0xAB], "bytes AB"),
    ] {
        let market = Market::from(bytes.to_vec());
        assert_eq!(market.text(), format!("{line}\n"));
        assert_eq!(Market::from_text(line.as_bytes()), Ok(market));
    }
    assert_eq!(Market::new().text(), "");
}

#[test]
fn blank_lines_comments_and_any_blanks_are_passed_over() {
    let plain = Market::from_text(b"link 1 2 3\noffer 1 0 0\nbytes 0a FF").expect("a market");
    let text = b"\n# \xFFnot even text\n  link\t1 2   3 # thin\r\n\n#link 1 3 3\noffer 1 +0 -0#\nbytes 0A ff\r\n\n";
    assert_eq!(Market::from_text(text), Ok(plain));
    assert_eq!(Market::from_text(b"# nothing\n\n"), Ok(Market::new()));
}

#[test]
fn a_line_that_cannot_be_read_is_named_with_its_number() {
    for (line, words) in [
        (
            "lnik 1 2 3",
            "a line begins with link, offer, lower, upper or bytes, not with \"lnik\"",
        ),
        (
            "Link 1 2 3",
            "a line begins with link, offer, lower, upper or bytes, not with \"Link\"",
        ),
        ("link 1 2", "it must be: link A B CAPACITY"),
        ("link 1 2 3 4", "it must be: link A B CAPACITY"),
        ("offer 1", "it must be: offer MEMBER UNITS PRICE"),
        ("lower 1 2", "it must be: lower MEMBER UNITS BASE"),
        ("upper 1 2 3 4", "it must be: upper MEMBER UNITS SLOPE"),
        ("bytes", "it must be: bytes XX XX ..."),
        (
            "link 256 2 3",
            "member must be a number from 0 to 255, not \"256\"",
        ),
        (
            "link 1 -2 3",
            "member must be a number from 0 to 255, not \"-2\"",
        ),
        (
            "link 1 2 32768",
            "capacity must be a number from 0 to 32767, not \"32768\"",
        ),
        (
            "link 1 2 -1",
            "capacity must be a number from 0 to 32767, not \"-1\"",
        ),
        (
            "offer 1 1.5 0",
            "units must be a number from -32768 to 32767, not \"1.5\"",
        ),
        (
            "offer 1 0 2147483648",
            "price must be a number from -2147483648 to 2147483647, not \"2147483648\"",
        ),
        (
            "lower 256 0 0",
            "member must be a number from 0 to 255, not \"256\"",
        ),
        (
            "lower 1 0 2147483648",
            "base must be a number from -2147483648 to 2147483647, not \"2147483648\"",
        ),
        (
            "upper 1 -32769 0",
            "units must be a number from -32768 to 32767, not \"-32769\"",
        ),
        (
            "upper 1 0 0.5",
            "slope must be a number from -2147483648 to 2147483647, not \"0.5\"",
        ),
        ("bytes 1 2", "a byte is two hexadecimal digits, not \"1\""),
        (
            "bytes 02 +1",
            "a byte is two hexadecimal digits, not \"+1\"",
        ),
        (
            "bytes 0201",
            "a byte is two hexadecimal digits, not \"0201\"",
        ),
    ] {
        let text = format!("link 1 2 2\n\n# three\n{line}\nlnik 0\n");
        let fault: Unreadable = Market::from_text(text.as_bytes()).expect_err(line);
        assert_eq!(fault.to_string(), format!("line 4: {words}"));
    }
}
