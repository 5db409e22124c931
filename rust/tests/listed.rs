//! Every market of `docs/RULES.md`, "Worked markets", with its file and its answer written out by
//! hand.

use crate::common::{cleared, Random};

/// A market: the name of its example file, the file's bytes, the fewest answer bytes with which the
/// result is as listed, and that result: the answer's bytes, or a refusal's number and place.
struct Row {
    name: &'static str,
    file: Vec<u8>,
    room: usize,
    result: Result<Vec<u8>, (u64, u64)>,
}

fn cleared_row(name: &'static str, file: &str, answer: &str) -> Row {
    let answer = bytes(answer);
    Row {
        name,
        file: bytes(file),
        room: answer.len(),
        result: Ok(answer),
    }
}

fn refused_row(name: &'static str, file: &str, room: usize, refusal: (u64, u64)) -> Row {
    Row {
        name,
        file: bytes(file),
        room,
        result: Err(refusal),
    }
}

fn bytes(hex: &str) -> Vec<u8> {
    let words = hex.split_whitespace();
    words
        .map(|word| u8::from_str_radix(word, 16).expect("two hexadecimal digits"))
        .collect()
}

/// One member with offers of 0 to `count` - 1 units, each at price 0.
fn offers(count: u8) -> String {
    let record = |units| format!("02 01 {units:02X} 00 00 00 00 00 ");
    (0..count).map(record).collect()
}

fn listed() -> Vec<Row> {
    vec![
        cleared_row(
            "A",
            "01 01 02 00 02 00 00 00
             01 02 03 00 03 00 00 00
             02 01 00 00 00 00 00 00
             02 01 FE FF 9C FF FF FF
             02 01 FD FF 88 FF FF FF
             02 02 00 00 00 00 00 00
             02 03 00 00 00 00 00 00
             02 03 02 00 B4 00 00 00
             02 03 03 00 F0 00 00 00",
            "03 01 FE FF 9C FF FF FF
             03 02 00 00 00 00 00 00
             03 03 02 00 B4 00 00 00
             04 01 02 00 02 00 E8 03
             04 02 03 00 02 00 9A 02
             05 00 00 00 50 00 00 00",
        ),
        cleared_row(
            "B",
            "01 01 02 00 03 00 00 00
             01 02 03 00 03 00 00 00
             02 01 00 00 00 00 00 00
             02 01 FE FF 9C FF FF FF
             02 01 FD FF 88 FF FF FF
             02 02 00 00 00 00 00 00
             02 03 00 00 00 00 00 00
             02 03 02 00 B4 00 00 00
             02 03 03 00 F0 00 00 00",
            "03 01 FD FF 88 FF FF FF
             03 02 00 00 00 00 00 00
             03 03 03 00 F0 00 00 00
             04 01 02 00 03 00 E8 03
             04 02 03 00 03 00 E8 03
             05 00 00 00 78 00 00 00",
        ),
        cleared_row(
            "C",
            "02 01 00 00 00 00 00 00",
            "03 01 00 00 00 00 00 00
             05 00 00 00 00 00 00 00",
        ),
        refused_row("D", "02 01 05 00 84 03 00 00", 16, (12, 0)),
        cleared_row(
            "E",
            "02 01 00 00 D8 FF FF FF",
            "03 01 00 00 D8 FF FF FF
             05 00 00 00 D8 FF FF FF",
        ),
        cleared_row(
            "F",
            "01 01 02 00 00 00 00 00
             02 01 00 00 00 00 00 00
             02 02 00 00 00 00 00 00",
            "03 01 00 00 00 00 00 00
             03 02 00 00 00 00 00 00
             04 01 02 00 00 00 0F 27
             05 00 00 00 00 00 00 00",
        ),
        cleared_row(
            "G",
            "01 01 02 00 01 00 00 00
             01 01 03 00 01 00 00 00
             02 01 01 00 32 00 00 00
             02 02 00 00 00 00 00 00
             02 02 FF FF F6 FF FF FF
             02 03 00 00 00 00 00 00
             02 03 FF FF F6 FF FF FF",
            "03 01 01 00 32 00 00 00
             03 02 00 00 00 00 00 00
             03 03 FF FF F6 FF FF FF
             04 01 02 00 00 00 00 00
             04 01 03 00 FF FF E8 03
             05 00 00 00 28 00 00 00",
        ),
        cleared_row(
            "H",
            "01 01 02 00 01 00 00 00
             02 01 01 00 05 00 00 00
             02 02 FF FF F7 FF FF FF",
            "03 01 01 00 05 00 00 00
             03 02 FF FF F7 FF FF FF
             04 01 02 00 FF FF E8 03
             05 00 00 00 FC FF FF FF",
        ),
        refused_row(
            "I",
            "01 01 02 00 01 00 00 00
             02 01 FF FF FD FF FF FF
             02 02 02 00 09 00 00 00",
            32,
            (12, 0),
        ),
        cleared_row(
            "J",
            "01 01 02 00 02 00 00 00
             01 02 03 00 02 00 00 00
             02 01 00 00 00 00 00 00
             02 01 FE FF 9C FF FF FF
             02 02 00 00 00 00 00 00
             02 02 01 00 5A 00 00 00
             02 03 00 00 00 00 00 00
             02 03 02 00 78 00 00 00",
            "03 01 FE FF 9C FF FF FF
             03 02 00 00 00 00 00 00
             03 03 02 00 78 00 00 00
             04 01 02 00 02 00 E8 03
             04 02 03 00 02 00 E8 03
             05 00 00 00 14 00 00 00",
        ),
        cleared_row(
            "K",
            "01 01 02 00 02 00 00 00
             02 01 00 00 00 00 00 00
             02 01 FE FF 9C FF FF FF
             02 02 00 00 00 00 00 00
             02 02 02 00 B4 00 00 00
             02 01 FE FF A6 FF FF FF
             02 02 02 00 AA 00 00 00",
            "03 01 FE FF A6 FF FF FF
             03 02 02 00 B4 00 00 00
             04 01 02 00 02 00 E8 03
             05 00 00 00 5A 00 00 00",
        ),
        refused_row(
            "ring",
            "01 01 02 00 01 00 00 00
             01 01 03 00 01 00 00 00
             01 02 03 00 01 00 00 00
             02 01 00 00 00 00 00 00
             02 02 00 00 00 00 00 00
             02 03 00 00 00 00 00 00",
            0,
            (9, 2),
        ),
        cleared_row(
            "capacity_40",
            "01 01 02 00 28 00 00 00
             02 01 D8 FF 60 F0 FF FF
             02 02 28 00 70 17 00 00",
            "03 01 D8 FF 60 F0 FF FF
             03 02 28 00 70 17 00 00
             04 01 02 00 28 00 E8 03
             05 00 00 00 D0 07 00 00",
        ),
        refused_row(
            "capacity_41",
            "01 01 02 00 29 00 00 00
             02 01 D8 FF 60 F0 FF FF
             02 02 28 00 70 17 00 00",
            0,
            (4, 0),
        ),
        cleared_row(
            "offers_64",
            &offers(64),
            "03 01 00 00 00 00 00 00
             05 00 00 00 00 00 00 00",
        ),
        refused_row("offers_65", &offers(65), 0, (7, 1)),
        refused_row(
            "repeats_65",
            &(offers(64) + "02 01 00 00 05 00 00 00"),
            0,
            (7, 1),
        ),
        refused_row("seven_bytes", "02 01 00 00 00 00 00", 0, (2, 0)),
        cleared_row(
            "battery",
            "01 01 02 00 07 00 00 00
             06 01 F9 FF 00 00 00 00
             07 01 FE FF 14 00 00 00
             02 02 00 00 00 00 00 00
             02 02 03 00 B4 00 00 00
             02 02 06 00 E6 00 00 00",
            "03 01 FD FF C4 FF FF FF
             03 02 03 00 B4 00 00 00
             04 01 02 00 03 00 AC 01
             05 00 00 00 78 00 00 00",
        ),
        cleared_row(
            "battery_peak",
            "01 01 02 00 07 00 00 00
             06 01 F9 FF 00 00 00 00
             07 01 FE FF 14 00 00 00
             06 02 00 00 00 00 00 00
             07 02 07 00 1E 00 00 00
             02 02 04 00 A0 00 00 00",
            "03 01 FC FF B0 FF FF FF
             03 02 04 00 A0 00 00 00
             04 01 02 00 04 00 3B 02
             05 00 00 00 50 00 00 00",
        ),
        refused_row(
            "lone_lower",
            "01 01 02 00 07 00 00 00
             02 02 00 00 00 00 00 00
             02 02 03 00 B4 00 00 00
             02 02 06 00 E6 00 00 00
             06 01 F9 FF 00 00 00 00",
            0,
            (13, 4),
        ),
        refused_row(
            "lone_upper",
            "01 01 02 00 07 00 00 00
             07 01 FE FF 14 00 00 00
             02 02 00 00 00 00 00 00
             02 02 03 00 B4 00 00 00
             02 02 06 00 E6 00 00 00",
            0,
            (13, 1),
        ),
        refused_row(
            "turned_span",
            "01 01 02 00 07 00 00 00
             06 01 FE FF 00 00 00 00
             07 01 F9 FF 14 00 00 00
             02 02 00 00 00 00 00 00
             02 02 03 00 B4 00 00 00
             02 02 06 00 E6 00 00 00",
            0,
            (14, 2),
        ),
    ]
}

#[test]
fn every_listed_market_clears_as_listed() {
    let mut random = Random::new(1);
    for row in listed() {
        for more in [0, 1, 24, 512] {
            let room = row.room + more;
            let result = cleared(&row.file, room, &mut random);
            assert_eq!(result, row.result, "{} with {room} bytes", row.name);
        }
    }
}

#[test]
fn a_short_area_is_refused_with_the_bytes_it_needs() {
    let mut random = Random::new(2);
    for row in listed().iter().filter(|row| row.room > 0) {
        for room in 0..row.room {
            let result = cleared(&row.file, room, &mut random);
            let needed = Err((11, row.room as u64));
            assert_eq!(result, needed, "{} with {room} bytes", row.name);
        }
    }
}

#[test]
fn the_example_files_are_the_listed_ones() {
    for row in listed() {
        let file = crate::examples::committed(row.name);
        assert!(file == row.file, "examples/{}.market", row.name);
    }
}
