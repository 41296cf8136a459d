//! The worked bytes of docs/FORMAT.md, computed again.

use tsm_harness::data;
use tsm_harness::data::Hex;
use tsm_reference::index::Kind;
use tsm_reference::integers::zigzag;
use tsm_reference::roll::Writer;
use tsm_reference::{booleans, crc32, integers, simple8b, timestamps, varint};

/// The bytes of a piece: its name, then its words.
fn piece(name: &str, words: &[&str]) -> Vec<u8> {
    let signed = || words.iter().map(|word| word.parse().expect("a number"));
    let numbers: Vec<u64> = words.iter().flat_map(|word| word.parse()).collect();
    let mut out = Vec::new();
    match name {
        "varint" => varint::append(numbers[0], &mut out),
        "zigzag" => signed().for_each(|number| varint::append(zigzag(number), &mut out)),
        "crc32" => out.extend(crc32::checksum(words[0].as_bytes()).to_be_bytes()),
        "simple8b" => simple8b::pack(&numbers, &mut out),
        "times" => timestamps::append(&signed().collect::<Vec<_>>(), &mut Vec::new(), &mut out),
        "integers" => integers::append(&signed().collect::<Vec<_>>(), &mut Vec::new(), &mut out),
        "booleans" => booleans::append(&signed().collect::<Vec<_>>(), &mut out),
        "roll" => out = roll(words[0], words[1], &words[2..]),
        _ => panic!("no piece is called {name:?}"),
    }
    out
}

/// The roll of one key.
fn roll(key: &str, kind: &str, points: &[&str]) -> Vec<u8> {
    let kind = match kind {
        "integers" => Kind::Integer,
        _ => Kind::Boolean,
    };
    let point = |word: &&str| {
        let (time, value) = word.split_once(':').expect("a time and a value");
        let number = |word: &str| word.parse::<i64>().expect("a number");
        (number(time), number(value))
    };
    let (times, values): (Vec<i64>, Vec<i64>) = points.iter().map(point).unzip();
    let mut roll = Writer::default();
    roll.begin(key.as_bytes(), kind);
    roll.points(kind, &times, &values);
    roll.end();
    roll.finish()
}

/// The cells of a table's row, without their quotes.
fn cells(row: &str) -> Vec<&str> {
    let cells = row.trim_matches('|').split('|');
    cells.map(|cell| cell.trim().trim_matches('`')).collect()
}

fn unspaced(hex: &str) -> String {
    hex.replace(' ', "").to_lowercase()
}

#[test]
fn worked_bytes() {
    let text = data::text("../docs/FORMAT.md");
    let mut pieces = 0;
    for row in text.lines().filter(|line| line.starts_with("| `")) {
        let cells = cells(row);
        let words: Vec<&str> = cells[0].split(' ').collect();
        let bytes = piece(words[0], &words[1..]);
        assert_eq!(Hex(&bytes).to_string(), unspaced(cells[1]), "{row}");
        pieces += 1;
    }
    assert!(pieces > 30, "{pieces} worked pieces");
}

#[test]
fn a_file_byte_by_byte() {
    let text = data::text("../docs/FORMAT.md");
    let (_, rest) = text.split_once("<!-- bytes of ").expect("a file");
    let (name, rest) = rest.split_once(" -->").expect("its name");
    let rows = rest.lines().skip_while(|line| !line.starts_with("| 0 "));
    let mut hex = String::new();
    for row in rows.take_while(|line| line.starts_with('|')) {
        let cells = cells(row);
        assert_eq!(cells[0], (hex.len() / 2).to_string(), "{row}");
        hex += &unspaced(cells[1]);
    }
    let file = data::bytes(&format!("../{name}"));
    assert_eq!(hex, Hex(&file).to_string());
}
