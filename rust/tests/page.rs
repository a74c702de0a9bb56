//! Pages beside what Rust's own formatting writes: every byte, every entry read back from its place, and the text.

use nosingginger::{page_len, write_page, MOST_PAGE_BYTES, MOST_POSITIONS, MOST_VALUE_BYTES, PAGE_CELLS, SENSORS};
use reference::draw::Generator;

/// What the bytes behind a page are, before and after.
const BEHIND: u8 = 0xC3;

/// The page of a table, in lines of eight.
fn formatted(value_bytes: usize, table: &[u8]) -> String {
    let lines = table.chunks(PAGE_CELLS * value_bytes).enumerate();
    let texts = lines.map(|(line, entries)| {
        let digits = entries.chunks(value_bytes).map(|entry| entry.iter().map(|byte| format!("{byte:02X}")).collect::<String>());
        let cells: String = digits.map(|digits| format!(" {digits}")).collect();
        let width = PAGE_CELLS * (2 * value_bytes + 1);
        format!("{:5}{cells:width$}\n", PAGE_CELLS * line)
    });
    texts.collect()
}

/// The bytes that `write_page` writes, of a table that it takes. Those behind them stay.
fn written(value_bytes: u32, table: &[u8]) -> Vec<u8> {
    let positions = (table.len() / value_bytes as usize) as u32;
    let length = page_len(positions, value_bytes).unwrap();
    let mut output = vec![BEHIND; length + 5];
    assert_eq!(write_page(positions, value_bytes, table, &mut output), Ok(length));
    assert_eq!(output.split_off(length), [BEHIND; 5]);
    output
}

/// The entry of a position, by its line and column alone.
fn read(page: &[u8], position: usize, value_bytes: usize) -> Vec<u8> {
    let cell = 2 * value_bytes + 1;
    let begin = position / 8 * (6 + 8 * cell) + 6 + position % 8 * cell;
    let digits = std::str::from_utf8(&page[begin..][..2 * value_bytes]).unwrap();
    (0..value_bytes).map(|byte| u8::from_str_radix(&digits[2 * byte..][..2], 16).unwrap()).collect()
}

/// Tables of every width, with last lines of every length; of every byte; with first positions of one to five places; and
/// the largest.
fn tables() -> Vec<(u32, Vec<u8>)> {
    let mut generator = Generator::new(20);
    let mut tables = vec![(1, (0..=255).collect()), (16, (0..=255).rev().collect())];
    for value_bytes in 1..=MOST_VALUE_BYTES {
        for positions in (1..=17).chain([SENSORS, 1_000 + value_bytes]) {
            tables.push((value_bytes, generator.bytes((positions * value_bytes) as usize)));
        }
    }
    for (positions, value_bytes) in [(9_993, 2), (10_001, 1), (65_529, 1), (MOST_POSITIONS, 1), (MOST_POSITIONS, MOST_VALUE_BYTES)] {
        tables.push((value_bytes, generator.bytes((positions * value_bytes) as usize)));
    }
    tables
}

#[test]
fn ten_squares_letter_by_letter() {
    let page = written(1, &[0, 1, 2, 3, 4, 5, 6, 7, 8, 9]);
    let six_cells = " ".repeat(6 * 3);
    assert_eq!(page, format!("    0 00 01 02 03 04 05 06 07\n    8 08 09{six_cells}\n").into_bytes());
}

#[test]
fn pages_are_as_rust_formats_them() {
    for (value_bytes, table) in tables() {
        let page = written(value_bytes, &table);
        assert!(page == formatted(value_bytes as usize, &table).into_bytes(), "{} bytes of {value_bytes}", table.len());
    }
}

#[test]
fn every_entry_is_read_back_from_its_place() {
    for (value_bytes, table) in tables() {
        let (page, value_bytes) = (written(value_bytes, &table), value_bytes as usize);
        for (position, entry) in table.chunks(value_bytes).enumerate() {
            assert_eq!(read(&page, position, value_bytes), entry, "position {position} of {value_bytes} bytes");
        }
    }
}

#[test]
fn the_largest_page_has_the_most_bytes() {
    let table = vec![0xFF; (MOST_POSITIONS * MOST_VALUE_BYTES) as usize];
    assert_eq!(written(MOST_VALUE_BYTES, &table).len(), MOST_PAGE_BYTES);
}

#[cfg(feature = "alloc")]
mod text {
    use super::{formatted, tables, written};
    use nosingginger::{page, Refusal};

    /// The text has the page's bytes and no other, all of them ASCII, and is what Rust formats.
    #[test]
    fn the_text_is_the_bytes() {
        for (value_bytes, table) in tables() {
            let text = page((table.len() / value_bytes as usize) as u32, value_bytes, &table).unwrap();
            assert!(text.is_ascii());
            assert!(text.as_bytes() == written(value_bytes, &table), "{} bytes of {value_bytes}", table.len());
            assert!(text == formatted(value_bytes as usize, &table), "{} bytes of {value_bytes}", table.len());
        }
    }

    /// There is always room, so three refusals are left, in the order of `write_page`.
    #[test]
    fn no_text_where_a_page_is_refused() {
        for (positions, value_bytes, length, refusal) in [
            (0, 0, 1, Refusal::Positions),
            (65_537, 1, 65_537, Refusal::Positions),
            (u32::MAX, u32::MAX, 1, Refusal::Positions),
            (72, 0, 0, Refusal::ValueBytes),
            (72, 17, 72 * 17, Refusal::ValueBytes),
            (65_536, 1 << 16, 0, Refusal::ValueBytes),
            (72, 1, 71, Refusal::Lent),
            (72, 1, 73, Refusal::Lent),
            (65_536, 16, 0, Refusal::Lent),
        ] {
            assert_eq!(page(positions, value_bytes, &vec![0x5A; length]), Err(refusal), "{positions}, {value_bytes}, {length}");
        }
    }
}
