//! Write page: "A reader must be able to find each cell by its line and column alone."

use reference::board::Board;
use reference::draw::{Drawn, Generator};
use reference::join::join_keys;
use reference::page::{line_bytes, page_bytes, write_page};

/// N at the ends of lines and beside them, and where a line's first position gets another digit.
const POSITIONS: [u32; 14] = [
    1, 2, 7, 8, 9, 15, 16, 17, 72, 104, 105, 1_000, 1_001, 10_001,
];

/// The page of a table, on an output of three bytes more than it takes.
fn page(positions: u32, value_width: u32, table: &[u8]) -> Vec<u8> {
    let exact = page_bytes(positions as usize, value_width as usize);
    let mut output = vec![0xEE; exact + 3];
    assert_eq!(
        write_page(positions, value_width, table, &mut output),
        Ok(exact)
    );
    assert_eq!(output[exact..], [0xEE; 3]);
    output.truncate(exact);
    output
}

fn text(positions: u32, value_width: u32, table: &[u8]) -> String {
    String::from_utf8(page(positions, value_width, table)).unwrap()
}

/// What a reader finds of a position: from the line a div 8, the 2 × w characters at the column of the
/// cell a mod 8.
fn cell(page: &[u8], value_width: u32, position: usize) -> &str {
    let width = value_width as usize;
    let line = page.chunks(line_bytes(width)).nth(position / 8).unwrap();
    let column = 6 + position % 8 * (2 * width + 1);
    std::str::from_utf8(&line[column..column + 2 * width]).unwrap()
}

/// The bytes of hexadecimal digits, none of which is a small letter.
fn read_back(digits: &str) -> Vec<u8> {
    assert!(!digits.contains(|digit: char| digit.is_lowercase()));
    let places = (0..digits.len()).step_by(2);
    places
        .map(|place| u8::from_str_radix(&digits[place..place + 2], 16).unwrap())
        .collect()
}

/// "so 72 squares of one byte make nine lines of 30"
#[test]
fn nine_lines_of_thirty() {
    let mut table = [0; 72];
    table[43] = 0xA5;
    let page = text(72, 1, &table);
    assert_eq!(page.len(), 270);
    let lines: Vec<&str> = page.split_inclusive('\n').collect();
    assert_eq!(lines.len(), 9);
    assert!(lines.iter().all(|line| line.len() == 30));
    assert_eq!(
        page,
        "    0 00 00 00 00 00 00 00 00\n    \
         8 00 00 00 00 00 00 00 00\n   \
         16 00 00 00 00 00 00 00 00\n   \
         24 00 00 00 00 00 00 00 00\n   \
         32 00 00 00 00 00 00 00 00\n   \
         40 00 00 00 A5 00 00 00 00\n   \
         48 00 00 00 00 00 00 00 00\n   \
         56 00 00 00 00 00 00 00 00\n   \
         64 00 00 00 00 00 00 00 00\n"
    );
}

/// Pages written by hand: byte 0 of a value first, its high digit first; spaces for cells past N.
#[test]
fn small_pages() {
    let ten: Vec<u8> = (0..10).collect();
    let spaces = " ".repeat(18);
    assert_eq!(
        text(10, 1, &ten),
        format!("    0 00 01 02 03 04 05 06 07\n    8 08 09{spaces}\n")
    );
    let spaces = " ".repeat(7 * 5);
    assert_eq!(text(1, 2, &[0x0F, 0xA9]), format!("    0 0FA9{spaces}\n"));
    let spaces = " ".repeat(6 * 7);
    assert_eq!(
        text(2, 3, &[0xDE, 0xAD, 0x01, 0xBE, 0xEF, 0x20]),
        format!("    0 DEAD01 BEEF20{spaces}\n")
    );
    let sixteen: Vec<u8> = (0xF0..=0xFF).collect();
    let spaces = " ".repeat(7 * 33);
    assert_eq!(
        text(1, 16, &sixteen),
        format!("    0 F0F1F2F3F4F5F6F7F8F9FAFBFCFDFEFF{spaces}\n")
    );
}

/// Every line has its length and ends in the page's only line feeds; its five places have the first
/// position, with nothing but spaces before it; a space is before every cell.
#[test]
fn every_line_is_equally_long() {
    let mut generator = Generator::new(10_000);
    for value_width in 1..=16 {
        let width = value_width as usize;
        for positions in POSITIONS {
            let table = generator.bytes(positions as usize * width);
            let page = text(positions, value_width, &table);
            let lines: Vec<&str> = page.split_inclusive('\n').collect();
            assert_eq!(lines.len(), (positions as usize).div_ceil(8));
            for (place, line) in lines.into_iter().enumerate() {
                assert_eq!(line.len(), 6 + 8 * (2 * width + 1));
                let (first, cells) = line.split_at(5);
                assert_eq!(
                    first,
                    format!(
                        "{}{}",
                        " ".repeat(5 - (8 * place).to_string().len()),
                        8 * place
                    )
                );
                assert!(cells.ends_with('\n'));
                for cell in 0..8 {
                    assert_eq!(&cells[cell * (2 * width + 1)..][..1], " ");
                }
            }
        }
    }
}

/// Every cell is found by its line and column and read back as its entry; cells past N are spaces.
#[test]
fn every_cell_is_found_at_its_place() {
    let mut generator = Generator::new(11_000);
    for value_width in 1..=16 {
        let width = value_width as usize;
        for positions in POSITIONS {
            let table = generator.bytes(positions as usize * width);
            let page = page(positions, value_width, &table);
            for (position, entry) in table.chunks(width).enumerate() {
                assert_eq!(read_back(cell(&page, value_width, position)), entry);
            }
            for position in positions..positions.next_multiple_of(8) {
                let past = cell(&page, value_width, position as usize);
                assert_eq!(past, " ".repeat(2 * width));
            }
        }
    }
}

/// Every byte has its two digits, and a table with another byte has another page: at that byte's two
/// digits, and nowhere else.
#[test]
fn another_byte_is_seen_at_its_digits() {
    let mut generator = Generator::new(12_000);
    for (positions, value_width) in [(1, 1), (11, 1), (9, 3), (16, 5), (17, 16)] {
        let width = value_width as usize;
        let table = generator.bytes(positions as usize * width);
        let before = page(positions, value_width, &table);
        for place in 0..table.len() {
            let (position, byte) = (place / width, place % width);
            let digits =
                position / 8 * line_bytes(width) + 6 + position % 8 * (2 * width + 1) + 2 * byte;
            let mut other = table.clone();
            for value in 0..=255 {
                other[place] = value;
                let mut after = page(positions, value_width, &other);
                assert_eq!(
                    after[digits..digits + 2],
                    *format!("{value:02X}").as_bytes()
                );
                after[digits..digits + 2].copy_from_slice(&before[digits..digits + 2]);
                assert!(after == before);
            }
        }
    }
}

/// The largest page has 2,211,840 bytes, and its last line begins with 65528.
#[test]
fn the_largest_page() {
    let mut generator = Generator::new(13_000);
    let table = generator.bytes(1_048_576);
    let page = page(65_536, 16, &table);
    assert_eq!(page.len(), 2_211_840);
    let last = &page[page.len() - 270..];
    assert!(last.starts_with(b"65528 "));
    for (position, entry) in table.chunks(16).enumerate() {
        assert_eq!(read_back(cell(&page, 16, position)), entry);
    }
    let mut short = vec![0xEE; 2_211_839];
    assert_eq!(write_page(65_536, 16, &table, &mut short), Err(9));
    assert!(short.iter().all(|&byte| byte == 0xEE));
}

/// "Clubs pin up the opened table": the piece of a joined board stands at its place, and zeros at all
/// others.
#[test]
fn an_opened_board_shows_the_piece() {
    let mut generator = Generator::new(14_000);
    for (players, value_width) in (2..=6).zip([1, 16, 1, 5, 2]) {
        let board = Board::new(players, 72, 24, value_width).unwrap();
        let drawn = Drawn::new(board, &mut generator);
        let mut table = vec![0xEE; board.table_bytes()];
        assert_eq!(join_keys(&drawn.keys().concat(), &mut table), Ok(()));
        let page = page(72, value_width, &table);
        for position in 0..72 {
            let shown = read_back(cell(&page, value_width, position));
            if position == drawn.point as usize {
                assert_eq!(shown, drawn.value);
            } else {
                assert_eq!(shown, vec![0; value_width as usize]);
            }
        }
    }
}
