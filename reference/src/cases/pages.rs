//! Write page, as document 02 asks: every w with every count of cells past N, first positions of one
//! to five digits, every byte, outputs of many lengths, and 2, 4, 7 and 9 in their order. Calls with
//! one table stand together, so that the file has it once.

use super::{board, bytes_call, Maker};
use crate::board::MOST_VALUE_WIDTH;
use crate::data::{Call, WRITE_PAGE};
use crate::draw::Drawn;
use crate::open::open_all;
use crate::page::{line_bytes, page_bytes, LINE_CELLS};
use std::collections::BTreeSet;

/// Widths w that have all N of the first two lines and the third's first.
const WIDTHS: [u32; 4] = [1, 2, 5, 16];

/// N and w where the last line begins at 104 or 1,000, the first positions of three and four digits, or
/// a line earlier; N at 2^8 and beside it; a page of more than 2^16 bytes, with five digits.
const LONG: [(u32, u32); 9] = [
    (97, 1),
    (104, 3),
    (105, 16),
    (255, 1),
    (256, 2),
    (257, 1),
    (1_000, 2),
    (1_001, 1),
    (17_473, 1),
];

/// Boards (p, N, μ, w) whose joined table is written, and one player's own.
const BOARDS: [(u32, u32, u32, u32); 3] = [(4, 72, 24, 1), (2, 6, 4, 1), (3, 21, 8, 5)];

/// N and w of the tables and of the outputs that have a wrong length.
const SHAPES: [(u32, u32); 6] = [(1, 1), (8, 1), (9, 3), (24, 16), (10, 16), (72, 1)];

/// No longer output is lent where a number is out of range.
const MOST_LENT: usize = 65_536;

pub fn add(maker: &mut Maker) {
    // Document 02's nine lines of 30 bytes, and two lines with the positions as values.
    page(maker, 1, &(0..72).collect::<Vec<u8>>(), 0);
    page(maker, 1, &(0..10).collect::<Vec<u8>>(), 0);
    shapes(maker);
    for (positions, value_width) in LONG {
        long_page(maker, positions, value_width);
    }
    every_byte(maker);
    boards(maker);
    for (positions, value_width) in SHAPES {
        outputs(maker, positions, value_width);
        wrong_tables(maker, positions, value_width);
    }
    wrong_numbers(maker);
    right_modulo(maker);
}

/// A call of Write page.
fn page_call(positions: u32, value_width: u32, table: &[u8], lent: usize) -> Call {
    bytes_call(WRITE_PAGE, &[positions, value_width], table, lent)
}

/// The page of a table on an output with so many bytes more than it takes, and 9 on one with a byte
/// less.
fn page(maker: &mut Maker, value_width: u32, table: &[u8], spare: usize) {
    let positions = table.len() / value_width as usize;
    let exact = page_bytes(positions, value_width as usize);
    let call = |lent| page_call(positions as u32, value_width, table, lent);
    let answer = maker.add(0, call(exact + spare));
    assert_eq!(answer.results, [exact as u32, 0, 0, 0, 0]);
    maker.add(9, call(exact - 1));
}

/// The same of a drawn table.
fn drawn_page(maker: &mut Maker, positions: u32, value_width: u32, spare: usize) {
    let table = maker.generator.bytes((positions * value_width) as usize);
    page(maker, value_width, &table, spare);
}

/// Every w with every count of cells past N, and some with every N of two lines. By turns there are
/// one line and two, and outputs that are exact and longer.
fn shapes(maker: &mut Maker) {
    for value_width in 1..=MOST_VALUE_WIDTH {
        for past in 0..LINE_CELLS as u32 {
            let lines = 1 + (value_width / 2 + past / 2) % 2;
            let positions = lines * LINE_CELLS as u32 - past;
            let spare = (value_width + past) % 2 * 5;
            drawn_page(maker, positions, value_width, spare as usize);
        }
    }
    for value_width in WIDTHS {
        for positions in 1..=2 * LINE_CELLS as u32 + 1 {
            drawn_page(maker, positions, value_width, positions as usize % 2);
        }
    }
}

/// 9 also for an output that is as long as the page modulo 2^8 or 2^16.
fn long_page(maker: &mut Maker, positions: u32, value_width: u32) {
    let table = maker.generator.bytes((positions * value_width) as usize);
    page(maker, value_width, &table, 0);
    let exact = page_bytes(positions as usize, value_width as usize);
    for modulo in [1 << 8, 1 << 16] {
        if exact > modulo {
            let call = page_call(positions, value_width, &table, exact % modulo);
            maker.add(9, call);
        }
    }
}

/// Every byte at every place of an entry.
fn every_byte(maker: &mut Maker) {
    for value_width in [1, 16] {
        let bytes = (0..256).flat_map(|entry| (0..value_width).map(move |byte| entry + 17 * byte));
        let table: Vec<u8> = bytes.map(|byte| byte as u8).collect();
        page(maker, value_width, &table, 0);
    }
}

/// The opened board: the piece and zeros, and what one player sees.
fn boards(maker: &mut Maker) {
    for numbers in BOARDS {
        let board = board(numbers);
        let drawn = Drawn::new(board, &mut maker.generator);
        let key = &drawn.keys()[maker.generator.below(board.players)];
        let mut noise = vec![0; board.table_bytes()];
        open_all(key, &mut noise).expect("a dealt key");
        page(maker, numbers.3, &drawn.joined_table(), 0);
        page(maker, numbers.3, &noise, 0);
    }
}

/// Outputs that have room for more than the page, up to lines more, and 9 for those that have not
/// enough: none, one as long as the table, a line less than the page, a byte less.
fn outputs(maker: &mut Maker, positions: u32, value_width: u32) {
    let table = maker.generator.bytes((positions * value_width) as usize);
    let line = line_bytes(value_width as usize);
    let exact = page_bytes(positions as usize, value_width as usize);
    let call = |lent| page_call(positions, value_width, &table, lent);
    for lent in [exact, exact + 1, exact + line, exact + 1_000] {
        maker.add(0, call(lent));
    }
    for lent in BTreeSet::from([0, 1, table.len(), line - 1, exact - line, exact - 1]) {
        maker.add(9, call(lent));
    }
}

/// 7 for a table that is empty, an entry or a byte off, has entries of one byte or for all cells of
/// the last line, or is as long as the page; each also with 9, which comes after.
fn wrong_tables(maker: &mut Maker, positions: u32, value_width: u32) {
    let (count, width) = (positions as usize, value_width as usize);
    let (exact, room) = (count * width, page_bytes(count, width));
    let cells = count.next_multiple_of(LINE_CELLS);
    let mut lengths = BTreeSet::from([0, exact - width, exact - 1, exact + 1, exact + width]);
    lengths.extend([count, cells * width, room]);
    lengths.remove(&exact);
    for length in lengths {
        let table = maker.generator.bytes(length);
        for lent in [room, room - 1, 0] {
            maker.add(7, page_call(positions, value_width, &table, lent));
        }
    }
}

/// 2, also with 4, and 4 with the least N and the most.
fn wrong_numbers(maker: &mut Maker) {
    for positions in [0, 65_537, 65_544, 1 << 31, u32::MAX] {
        for value_width in [1, 16, 0, 17, u32::MAX] {
            wrong_number(maker, 2, positions, value_width);
        }
    }
    for positions in [1, 8, 65_536] {
        for value_width in [0, 17, 18, 256, u32::MAX] {
            wrong_number(maker, 4, positions, value_width);
        }
    }
}

/// Beside tables that are empty, of five bytes, and of N × w bytes where these are few.
fn wrong_number(maker: &mut Maker, number: u32, positions: u32, value_width: u32) {
    let mut lengths = BTreeSet::from([0, 5]);
    let exact = u64::from(positions) * u64::from(value_width);
    lengths.extend((exact <= 1_000).then_some(exact));
    for length in lengths {
        refused(maker, number, positions, value_width, length as usize);
    }
}

/// Tables that would be right if N, w or N × w were taken modulo 2^8, 2^16 or 2^32.
fn right_modulo(maker: &mut Maker) {
    for (number, positions, value_width, table) in [
        (2, 65_536 + 5, 3, 15),
        (2, 1 << 31, 2, 0),
        (2, (1 << 31) + 5, 2, 10),
        (2, 0x5555_5556, 3, 2),
        (2, (1 << 28) + 1, 16, 16),
        (2, 1 << 17, 1 << 15, 0),
        (4, 8, 256 + 1, 8),
        (4, 8, 65_536 + 2, 16),
        (4, 2, (1 << 31) + 1, 2),
        (4, 8, (1 << 29) + 2, 16),
        (4, 65_536, 65_536, 0),
        (7, 257, 1, 1),
        (7, 17, 16, 16),
        (7, 4_097, 16, 16),
        (7, 65_536, 1, 0),
        (7, 65_536, 16, 0),
    ] {
        refused(maker, number, positions, value_width, table);
    }
}

/// With an output that is long, and with none, which is 9 as well unless the page has no lines.
fn refused(maker: &mut Maker, number: u32, positions: u32, value_width: u32, table: usize) {
    let table = maker.generator.bytes(table);
    for lent in [MOST_LENT, 0] {
        maker.add(number, page_call(positions, value_width, &table, lent));
    }
}
