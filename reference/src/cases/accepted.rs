//! Accepted dealings and keys on every board, from dealing to joining.

use super::{bytes_call, card_call, deal_call, deal_numbers, numbers_call, program_input, Maker};
use crate::board::Board;
use crate::data::{
    CHECK_KEY, CHOOSE_WIDTH, DEALING_PROGRAM, HELD_SEED, JOINING_PROGRAM, JOIN_KEYS, JOIN_SHARES,
    KEY_LENGTH, OPEN_ALL, OPEN_ONE,
};
use crate::draw::Drawn;
use crate::key::{key_bytes, mark, Parts};
use crate::open::open_one;

/// Keys up to this length are short: each of their players opens.
const SHORT_KEY: usize = 700;
/// Joined tables, all zeros but for one entry, are no longer than this.
const SHORT_TABLE: usize = 20_000;
/// Cards of so many bytes are drawn where there are no more than so many; `cards` has larger decks.
const CARD_BYTES: usize = 4;
const SHORT_DECK: usize = 256;
/// Programs run where they read and write no more than this.
const SHORT_PROGRAM: usize = 12_000;

pub fn add(maker: &mut Maker, place: usize, board: Board) {
    // The point is drawn, or the last position, or the first, by turns.
    let drawn = match place % 3 {
        0 => Drawn::new(board, &mut maker.generator),
        1 => Drawn::at(board, board.positions - 1, &mut maker.generator),
        _ => Drawn::at(board, 0, &mut maker.generator),
    };
    let numbers = deal_numbers(&drawn);
    maker.add(0, numbers_call(KEY_LENGTH, &numbers[..4]));
    let [players, positions, _, value_width, _] = numbers;
    let numbers = [players, positions, value_width];
    maker.add(0, numbers_call(CHOOSE_WIDTH, &numbers));
    // Every other output is longer than it needs to be.
    let spare = place % 2 * 5;
    let dealt = board.players * key_bytes(&board);
    maker.add(0, deal_call(&drawn, dealt + spare));
    let keys = drawn.keys();
    let short = key_bytes(&board) <= SHORT_KEY;
    for (player, key) in keys.iter().enumerate() {
        if short || player == place % board.players {
            one_key(maker, &drawn, key, spare, short);
        }
    }
    joined(maker, &drawn, &keys, spare);
    programs(maker, &drawn, &keys);
}

/// One player's key: checked, opened, its seeds asked for, a card drawn with it.
fn one_key(maker: &mut Maker, drawn: &Drawn, key: &[u8], spare: usize, short: bool) {
    let board = drawn.board;
    maker.add(0, bytes_call(CHECK_KEY, &[], key, 0));
    let lent = board.table_bytes() + spare;
    maker.add(0, bytes_call(OPEN_ALL, &[], key, lent));
    let drawn_position = maker.generator.below(board.positions) as u32;
    let mut positions = vec![drawn.point, drawn_position];
    if short {
        positions.extend([0, board.positions as u32 - 1]);
    }
    for position in positions {
        let lent = board.value_width + spare;
        maker.add(0, bytes_call(OPEN_ONE, &[position], key, lent));
    }
    held_seeds(maker, board, key, short);
    if board.value_width > 1 {
        // 21, with 22 and 9 as well, which come after.
        maker.add(21, card_call(key, &[], 257, 0));
    } else if board.positions <= SHORT_DECK {
        let deck = maker.generator.bytes(board.positions * CARD_BYTES);
        let lent = CARD_BYTES + spare;
        maker.add(0, card_call(key, &deck, CARD_BYTES as u32, lent));
    }
}

/// A marked column and one that is not, in a drawn grid row; then places that do not exist.
fn held_seeds(maker: &mut Maker, board: Board, key: &[u8], short: bool) {
    let parts = Parts::check(key).expect("a dealt key");
    let grid_row = maker.generator.below(board.grid_rows());
    let marks = parts.from_grid_row(grid_row).marks();
    for held in [true, false] {
        let columns = (0..board.columns()).filter(|&column| mark(marks, column) == held);
        let columns: Vec<usize> = columns.collect();
        let column = columns[maker.generator.below(columns.len())];
        if held || short {
            let numbers = [grid_row as u32, column as u32];
            let answer = maker.add(0, bytes_call(HELD_SEED, &numbers, key, 0));
            assert_eq!(answer.bytes.len(), if held { 32 } else { 0 });
        }
    }
    if short {
        let (rows, columns) = (board.grid_rows() as u32, board.columns() as u32);
        for numbers in [[rows, 0], [0, columns], [u32::MAX, u32::MAX]] {
            let answer = maker.add(0, bytes_call(HELD_SEED, &numbers, key, 0));
            assert!(answer.bytes.is_empty());
        }
    }
}

/// All keys together.
fn joined(maker: &mut Maker, drawn: &Drawn, keys: &[Vec<u8>], spare: usize) {
    let board = drawn.board;
    let mut shares = Vec::new();
    for key in keys {
        let mut share = vec![0; board.value_width];
        open_one(key, drawn.point, &mut share).expect("a dealt key");
        shares.extend(share);
    }
    let numbers = [board.players as u32, board.value_width as u32];
    let lent = board.value_width + spare;
    let answer = maker.add(0, bytes_call(JOIN_SHARES, &numbers, &shares, lent));
    assert_eq!(answer.bytes, drawn.value);

    if board.table_bytes() > SHORT_TABLE {
        return;
    }
    let lent = board.table_bytes() + spare;
    let answer = maker.add(0, bytes_call(JOIN_KEYS, &[], &keys.concat(), lent));
    assert_eq!(answer.bytes, drawn.joined_table());
}

fn programs(maker: &mut Maker, drawn: &Drawn, keys: &[Vec<u8>]) {
    let dealt = keys.concat();
    if dealt.len() > SHORT_PROGRAM {
        return;
    }
    let input = program_input(&deal_numbers(drawn), drawn);
    let answer = maker.add(0, bytes_call(DEALING_PROGRAM, &[], &input, 0));
    assert_eq!(answer.bytes, dealt);
    if drawn.board.table_bytes() <= 3_001 {
        maker.add(0, bytes_call(JOINING_PROGRAM, &[], &dealt, 0));
    }
}
