//! Draw card, as document 02 asks: cards of many lengths from boards of many shapes, the answers of
//! all keys of a dealing joined, keys that nobody dealt, and 21, 22 and 9 in their order. Calls with
//! one key and deck stand together, so that the file has them once.

use super::damaged::key_faults;
use super::{board, bytes_call, card_call, Maker};
use crate::board::{Board, SEED_BYTES};
use crate::data::JOIN_SHARES;
use crate::deal::mark_bytes;
use crate::draw::Drawn;
use crate::key::header_of;
use std::collections::BTreeSet;

/// Lengths L of cards: at the ends of their range, at powers of two and beside them, and between.
const CARD_BYTES: [u32; 12] = [1, 2, 15, 16, 17, 31, 32, 33, 52, 64, 255, 256];

/// Short last grid rows have 1 to this many cards: code may go over two or four at a time.
const MOST_LAST_CARDS: u32 = 5;

/// Grid widths μ, with all p by turns, and wider ones with two players and three, whose keys are
/// shorter.
const WIDTHS: [u32; 9] = [1, 2, 3, 4, 5, 6, 7, 8, 9];
const WIDE: [u32; 3] = [64, 255, 256];

/// Large boards (p, N, μ, w), each with L: the widest for six players, and the most positions.
const LARGE: [((u32, u32, u32, u32), u32); 2] = [((6, 511, 256, 1), 3), ((2, 65_536, 256, 1), 1)];

/// Boards (p, N, μ, w) of the dealings whose answers are joined, each with L.
const JOINED: [((u32, u32, u32, u32), u32); 5] = [
    ((2, 4, 3, 1), 256),
    ((3, 7, 3, 1), 52),
    ((4, 5, 3, 1), 17),
    ((5, 6, 3, 1), 33),
    ((6, 4, 3, 1), 16),
];

/// The values that are hidden there: document 02's, an even one, the largest and zero. Five and six
/// players, whose keys are longer, have the first two.
const VALUES: [u8; 4] = [1, 0x5A, 255, 0];

/// L beside the wrong decks and lengths of each p, from 2 players on.
const DECK_CARD_BYTES: [u32; 5] = [256, 1, 16, 52, 255];

/// No longer output is lent where L is out of range.
const MOST_LENT: u32 = 65_536;

pub fn add(maker: &mut Maker) {
    lengths(maker);
    widths(maker);
    for (numbers, card_bytes) in LARGE {
        draw(maker, board(numbers), card_bytes);
    }
    for (numbers, card_bytes) in JOINED {
        let values = if numbers.0 < 5 { 4 } else { 2 };
        for &value in &VALUES[..values] {
            joined(maker, board(numbers), card_bytes as usize, value);
        }
    }
    undealt(maker);
    wrong_keys(maker);
    wide_values(maker);
    for (players, card_bytes) in (2..).zip(DECK_CARD_BYTES) {
        wrong_decks(maker, board((players, 3, 3, 1)), card_bytes);
    }
    wrong_lengths(maker);
}

/// A card from a drawn deck, with one player's key of a drawn dealing.
fn draw(maker: &mut Maker, board: Board, card_bytes: u32) {
    let drawn = Drawn::new(board, &mut maker.generator);
    let player = maker.generator.below(board.players);
    draw_with(maker, board, &drawn.keys()[player], card_bytes);
}

/// A card from a drawn deck with this key. Every other output is longer than it needs to be.
fn draw_with(maker: &mut Maker, board: Board, key: &[u8], card_bytes: u32) {
    let lent = card_bytes as usize + maker.cases.len() % 2 * 5;
    let deck = deck(maker, board, card_bytes);
    maker.add(0, card_call(key, &deck, card_bytes, lent));
}

/// A drawn deck.
fn deck(maker: &mut Maker, board: Board, card_bytes: u32) -> Vec<u8> {
    maker.generator.bytes(board.positions * card_bytes as usize)
}

/// Each L with each short last grid row behind a full one, and with each p.
fn lengths(maker: &mut Maker) {
    for (turn, card_bytes) in (0..).zip(CARD_BYTES) {
        for last in 1..=MOST_LAST_CARDS {
            let players = 2 + (turn + last) % 5;
            let width = MOST_LAST_CARDS + 1 + maker.generator.below(4) as u32;
            draw(maker, board((players, width + last, width, 1)), card_bytes);
        }
    }
}

/// Each μ with fewer positions than cells, as many, some in a short last grid row and two full ones.
fn widths(maker: &mut Maker) {
    let every = WIDTHS.map(|width| (width, 6));
    let fewer = WIDE.map(|width| (width, 3));
    for (turn, (width, most_players)) in (0..).zip(every.into_iter().chain(fewer)) {
        let mut boards = vec![width, 2 * width];
        if width > 1 {
            let last = 1 + maker.generator.below(width as usize - 1) as u32;
            boards.extend([width - 1, width + last]);
        }
        for (shape, positions) in (0..).zip(boards) {
            let players = 2 + (turn + shape) % (most_players - 1);
            draw(maker, board((players, positions, width, 1)), 3);
        }
    }
}

/// All keys of a dealing with one deck, and Join shares of their answers: the card at the point where
/// the value is odd, else zeros.
fn joined(maker: &mut Maker, board: Board, card_bytes: usize, value: u8) {
    let mut drawn = Drawn::new(board, &mut maker.generator);
    drawn.value = vec![value];
    let deck = deck(maker, board, card_bytes as u32);
    let mut answers = Vec::new();
    for key in drawn.keys() {
        let answer = maker.add(0, card_call(&key, &deck, card_bytes as u32, card_bytes));
        answers.extend(answer.bytes);
    }
    let numbers = [board.players as u32, card_bytes as u32];
    let answer = maker.add(0, bytes_call(JOIN_SHARES, &numbers, &answers, card_bytes));
    let card = &deck[drawn.point as usize * card_bytes..][..card_bytes];
    let zeros = vec![0; card_bytes];
    assert_eq!(answer.bytes, if value % 2 == 1 { card } else { &zeros });
}

/// Keys that nobody dealt: drawn ones, and those with one share at all positions.
fn undealt(maker: &mut Maker) {
    for players in 2..=6 {
        for (positions, width) in [(1, 1), (5, 3), (9, 16)] {
            let board = board((players, positions, width, 1));
            let player = maker.generator.below(board.players);
            let key = maker.generator.key(&board, player);
            let card_bytes = 1 + maker.generator.below(40) as u32;
            draw_with(maker, board, &key, card_bytes);
        }
    }
    // Two players hold a single seed in each grid row, with which no row cancels.
    for players in 3..=6 {
        for share in [0x00, 0x01, 0xFE, 0xFF] {
            let board = board((players, 6, 6, 1));
            let key = one_share_key(maker, board, share);
            draw_with(maker, board, &key, 20);
        }
    }
}

/// A key whose share is this byte at every position. Its J/2 seeds are equal, so their rows cancel,
/// and the words are zeros but for that of the first column that it marks.
pub fn one_share_key(maker: &mut Maker, board: Board, share: u8) -> Vec<u8> {
    let player = maker.generator.below(board.players);
    let array = maker.generator.array(board.players, 0);
    let seed = maker.generator.bytes(SEED_BYTES);
    let marked = array.iter().position(|column| column >> player & 1 == 1);
    let mut key = header_of(&board, player).bytes();
    for _ in 0..board.grid_rows() {
        key.extend(mark_bytes(player, &array));
        key.extend(seed.repeat(board.columns() / 2));
    }
    for column in 0..board.columns() {
        let byte = if Some(column) == marked { share } else { 0 };
        key.extend(vec![byte; board.row_bytes()]);
    }
    key
}

/// The numbers of Check key, each alone, and with 21, 22 and 9 as well, which come after; `damaged`
/// has them with 22 and 9.
fn wrong_keys(maker: &mut Maker) {
    let deck = maker.generator.bytes(3);
    for value_width in [1, 2] {
        let board = board((2, 3, 2, value_width));
        let drawn = Drawn::new(board, &mut maker.generator);
        for (refusal, key) in key_faults(board, &drawn.keys()[1], 1) {
            match (value_width, refusal) {
                (1, _) => maker.add(refusal, card_call(&key, &deck, 1, 1)),
                (_, 0) => maker.add(21, card_call(&key, &[], 257, 0)),
                _ => maker.add(refusal, card_call(&key, &[], 257, 0)),
            };
        }
    }
}

/// 21: alone, with a wrong L, with a wrong deck, with a short output, and with all of them.
fn wide_values(maker: &mut Maker) {
    for players in 2..=6 {
        for value_width in [2, 16] {
            let board = board((players, 1, 1, value_width));
            let drawn = Drawn::new(board, &mut maker.generator);
            let key = &drawn.keys()[maker.generator.below(board.players)];
            let deck = deck(maker, board, 3);
            for (card_bytes, lent) in [(3, 3), (0, 3), (257, 257), (3, 2), (257, 0)] {
                maker.add(21, card_call(key, &deck, card_bytes, lent));
            }
            for (card_bytes, lent) in [(3, 3), (3, 2), (u32::MAX, 0)] {
                maker.add(21, card_call(key, &deck[1..], card_bytes, lent));
            }
        }
    }
}

/// 9, then 22: a wrong L beside a right deck, and wrong decks beside a right L.
fn wrong_decks(maker: &mut Maker, board: Board, card_bytes: u32) {
    let drawn = Drawn::new(board, &mut maker.generator);
    let key = &drawn.keys()[maker.generator.below(board.players)];
    let card = card_bytes as usize;
    let exact = board.positions * card;
    let cards = maker.generator.bytes(exact + card + 1);
    for (refusal, lent) in [(0, card), (9, card - 1), (9, 0)] {
        let call = card_call(key, &cards[..exact], card_bytes, lent);
        maker.add(refusal, call);
    }
    // The last two are L modulo 2^8 and 2^16.
    for wrong in BTreeSet::from([
        0,
        card_bytes - 1,
        card_bytes + 1,
        257,
        65_536,
        u32::MAX,
        256 + card_bytes,
        65_536 + card_bytes,
    ]) {
        refused_deck(maker, key, &cards[..exact], wrong);
    }
    // None, a card less, a byte less, a byte more, a card more.
    for length in BTreeSet::from([0, exact - card, exact - 1, exact + 1, exact + card]) {
        refused_deck(maker, key, &cards[..length], card_bytes);
    }
}

/// 22 with an output that takes the card, if any does that is lent, and with an empty one, which is 9
/// as well.
fn refused_deck(maker: &mut Maker, key: &[u8], deck: &[u8], card_bytes: u32) {
    for lent in [card_bytes.clamp(1, MOST_LENT) as usize, 0] {
        maker.add(22, card_call(key, deck, card_bytes, lent));
    }
}

/// 22 for an L out of range whose product with N is the deck's length, as it is or modulo 2^32.
fn wrong_lengths(maker: &mut Maker) {
    for (numbers, deck_bytes, wrong) in [
        ((2, 1, 1, 1), 257, &[257][..]),
        ((3, 2, 3, 1), 600, &[300]),
        ((2, 65_536, 256, 1), 0, &[0, 65_536, 1 << 31]),
        ((2, 256, 256, 1), 256, &[(1 << 24) + 1]),
        ((4, 2, 2, 1), 10, &[(1 << 31) + 5]),
        ((5, 3, 2, 1), 2, &[0x5555_5556]),
    ] {
        let board = board(numbers);
        let drawn = Drawn::new(board, &mut maker.generator);
        let key = &drawn.keys()[maker.generator.below(board.players)];
        let deck = maker.generator.bytes(deck_bytes);
        for &card_bytes in wrong {
            let product = (board.positions as u32).wrapping_mul(card_bytes);
            assert_eq!(product, deck_bytes as u32);
            refused_deck(maker, key, &deck, card_bytes);
        }
    }
}
