//! Deal's check of arrays beside the second implementation: every array of two players, and every byte at every place of
//! six players' arrays, whose columns, 0 to 63, need every bit of the number that keeps those seen.

use nosingginger::{deal, Board, Dealing};
use reference::board::Board as Plain;
use reference::deal::first_fault;
use reference::draw::{Drawn, Generator};
use std::collections::BTreeMap;

/// A number, with grid row and column where it has a place.
type Answer = (u32, Option<(u32, u32)>);

/// Two grid rows, an even array and an odd one: one square of one byte in each, and the point in the second.
struct TwoRows {
    plain: Plain,
    drawn: Drawn,
    keys: Vec<u8>,
    met: BTreeMap<u32, usize>,
}

impl TwoRows {
    fn new(players: u32) -> TwoRows {
        let plain = Plain::new(players, 2, 1, 1).unwrap();
        let drawn = Drawn::at(plain, 1, &mut Generator::new(players.into()));
        let keys = vec![0; drawn.keys().concat().len()];
        TwoRows { plain, drawn, keys, met: BTreeMap::new() }
    }

    fn ours(&mut self, arrays: &[u8]) -> Answer {
        let Drawn { value, seeds, words, .. } = &self.drawn;
        let board = Board { players: self.plain.players as u32, positions: 2, width: 1, value_bytes: 1 };
        match deal(&Dealing { board, point: 1, value, arrays, seeds, words }, &mut self.keys) {
            Ok(()) => (0, None),
            Err(refusal) => (refusal.number(), refusal.bad_column()),
        }
    }

    /// Compares the answers to the arrays, and counts the number.
    fn compare(&mut self, arrays: &[u8]) {
        let theirs = match first_fault(&self.plain, 1, arrays) {
            None => (0, None),
            Some(refused) => (refused.number, refused.place.map(|place| (place.grid_row, place.column))),
        };
        assert_eq!(self.ours(arrays), theirs, "{arrays:?}");
        *self.met.entry(theirs.0).or_default() += 1;
    }

    fn met(&self) -> Vec<(u32, usize)> {
        self.met.iter().map(|(&number, &times)| (number, times)).collect()
    }
}

#[test]
fn every_array_of_two_players() {
    let mut rows = TwoRows::new(2);
    for [first, second] in (0..=255).flat_map(|first| (0..=255).map(move |second| [first, second])) {
        rows.compare(&[first, second, 1, 2]);
        rows.compare(&[0, 3, first, second]);
    }
    // Of either parity two columns fit, two are of the other one, and 252 have a bit at 2 or above.
    assert_eq!(rows.met(), [(0, 4), (18, 2 * (252 * 256 + 2 * 252)), (19, 2 * (2 * 256 + 2 * 2)), (20, 4)]);
}

#[test]
fn every_byte_at_every_place_of_six_players() {
    let mut rows = TwoRows::new(6);
    let good = rows.drawn.arrays.clone();
    for place in 0..good.len() {
        for byte in 0..=255 {
            let mut arrays = good.clone();
            arrays[place] = byte;
            rows.compare(&arrays);
        }
    }
    // At each of 64 places its own column, 192 bytes with a bit at 6 or above, 32 of the other parity, and 31 that stand in the array too.
    assert_eq!(rows.met(), [(0, 64), (18, 64 * 192), (19, 64 * 32), (20, 64 * 31)]);
}
