//! Choose width, as document 02 asks: the ends of N and w for every p, ties, widths of one group and
//! of two in the header, one grid row and many, and 1, 2 and 4 in their order.

use super::{numbers_call, Maker};
use crate::board::{FEWEST_PLAYERS, MOST_PLAYERS, MOST_POSITIONS, MOST_VALUE_WIDTH};
use crate::data::CHOOSE_WIDTH;

/// p, N and w.
const BOARDS: [[u32; 3]; 26] = [
    // One grid row of all positions is shorter than two, or it is not.
    [3, 33, 1],
    [3, 34, 1],
    [2, 2, 16],
    [2, 3, 16],
    [2, 4, 16],
    // A width of 1 has at most 256 grid rows, or it has not.
    [4, 256, 1],
    [4, 257, 1],
    [5, 256, 16],
    [5, 257, 16],
    // 127 has one group and 128 two. In the first board 127 ties with 135, in the second 120 with
    // 128; the third has 128, with which 112 ties for four players.
    [2, 2_019, 2],
    [2, 1_910, 2],
    [5, 892, 1],
    [4, 16_384, 16],
    // Ties of two, of four and of eight widths. The first is one for three players, and not for two.
    [3, 5_720, 5],
    [2, 5_720, 5],
    [2, 1_248, 11],
    [2, 33_228, 11],
    // Three players have another width than four.
    [3, 3_240, 9],
    [4, 3_240, 9],
    // The widest, and a narrower one for a position more.
    [3, 4_096, 1],
    [3, 4_097, 1],
    // Many grid rows: up to 255 of 255 cells, and 256 from N 65,281 on.
    [6, 32_768, 16],
    [5, 65_025, 16],
    [2, 65_280, 16],
    [3, 65_281, 16],
    [4, 65_535, 16],
];

/// Numbers outside their range: at its ends, in range modulo 2^8, 2^16 or 2^31, and the largest.
const WRONG_PLAYERS: [u32; 6] = [0, 7, 256 + 2, 65_536 + 6, (1 << 31) + 3, u32::MAX];
const WRONG_POSITIONS: [u32; 6] = [0, 65_537, 65_536 + 72, 1 << 31, (1 << 31) + 72, u32::MAX];
const WRONG_VALUE_WIDTHS: [u32; 7] = [
    0,
    17,
    256 + 1,
    65_536 + 1,
    1 << 31,
    (1 << 31) + 16,
    u32::MAX,
];

pub fn add(maker: &mut Maker) {
    for players in FEWEST_PLAYERS..=MOST_PLAYERS {
        for positions in [1, MOST_POSITIONS] {
            for value_width in [1, MOST_VALUE_WIDTH] {
                width(maker, 0, [players, positions, value_width]);
            }
        }
    }
    for numbers in BOARDS {
        width(maker, 0, numbers);
    }
    wrong_numbers(maker);
}

fn width(maker: &mut Maker, refusal: u32, numbers: [u32; 3]) {
    maker.add(refusal, numbers_call(CHOOSE_WIDTH, &numbers));
}

/// 1, 2 and 4 alone; then each with all choices of those that come after, below the ranges and above
/// them.
fn wrong_numbers(maker: &mut Maker) {
    for players in WRONG_PLAYERS {
        width(maker, 1, [players, 72, 1]);
    }
    for positions in WRONG_POSITIONS {
        width(maker, 2, [4, positions, 1]);
    }
    for value_width in WRONG_VALUE_WIDTHS {
        width(maker, 4, [4, 72, value_width]);
    }
    for [players, positions, value_width] in [[1, 0, 0], [7, 65_537, 17]] {
        width(maker, 1, [players, positions, 16]);
        width(maker, 1, [players, 72, value_width]);
        width(maker, 1, [players, positions, value_width]);
        width(maker, 2, [6, positions, value_width]);
    }
}
