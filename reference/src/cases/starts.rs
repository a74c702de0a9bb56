//! Expand from a starting byte, as document 02 asks: in the row, at its end and beyond it. Calls
//! with one seed stand together, so that the file has it once.

use super::{expand_call, Maker};
use crate::chacha::MOST_ROW_BYTES;

/// Starts at the ends of blocks of 64 bytes and of the longest row, and beside them.
const STARTS: [usize; 13] = [
    0, 1, 63, 64, 65, 127, 128, 192, 255, 256, 4_080, 4_095, 4_096,
];

/// Lengths of nothing, of values, and of one to four blocks and beside them.
const LENGTHS: [usize; 13] = [0, 1, 5, 16, 63, 64, 65, 128, 192, 193, 255, 256, 257];

/// Starts that no length fits. Some are small in 16 or 32 bits, and some of their sums with a
/// length are small modulo 2^32 or 2^64.
const BEYOND: [u64; 11] = [
    4_097,
    8_192,
    1 << 16,
    1 << 31,
    (1 << 32) - 1,
    1 << 32,
    (1 << 32) + 1,
    1 << 63,
    u64::MAX - 4_095,
    u64::MAX - 4_094,
    u64::MAX,
];

/// Calls with all drawn, their lengths those of values.
const DRAWN: usize = 24;

pub fn add(maker: &mut Maker) {
    for start in STARTS {
        in_the_row(maker, start);
    }
    beyond(maker);
    wrong_seeds(maker);
    for _ in 0..DRAWN {
        let seed = maker.generator.bytes(32);
        let length = 1 + maker.generator.below(16);
        let start = maker.generator.below(MOST_ROW_BYTES - length + 1);
        maker.add(0, expand_call(&seed, start as u64, length));
    }
}

/// The lengths that fit, the largest of all that do, and 16 for one byte more.
fn in_the_row(maker: &mut Maker, start: usize) {
    let seed = maker.generator.bytes(32);
    let most = MOST_ROW_BYTES - start;
    let fitting = LENGTHS.into_iter().filter(|&length| length < most);
    for length in fitting.chain([most]) {
        maker.add(0, expand_call(&seed, start as u64, length));
    }
    maker.add(16, expand_call(&seed, start as u64, most + 1));
}

/// 16: a start beyond the row with any output, and an output longer than any row with any start.
fn beyond(maker: &mut Maker) {
    let seed = maker.generator.bytes(32);
    for start in BEYOND {
        for length in [0, 1, MOST_ROW_BYTES] {
            maker.add(16, expand_call(&seed, start, length));
        }
    }
    for start in [0, 1, 64, 4_096, u64::MAX - 4_095, u64::MAX] {
        for length in [MOST_ROW_BYTES + 1, 8_192, 65_536] {
            maker.add(16, expand_call(&seed, start, length));
        }
    }
}

/// 7 comes first: with a start and an output that fit, and with those that 16 would refuse.
fn wrong_seeds(maker: &mut Maker) {
    for seed_bytes in [0, 31, 33, 64] {
        let seed = maker.generator.bytes(seed_bytes);
        for (start, length) in [(64, 16), (4_096, 1), (4_097, 0), (u64::MAX, 1)] {
            maker.add(7, expand_call(&seed, start, length));
        }
    }
}
