//! Operations on numbers, seeds and shares: Key length, Choose width, Sensor position, Expand from
//! byte 0, Join shares.

use super::{bytes_call, expand_call, numbers_call, Maker};
use crate::data::{CHOOSE_WIDTH, JOIN_SHARES, KEY_LENGTH, SENSOR_POSITION};

pub fn add(maker: &mut Maker) {
    key_lengths(maker);
    widths(maker);
    sensors(maker);
    expansions(maker);
    shares(maker);
}

fn key_lengths(maker: &mut Maker) {
    let cases = [
        (0, [2, 1, 1, 1]),
        (0, [4, 72, 24, 1]),
        (0, [6, 65_536, 256, 16]),
        (0, [6, 256, 1, 1]),
        (0, [2, 127, 127, 1]),
        (0, [3, 128, 128, 2]),
        (0, [5, 16_383, 64, 7]),
        (0, [5, 16_384, 64, 7]),
        (1, [0, 1, 1, 1]),
        (1, [1, 1, 1, 1]),
        (1, [7, 1, 1, 1]),
        (1, [u32::MAX, 1, 1, 1]),
        (1, [7, 0, 0, 0]),
        (2, [2, 0, 1, 1]),
        (2, [2, 65_537, 256, 1]),
        (2, [2, u32::MAX, 1, 1]),
        (2, [2, 0, 0, 0]),
        (3, [2, 1, 0, 1]),
        (3, [2, 65_536, 0, 0]),
        (3, [2, 1, 257, 1]),
        (3, [2, 1, u32::MAX, 17]),
        (4, [2, 1, 1, 0]),
        (4, [2, 1, 1, 17]),
        (4, [2, 65_536, 1, u32::MAX]),
        (5, [2, 257, 1, 1]),
        (5, [2, 65_536, 255, 1]),
        (5, [6, 65_536, 1, 16]),
    ];
    for (refusal, numbers) in cases {
        maker.add(refusal, numbers_call(KEY_LENGTH, &numbers));
    }
    for players in 2..=6 {
        for _ in 0..5 {
            let numbers = [
                players,
                1 + maker.generator.below(65_536) as u32,
                1 + maker.generator.below(256) as u32,
                1 + maker.generator.below(16) as u32,
            ];
            maker.add_any(numbers_call(KEY_LENGTH, &numbers));
        }
    }
}

/// The marked widths and three ties, in which the smaller of two is given; `widths` has more.
fn widths(maker: &mut Maker) {
    let cases = [
        (0, [2, 64, 1]),
        (0, [4, 72, 1]),
        (0, [6, 65_536, 1]),
        (0, [4, 892, 1]),
        (0, [2, 36, 11]),
        (0, [3, 400, 13]),
        (0, [4, 72, 5]),
        (0, [4, 72, 16]),
        (0, [3, 16, 1]),
        (0, [3, 17, 16]),
        (0, [2, 32_768, 1]),
        (0, [2, 32_769, 1]),
        (1, [1, 72, 1]),
        (1, [7, 0, 0]),
        (1, [u32::MAX, u32::MAX, u32::MAX]),
        (2, [2, 0, 1]),
        (2, [6, 65_537, 17]),
        (4, [3, 72, 17]),
    ];
    for (refusal, numbers) in cases {
        maker.add(refusal, numbers_call(CHOOSE_WIDTH, &numbers));
    }
    for players in 2..=6 {
        for (most, value_width) in [(100, 1), (3_000, 5), (65_536, 16)] {
            let positions = 1 + maker.generator.below(most) as u32;
            let numbers = [players, positions, value_width];
            maker.add(0, numbers_call(CHOOSE_WIDTH, &numbers));
        }
    }
}

fn sensors(maker: &mut Maker) {
    for sensor in 0..72 {
        maker.add(0, numbers_call(SENSOR_POSITION, &[sensor]));
    }
    for sensor in [72, 73, 256, u32::MAX] {
        maker.add(17, numbers_call(SENSOR_POSITION, &[sensor]));
    }
}

/// Whole rows; `starts` has those from another byte on.
fn expansions(maker: &mut Maker) {
    for length in [0, 1, 24, 63, 64, 65, 128, 200, 1_000, 4_095, 4_096] {
        let seed = maker.generator.bytes(32);
        maker.add(0, expand_call(&seed, 0, length));
    }
    maker.add(0, expand_call(&[0; 32], 0, 128));
    for seed_bytes in [0, 31, 33, 64] {
        let seed = maker.generator.bytes(seed_bytes);
        maker.add(7, expand_call(&seed, 0, 64));
        maker.add(7, expand_call(&seed, 0, 4_097));
    }
    for length in [4_097, 8_192] {
        let seed = maker.generator.bytes(32);
        maker.add(16, expand_call(&seed, 0, length));
    }
}

fn shares(maker: &mut Maker) {
    for players in 2..=6 {
        for width in [1, 5, 16] {
            let exact = (players * width) as usize;
            let shares = maker.generator.bytes(exact + 1);
            let output = width as usize;
            let mut add = |refusal, input: &[u8], lent| {
                maker.add(
                    refusal,
                    bytes_call(JOIN_SHARES, &[players, width], input, lent),
                );
            };
            add(0, &shares[..exact], output);
            add(0, &shares[..exact], output + 3);
            add(7, &shares[..exact - 1], output);
            add(7, &shares, 0);
            add(9, &shares[..exact], output - 1);
        }
        wide_shares(maker, players);
    }
    // Some widths are in the range modulo 2^8 or 2^16, and some lengths right modulo 2^32.
    let cases = [
        (1, 1, 1),
        (1, 7, 0),
        (1, 0, 257),
        (1, u32::MAX, u32::MAX),
        (4, 2, 0),
        (4, 2, 257),
        (4, 3, 512),
        (4, 2, 65_537),
        (4, 2, (1 << 31) + 1),
        (4, 6, u32::MAX),
    ];
    for (refusal, players, width) in cases {
        let shares = maker.generator.bytes(2);
        maker.add(
            refusal,
            bytes_call(JOIN_SHARES, &[players, width], &shares, 0),
        );
    }
}

/// Shares wider than a value, as those of a card are: 7 and 9 at the widest, and 4 above it with all
/// else right.
fn wide_shares(maker: &mut Maker, players: u32) {
    let shares = maker.generator.bytes(players as usize * 257);
    let mut add = |refusal, width: u32, bytes: &[u8], lent| {
        let call = bytes_call(JOIN_SHARES, &[players, width], bytes, lent);
        maker.add(refusal, call);
    };
    for width in [17, 255, 256] {
        let (exact, output) = ((players * width) as usize, width as usize);
        add(0, width, &shares[..exact], output);
        add(0, width, &shares[..exact], output + 3);
        add(9, width, &shares[..exact], output - 1);
    }
    let exact = players as usize * 256;
    // A byte less or a byte more, by turns of p.
    let wrong = exact - 1 + players as usize % 2 * 2;
    add(7, 256, &shares[..wrong], 256);
    add(7, 256, &shares[..wrong], 0);
    add(4, 257, &shares, 257);
}
