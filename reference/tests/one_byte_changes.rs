//! Every one-byte change of an accepted key: only the answers that document 01 allows.

use reference::board::Board;
use reference::draw::{Drawn, Generator};
use reference::join::join_keys;
use reference::key::{check_key, held_seed_place};

/// The runs of Check key's answers at one place: last value, answer.
fn runs(key: &[u8], place: usize) -> Vec<(u8, u32)> {
    let mut runs: Vec<(u8, u32)> = Vec::new();
    for value in 0..=255 {
        let mut changed = key.to_vec();
        changed[place] = value;
        let answer = check_key(&changed).err().unwrap_or(0);
        match runs.last_mut() {
            Some(run) if run.1 == answer => run.0 = value,
            _ => runs.push((value, answer)),
        }
    }
    runs
}

fn drawn(numbers: [u32; 4], start: u64) -> Drawn {
    let [players, positions, grid_width, value_width] = numbers;
    let board = Board::new(players, positions, grid_width, value_width).unwrap();
    Drawn::new(board, &mut Generator::new(start))
}

/// The key 02 00 06 04 01 ... of 79 bytes, worked out by hand.
#[test]
fn the_printed_boards_key() {
    let key = drawn([2, 6, 4, 1], 21).keys()[0].clone();
    assert_eq!(key[..5], [2, 0, 6, 4, 1]);
    // p: 3 to 6 have other lengths; from 128 on the player's zero is a second group.
    assert_eq!(
        runs(&key, 0),
        [(1, 1), (2, 0), (6, 12), (127, 1), (255, 10)]
    );
    // The player: from 128 on N is its second group, and the numbers after it are in range.
    assert_eq!(runs(&key, 1), [(1, 0), (255, 11)]);
    // N: 5 to 8 have two grid rows; from 128 on N is 512 or more, with μ 1.
    assert_eq!(
        runs(&key, 2),
        [(0, 2), (4, 12), (8, 0), (127, 12), (255, 5)]
    );
    // μ: no other has this length; from 128 on w is the first mark byte, 1 or 2.
    assert_eq!(runs(&key, 3), [(0, 3), (3, 12), (4, 0), (255, 12)]);
    // w: from 128 on it is 128 or more.
    assert_eq!(runs(&key, 4), [(0, 4), (1, 0), (16, 12), (255, 4)]);
    for marks in [5, 38] {
        assert_eq!(runs(&key, marks), [(0, 13), (2, 0), (255, 13)]);
    }
    for place in (6..38).chain(39..79) {
        assert_eq!(runs(&key, place), [(255, 0)]);
    }
}

/// On every p: below the header a change of marks is accepted when J/2 ones and no spare bit
/// are left, and seeds and words may be any bytes.
#[test]
fn below_the_header() {
    for players in 2..=6 {
        let drawn = drawn([players, 3, 2, 1], 30 + u64::from(players));
        let columns = 1usize << (players - 1);
        let mark_bytes = [1, 1, 1, 2, 4][players as usize - 2];
        let spare = if columns < 8 { 0xFFu8 << columns } else { 0 };
        for key in drawn.keys() {
            for (place, &own) in key.iter().enumerate().skip(5) {
                let body = place - 5;
                let row_bytes = mark_bytes + 16 * columns;
                let is_mark = body < 2 * row_bytes && body % row_bytes < mark_bytes;
                for value in 0..=255u8 {
                    let mut changed = key.clone();
                    changed[place] = value;
                    let answer = check_key(&changed).err().unwrap_or(0);
                    let right =
                        !is_mark || value.count_ones() == own.count_ones() && value & spare == 0;
                    assert_eq!(answer, if right { 0 } else { 13 });
                }
            }
        }
    }
}

/// In the header a change gives 1 to 5, 10, 11 or 12, and acceptance only where it says the
/// same length: another player, or an N with as many grid rows.
#[test]
fn in_the_header() {
    for players in 2..=6 {
        for numbers in [[players, 3, 2, 1], [players, 130, 128, 1]] {
            let drawn = drawn(numbers, 50 + u64::from(players));
            for key in drawn.keys() {
                let accepted = check_key(&key).unwrap();
                for place in 0..accepted.bytes().len() {
                    for value in 0..=255 {
                        let mut changed = key.clone();
                        changed[place] = value;
                        match check_key(&changed) {
                            Ok(header) => {
                                assert_eq!(header.players, accepted.players);
                                assert!(header.player < players);
                                assert_eq!(header.grid_width, accepted.grid_width);
                                assert_eq!(header.value_width, accepted.value_width);
                                let rows = header.positions.div_ceil(header.grid_width);
                                assert_eq!(rows, numbers[1].div_ceil(numbers[2]));
                                assert_eq!(changed[..header.bytes().len()], header.bytes());
                            }
                            Err(number) => assert!(matches!(number, 1..=5 | 10..=12)),
                        }
                    }
                }
            }
        }
    }
}

/// A change in one of p keys: Join keys refuses a changed header, and joins anything below it
/// that Check key accepts.
#[test]
fn among_joined_keys() {
    let drawn = drawn([3, 4, 3, 1], 70);
    let keys = drawn.keys();
    let length = keys[0].len();
    let whole = keys.concat();
    for place in 0..whole.len() {
        for value in 0..=255 {
            if value == whole[place] {
                continue;
            }
            let mut changed = whole.clone();
            changed[place] = value;
            let mut output = [0xEE; 4];
            let answer = join_keys(&changed, &mut output);
            let (key, within) = (place / length, place % length);
            let alone = check_key(&changed[key * length..][..length]);
            if within >= 5 {
                assert_eq!(answer.err(), alone.err());
            } else if key == 0 && answer == Err(15) {
                // Another N with the same length differs from the second key's; another
                // player is not at its place.
                assert!(matches!(within, 1 | 2));
            } else if key == 0 {
                assert!(matches!(answer, Err(1..=5 | 10..=12)));
            } else {
                assert!(matches!(answer, Err(1..=5 | 10 | 11 | 15)));
            }
            if answer.is_err() {
                assert_eq!(output, [0xEE; 4]);
            }
        }
    }
}

/// The stored output of the library's own trial program (crates/test_keys) is what this implementation answers for the same key.
#[test]
fn the_library_answers_the_same() {
    let mut key = [7u8; 79];
    key[..6].copy_from_slice(&[2, 0, 6, 4, 1, 2]);
    key[38] = 1;
    let mut expected = String::new();
    for place in 0..key.len() {
        let mut low = 0u32;
        let mut words = Vec::new();
        for (high, answer) in runs(&key, place) {
            let values = match u32::from(high) {
                high if high == low => format!("{low}"),
                high => format!("{low}-{high}"),
            };
            words.push(match answer {
                0 => format!("{values} accepted"),
                number => format!("{values} refused {number}"),
            });
            low = u32::from(high) + 1;
        }
        expected.push_str(&format!("{place}: {}\n", words.join(", ")));
    }
    for grid_row in 0..3 {
        for column in 0..3 {
            let place = held_seed_place(&key, grid_row, column).unwrap_or(0);
            expected.push_str(&format!("grid row {grid_row} column {column}: {place}\n"));
        }
    }
    let stored = concat!(env!("CARGO_MANIFEST_DIR"), "/../crates/test_keys/stdout");
    assert_eq!(std::fs::read_to_string(stored).unwrap(), expected);
}
