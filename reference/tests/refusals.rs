//! "The first number that fits is given, never another, and only when it fits. A refusal
//! returns its number and leaves all lent bytes unchanged. Output past the bytes named keeps
//! its bytes."

use reference::board::Board;
use reference::cards::draw_card;
use reference::chacha::expand;
use reference::deal::{deal, Dealing, Place, Refused};
use reference::draw::{Drawn, Generator};
use reference::join::{join_keys, join_shares};
use reference::key::{check_key, held_seed, key_length, Header};
use reference::open::{open_all, open_one};
use reference::page::write_page;
use reference::tally::{add, look_up, make, total, Tally};
use reference::width::choose_width;

const FILL: u8 = 0xC3;

/// Runs an operation on a lent output, and sees that it writes `written` bytes, or none when
/// it refuses.
fn on_output<Refusal>(
    lent: usize,
    written: usize,
    operation: impl Fn(&mut [u8]) -> Result<(), Refusal>,
) -> Result<Vec<u8>, Refusal> {
    let mut output = vec![FILL; lent];
    match operation(&mut output) {
        Ok(()) => {
            assert!(output[written..].iter().all(|&byte| byte == FILL));
            output.truncate(written);
            Ok(output)
        }
        Err(refusal) => {
            assert!(output.iter().all(|&byte| byte == FILL));
            Err(refusal)
        }
    }
}

/// Deal's refusals without a place.
fn placeless(number: u32) -> Result<Vec<u8>, Refused> {
    Err(Refused {
        number,
        place: None,
    })
}

/// Deal's refusals with one.
fn placed(number: u32, grid_row: usize, column: usize) -> Refused {
    Refused {
        number,
        place: Some(Place {
            grid_row: grid_row as u32,
            column: column as u32,
        }),
    }
}

fn drawn(numbers: [u32; 4], start: u64) -> Drawn {
    let [players, positions, grid_width, value_width] = numbers;
    let board = Board::new(players, positions, grid_width, value_width).unwrap();
    Drawn::new(board, &mut Generator::new(start))
}

#[test]
fn key_lengths() {
    assert_eq!(key_length(7, 0, 0, 0), Err(1));
    assert_eq!(key_length(1, 0, 257, 17), Err(1));
    assert_eq!(key_length(6, 0, 0, 0), Err(2));
    assert_eq!(key_length(6, 65_537, 0, 0), Err(2));
    assert_eq!(key_length(6, 65_536, 0, 0), Err(3));
    assert_eq!(key_length(6, 65_536, 257, 17), Err(3));
    assert_eq!(key_length(6, 65_536, 1, 0), Err(4));
    assert_eq!(key_length(6, 65_536, 1, 17), Err(4));
    assert_eq!(key_length(6, 65_536, 1, 16), Err(5));
    assert_eq!(key_length(2, 257, 1, 1), Err(5));
    assert!(key_length(2, 256, 1, 1).is_ok());
    assert!(key_length(2, 1, 256, 16).is_ok());
}

/// 1, then 2, then 4, whatever stands behind the first that fits, and each alone.
#[test]
fn widths() {
    let wrong_players = [0, 1, 7, 256 + 2, 65_536 + 6, 1 << 31, u32::MAX];
    let wrong_positions = [0, 65_537, 65_536 + 72, 1 << 31, u32::MAX];
    let wrong_value_widths = [0, 17, 256 + 1, 65_536 + 1, 1 << 31, u32::MAX];
    for players in wrong_players {
        for positions in [1, 65_536].into_iter().chain(wrong_positions) {
            for value_width in [1, 16].into_iter().chain(wrong_value_widths) {
                assert_eq!(choose_width(players, positions, value_width), Err(1));
            }
        }
    }
    for players in 2..=6 {
        for positions in wrong_positions {
            for value_width in [1, 16].into_iter().chain(wrong_value_widths) {
                assert_eq!(choose_width(players, positions, value_width), Err(2));
            }
        }
        for positions in [1, 65_536] {
            for value_width in wrong_value_widths {
                assert_eq!(choose_width(players, positions, value_width), Err(4));
            }
            for value_width in [1, 16] {
                assert!(choose_width(players, positions, value_width).is_ok());
            }
        }
    }
}

/// The start plus the length is at most 4,096, or it is not, also where the sum is small modulo
/// 2^32 or 2^64.
#[test]
fn expansion() {
    let expanded = |seed: usize, start, lent| {
        on_output(lent, lent, |output| expand(&vec![0; seed], start, output))
    };
    let fitting = [(0, 0), (0, 4_096), (64, 16), (4_095, 1), (4_096, 0)];
    let at_end = [(0, 4_097), (1, 4_096), (4_095, 2), (4_096, 1), (4_097, 0)];
    let far = [(1 << 32) - 1, 1 << 32, 1 << 63, u64::MAX - 4_095, u64::MAX];
    let far = far.map(|start| [0, 1, 4_096, 4_097].map(|lent| (start, lent)));
    let beyond = [&at_end[..], &far.concat()].concat();
    for (start, lent) in fitting {
        assert!(expanded(32, start, lent).is_ok());
    }
    for &(start, lent) in &beyond {
        assert_eq!(expanded(32, start, lent), Err(16));
    }
    // 7 comes first, whatever start and output are.
    for &(start, lent) in fitting.iter().chain(&beyond) {
        for seed in [0, 31, 33, 64] {
            assert_eq!(expanded(seed, start, lent), Err(7));
        }
    }
}

#[test]
fn shares() {
    let join = |players, width: u32, shares: &[u8], lent| {
        on_output(lent, width as usize, |output| {
            join_shares(players, width, shares, output)
        })
    };
    assert_eq!(join(7, 0, &[], 0), Err(1));
    assert_eq!(join(1, 257, &[], 0), Err(1));
    assert_eq!(join(2, 0, &[1], 0), Err(4));
    // The last but one has two shares of two bytes together, modulo 2^32.
    for width in [257, 512, 65_537, (1 << 31) + 1, u32::MAX] {
        assert_eq!(join(2, width, &[1, 2], 0), Err(4));
    }
    assert_eq!(join(2, 257, &[1; 514], 257), Err(4));
    assert_eq!(join(2, 2, &[1, 2, 3], 0), Err(7));
    assert_eq!(join(2, 2, &[1, 2, 3, 4, 5], 0), Err(7));
    assert_eq!(join(2, 2, &[1, 2, 3, 4], 1), Err(9));
    assert_eq!(join(2, 2, &[1, 2, 4, 8], 2), Ok(vec![5, 10]));
    assert_eq!(join(3, 1, &[1, 2, 4], 5), Ok(vec![7]));
    for (players, width) in [(2, 17), (6, 255), (6, 256)] {
        let exact = (players * width) as usize;
        let shares = vec![1; exact + 1];
        let output = width as usize;
        let odd = (players % 2) as u8;
        assert_eq!(join(players, width, &shares[..exact - 1], 0), Err(7));
        assert_eq!(join(players, width, &shares, output), Err(7));
        let joined = |lent| join(players, width, &shares[..exact], lent);
        assert_eq!(joined(output - 1), Err(9));
        assert_eq!(joined(output), Ok(vec![odd; output]));
    }
}

/// The bytes of a page of these numbers, whatever they are.
fn page_bytes(positions: u32, value_width: u32) -> usize {
    let line = 6 + 8 * (2 * value_width as usize + 1);
    line.saturating_mul(positions.div_ceil(8) as usize)
}

/// Write page of a table of so many bytes.
fn page(positions: u32, value_width: u32, table_bytes: usize, lent: usize) -> Result<Vec<u8>, u32> {
    let (table, exact) = (vec![0x5A; table_bytes], page_bytes(positions, value_width));
    on_output(lent, exact, |output| {
        let written = write_page(positions, value_width, &table, output)?;
        assert_eq!(written, exact);
        Ok(())
    })
}

/// 2, then 4, whatever stands behind the first that fits, and each alone.
#[test]
fn pages_of_wrong_numbers() {
    let behind = [(0, 0), (0, 300), (8, 0), (8, 300), (51, 65_536)];
    for positions in [0, 65_537, 65_544, 1 << 31, u32::MAX] {
        for value_width in [1, 16, 0, 17, 256, u32::MAX] {
            for (table_bytes, lent) in behind {
                assert_eq!(page(positions, value_width, table_bytes, lent), Err(2));
            }
        }
    }
    for positions in [1, 8, 9, 65_536] {
        for value_width in [0, 17, 18, 256, 257, 65_537, u32::MAX] {
            for (table_bytes, lent) in behind {
                assert_eq!(page(positions, value_width, table_bytes, lent), Err(4));
            }
        }
    }
    // A table of N × w bytes, and an output for the page or a byte short.
    for (number, positions, value_width) in [(2, 65_537, 1), (4, 3, 17), (4, 9, 0)] {
        let table_bytes = (positions * value_width) as usize;
        let exact = page_bytes(positions, value_width);
        for lent in [exact, exact - 1] {
            let answer = page(positions, value_width, table_bytes, lent);
            assert_eq!(answer, Err(number));
        }
    }
    assert_eq!(page(0, 1, 0, 0), Err(2));
    // A table of N × w bytes modulo 2^32.
    for (number, positions, value_width) in [
        (2, 1 << 31, 2),
        (2, (1 << 31) + 5, 2),
        (2, 0x5555_5556, 3),
        (4, 2, (1 << 31) + 1),
        (4, 8, (1 << 29) + 2),
        (4, 65_536, 65_536),
    ] {
        let table_bytes = u32::wrapping_mul(positions, value_width) as usize;
        assert_eq!(
            page(positions, value_width, table_bytes, 9_000),
            Err(number)
        );
    }
}

/// 7, then 9, and the largest N.
#[test]
fn pages_of_wrong_tables_and_outputs() {
    for (positions, value_width) in [(1, 1), (7, 16), (8, 1), (9, 3), (72, 1), (4_000, 16)] {
        let (exact, width) = ((positions * value_width) as usize, value_width as usize);
        let room = page_bytes(positions, value_width);
        for table_bytes in [exact - width, exact - 1, exact + 1, exact + width, 65_537] {
            for lent in [room, room + 4, room - 1, 0] {
                assert_eq!(page(positions, value_width, table_bytes, lent), Err(7));
            }
        }
        for lent in [0, exact, room - 1] {
            assert_eq!(page(positions, value_width, exact, lent), Err(9));
        }
        for lent in [room, room + 1, 2 * room] {
            assert!(page(positions, value_width, exact, lent).is_ok());
        }
    }
    // Modulo 2^16 none of these bytes are left.
    assert_eq!(page(65_536, 1, 0, 0), Err(7));
    assert_eq!(page(65_536, 16, 65_536, 0), Err(7));
    assert_eq!(page(65_536, 1, 65_536, 0), Err(9));
    assert_eq!(page(65_536, 1, 65_536, 8_192 * 30 - 1), Err(9));
    assert!(page(65_536, 1, 65_536, 8_192 * 30).is_ok());
}

/// Deal with all faults from each number on: the first is given.
#[test]
fn deal_gives_the_first_number() {
    let drawn = drawn([3, 7, 3, 2], 1);
    let right = drawn.dealing();
    let dealt = drawn.keys().concat();
    let run =
        |dealing: Dealing, lent| on_output(lent, dealt.len(), |output| deal(&dealing, output));
    assert_eq!(run(right, dealt.len()), Ok(dealt.clone()));
    assert_eq!(run(right, dealt.len() + 9), Ok(dealt.clone()));
    let mut dealing = right;
    assert_eq!(run(dealing, dealt.len() - 1), placeless(9));
    let wrong_arrays: Vec<u8> = drawn.arrays.iter().map(|column| column ^ 1).collect();
    dealing.arrays = &wrong_arrays;
    assert_eq!(run(dealing, 0).unwrap_err(), placed(19, 0, 0));
    let twice_arrays = [&drawn.arrays[..3], &drawn.arrays[..9]].concat();
    dealing.arrays = &twice_arrays;
    assert_eq!(run(dealing, 0).unwrap_err(), placed(20, 0, 3));
    let no_player_arrays = [0xFF; 12];
    dealing.arrays = &no_player_arrays;
    assert_eq!(run(dealing, 0).unwrap_err(), placed(18, 0, 0));
    for shorter in 0..4 {
        let mut cut = dealing;
        match shorter {
            0 => cut.value = &drawn.value[1..],
            1 => cut.arrays = &wrong_arrays[1..],
            2 => cut.seeds = &drawn.seeds[1..],
            _ => cut.words = &drawn.words[1..],
        }
        assert_eq!(run(cut, 0), placeless(7));
    }
    dealing.seeds = &[];
    assert_eq!(run(dealing, 0), placeless(7));
    dealing.point = 7;
    assert_eq!(run(dealing, 0), placeless(6));
    dealing.point = u32::MAX;
    assert_eq!(run(dealing, 0), placeless(6));
    dealing.positions = 65_536;
    dealing.grid_width = 1;
    assert_eq!(run(dealing, 0), placeless(5));
    dealing.value_width = 0;
    assert_eq!(run(dealing, 0), placeless(4));
    dealing.grid_width = 0;
    assert_eq!(run(dealing, 0), placeless(3));
    dealing.positions = 0;
    assert_eq!(run(dealing, 0), placeless(2));
    dealing.players = 7;
    assert_eq!(run(dealing, 0), placeless(1));
}

/// Every one-byte change of the arrays is refused at its place, or where the column that it makes
/// stood anyhow, if that is later; and so is a point in another grid row, where the parity is wrong
/// in its own and in the one that it left.
#[test]
fn every_changed_array_is_refused() {
    for players in 2..=6 {
        let drawn = drawn([players, 5, 2, 1], u64::from(players));
        let columns = drawn.board.columns();
        let piece_row = drawn.point as usize / 2;
        let dealt = drawn.keys().concat().len();
        for changed in 0..drawn.arrays.len() {
            let (row, column) = (changed / columns, changed % columns);
            let array = &drawn.arrays[row * columns..][..columns];
            for bits in 0..=255u8 {
                let mut arrays = drawn.arrays.clone();
                arrays[changed] = bits;
                let dealing = Dealing {
                    arrays: &arrays,
                    ..drawn.dealing()
                };
                let answer = on_output(dealt, dealt, |output| deal(&dealing, output));
                // A column of the right bits and parity stood in the array already.
                let expected = match array.iter().position(|&own| own == bits) {
                    Some(own) if own == column => None,
                    Some(own) => Some(placed(20, row, own.max(column))),
                    None if bits >= 1 << players => Some(placed(18, row, column)),
                    None => Some(placed(19, row, column)),
                };
                assert_eq!(answer.err(), expected);
            }
        }
        for point in 0..5 {
            let dealing = Dealing {
                point,
                ..drawn.dealing()
            };
            let answer = on_output(dealt, dealt, |output| deal(&dealing, output));
            let row = point as usize / 2;
            let same_row = row == piece_row;
            let expected = (!same_row).then(|| placed(19, row.min(piece_row), 0));
            assert_eq!(answer.err(), expected);
        }
    }
}

/// Check key, Open one, Open all, Draw card and Held seed on a key with all faults from each number
/// on.
#[test]
fn a_key_gives_its_first_number() {
    let drawn = drawn([3, 7, 3, 1], 2);
    let key = drawn.keys()[1].clone();
    let header = Header {
        players: 3,
        player: 1,
        positions: 7,
        grid_width: 3,
        value_width: 1,
    };
    assert_eq!(check_key(&key), Ok(header));
    let refused = |key: &[u8], number| {
        assert_eq!(check_key(key), Err(number));
        for lent in [0, 7] {
            for position in [0, 7] {
                let answer = on_output(lent, 0, |output| open_one(key, position, output));
                assert_eq!(answer, Err(number));
            }
            let answer = on_output(lent, 0, |output| open_all(key, output));
            assert_eq!(answer, Err(number));
            for (deck, card_bytes) in [(0, 0), (7, 1), (7, u32::MAX), (49, 7)] {
                let deck = vec![0xFF; deck];
                let answer = on_output(lent, 0, |output| draw_card(key, &deck, card_bytes, output));
                assert_eq!(answer, Err(number));
            }
        }
        for column in 0..4 {
            assert!(held_seed(key, 0, column).is_empty());
        }
    };
    let mut wrong = key.clone();
    wrong[5] = 0x7F;
    refused(&wrong, 13);
    wrong.pop();
    refused(&wrong, 12);
    wrong[1] = 3;
    refused(&wrong, 11);
    let body = wrong[5..].to_vec();
    let with = |numbers: &[u8]| [numbers, &body].concat();
    refused(&with(&[3, 3, 0x80, 0x80, 0x04, 1, 1]), 5);
    refused(&with(&[3, 3, 0x80, 0x80, 0x04, 1, 0]), 4);
    refused(&with(&[3, 3, 0x80, 0x80, 0x04, 0, 0]), 3);
    refused(&with(&[3, 3, 0, 0, 0]), 2);
    refused(&with(&[7, 3, 0, 0, 0]), 1);
    refused(&[7, 3, 0, 0], 10);
    refused(&[7, 3, 0, 0, 0x80], 10);
    refused(&with(&[7, 3, 0, 0, 0x80, 0x00]), 10);
    refused(&with(&[7, 3, 0, 0, 0x80, 0x80, 0x80, 0x01]), 10);
    refused(&[], 10);
    // The longest numbers that three groups hold.
    refused(&with(&[0xFF, 0xFF, 0x7F, 0, 1, 1, 1]), 1);
    refused(&with(&[3, 0, 0xFF, 0xFF, 0x7F, 1, 1]), 2);
}

#[test]
fn an_accepted_key_refuses_positions_then_outputs() {
    let drawn = drawn([4, 10, 3, 5], 4);
    let key = &drawn.keys()[2];
    let one = |position, lent| on_output(lent, 5, |output| open_one(key, position, output));
    assert_eq!(one(10, 0), Err(14));
    assert_eq!(one(10, 5), Err(14));
    assert_eq!(one(u32::MAX, 5), Err(14));
    assert_eq!(one(9, 4), Err(9));
    assert!(one(9, 5).is_ok());
    assert!(one(9, 8).is_ok());
    let all = |lent| on_output(lent, 50, |output| open_all(key, output));
    assert_eq!(all(49), Err(9));
    assert_eq!(all(0), Err(9));
    assert!(all(50).is_ok());
    assert!(all(60).is_ok());
}

/// 21, then 22, then 9, whatever stands behind the first that fits.
#[test]
fn an_accepted_key_refuses_its_width_then_decks_then_outputs() {
    for players in 2..=6 {
        let narrow = drawn([players, 7, 3, 1], 60 + u64::from(players)).keys();
        let deck = vec![0xA7; 7 * 300];
        let draw = |deck_bytes: usize, card_bytes: u32, lent| {
            on_output(lent, card_bytes as usize, |output| {
                draw_card(&narrow[1], &deck[..deck_bytes], card_bytes, output)
            })
        };
        for card_bytes in [1, 2, 255, 256] {
            let card = card_bytes as usize;
            assert!(draw(7 * card, card_bytes, card).is_ok());
            assert!(draw(7 * card, card_bytes, card + 4).is_ok());
            assert_eq!(draw(7 * card, card_bytes, card - 1), Err(9));
            assert_eq!(draw(7 * card, card_bytes, 0), Err(9));
            for deck_bytes in [0, 6 * card, 7 * card - 1, 7 * card + 1, 8 * card] {
                assert_eq!(draw(deck_bytes, card_bytes, card), Err(22));
                assert_eq!(draw(deck_bytes, card_bytes, 0), Err(22));
            }
        }
        // L out of range: with a deck of N × L bytes, and with one of as many modulo 2^32.
        let wrapping = u32::MAX / 7 + 1;
        let wrapped = wrapping.wrapping_mul(7) as usize;
        for (card_bytes, deck_bytes) in [(0, 0), (257, 7 * 257), (wrapping, wrapped)] {
            assert_eq!(draw(deck_bytes, card_bytes, 300), Err(22));
            assert_eq!(draw(deck_bytes, card_bytes, 0), Err(22));
        }
        for value_width in 2..=16 {
            let wide = &drawn([players, 7, 3, value_width], 70).keys()[0];
            for (deck_bytes, card_bytes, lent) in [(14, 2, 2), (14, 2, 0), (13, 2, 2), (0, 0, 0)] {
                let deck = &deck[..deck_bytes];
                let answer = on_output(lent, 0, |output| draw_card(wide, deck, card_bytes, output));
                assert_eq!(answer, Err(21));
            }
        }
    }
}

/// The four operations of a tally on a table of so many bytes, on one entry's output and on none, for a
/// position below N and for one above, and for keys that are and are not its own: all refuse with the
/// number.
fn tally_refused(tally: Tally, table_bytes: usize, number: u32) {
    let table = vec![FILL; table_bytes];
    let answer = on_output(table_bytes, 0, |table| make(tally, table));
    assert_eq!(answer, Err(number));
    for lent in [0, 16] {
        for position in [0, u32::MAX] {
            let answer = on_output(lent, 0, |output| look_up(tally, &table, position, output));
            assert_eq!(answer, Err(number));
        }
        let answer = on_output(lent, 0, |output| total(tally, &table, output));
        assert_eq!(answer, Err(number));
    }
    let own = &drawn([3, 7, 3, 2], 80).keys()[1];
    let other = &drawn([2, 6, 4, 1], 81).keys()[0];
    for key in [&own[..], other, &own[1..], &own[..9], &[]] {
        let answer = on_output(table_bytes, 0, |table| add(tally, key, table));
        assert_eq!(answer, Err(number));
    }
}

/// 1, 2, 4, 11, 9 in all four operations of a tally, whatever stands behind the first that fits.
#[test]
fn a_tally_gives_its_first_number() {
    let right = Tally {
        players: 3,
        player: 1,
        positions: 7,
        value_width: 2,
    };
    let wrong_players = [0, 1, 7, 256 + 3, 65_536 + 3, (1 << 31) + 3, u32::MAX];
    let wrong_positions = [0, 65_537, 65_536 + 7, 1 << 31, (1 << 31) + 7, u32::MAX];
    let wrong_widths = [0, 17, 256 + 2, 65_536 + 2, (1 << 31) + 2, u32::MAX];
    let wrong_player = [3, 4, 256 + 1, 65_536 + 1, (1 << 31) + 1, u32::MAX];
    let refused = |tally: Tally, number| {
        for table_bytes in [0, 13, 14, 300] {
            tally_refused(tally, table_bytes, number);
        }
    };
    for player in [1].into_iter().chain(wrong_player) {
        for value_width in [2].into_iter().chain(wrong_widths) {
            let own = Tally {
                player,
                value_width,
                ..right
            };
            refused(Tally { players: 7, ..own }, 1);
            refused(Tally { players: 1, ..own }, 1);
            let positions = 0;
            refused(Tally { positions, ..own }, 2);
            let positions = 65_537;
            refused(Tally { positions, ..own }, 2);
            match (value_width, player) {
                (2, 1) => {}
                (2, _) => refused(own, 11),
                _ => refused(own, 4),
            }
        }
    }
    for players in wrong_players {
        refused(Tally { players, ..right }, 1);
    }
    for positions in wrong_positions {
        refused(Tally { positions, ..right }, 2);
    }
    for table_bytes in [0, 7, 12, 13] {
        tally_refused(right, table_bytes, 9);
    }
}

/// With a tally's numbers and table right: Check key's numbers, then 23; 14, then 9 of the output.
#[test]
fn a_right_tally_goes_on_with_its_key_or_output() {
    let key = drawn([3, 7, 3, 2], 82).keys().swap_remove(1);
    let right = Tally {
        players: 3,
        player: 1,
        positions: 7,
        value_width: 2,
    };
    let adding =
        |tally: Tally, key: &[u8]| on_output(300, 14, |table| add(tally, key, table)).err();
    assert_eq!(adding(right, &key), None);
    let others = [
        Tally {
            players: 2,
            ..right
        },
        Tally {
            players: 6,
            ..right
        },
        Tally { player: 0, ..right },
        Tally { player: 2, ..right },
        Tally {
            positions: 6,
            ..right
        },
        Tally {
            positions: 256,
            value_width: 1,
            ..right
        },
        Tally {
            value_width: 1,
            ..right
        },
        Tally {
            value_width: 16,
            ..right
        },
        Tally {
            positions: 14,
            value_width: 1,
            ..right
        },
    ];
    for tally in others {
        assert_eq!(adding(tally, &key), Some(23));
    }
    // Whatever the tally, a key that Check key refuses has its number.
    let mut wrong_marks = key.clone();
    wrong_marks[5] ^= 1;
    let mut no_player = key.clone();
    no_player[1] = 3;
    let with_header = |numbers: &[u8]| [numbers, &key[5..]].concat();
    for (number, wrong) in [
        (13, wrong_marks),
        (12, key[..key.len() - 1].to_vec()),
        (12, [&key[..], &[0]].concat()),
        (11, no_player),
        (5, with_header(&[3, 1, 0x81, 0x02, 1, 2])),
        (4, with_header(&[3, 1, 7, 3, 0])),
        (3, with_header(&[3, 1, 7, 0, 2])),
        (2, with_header(&[3, 1, 0, 3, 2])),
        (1, with_header(&[7, 1, 7, 3, 2])),
        (10, key[..4].to_vec()),
        (10, Vec::new()),
    ] {
        assert_eq!(check_key(&wrong), Err(number));
        for tally in others.into_iter().chain([right]) {
            assert_eq!(adding(tally, &wrong), Some(number));
        }
    }
    let table = [0x3C; 20];
    let looking_up =
        |position, lent| on_output(lent, 2, |output| look_up(right, &table, position, output));
    for position in [7, 8, 255, 256, 65_536, 1 << 31, u32::MAX] {
        for lent in [0, 1, 2, 5] {
            assert_eq!(looking_up(position, lent), Err(14));
        }
    }
    for position in 0..7 {
        for lent in [0, 1] {
            assert_eq!(looking_up(position, lent), Err(9));
        }
        for lent in [2, 3, 300] {
            assert_eq!(looking_up(position, lent), Ok(vec![0x3C; 2]));
        }
    }
    let totalling = |lent| on_output(lent, 2, |output| total(right, &table, output));
    assert_eq!(totalling(0), Err(9));
    assert_eq!(totalling(1), Err(9));
    assert_eq!(totalling(2), Ok(vec![0x3C; 2]));
    assert_eq!(totalling(9), Ok(vec![0x3C; 2]));
}

#[test]
fn held_seeds_are_parts_of_the_key_itself() {
    for players in 2..=6u32 {
        let drawn = drawn([players, 7, 3, 1], 40 + u64::from(players));
        let columns = drawn.board.columns();
        for (player, key) in drawn.keys().iter().enumerate() {
            for grid_row in 0..4 {
                for column in 0..columns + 2 {
                    let part = held_seed(key, grid_row as u32, column as u32);
                    let exists = grid_row < 3 && column < columns;
                    let place = grid_row * columns + column;
                    if !exists || drawn.arrays[place] >> player & 1 == 0 {
                        assert!(part.is_empty());
                        continue;
                    }
                    assert_eq!(part, &drawn.seeds[32 * place..][..32]);
                    assert!(key.as_ptr_range().contains(&part.as_ptr()));
                }
            }
            assert!(held_seed(key, u32::MAX, 0).is_empty());
            assert!(held_seed(key, 0, u32::MAX).is_empty());
        }
    }
}

/// Join keys: a later key with all faults from each number on, behind a first key that is
/// right; then the first key's own.
#[test]
fn join_keys_gives_the_first_number() {
    let drawn = drawn([2, 6, 4, 1], 6);
    let keys = drawn.keys().concat();
    let join = |keys: &[u8], lent| on_output(lent, 6, |output| join_keys(keys, output));
    assert_eq!(join(&keys, 6), Ok(drawn.joined_table()));
    assert_eq!(join(&keys, 9), Ok(drawn.joined_table()));
    assert_eq!(join(&keys, 5), Err(9));
    let with_header = |numbers: &[u8]| {
        let mut changed = keys.clone();
        changed[84] = 0;
        changed[79..79 + numbers.len()].copy_from_slice(numbers);
        join(&changed, 0)
    };
    assert_eq!(with_header(&[2, 1, 6, 4, 1]), Err(13));
    // 15: each of p, N, μ, w and the player differs, the marks are wrong as well.
    assert_eq!(with_header(&[3, 1, 6, 4, 1]), Err(15));
    assert_eq!(with_header(&[2, 0, 6, 4, 1]), Err(15));
    assert_eq!(with_header(&[2, 1, 5, 4, 1]), Err(15));
    assert_eq!(with_header(&[2, 1, 6, 3, 1]), Err(15));
    assert_eq!(with_header(&[2, 1, 6, 4, 2]), Err(15));
    assert_eq!(with_header(&[2, 2, 5, 4, 1]), Err(11));
    assert_eq!(with_header(&[2, 2, 0x81, 0x02, 1, 1]), Err(5));
    assert_eq!(with_header(&[2, 2, 6, 4, 0]), Err(4));
    assert_eq!(with_header(&[2, 2, 6, 0, 0]), Err(3));
    assert_eq!(with_header(&[2, 2, 0, 0, 0]), Err(2));
    assert_eq!(with_header(&[7, 2, 0, 0, 0]), Err(1));
    assert_eq!(with_header(&[7, 2, 0, 0, 0x80, 0]), Err(10));
    // The first key's own numbers, with the second key all wrong.
    let with_first = |numbers: &[u8]| {
        let mut changed = keys.clone();
        changed[79..].fill(0xFF);
        changed[..numbers.len()].copy_from_slice(numbers);
        join(&changed, 0)
    };
    assert_eq!(with_first(&[2, 1, 6, 4, 1, 0x7F]), Err(15));
    assert_eq!(with_first(&[2, 0, 6, 4, 1, 0x7F]), Err(13));
    assert_eq!(with_first(&[2, 0, 6, 4, 1]), Err(10));
    assert_eq!(with_first(&[2, 0, 6, 3, 1]), Err(12));
    assert_eq!(with_first(&[3, 0, 6, 4, 1]), Err(12));
    assert_eq!(with_first(&[2, 2, 6, 3, 1]), Err(11));
    assert_eq!(with_first(&[2, 2, 0x81, 0x02, 1, 1]), Err(5));
    assert_eq!(with_first(&[2, 2, 6, 4, 17]), Err(4));
    assert_eq!(with_first(&[2, 2, 6, 0, 0]), Err(3));
    assert_eq!(with_first(&[2, 2, 0, 0, 0]), Err(2));
    assert_eq!(with_first(&[1, 2, 0, 0, 0]), Err(1));
    assert_eq!(with_first(&[1, 2, 0, 0, 0x80, 0]), Err(10));
}

/// Keys of the same length from different boards: N 1, μ 2, w 1 and N 1, μ 1, w 2.
#[test]
fn keys_of_equal_length_may_differ() {
    let one = drawn([2, 1, 2, 1], 8).keys();
    let other = drawn([2, 1, 1, 2], 8).keys();
    assert_eq!(one[0].len(), other[1].len());
    let answer = on_output(9, 0, |output| {
        join_keys(&[&one[0][..], &other[1]].concat(), output)
    });
    assert_eq!(answer, Err(15));
}
