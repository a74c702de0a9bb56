//! The printed deal of document 01 from end to end, and the programs' refusals and limits.

use reference::board::Board;
use reference::draw::{Drawn, Generator};
use reference::key::key_length;
use reference::numbers::groups;
use reference::programs::{dealing_program, joining_program};

const PRINTED: &str = "\
players 2 squares 6 width 1
0 00
1 00
2 00
3 00
4 A5
5 00
";

/// The printed deal with some seed and word bytes.
fn printed_deal(seeds: &[u8; 128], words: &[u8; 4]) -> Vec<u8> {
    let mut input = vec![0x02, 0x06, 0x04, 0x01, 0x04, 0xA5, 0x00, 0x03, 0x01, 0x02];
    input.extend_from_slice(seeds);
    input.extend_from_slice(words);
    input
}

/// Any dealing as the dealing program's input.
fn input_of(drawn: &Drawn) -> Vec<u8> {
    let dealing = drawn.dealing();
    let mut input = Vec::new();
    for number in [
        dealing.players,
        dealing.positions,
        dealing.grid_width,
        dealing.value_width,
        dealing.point,
    ] {
        input.extend(groups(number));
    }
    for lent in [dealing.value, dealing.arrays, dealing.seeds, dealing.words] {
        input.extend_from_slice(lent);
    }
    input
}

fn drawn(numbers: [u32; 4], start: u64) -> Drawn {
    let [players, positions, grid_width, value_width] = numbers;
    let board = Board::new(players, positions, grid_width, value_width).unwrap();
    Drawn::new(board, &mut Generator::new(start))
}

#[test]
fn the_printed_deal() {
    let mut generator = Generator::new(1);
    for round in 0..50 {
        let (mut seeds, mut words) = ([0; 128], [0; 4]);
        if round > 0 {
            seeds.copy_from_slice(&generator.bytes(128));
            words.copy_from_slice(&generator.bytes(4));
        }
        let input = printed_deal(&seeds, &words);
        assert_eq!(input.len(), 142);
        let keys = dealing_program(&input);
        assert_eq!(keys.len(), 158);
        assert_eq!(joining_program(&keys), PRINTED.as_bytes());
    }
}

/// The printed deal's keys, worked out by hand from the paper, with the rows from OpenSSL's key
/// stream: the zero seed's row begins 76 B8 E0 AD, the counting seed's 39 FD 2B 7D.
#[test]
fn the_printed_deals_keys_byte_for_byte() {
    let mut seeds = [0; 128];
    let counting: Vec<u8> = (0..32).collect();
    seeds[..32].fill(0xA0);
    seeds[32..64].fill(0xB1);
    seeds[96..].copy_from_slice(&counting);
    let keys = dealing_program(&printed_deal(&seeds, &[0x01, 0x02, 0x03, 0x04]));
    // The XOR of both rows and the lent word, with the value in cell 0.
    let last = [
        0x76 ^ 0x39 ^ 0x01 ^ 0xA5,
        0xB8 ^ 0xFD ^ 0x02,
        0xE0 ^ 0x2B ^ 0x03,
        0xAD ^ 0x7D ^ 0x04,
    ];
    let mut expected = vec![0x02, 0x00, 0x06, 0x04, 0x01];
    expected.push(0x02); // array 0, 3: both players mark column 1
    expected.extend([0xB1; 32]);
    expected.push(0x01); // array 1, 2: player 0 marks column 0
    expected.extend([0x00; 32]);
    expected.extend([0x01, 0x02, 0x03, 0x04]);
    expected.extend(last);
    expected.extend([0x02, 0x01, 0x06, 0x04, 0x01]);
    expected.push(0x02);
    expected.extend([0xB1; 32]);
    expected.push(0x02); // player 1 marks column 1
    expected.extend(&counting);
    expected.extend([0x01, 0x02, 0x03, 0x04]);
    expected.extend(last);
    assert_eq!(keys, expected);
}

#[test]
fn values_print_byte_0_first_in_upper_case() {
    let mut drawn = drawn([2, 11, 4, 5], 7);
    drawn.value = vec![0x0A, 0xBC, 0x00, 0xDE, 0xF1];
    let text = String::from_utf8(joining_program(&dealing_program(&input_of(&drawn)))).unwrap();
    let mut expected = String::from("players 2 squares 11 width 5\n");
    for position in 0..11 {
        let value = if position == drawn.point {
            "0ABC00DEF1"
        } else {
            "0000000000"
        };
        expected.push_str(&format!("{position} {value}\n"));
    }
    assert_eq!(text, expected);
}

fn dealt(input: &[u8], expected: &str) {
    assert_eq!(dealing_program(input), expected.as_bytes());
}

fn joined(input: &[u8], expected: &str) {
    assert_eq!(joining_program(input), expected.as_bytes());
}

#[test]
fn the_dealing_programs_refusals_in_their_order() {
    let right = printed_deal(&[7; 128], &[8; 4]);
    let lent = &right[5..];
    let with = |header: &[u8]| [header, lent].concat();
    dealt(&[], "refused 10\n");
    for cut in 0..5 {
        dealt(&right[..cut], "refused 10\n");
    }
    // 10 before 1, wherever it stands.
    dealt(&[7, 0, 0, 0, 0x80], "refused 10\n");
    dealt(&with(&[7, 0, 0, 0, 0x84, 0]), "refused 10\n");
    dealt(&with(&[7, 0, 0x80, 0x80, 0x80, 0x01, 0, 0]), "refused 10\n");
    dealt(&with(&[7, 0, 0, 0, 9]), "refused 1\n");
    dealt(&with(&[2, 0, 0, 0, 9]), "refused 2\n");
    dealt(&with(&[2, 6, 0, 0, 9]), "refused 3\n");
    dealt(&with(&[2, 6, 4, 0, 9]), "refused 4\n");
    dealt(&with(&[2, 0x81, 0x02, 1, 1, 0x81, 0x02]), "refused 5\n");
    dealt(&[2, 6, 4, 1, 6], "refused 6\n");
    dealt(&right[..5], "refused 7\n");
    dealt(&right[..141], "refused 7\n");
    dealt(&[&right[..], &[0]].concat(), "refused 7\n");
    // A bad array in an input that is too long is 7, else "the number alone".
    for (arrays, line) in [
        ([1, 3, 1, 2], "refused 19\n"),
        ([0, 7, 1, 2], "refused 18\n"),
        ([0, 0, 4, 2], "refused 20\n"),
        ([0, 3, 1, 0xFF], "refused 18\n"),
        ([0, 3, 1, 3], "refused 19\n"),
        ([0, 3, 2, 2], "refused 20\n"),
    ] {
        let mut wrong = right.clone();
        wrong[6..10].copy_from_slice(&arrays);
        dealt(&[&wrong[..], &[0]].concat(), "refused 7\n");
        dealt(&wrong, line);
    }
    // The point moved to the other grid row: both arrays have the wrong parity.
    let mut moved = right.clone();
    moved[4] = 3;
    dealt(&moved, "refused 19\n");
}

#[test]
fn the_dealing_programs_limits() {
    // 64,566 bytes in; the keys would be longer than 65,536.
    let long = drawn([6, 100, 128, 16], 3);
    let mut input = input_of(&long);
    assert_eq!(input.len(), 64_566);
    dealt(&input, "refused 9\n");
    // 18, 19 and 20 come before 9, 7 before these: the first array's second column changed.
    let array = 6 + 16;
    let right = input[array + 1];
    for (column, line) in [
        (right | 0x40, "refused 18\n"),
        (right ^ 1, "refused 19\n"),
        (input[array], "refused 20\n"),
    ] {
        input[array + 1] = column;
        dealt(&input, line);
    }
    input.push(0);
    dealt(&input, "refused 7\n");
    input.resize(65_537, 0);
    dealt(&input, "refused 7\n");
    // Too long, and a bad header all the same; or a number out of its range.
    input[0] = 0xFF;
    input[1] = 0xFF;
    input[2] = 0xFF;
    dealt(&input, "refused 10\n");
    input[..5].copy_from_slice(&[7, 0, 0, 0, 0]);
    dealt(&input, "refused 1\n");
    input[..5].copy_from_slice(&[2, 6, 4, 1, 6]);
    dealt(&input, "refused 6\n");
    // Exactly the length asked, but above the limit.
    let longer = input_of(&drawn([6, 100, 130, 16], 3));
    assert!(longer.len() > 65_536);
    dealt(&longer, "refused 7\n");
}

/// p 4, N 3,300, μ 197, w 9: four keys of 16,384 bytes are 65,536 together.
#[test]
fn exactly_65_536_bytes_are_within_the_limits() {
    assert_eq!(key_length(4, 3_300, 197, 9), Ok(16_384));
    let exact = drawn([4, 3_300, 197, 9], 5);
    let keys = dealing_program(&input_of(&exact));
    assert_eq!(keys, exact.keys().concat());
    assert_eq!(keys.len(), 65_536);
    let text = joining_program(&keys);
    assert!(text.starts_with(b"players 4 squares 3300 width 9\n0 "));
    assert_eq!(text.iter().filter(|&&byte| byte == b'\n').count(), 3_301);
}

#[test]
fn the_joining_programs_refusals_in_their_order() {
    let keys = dealing_program(&printed_deal(&[7; 128], &[8; 4]));
    let changed = |changes: &[(usize, u8)]| {
        let mut changed = keys.clone();
        for &(place, byte) in changes {
            changed[place] = byte;
        }
        changed
    };
    joined(&[], "refused 10\n");
    joined(&keys[..4], "refused 10\n");
    joined(&changed(&[(0, 7), (1, 9), (2, 0)]), "refused 1\n");
    joined(&changed(&[(1, 9), (2, 0), (3, 0)]), "refused 2\n");
    joined(&changed(&[(1, 9), (3, 0), (4, 0)]), "refused 3\n");
    joined(&changed(&[(1, 9), (4, 0)]), "refused 4\n");
    joined(&[2, 9, 0x81, 0x02, 1, 1], "refused 5\n");
    joined(&changed(&[(1, 2)])[..20], "refused 11\n");
    joined(&keys[..157], "refused 12\n");
    joined(&[&keys[..], &[0]].concat(), "refused 12\n");
    joined(&keys[..79], "refused 12\n");
    joined(&changed(&[(1, 1), (5, 0)])[..157], "refused 12\n");
    // A first key of player 1 is 15, before its own 13.
    joined(&changed(&[(1, 1), (5, 0)]), "refused 15\n");
    // The first key's 13 before the second's 10.
    joined(
        &changed(&[(5, 0), (79, 0xFF), (80, 0xFF), (81, 0xFF)]),
        "refused 13\n",
    );
    joined(
        &changed(&[(79, 0xFF), (80, 0xFF), (81, 0xFF)]),
        "refused 10\n",
    );
    joined(&changed(&[(79, 7)]), "refused 1\n");
    joined(&changed(&[(80, 2), (81, 5)]), "refused 11\n");
    joined(&changed(&[(81, 5), (84, 0)]), "refused 15\n");
    joined(&changed(&[(84, 0)]), "refused 13\n");
}

#[test]
fn the_joining_programs_limits() {
    // Four keys that join, 65,560 bytes together.
    let mut keys = drawn([4, 100, 127, 16], 9).keys().concat();
    assert_eq!(keys.len(), 65_560);
    joined(&keys, "refused 12\n");
    // Read only as far as the program reads.
    joined(&keys[..65_537], "refused 12\n");
    keys[1] = 4;
    joined(&keys, "refused 11\n");
    // A table of 65,536 bytes is printed, one of 65,538 is 9.
    let text = joining_program(&drawn([2, 32_768, 256, 2], 9).keys().concat());
    assert_eq!(text.iter().filter(|&&byte| byte == b'\n').count(), 32_769);
    let mut keys = drawn([2, 32_769, 256, 2], 9).keys().concat();
    joined(&keys, "refused 9\n");
    let marks = keys.len() / 2 + 8;
    keys[marks] = 0;
    joined(&keys, "refused 13\n");
}

/// The largest table of one-byte values: N 65,536 prints 65,537 lines.
#[test]
fn the_largest_board_is_joined() {
    let largest = drawn([2, 65_536, 256, 1], 11);
    let keys = dealing_program(&input_of(&largest));
    let text = String::from_utf8(joining_program(&keys)).unwrap();
    let lines: Vec<&str> = text.lines().collect();
    assert_eq!(lines.len(), 65_537);
    assert_eq!(lines[0], "players 2 squares 65536 width 1");
    for (position, line) in lines[1..].iter().enumerate() {
        let value = if position == largest.point as usize {
            largest.value[0]
        } else {
            0
        };
        assert_eq!(*line, format!("{position} {value:02X}"));
    }
}
