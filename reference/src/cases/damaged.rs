//! Dealings and keys with one fault, and with several at once, on short boards.

use super::{bytes_call, card_call, deal_call, deal_numbers, in_groups, program_input, Maker};
use crate::board::Board;
use crate::data::{
    CHECK_KEY, DEALING_PROGRAM, HELD_SEED, JOINING_PROGRAM, JOIN_KEYS, OPEN_ALL, OPEN_ONE,
};
use crate::draw::Drawn;
use crate::key::{header_of, key_bytes};

/// A refusal number and the bytes that meet it.
pub type Fault = (u32, Vec<u8>);

/// Boards whose p keys together are at most this long have every fault joined.
const SHORT_KEYS: usize = 700;
/// No key is shorter: p 2, N 1, μ 1, w 1.
const SHORTEST_KEY: usize = 40;
/// Random one-byte changes of a key for each board.
const RANDOM_CHANGES: usize = 12;
/// L of the decks beside damaged keys.
const CARD_BYTES: usize = 2;

pub fn add(maker: &mut Maker, board: Board) {
    let drawn = Drawn::new(board, &mut maker.generator);
    let keys = drawn.keys();
    dealings(maker, &drawn);
    dealing_program(maker, &drawn);
    one_key(maker, board, &keys);
    joined(maker, board, &keys);
}

/// Deal's refusals 1 to 7 and 9, each alone and then with all that come after it; `arrays` has
/// those between.
fn dealings(maker: &mut Maker, drawn: &Drawn) {
    let board = drawn.board;
    let dealt = board.players * key_bytes(&board);
    let right = deal_numbers(drawn);
    let [players, _, grid_width, value_width, _] = right;

    let mut add_numbers = |refusal, numbers: [u32; 5], lent| {
        let mut call = deal_call(drawn, lent);
        call.numbers = numbers;
        maker.add(refusal, call);
    };
    let [p, n, m, w, a] = right;
    for (refusal, numbers) in [
        (1, [1, n, m, w, a]),
        (1, [7, n, m, w, a]),
        (2, [p, 0, m, w, a]),
        (2, [p, 65_537, m, w, a]),
        (3, [p, n, 0, w, a]),
        (3, [p, n, 257, w, a]),
        (4, [p, n, m, 0, a]),
        (4, [p, n, m, 17, a]),
        (5, [p, 257, 1, w, a]),
        (6, [p, n, m, w, n]),
        (6, [p, n, m, w, u32::MAX]),
    ] {
        add_numbers(refusal, numbers, dealt);
    }
    for (refusal, numbers) in [
        (1, [0, 0, 0, 0, 0]),
        (2, [players, 0, 0, 0, 0]),
        (3, [players, 65_536, 0, 0, 65_536]),
        (4, [players, 65_536, 1, 0, 65_536]),
        (5, [players, 65_536, 1, value_width, 65_536]),
        (7, [players, 256, 1, 16, 255]),
    ] {
        add_numbers(refusal, numbers, 0);
    }
    input_lengths(maker, drawn, dealt);
    maker.add(9, deal_call(drawn, dealt - 1));
    maker.add(9, deal_call(drawn, 0));
    // Another point of the same grid row is a dealing as good.
    let other = drawn.point / grid_width * grid_width;
    let mut call = deal_call(drawn, dealt + 1);
    call.numbers[4] = other;
    maker.add(0, call);
    let zero = Drawn {
        value: vec![0; board.value_width],
        ..drawn.clone()
    };
    maker.add(0, deal_call(&zero, dealt));
}

/// 7: each input a byte shorter or longer, and empty.
fn input_lengths(maker: &mut Maker, drawn: &Drawn, dealt: usize) {
    let longer = maker.generator.below(2);
    for input in 0..4 {
        let mut call = deal_call(drawn, dealt);
        if input % 2 == longer {
            call.inputs[input].push(0);
        } else {
            call.inputs[input].pop();
        }
        maker.add(7, call.clone());
        call.inputs[input].clear();
        call.lent = 0;
        maker.add(7, call);
    }
    // One byte moved from an input to the next: the sum is right, the lengths are not.
    let mut call = deal_call(drawn, dealt);
    let moved = call.inputs[2].pop().expect("seeds are lent");
    call.inputs[3].insert(0, moved);
    maker.add(7, call);
}

/// The dealing program: 10, and then as Deal.
fn dealing_program(maker: &mut Maker, drawn: &Drawn) {
    let [p, n, m, w, a] = deal_numbers(drawn);
    let right = program_input(&[p, n, m, w, a], drawn);
    let mut faults: Vec<Fault> = vec![(0, right.clone())];
    for (refusal, numbers) in [
        (1, [7, 0, 0, 0, 0]),
        (2, [p, 65_537, m, w, a]),
        (3, [p, n, 257, w, a]),
        (4, [p, n, m, 17, a]),
        (5, [p, 65_536, 255, w, a]),
        (6, [p, n, m, w, n]),
    ] {
        faults.push((refusal, program_input(&numbers, drawn)));
    }
    // 10: cut short after each byte of the header, and each number in a wrong form.
    let header = in_groups(&[p, n, m, w, a]);
    for cut in 0..header.len() {
        faults.push((10, right[..cut].to_vec()));
    }
    for (place, header) in wrong_headers(&[p, n, m, w, a]).into_iter().enumerate() {
        // Every fifth with all that should follow, the others alone.
        let lent = if place % 5 == 0 { &right[..] } else { &[] };
        faults.push((10, [&header, lent].concat()));
    }
    // 10 before 1 to 7, wherever it stands.
    faults.push((10, [7, 0, 0, 0, 0x80].to_vec()));
    faults.push((10, [7, 0, 0, 0, 0x80, 0].to_vec()));
    // The header alone, a byte missing, a byte too many.
    faults.push((7, header));
    faults.push((7, right[..right.len() - 1].to_vec()));
    faults.push((7, [&right[..], &[0]].concat()));
    let mut wrong = drawn.clone();
    wrong.arrays[0] ^= 1;
    let wrong_array = program_input(&[p, n, m, w, a], &wrong);
    faults.push((7, [&wrong_array[..], &[0]].concat()));
    faults.push((19, wrong_array));
    for (refusal, input) in faults {
        maker.add(refusal, bytes_call(DEALING_PROGRAM, &[], &input, 0));
    }
}

/// 10: headers of five numbers, each number in turn in four groups, or one group too long.
fn wrong_headers(numbers: &[u32; 5]) -> Vec<Vec<u8>> {
    let mut headers = Vec::new();
    for wrong in 0..5 {
        let mut four_groups = in_groups(&numbers[..wrong]);
        four_groups.extend([0x80, 0x80, 0x80, 0x01]);
        four_groups.extend(in_groups(&numbers[wrong + 1..]));
        headers.push(four_groups);
        let mut not_shortest = in_groups(&numbers[..wrong + 1]);
        *not_shortest.last_mut().expect("a group") |= 0x80;
        not_shortest.push(0);
        not_shortest.extend(in_groups(&numbers[wrong + 1..]));
        headers.push(not_shortest);
    }
    headers
}

/// Five header numbers that 1 to 5 or 11 turn away, alone and with all that come after.
fn wrong_numbers(board: Board, player: u32) -> Vec<(u32, [u32; 5])> {
    let header = header_of(&board, 0);
    let (p, n, m, w) = (
        header.players,
        header.positions,
        header.grid_width,
        header.value_width,
    );
    vec![
        (1, [1, player, n, m, w]),
        (1, [7, 9, 0, 0, 0]),
        (1, [0, 0, 0, 0, 0]),
        (2, [p, player, 0, m, w]),
        (2, [p, player, 65_537, m, w]),
        (2, [p, 9, 0, 0, 0]),
        (3, [p, player, n, 0, w]),
        (3, [p, 9, 65_536, 257, 0]),
        (4, [p, player, n, m, 0]),
        (4, [p, 9, 65_536, 1, 17]),
        (5, [p, player, 257, 1, w]),
        (5, [p, 9, 65_536, 255, w]),
        (11, [p, p, n, m, w]),
        (11, [p, 127, n, m, w]),
        (11, [p, (1 << 21) - 1, n, m, w]),
    ]
}

/// A key's body below another header.
fn with_header(board: Board, key: &[u8], header: &[u8]) -> Vec<u8> {
    let own = header_of(&board, 0).bytes().len();
    [header, &key[own..]].concat()
}

/// A key with the marks of a grid row changed by `bits` in its first byte.
fn with_marks(board: Board, key: &[u8], grid_row: usize, bits: u8) -> Vec<u8> {
    let own = header_of(&board, 0).bytes().len();
    let mut changed = key.to_vec();
    changed[own + grid_row * board.key_row_bytes()] ^= bits;
    changed
}

/// Keys that Check key refuses, and some that it does not.
pub fn key_faults(board: Board, key: &[u8], player: u32) -> Vec<Fault> {
    let header = header_of(&board, player as usize);
    let numbers = [
        header.players,
        player,
        header.positions,
        header.grid_width,
        header.value_width,
    ];
    let mut faults: Vec<Fault> = Vec::new();
    for cut in 0..header.bytes().len() {
        faults.push((10, key[..cut].to_vec()));
    }
    for wrong in wrong_headers(&numbers) {
        faults.push((10, with_header(board, key, &wrong)));
    }
    faults.push((10, [7, 9, 0, 0, 0x80].to_vec()));
    for (refusal, wrong) in wrong_numbers(board, player) {
        faults.push((refusal, with_header(board, key, &in_groups(&wrong))));
    }
    let last = board.grid_rows() - 1;
    // 11 before 12 and 13, 12 before 13.
    let wrong_marks = with_marks(board, key, last, 1);
    let cut = wrong_marks[..wrong_marks.len() - 1].to_vec();
    let mut no_player = cut.clone();
    no_player[1] = header.players as u8;
    faults.push((11, no_player));
    faults.push((12, cut));
    faults.push((12, key[..key.len() - 1].to_vec()));
    faults.push((12, [key, &[0]].concat()));
    faults.push((12, header.bytes()));
    let mut wider = numbers;
    wider[4] += 1;
    faults.push((12, with_header(board, key, &in_groups(&wider))));
    faults.push((13, with_marks(board, key, 0, 1)));
    faults.push((13, wrong_marks));
    // Spare bits: at p 2 and p 3 the marks leave some.
    if board.columns() < 8 {
        faults.push((13, with_marks(board, key, 0, 0x80)));
        faults.push((13, with_marks(board, key, last, 1 << board.columns())));
        // The right count, with a spare bit for a mark.
        let own = header.bytes().len();
        let held = key[own] & key[own].wrapping_neg();
        faults.push((13, with_marks(board, key, 0, held | 0x40)));
    }
    // All marks turned round are J/2 marks again; another player's number is a key as good.
    if board.columns() <= 8 {
        let all = (1u16 << board.columns()) as u8;
        faults.push((0, with_marks(board, key, 0, all.wrapping_sub(1))));
    }
    let mut other_player = key.to_vec();
    other_player[1] = (player as u8 + 1) % board.players as u8;
    faults.push((0, other_player));
    faults
}

/// One key at a time: Check key, Open one, Open all, Draw card and Held seed on damaged keys.
fn one_key(maker: &mut Maker, board: Board, keys: &[Vec<u8>]) {
    let player = maker.generator.below(board.players);
    let key = &keys[player];
    let (table, width) = (board.table_bytes(), board.value_width);
    let positions = board.positions as u32;
    let deck = maker.generator.bytes(board.positions * CARD_BYTES);
    let card = CARD_BYTES as u32;
    let faults = key_faults(board, key, player as u32);
    for (place, (refusal, damaged)) in faults.iter().enumerate() {
        let refusal = *refusal;
        maker.add(refusal, bytes_call(CHECK_KEY, &[], damaged, 0));
        if refusal == 0 {
            maker.add(0, bytes_call(OPEN_ALL, &[], damaged, table));
            maker.add(0, card_call(damaged, &deck, card, CARD_BYTES));
            continue;
        }
        // Draw card with 22 and 9 as well, which come after.
        maker.add(refusal, card_call(damaged, &[], 257, 0));
        // The others by turns, each with all its later faults as well, and Draw card with none.
        match place % 6 {
            0 => maker.add(refusal, bytes_call(OPEN_ONE, &[positions], damaged, 0)),
            1 => maker.add(refusal, card_call(damaged, &deck, card, CARD_BYTES)),
            2 => maker.add(refusal, bytes_call(OPEN_ALL, &[], damaged, 0)),
            3 => maker.add(refusal, bytes_call(OPEN_ONE, &[0], damaged, width)),
            4 => maker.add(0, bytes_call(HELD_SEED, &[0, 0], damaged, 0)),
            _ => maker.add(refusal, bytes_call(OPEN_ALL, &[], damaged, table)),
        };
    }
    maker.add(14, bytes_call(OPEN_ONE, &[positions], key, width));
    maker.add(14, bytes_call(OPEN_ONE, &[u32::MAX], key, 0));
    maker.add(9, bytes_call(OPEN_ONE, &[positions - 1], key, width - 1));
    maker.add(9, bytes_call(OPEN_ALL, &[], key, table - 1));
    maker.add(9, bytes_call(OPEN_ALL, &[], key, 0));
    // One byte changed anywhere: whatever Check key answers, and Open all where it accepts.
    for _ in 0..RANDOM_CHANGES {
        let mut changed = key.clone();
        let place = maker.generator.below(changed.len());
        changed[place] ^= 1 + maker.generator.below(255) as u8;
        if maker
            .add_any(bytes_call(CHECK_KEY, &[], &changed, 0))
            .refusal
            == 0
        {
            maker.add(0, bytes_call(OPEN_ALL, &[], &changed, table));
        }
    }
}

/// A key cut, or filled with zeros, to K bytes, as it is found among p keys.
fn fitted(mut key: Vec<u8>, length: usize) -> Vec<u8> {
    key.resize(length, 0);
    key
}

/// p keys with some of them in place of their own.
fn with_keys(keys: &[Vec<u8>], changed: &[(usize, &[u8])]) -> Vec<u8> {
    let mut all = keys.to_vec();
    for (place, key) in changed {
        all[*place] = key.to_vec();
    }
    all.concat()
}

/// Join keys and the joining program on damaged keys.
fn joined(maker: &mut Maker, board: Board, keys: &[Vec<u8>]) {
    let table = board.table_bytes();
    let faults = join_faults(maker, board, keys);
    let short = keys.concat().len() <= SHORT_KEYS;
    for (place, (refusal, damaged)) in faults.iter().enumerate() {
        // On long keys every other fault, by turns of p.
        if !short && place % 2 != board.players % 2 {
            continue;
        }
        // Every other output is too short as well, which comes last.
        let lent = if *refusal > 0 && place % 4 < 2 {
            0
        } else {
            table
        };
        maker.add(*refusal, bytes_call(JOIN_KEYS, &[], damaged, lent));
        if place % 3 == 0 {
            maker.add(*refusal, bytes_call(JOINING_PROGRAM, &[], damaged, 0));
        }
    }
    let all = keys.concat();
    maker.add(9, bytes_call(JOIN_KEYS, &[], &all, table - 1));
    maker.add(9, bytes_call(JOIN_KEYS, &[], &all, 0));
}

fn join_faults(maker: &mut Maker, board: Board, keys: &[Vec<u8>]) -> Vec<Fault> {
    let length = key_bytes(&board);
    let later = 1 + maker.generator.below(board.players - 1);
    let whole = keys.concat();
    let short = whole.len() <= SHORT_KEYS;
    let header = header_of(&board, 0).bytes();
    let mut faults: Vec<Fault> = Vec::new();
    for cut in 0..header.len() {
        faults.push((10, header[..cut].to_vec()));
    }
    // The first key's 10, 1 to 5 and 11, before the length of the whole.
    for (place, (refusal, key)) in key_faults(board, &keys[0], 0).into_iter().enumerate() {
        // A header cut short would read on in the second key.
        if key.len() < SHORTEST_KEY || !matches!(refusal, 1..=5 | 10 | 11) {
            continue;
        }
        if short || place % 12 == 0 {
            faults.push((refusal, with_keys(keys, &[(0, &key)])));
        }
    }
    // 12: a byte less, a byte more, a key less, a key more; before 15 and 13.
    faults.push((12, whole[..whole.len() - 1].to_vec()));
    faults.push((12, [&whole[..], &[0]].concat()));
    faults.push((12, whole[..whole.len() - length].to_vec()));
    faults.push((12, [&whole[..], &keys[0]].concat()));
    faults.push((12, whole[length..].to_vec()));
    faults.push((12, with_marks(board, &keys[0], 0, 1)));
    // A later key's 10, 1 to 5 and 11, before its 15 and 13.
    let mut place = 0;
    for (refusal, key) in key_faults(board, &keys[later], later as u32) {
        // A header cut by the end of the key is not met here, and no key has another length.
        if key.len() < SHORTEST_KEY || refusal == 12 {
            continue;
        }
        place += 1;
        if short || place % 9 == 0 {
            // What is a key as good by itself has another player here, or is accepted.
            let refusal = if key[1] == later as u8 || refusal != 0 {
                refusal
            } else {
                15
            };
            let key = fitted(key, length);
            faults.push((refusal, with_keys(keys, &[(later, &key)])));
        }
    }
    differing(board, keys, later, &mut faults);
    faults
}

/// 15, and the order between one key's 13 and the next key's 10.
fn differing(board: Board, keys: &[Vec<u8>], later: usize, faults: &mut Vec<Fault>) {
    let header = header_of(&board, later);
    let length = key_bytes(&board);
    let (p, n, m, w) = (
        header.players,
        header.positions,
        header.grid_width,
        header.value_width,
    );
    let player = later as u32;
    for numbers in [
        [if p == 6 { 5 } else { p + 1 }, 0, n, m, w],
        [p, player, n - 1, m, w],
        [p, player, n, m - 1, w],
        [p, player, n, m, w + 1],
        [p, (player + 1) % p, n, m, w],
    ] {
        let key = with_header(board, &keys[later], &in_groups(&numbers));
        // With 13 as well: 15 comes first.
        let key = fitted(with_marks(board, &key, 0, 1), length);
        faults.push((15, with_keys(keys, &[(later, &key)])));
    }
    // Two keys in each other's place, the same key twice.
    let swapped = [(0, &keys[later][..]), (later, &keys[0][..])];
    faults.push((15, with_keys(keys, &swapped)));
    faults.push((15, with_keys(keys, &[(later, &keys[0])])));
    // A first key of player 1 is 15; with a wrong length of the whole it is 12.
    faults.push((15, with_keys(keys, &[(0, &keys[1])])));
    let mut cut = with_keys(keys, &[(0, &keys[1])]);
    cut.pop();
    faults.push((12, cut));
    // 13 in an earlier key before 10 in a later one, and the other way about.
    let no_header = vec![0xFF; length];
    let wrong_marks = with_marks(board, &keys[later - 1], 0, 1);
    let both = [(later - 1, &wrong_marks[..]), (later, &no_header[..])];
    faults.push((13, with_keys(keys, &both)));
    let wrong_marks = with_marks(board, &keys[later], 0, 1);
    if later > 1 {
        let both = [(later - 1, &no_header[..]), (later, &wrong_marks[..])];
        faults.push((10, with_keys(keys, &both)));
    }
    faults.push((13, with_keys(keys, &[(later, &wrong_marks)])));
    // Seeds and words may be any bytes: the keys join to another table.
    let mut noise = keys[later].clone();
    *noise.last_mut().expect("a word") ^= 0xFF;
    faults.push((0, with_keys(keys, &[(later, &noise)])));
}
