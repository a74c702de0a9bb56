//! The comparison's data on Draw card and on the shares that are joined for it: right, and enough.

use reference::cases::all;
use reference::data::{Call, Case, DRAW_CARD, JOIN_SHARES};
use reference::join::join_keys;
use reference::key::{check_key, Header};
use reference::open::open_one;
use std::collections::BTreeSet;

fn cases_of(operation: u8) -> Vec<Case> {
    let cases = all().into_iter();
    cases
        .filter(|case| case.call.operation == operation)
        .collect()
}

/// The XOR of strings of one length.
fn xor<'a>(length: usize, strings: impl Iterator<Item = &'a [u8]>) -> Vec<u8> {
    strings.fold(vec![0; length], |sum, string| {
        assert_eq!(string.len(), length);
        sum.iter().zip(string).map(|(a, b)| a ^ b).collect()
    })
}

/// What is asked for and was not met.
fn missing<T: Ord + Clone>(asked: impl IntoIterator<Item = T>, met: &BTreeSet<T>) -> Vec<T> {
    let asked: BTreeSet<T> = asked.into_iter().collect();
    asked.difference(met).cloned().collect()
}

/// Which of Draw card's own faults a call has, whatever comes first: L out of range, a deck that is
/// not N × L bytes, an output under L.
fn faults(call: &Call, positions: u32) -> [bool; 3] {
    let card_bytes = u64::from(call.numbers[0]);
    let deck_bytes = call.inputs[1].len() as u64;
    [
        !(1..=256).contains(&card_bytes),
        deck_bytes != u64::from(positions) * card_bytes,
        (call.lent as u64) < card_bytes,
    ]
}

/// Every answer of Draw card: the first number that fits, or the XOR of the cards at which the key's
/// squares, opened one by one, are odd.
#[test]
fn drawn_cards_are_those_of_odd_squares() {
    for case in cases_of(DRAW_CARD) {
        let [key, deck, ..] = &case.call.inputs;
        let number = check_key(key).map_or_else(
            |number| number,
            |header| match faults(&case.call, header.positions) {
                _ if header.value_width != 1 => 21,
                [true, ..] | [_, true, _] => 22,
                [.., true] => 9,
                _ => 0,
            },
        );
        assert_eq!(case.answer.refusal, number);
        assert_eq!(case.call.numbers[1..], [0; 4]);
        if number != 0 {
            assert_eq!(case.answer.bytes, []);
            continue;
        }
        let length = case.call.numbers[0] as usize;
        let cards = deck.chunks(length).enumerate();
        let odd = cards.filter(|(position, _)| {
            let mut share = [0];
            assert_eq!(open_one(key, *position as u32, &mut share), Ok(()));
            share[0] % 2 == 1
        });
        let answer = xor(length, odd.map(|(_, card)| card));
        assert_eq!(case.answer.bytes, answer);
    }
}

/// For every p each L and each short last grid row, and each L with each of these; each μ with N
/// below it, at it and above it, a multiple and none; outputs that are exact and longer.
#[test]
fn cards_are_drawn_from_every_shape() {
    let mut met = BTreeSet::new();
    for case in cases_of(DRAW_CARD) {
        if case.answer.refusal != 0 {
            continue;
        }
        let header = check_key(&case.call.inputs[0]).expect("an accepted key");
        let (players, length) = (header.players, case.call.numbers[0]);
        let (positions, width) = (header.positions, header.grid_width);
        let last = positions % width;
        let shape = match positions {
            _ if positions < width => "N below it",
            _ if positions == width => "N at it",
            _ if last == 0 => "N a multiple",
            _ => "N above it",
        };
        if shape == "N above it" {
            met.insert(format!("L {length}, {last} in the last grid row"));
            met.insert(format!("p {players}, {last} in the last grid row"));
        }
        let longer = case.call.lent > length as usize;
        met.extend([
            format!("p {players}, L {length}"),
            format!("p {players}, {shape}"),
            format!("p {players}, longer output {longer}"),
            format!("L {length}, longer output {longer}"),
            format!("μ {width}, {shape}"),
            format!("p {players}, N {positions}"),
        ]);
    }
    let mut asked = vec!["p 2, N 65536".to_string()];
    for players in 2..=6 {
        asked.push(format!("p {players}, N 1"));
        for length in [1, 2, 15, 16, 17, 31, 32, 33, 52, 64, 255, 256] {
            asked.push(format!("p {players}, L {length}"));
            for last in 1..=5 {
                asked.push(format!("L {length}, {last} in the last grid row"));
                asked.push(format!("p {players}, {last} in the last grid row"));
            }
            for longer in [false, true] {
                asked.push(format!("p {players}, longer output {longer}"));
                asked.push(format!("L {length}, longer output {longer}"));
            }
        }
        for shape in ["N below it", "N at it", "N a multiple", "N above it"] {
            asked.push(format!("p {players}, {shape}"));
            let widths = [2, 3, 4, 5, 6, 7, 8, 9, 64, 255, 256];
            asked.extend(widths.map(|width| format!("μ {width}, {shape}")));
        }
    }
    asked.extend(["N at it", "N a multiple"].map(|shape| format!("μ 1, {shape}")));
    assert_eq!(missing(asked, &met), Vec::<String>::new());
}

/// One key draws no card, one draws all, and shares whose other bits are set are met with and without
/// the lowest.
#[test]
fn cards_are_drawn_at_the_lowest_bit() {
    let mut met = BTreeSet::new();
    for case in cases_of(DRAW_CARD) {
        let [key, deck, ..] = &case.call.inputs;
        let positions = deck.len() / case.call.numbers[0].max(1) as usize;
        if case.answer.refusal != 0 || positions < 2 {
            continue;
        }
        let share = |position: usize| {
            let mut share = [0];
            assert_eq!(open_one(key, position as u32, &mut share), Ok(()));
            share[0]
        };
        let first = share(0);
        if (1..positions).all(|position| share(position) == first) {
            met.insert((key[0], first));
        }
    }
    let shares = (3..=6).flat_map(|players| [0, 1, 0xFE, 0xFF].map(|share| (players, share)));
    assert_eq!(missing(shares, &met), []);
}

/// For every p the answers of all keys of a dealing with one deck, in a row, and Join shares of these
/// behind them: the card at the point, or zeros where the value is even.
#[test]
fn answers_of_all_keys_are_joined() {
    let cases = all();
    let mut met = BTreeSet::new();
    for (place, case) in cases.iter().enumerate() {
        let [players, length, ..] = case.call.numbers.map(|number| number as usize);
        if case.call.operation != JOIN_SHARES || case.answer.refusal != 0 {
            continue;
        }
        let draws = &cases[place.saturating_sub(players)..place];
        let drawn = draws.iter().all(|draw| draw.call.operation == DRAW_CARD);
        let answers = draws.iter().map(|draw| draw.answer.bytes.clone());
        if !drawn || answers.collect::<Vec<_>>().concat() != case.call.inputs[0] {
            continue;
        }
        let deck = &draws[0].call.inputs[1];
        assert!(draws.iter().all(|draw| draw.call.inputs[1] == *deck));
        let keys = draws.iter().map(|draw| draw.call.inputs[0].clone());
        let mut table = vec![0; deck.len() / length];
        let keys = keys.collect::<Vec<_>>().concat();
        assert_eq!(join_keys(&keys, &mut table), Ok(()));
        let point = table.iter().position(|&value| value != 0).unwrap_or(0);
        let value = table[point];
        let card = &deck[point * length..][..length];
        let zeros = vec![0; length];
        let wanted = if value % 2 == 1 { card } else { &zeros };
        assert_eq!(case.answer.bytes, wanted);
        met.insert((players, value));
    }
    for players in 2..=6 {
        let values = if players < 5 {
            &[1, 0x5A, 255, 0][..]
        } else {
            &[1, 0x5A]
        };
        let asked = values.iter().map(|&value| (players, value));
        assert_eq!(missing(asked, &met), []);
    }
}

/// The numbers of Check key alone, with 22 and 9 as well, and with 21, 22 and 9 as well.
#[test]
fn keys_are_refused_before_all_else() {
    let mut met = BTreeSet::new();
    for case in cases_of(DRAW_CARD) {
        let [key, deck, ..] = &case.call.inputs;
        let [wrong_length, _, short] = faults(&case.call, 0);
        // A header that is not read has no w, and one that 4 refuses none in its range.
        let width = Header::read(key).map_or(0, |header| header.value_width);
        let width = if width > 16 { 0 } else { width };
        let faults = [wrong_length, deck.is_empty(), short];
        met.insert((case.answer.refusal, width, faults));
    }
    let (alone, with_all) = ([false; 3], [true; 3]);
    let mut asked = Vec::new();
    for number in [1, 2, 3, 5, 11, 12, 13] {
        asked.extend([(number, 1, alone), (number, 1, with_all)]);
        asked.push((number, 2, with_all));
    }
    for number in [4, 10] {
        asked.extend([(number, 0, alone), (number, 0, with_all)]);
    }
    assert_eq!(missing(asked, &met), []);
}

/// 21 alone and before 22 and 9, for values of 2 and of 16 bytes, and for every p.
#[test]
fn wide_values_are_refused_before_decks_and_outputs() {
    let mut met = BTreeSet::new();
    for case in cases_of(DRAW_CARD) {
        if case.answer.refusal == 21 {
            let header = check_key(&case.call.inputs[0]).expect("an accepted key");
            let faults = faults(&case.call, header.positions);
            met.insert((header.players, header.value_width, faults));
        }
    }
    let mut asked = Vec::new();
    for players in 2..=6 {
        for width in [2, 16] {
            asked.extend([
                (players, width, [false, false, false]),
                (players, width, [true, true, false]),
                (players, width, [false, true, false]),
                (players, width, [false, false, true]),
                (players, width, [false, true, true]),
                (players, width, [true, true, true]),
            ]);
        }
    }
    assert_eq!(missing(asked, &met), []);
}

/// 22 with and without 9, for every p: an L out of range, and decks that are none, a card or a byte
/// off; L whose product with N is the deck's length, as it is or modulo 2^32. Then 9.
#[test]
fn wrong_decks_are_refused_before_outputs() {
    let (mut lengths, mut decks) = (BTreeSet::new(), BTreeSet::new());
    let (mut products, mut outputs) = (BTreeSet::new(), BTreeSet::new());
    let mut outputs_by_length = BTreeSet::new();
    for case in cases_of(DRAW_CARD) {
        if ![9, 22].contains(&case.answer.refusal) {
            continue;
        }
        let header = check_key(&case.call.inputs[0]).expect("an accepted key");
        let (players, length) = (header.players, case.call.numbers[0]);
        let [wrong_length, _, short] = faults(&case.call, header.positions);
        let deck_bytes = case.call.inputs[1].len();
        let exact = u64::from(header.positions) * u64::from(length);
        if case.answer.refusal == 9 {
            let short_by = length as usize - case.call.lent;
            outputs.insert((players, short_by));
            outputs_by_length.insert((length, short_by));
        } else if wrong_length {
            lengths.insert((players, length, short));
            products.insert((header.positions, length, deck_bytes));
        } else {
            decks.insert((players, length, deck_bytes as i64 - exact as i64, short));
        }
    }
    let mut asked_decks = Vec::new();
    for (players, length) in (2..).zip([256, 1, 16, 52, 255]) {
        let card = i64::from(length);
        // Their decks have three cards.
        for off in [-3 * card, -card, -1, 1, card] {
            asked_decks.extend([false, true].map(|short| (players, length, off, short)));
        }
        let out_of_range = [
            (0, false),
            (257, false),
            (257, true),
            (65_536, false),
            (65_536, true),
            (u32::MAX, true),
        ];
        let asked = out_of_range.map(|(length, short)| (players, length, short));
        assert_eq!(missing(asked, &lengths), []);
        let asked = [1, length as usize].map(|short_by| (players, short_by));
        assert_eq!(missing(asked, &outputs), []);
    }
    assert_eq!(missing(asked_decks, &decks), []);
    assert_eq!(missing([(256, 1), (256, 256)], &outputs_by_length), []);
    let asked = [
        (1, 257, 257),
        (2, 300, 600),
        (65_536, 0, 0),
        (65_536, 65_536, 0),
        (256, (1 << 24) + 1, 256),
        (2, (1 << 31) + 5, 10),
    ];
    assert_eq!(missing(asked, &products), []);
}

/// Every answer of Join shares; and for every p widths at the ends of the range and of a value's,
/// accepted and with 9, and with 7; 257 with all else right, and with 7 and 9 as well.
#[test]
fn shares_are_joined_at_every_width() {
    let mut met = BTreeSet::new();
    for case in cases_of(JOIN_SHARES) {
        let [players, width, ..] = case.call.numbers.map(u64::from);
        let shares = &case.call.inputs[0];
        let exact = shares.len() as u64 == players * width;
        let (number, joined) = match (players, width) {
            (0..=1 | 7.., _) => (1, Vec::new()),
            (_, 0 | 257..) => (4, Vec::new()),
            _ if !exact => (7, Vec::new()),
            _ if (case.call.lent as u64) < width => (9, Vec::new()),
            _ => (0, xor(width as usize, shares.chunks(width as usize))),
        };
        assert_eq!((case.answer.refusal, case.answer.bytes), (number, joined));
        let short = (case.call.lent as u64) < width;
        met.insert((players, width, number, exact, short));
    }
    let mut asked = vec![(2, 257, 4, false, true), (2, 65_537, 4, false, true)];
    for players in 2..=6 {
        asked.push((players, 257, 4, true, false));
        for width in [1, 16, 17, 255, 256] {
            asked.push((players, width, 0, true, false));
            asked.push((players, width, 9, true, true));
        }
        for width in [1, 16, 256] {
            asked.push((players, width, 7, false, false));
            asked.push((players, width, 7, false, true));
        }
    }
    assert_eq!(missing(asked, &met), []);
}
