//! Evenings of several hunts, as document 02 asks of tallies: for every p each player adds its keys in
//! an order of its own, and the looked-up entries and the totals are joined. Then keys that are added
//! twice and three times, refused keys in between, no keys, tallies that are not made, and the largest.

use super::tallies::{
    key_of, look_up_call, own_tally, table_bytes, tally_call, total_call, SHORT_HEADER,
};
use super::{board, bytes_call, Maker};
use crate::board::{Board, FEWEST_PLAYERS, MOST_PLAYERS};
use crate::data::{Call, JOIN_SHARES, TALLY_RUN};
use crate::deal::xor_into;
use crate::draw::Drawn;
use crate::tally::Tally;
use std::collections::BTreeSet;

/// Evenings: p, N and w, and the μ of each hunt.
const EVENINGS: [(u32, u32, u32, &[u32]); 6] = [
    (2, 21, 16, &[7, 5, 21, 4, 30]),
    (3, 7, 5, &[3, 7, 2, 8, 4]),
    (4, 72, 1, &[36, 24, 48, 36]),
    (5, 4, 2, &[2, 4, 5, 6]),
    (6, 3, 1, &[3, 5, 4, 3]),
    (2, 1, 1, &[1, 2, 256, 1]),
];

/// Tables up to this many entries are looked up at each.
const FEW_POSITIONS: usize = 7;

/// The board (p, N, μ, w) of the most positions.
const LARGEST: (u32, u32, u32, u32) = (2, 65_536, 256, 1);

pub fn add(maker: &mut Maker) {
    for (players, positions, value_width, widths) in EVENINGS {
        let boards = widths
            .iter()
            .map(|&width| (players, positions, width, value_width));
        evening(maker, &boards.map(board).collect::<Vec<_>>());
    }
    for players in FEWEST_PLAYERS..=MOST_PLAYERS {
        repeated(maker, players);
        refused_between(maker, players);
    }
    not_made(maker);
    largest(maker);
}

/// A run: the lengths of the keys, the keys, and a table of so many bytes.
fn run_call(tally: Tally, keys: &[&[u8]], lent: usize) -> Call {
    let lengths = keys.iter().map(|key| (key.len() as u32).to_le_bytes());
    let mut call = tally_call(TALLY_RUN, tally, keys.len() as u32);
    call.inputs[0] = lengths.collect::<Vec<_>>().concat();
    call.inputs[1] = keys.concat();
    call.lent = lent;
    call
}

/// A run in which all keys but those with these numbers, each at its place from 1 on, are added. Gives
/// the table.
fn run(maker: &mut Maker, tally: Tally, keys: &[&[u8]], refused: &[(u32, u32)]) -> Vec<u8> {
    let lent = table_bytes(tally) + maker.cases.len() % 3;
    let answer = maker.add(0, run_call(tally, keys, lent));
    let added = (keys.len() - refused.len()) as u32;
    let sum: u32 = refused.iter().map(|(place, number)| place * number).sum();
    assert_eq!(answer.results, [added, sum, 0, 0, 0]);
    answer.bytes
}

/// Hunts of one evening: two on one square, one of value zero at another, the rest anywhere.
fn hunts(maker: &mut Maker, boards: &[Board]) -> Vec<Drawn> {
    let positions = boards[0].positions;
    let square = maker.generator.below(positions);
    let points = [square, square, (square + 1) % positions].map(Some);
    let points = points.into_iter().chain([None].into_iter().cycle());
    let mut hunts = Vec::new();
    for (&board, point) in boards.iter().zip(points) {
        let point = point.unwrap_or_else(|| maker.generator.below(positions));
        hunts.push(Drawn::at(board, point, &mut maker.generator));
    }
    hunts[2].value.fill(0);
    hunts
}

/// Every player's run with the hunts in an order of its own, its entries and its total; then the
/// entries of all players joined, and their totals.
fn evening(maker: &mut Maker, boards: &[Board]) {
    let hunts = hunts(maker, boards);
    let (players, positions) = (boards[0].players, boards[0].positions);
    let width = boards[0].value_width;
    let looked_up = squares(maker, &hunts, positions);
    let mut entries = vec![Vec::new(); looked_up.len()];
    let mut totals = Vec::new();
    for player in 0..players {
        let mut order: Vec<&Drawn> = hunts.iter().collect();
        maker.generator.shuffle(&mut order);
        let keys = order.iter().map(|hunt| hunt.keys().swap_remove(player));
        let keys: Vec<Vec<u8>> = keys.collect();
        let keys: Vec<&[u8]> = keys.iter().map(Vec::as_slice).collect();
        let tally = own_tally(boards[0], player);
        let table = run(maker, tally, &keys, &[]);
        for (&position, shares) in looked_up.iter().zip(&mut entries) {
            let call = look_up_call(tally, &table, position as u32, width);
            shares.extend(maker.add(0, call).bytes);
        }
        totals.extend(maker.add(0, total_call(tally, &table, width)).bytes);
    }
    for (&position, shares) in looked_up.iter().zip(&entries) {
        let there = hunts.iter().filter(|hunt| hunt.point as usize == position);
        joined(maker, boards[0], shares, there);
    }
    joined(maker, boards[0], &totals, hunts.iter());
}

/// The points and some other squares, or all where they are few.
fn squares(maker: &mut Maker, hunts: &[Drawn], positions: usize) -> BTreeSet<usize> {
    if positions <= FEW_POSITIONS {
        return (0..positions).collect();
    }
    let points = hunts.iter().map(|hunt| hunt.point as usize);
    let others = [0, positions - 1, maker.generator.below(positions)];
    points.chain(others).collect()
}

/// Join shares gives the XOR of the values of these hunts.
fn joined<'a>(
    maker: &mut Maker,
    board: Board,
    shares: &[u8],
    hunts: impl Iterator<Item = &'a Drawn>,
) {
    let mut hidden = vec![0; board.value_width];
    for hunt in hunts {
        xor_into(&mut hidden, &hunt.value);
    }
    let numbers = [board.players as u32, board.value_width as u32];
    let answer = maker.add(
        0,
        bytes_call(JOIN_SHARES, &numbers, shares, board.value_width),
    );
    assert_eq!(answer.bytes, hidden);
}

/// Keys of one player that are added more than once: side by side, three times, and with another in
/// between. An even number of additions is none.
fn repeated(maker: &mut Maker, players: u32) {
    let numbers = (players, 3, 3, 1);
    let player = maker.generator.below(players as usize);
    let tally = own_tally(board(numbers), player);
    let [one, other] = [(); 2].map(|()| key_of(maker, numbers, player));
    let twice = run(maker, tally, &[&one, &one], &[]);
    assert_eq!(twice, vec![0; table_bytes(tally)]);
    let three_times = run(maker, tally, &[&one, &one, &one], &[]);
    let between = run(maker, tally, &[&other, &one, &other], &[]);
    assert_eq!(between, three_times);
}

/// Keys that are refused before, between and after those that are added, which are added as if there
/// were no others; keys that are all refused; and no keys.
fn refused_between(maker: &mut Maker, players: u32) {
    let own = (players, 2, 2, 2);
    let [one, other, other_player, other_width, other_positions] = [
        (own, 1),
        (own, 1),
        (own, 0),
        ((players, 2, 2, 1), 1),
        ((players, 1, 2, 2), 1),
    ]
    .map(|(numbers, player)| key_of(maker, numbers, player));
    let mut wrong_marks = one.clone();
    wrong_marks[SHORT_HEADER] ^= 1;
    let cut = &other[..other.len() - 1];
    let tally = own_tally(board(own), 1);
    let both = run(maker, tally, &[&one, &other], &[]);
    let keys: [&[u8]; 8] = [
        &wrong_marks,
        &one,
        &other_player,
        &other_width,
        cut,
        &other,
        &[],
        &other_positions,
    ];
    let numbers = [(1, 13), (3, 23), (4, 23), (5, 12), (7, 10), (8, 23)];
    assert_eq!(run(maker, tally, &keys, &numbers), both);
    let zeros = vec![0; both.len()];
    let keys = [cut, &other_width];
    assert_eq!(run(maker, tally, &keys, &[(1, 12), (2, 23)]), zeros);
    assert_eq!(run(maker, tally, &[], &[]), zeros);
}

/// Tallies that are not made, with a key and without.
fn not_made(maker: &mut Maker) {
    let numbers = (3, 2, 2, 2);
    let key = key_of(maker, numbers, 2);
    let right = own_tally(board(numbers), 2);
    let exact = table_bytes(right);
    let (players, positions, value_width) = (7, 65_537, 17);
    for keys in [&[&key[..]][..], &[]] {
        for (refusal, tally, lent) in [
            (1, Tally { players, ..right }, exact),
            (2, Tally { positions, ..right }, exact),
            (
                4,
                Tally {
                    value_width,
                    ..right
                },
                exact,
            ),
            (11, Tally { player: 3, ..right }, exact),
            (9, right, exact - 1),
            (9, right, 0),
        ] {
            maker.add(refusal, run_call(tally, keys, lent));
        }
    }
}

/// The table of the most positions.
fn largest(maker: &mut Maker) {
    let key = key_of(maker, LARGEST, 1);
    run(maker, own_tally(board(LARGEST), 1), &[&key], &[]);
}
