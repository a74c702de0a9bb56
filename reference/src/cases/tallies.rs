//! Tallies, as document 02 asks: made, added to, looked up and totalled for every p and every player,
//! with tables that are exact and longer, and all numbers in their order. Calls with one key and table
//! stand together, so that the file has them once.

use super::cards::one_share_key;
use super::damaged::key_faults;
use super::{board, numbers_call, Maker};
use crate::board::{Board, FEWEST_PLAYERS, MOST_PLAYERS, MOST_POSITIONS};
use crate::data::{Call, TALLY_ADD, TALLY_LOOK_UP, TALLY_MAKE, TALLY_TOTAL};
use crate::draw::Drawn;
use crate::key::{check_key, header_of};
use crate::tally::Tally;

/// N and w of tallies that are made, looked up and totalled: as many as there are p and players, each
/// with one of them.
const SHAPES: [(u32, u32); 20] = [
    (1, 1),
    (1, 2),
    (1, 5),
    (1, 16),
    (2, 1),
    (2, 2),
    (2, 4),
    (2, 16),
    (3, 1),
    (3, 2),
    (3, 5),
    (3, 16),
    (4, 2),
    (16, 1),
    (72, 1),
    (72, 5),
    (255, 2),
    (256, 1),
    (257, 1),
    (257, 5),
];

/// The boards (p, N, μ, w) whose keys are added, one for each player of each p.
const ADDED: [(u32, u32, u32, u32); 20] = [
    (2, 257, 64, 5),
    (2, 72, 24, 16),
    (3, 256, 64, 1),
    (3, 255, 32, 2),
    (3, 2, 2, 5),
    (4, 72, 36, 1),
    (4, 1, 1, 16),
    (4, 3, 2, 5),
    (4, 3, 3, 16),
    (5, 1, 1, 1),
    (5, 2, 1, 16),
    (5, 3, 2, 2),
    (5, 16, 16, 1),
    (5, 5, 3, 1),
    (6, 1, 2, 5),
    (6, 2, 2, 2),
    (6, 3, 2, 1),
    (6, 16, 16, 1),
    (6, 2, 3, 16),
    (6, 7, 4, 1),
];

/// The header of a board whose numbers are all below 128.
pub const SHORT_HEADER: usize = 5;
/// Keys below this length are stored again for another table.
const SHORT_KEY: usize = 400;

/// The longest table that is lent where a number is wrong.
const MOST_LENT: usize = 65_550;
/// A table that is long enough for w 17 and 18, where N is 2.
const LONG_TABLE: usize = 2 * 18;

pub fn add(maker: &mut Maker) {
    for (turn, tally) in tallies(0).into_iter().enumerate() {
        made(maker, tally, turn);
    }
    for (turn, tally) in tallies(7).into_iter().enumerate() {
        read(maker, tally, turn);
    }
    for (turn, numbers) in ADDED.into_iter().enumerate() {
        let player = tallies(0)[turn].player as usize;
        let key = key_of(maker, numbers, player);
        added(maker, &key, turn);
    }
    undealt(maker);
    totals(maker);
    one_table(maker);
    positions(maker);
    tables(maker);
    for short in [false, true] {
        wrong_made(maker, short);
        wrong_added(maker, short);
        wrong_read(maker, short);
    }
    wrong_keys(maker);
    for players in FEWEST_PLAYERS..=MOST_PLAYERS {
        differing(maker, players);
    }
    exchanged(maker);
}

/// N × w.
pub fn table_bytes(tally: Tally) -> usize {
    (tally.positions * tally.value_width) as usize
}

/// A call that has a tally's numbers and one more.
pub fn tally_call(operation: u8, tally: Tally, fifth: u32) -> Call {
    let numbers = [
        tally.players,
        tally.player,
        tally.positions,
        tally.value_width,
        fifth,
    ];
    numbers_call(operation, &numbers)
}

/// A call of Make.
fn make_call(tally: Tally, lent: usize) -> Call {
    Call {
        lent,
        ..tally_call(TALLY_MAKE, tally, 0)
    }
}

/// A call of Add, whose table has so many bytes more than those that stand there.
fn add_call(tally: Tally, key: &[u8], table: &[u8], more: usize) -> Call {
    let mut call = tally_call(TALLY_ADD, tally, 0);
    call.inputs[0] = key.to_vec();
    call.inputs[1] = table.to_vec();
    call.lent = table.len() + more;
    call
}

/// A call of Look up.
pub fn look_up_call(tally: Tally, table: &[u8], position: u32, lent: usize) -> Call {
    let mut call = tally_call(TALLY_LOOK_UP, tally, position);
    call.inputs[0] = table.to_vec();
    call.lent = lent;
    call
}

/// A call of Total.
pub fn total_call(tally: Tally, table: &[u8], lent: usize) -> Call {
    let mut call = tally_call(TALLY_TOTAL, tally, 0);
    call.inputs[0] = table.to_vec();
    call.lent = lent;
    call
}

/// A tally for every p and every player, with the shapes from one of them on.
fn tallies(first: usize) -> Vec<Tally> {
    let every = (FEWEST_PLAYERS..=MOST_PLAYERS)
        .flat_map(|players| (0..players).map(move |player| (players, player)));
    let shapes = SHAPES.iter().cycle().skip(first);
    let tally = |((players, player), &(positions, value_width))| Tally {
        players,
        player,
        positions,
        value_width,
    };
    every.zip(shapes).map(tally).collect()
}

/// How many bytes a table has past N × w, by turns: none, one, an entry, and some more.
fn bytes_past(tally: Tally, turn: usize) -> usize {
    let entry = tally.value_width as usize;
    [0, 1, entry, entry + 7][turn % 4]
}

/// A drawn table with these.
fn drawn_table(maker: &mut Maker, tally: Tally, turn: usize) -> Vec<u8> {
    let length = table_bytes(tally) + bytes_past(tally, turn);
    maker.generator.bytes(length)
}

/// A tally's table that is exact and one that is longer, and 9 for one a byte short.
fn made(maker: &mut Maker, tally: Tally, turn: usize) {
    let exact = table_bytes(tally);
    let past = bytes_past(tally, turn % 3 + 1);
    maker.add(0, make_call(tally, exact + turn % 2 * past));
    maker.add(0, make_call(tally, exact + past + 1));
    maker.add(9, make_call(tally, exact - 1));
}

/// Entries and the total of a drawn table, exact and longer outputs by turns; 14 and 9.
fn read(maker: &mut Maker, tally: Tally, turn: usize) {
    let table = drawn_table(maker, tally, turn);
    let (positions, width) = (tally.positions, tally.value_width as usize);
    let spare = turn % 2 * 3;
    let call = |position, lent| look_up_call(tally, &table, position, lent);
    maker.add(0, call(0, width + spare));
    maker.add(0, call(positions - 1, width));
    let between = maker.generator.below(positions as usize) as u32;
    maker.add(0, call(between, width + 3 - spare));
    maker.add(9, call(positions - 1, width - 1));
    for lent in [width, 0] {
        maker.add(14, call(positions, lent));
    }
    maker.add(0, total_call(tally, &table, width + spare));
    maker.add(9, total_call(tally, &table, width - 1));
}

/// A key added to a drawn table, with bytes past N × w by turns, and lent more by turns; 9 for a table
/// that is a byte short or empty, where the key is short.
fn added(maker: &mut Maker, key: &[u8], turn: usize) {
    let tally = Tally::of(&check_key(key).expect("an accepted key"));
    let exact = table_bytes(tally);
    let table = drawn_table(maker, tally, turn);
    maker.add(0, add_call(tally, key, &table, turn / 2 % 2 * 5));
    if key.len() < SHORT_KEY {
        let stood = turn % 2 * (exact - 1);
        maker.add(9, add_call(tally, key, &table[..stood], 0));
    }
}

/// Keys that nobody dealt: drawn ones, and those with one share at all positions.
fn undealt(maker: &mut Maker) {
    for players in FEWEST_PLAYERS..=MOST_PLAYERS {
        for (turn, (positions, width, value_width)) in
            [(1, 1, 2), (5, 3, 1), (4, 5, 5)].into_iter().enumerate()
        {
            let board = board((players, positions, width, value_width));
            let player = maker.generator.below(board.players);
            let key = maker.generator.key(&board, player);
            added(maker, &key, turn);
        }
    }
    // Two players hold a single seed in each grid row, with which no row cancels.
    for players in FEWEST_PLAYERS + 1..=MOST_PLAYERS {
        for share in [0x00, 0xFF] {
            let key = one_share_key(maker, board((players, 3, 3, 2)), share);
            added(maker, &key, 1);
        }
    }
}

/// Totals of tables with a single entry that is not zeros, the first, the last or one between, and with
/// zeros where only the bytes past N × w are none; of equal entries, an even count and an odd one.
fn totals(maker: &mut Maker) {
    for (turn, (positions, value_width)) in [(2, 1), (3, 2), (5, 5), (72, 1), (4, 16), (257, 2)]
        .into_iter()
        .enumerate()
    {
        let players = FEWEST_PLAYERS + turn as u32 % 5;
        let tally = Tally {
            players,
            player: maker.generator.below(players as usize) as u32,
            positions,
            value_width,
        };
        let (exact, width) = (table_bytes(tally), value_width as usize);
        let entry = maker.generator.bytes(width);
        let past = maker.generator.bytes(width + 1);
        for place in [0, positions as usize - 1, positions as usize / 2] {
            let mut table = vec![0; exact];
            table[place * width..][..width].copy_from_slice(&entry);
            table.extend(&past);
            let answer = maker.add(0, total_call(tally, &table, width));
            assert_eq!(answer.bytes, entry);
        }
        let nothing = [vec![0; exact], past].concat();
        let answer = maker.add(0, total_call(tally, &nothing, width + 1));
        assert_eq!(answer.bytes, vec![0; width]);
        maker.add(
            0,
            total_call(tally, &entry.repeat(positions as usize), width),
        );
    }
}

/// The same bytes as tables of many shapes.
fn one_table(maker: &mut Maker) {
    let table = maker.generator.bytes(5_000);
    for (positions, value_width) in [(5_000, 1), (4_999, 1), (2_500, 2), (1_000, 5), (312, 16)] {
        let tally = Tally {
            players: 2,
            player: 1,
            positions,
            value_width,
        };
        let width = value_width as usize;
        for position in [0, 255, 256, positions - 1] {
            maker.add(0, look_up_call(tally, &table, position, width));
        }
        maker.add(14, look_up_call(tally, &table, positions, width));
        maker.add(0, total_call(tally, &table, width));
    }
}

/// Positions at and above N, with an output and without, on a table that has bytes there, and such that
/// are below N modulo 2^8 or 2^16, or whose entry's place is modulo 2^32; then 9 for all outputs that
/// are too short.
fn positions(maker: &mut Maker) {
    for (positions, value_width) in [(3, 1), (3, 2), (2, 16)] {
        let tally = Tally {
            players: 5,
            player: 4,
            positions,
            value_width,
        };
        let (exact, width) = (table_bytes(tally), value_width as usize);
        let table = maker.generator.bytes(exact + 3 * width);
        for position in [
            positions,
            positions + 1,
            256,
            65_536,
            1 << 28,
            1 << 31,
            u32::MAX,
        ] {
            for lent in [width + 1, width, width - 1, 0] {
                maker.add(14, look_up_call(tally, &table, position, lent));
            }
        }
        for lent in 0..width {
            maker.add(9, look_up_call(tally, &table, positions - 1, lent));
            maker.add(9, total_call(tally, &table, lent));
        }
        for position in 0..positions {
            maker.add(0, look_up_call(tally, &table, position, width));
        }
    }
}

/// 9 of the table, before all that comes after: a byte and an entry short, of one byte an entry, empty,
/// and as long as asked modulo 2^8 or 2^16. The key that is added is of another tally.
fn tables(maker: &mut Maker) {
    let key = key_of(maker, (3, 1, 1, 1), 2);
    for (positions, value_width, lengths) in [
        (3, 5, &[14, 10, 3, 0][..]),
        (257, 1, &[256, 1]),
        (20, 16, &[319, 64, 20]),
        (MOST_POSITIONS, 1, &[0]),
        (MOST_POSITIONS, 16, &[16, 0]),
        (4_096, 16, &[0]),
        (8_200, 8, &[64]),
    ] {
        let tally = Tally {
            players: 3,
            player: 2,
            positions,
            value_width,
        };
        for &length in lengths {
            let table = maker.generator.bytes(length);
            maker.add(9, make_call(tally, length));
            for (position, lent) in [(0, 16), (positions, 16), (positions, 0)] {
                maker.add(9, look_up_call(tally, &table, position, lent));
            }
            for lent in [16, 0] {
                maker.add(9, total_call(tally, &table, lent));
            }
            maker.add(9, add_call(tally, &key, &table, 0));
        }
        let too_short = MOST_POSITIONS as usize - 1;
        if table_bytes(tally) > too_short {
            maker.add(9, make_call(tally, too_short));
        }
    }
}

/// The tally whose numbers are made wrong.
const RIGHT: Tally = Tally {
    players: 3,
    player: 1,
    positions: 2,
    value_width: 2,
};

/// Every choice of 1, 2, 4 and 11 on a table that is 9 as well, or is not; and on one that is not each
/// of them for numbers at the ends of the ranges, right modulo 2^8, 2^16 or 2^31, and the largest.
fn wrong_tallies(short: bool) -> Vec<(u32, Tally)> {
    let mut wrong = Vec::new();
    for choice in 1..1u32 << 4 {
        let chosen = |bit: u32| choice >> bit & 1 == 1;
        let mut tally = RIGHT;
        if chosen(0) {
            tally.players = MOST_PLAYERS + 1;
        }
        if chosen(1) {
            tally.positions = if short { MOST_POSITIONS + 1 } else { 0 };
        }
        if chosen(2) {
            tally.value_width = if short { 17 } else { 0 };
        }
        if chosen(3) {
            tally.player = tally.players;
        }
        wrong.push(([1, 2, 4, 11][choice.trailing_zeros() as usize], tally));
    }
    if short {
        wrong.push((9, RIGHT));
        return wrong;
    }
    let modulo = |right: u32| [256, 65_536, 1 << 31].map(|above| above + right);
    for players in [0, 1, 7, u32::MAX].into_iter().chain(modulo(3)) {
        wrong.push((1, Tally { players, ..RIGHT }));
    }
    // One player, who is player 0.
    let (players, player) = (1, 0);
    wrong.push((
        1,
        Tally {
            players,
            player,
            ..RIGHT
        },
    ));
    for positions in [65_537, 65_538, 1 << 31, (1 << 31) + 2, u32::MAX] {
        wrong.push((2, Tally { positions, ..RIGHT }));
    }
    for value_width in [17, 18, u32::MAX].into_iter().chain(modulo(2)) {
        wrong.push((
            4,
            Tally {
                value_width,
                ..RIGHT
            },
        ));
    }
    for player in [4, 6, 255, u32::MAX].into_iter().chain(modulo(1)) {
        wrong.push((11, Tally { player, ..RIGHT }));
    }
    wrong
}

/// A table for these: a byte short, or long enough for some.
fn wrong_table(maker: &mut Maker, short: bool) -> Vec<u8> {
    let length = if short {
        table_bytes(RIGHT) - 1
    } else {
        LONG_TABLE
    };
    maker.generator.bytes(length)
}

/// Make with wrong numbers, N 65,537 also on a table that has as many bytes.
fn wrong_made(maker: &mut Maker, short: bool) {
    let lent = if short {
        table_bytes(RIGHT) - 1
    } else {
        MOST_LENT
    };
    for (refusal, tally) in wrong_tallies(short) {
        maker.add(refusal, make_call(tally, lent));
    }
    if !short {
        let too_many = Tally {
            positions: MOST_POSITIONS + 1,
            value_width: 1,
            ..RIGHT
        };
        maker.add(2, make_call(too_many, lent));
    }
}

/// Add with wrong numbers: with a key of the right tally, and with keys that Check key refuses by its
/// last number and by its first.
fn wrong_added(maker: &mut Maker, short: bool) {
    let key = key_of(maker, (3, 2, 2, 2), 1);
    let mut wrong_marks = key.clone();
    wrong_marks[SHORT_HEADER] ^= 1;
    let table = wrong_table(maker, short);
    for key in [&key[..], &wrong_marks, &[]] {
        for (refusal, tally) in wrong_tallies(short) {
            maker.add(refusal, add_call(tally, key, &table, 0));
        }
    }
    if !short {
        maker.add(13, add_call(RIGHT, &wrong_marks, &table, 0));
        maker.add(0, add_call(RIGHT, &key, &table, 0));
    }
}

/// Look up and Total with wrong numbers: with all else right, and with 14 and 9 as well.
fn wrong_read(maker: &mut Maker, short: bool) {
    let table = wrong_table(maker, short);
    for (refusal, tally) in wrong_tallies(short) {
        maker.add(refusal, look_up_call(tally, &table, 0, 16));
        maker.add(refusal, look_up_call(tally, &table, u32::MAX, 0));
        maker.add(refusal, total_call(tally, &table, 16));
        maker.add(refusal, total_call(tally, &table, 0));
    }
}

/// Check key's numbers: alone; with 23 as well, which comes after; and with 9 of the table or with 11
/// of the tally, which come before.
fn wrong_keys(maker: &mut Maker) {
    let board = board((2, 3, 2, 1));
    let key = key_of(maker, (2, 3, 2, 1), 1);
    let own = own_tally(board, 1);
    let (players, positions, value_width) = (3, 2, 2);
    let others = [
        Tally { players, ..own },
        Tally { player: 0, ..own },
        Tally { positions, ..own },
        Tally {
            value_width,
            positions,
            ..own
        },
    ];
    let table = maker.generator.bytes(table_bytes(own) + 2);
    for (turn, (refusal, wrong)) in key_faults(board, &key, 1).into_iter().enumerate() {
        for tally in [own, others[turn % 4]] {
            let differs = check_key(&wrong).is_ok_and(|header| Tally::of(&header) != tally);
            let refusal = if differs { 23 } else { refusal };
            maker.add(refusal, add_call(tally, &wrong, &table, turn % 2));
        }
        let no_player = Tally { player: 2, ..own };
        maker.add(11, add_call(no_player, &wrong, &table, 0));
        if turn % 4 == 0 {
            let stood = table_bytes(own) - 1;
            maker.add(9, add_call(own, &wrong, &table[..stood], 0));
        }
    }
}

/// The tally of a board's player.
pub fn own_tally(board: Board, player: usize) -> Tally {
    Tally::of(&header_of(&board, player))
}

/// One player's key of a drawn dealing.
pub fn key_of(maker: &mut Maker, numbers: (u32, u32, u32, u32), player: usize) -> Vec<u8> {
    Drawn::new(board(numbers), &mut maker.generator)
        .keys()
        .swap_remove(player)
}

/// 23 for keys of another p, player, N or w each alone, of another N and w with the same product, and
/// of others in all four; before it 9 of the table. Another μ is taken.
fn differing(maker: &mut Maker, players: u32) {
    let player = maker.generator.below(2);
    let tally = own_tally(board((players, 2, 2, 4)), player);
    let mut others = Vec::new();
    // In rings: the players before and after, and the p that have as many more or less.
    for away in [1, players - 1] {
        let other = (player + away as usize) % players as usize;
        others.push(key_of(maker, (players, 2, 2, 4), other));
    }
    for away in [1, 4] {
        let other = FEWEST_PLAYERS + (players - FEWEST_PLAYERS + away) % 5;
        others.push(key_of(maker, (other, 2, 2, 4), player));
        others.push(key_of(maker, (other, 1, 1, 1), 1 - player));
    }
    for (positions, value_width) in [(1, 4), (3, 4), (2, 3), (2, 5), (4, 2), (8, 1)] {
        let numbers = (players, positions, positions, value_width);
        others.push(key_of(maker, numbers, player));
    }
    let exact = table_bytes(tally);
    let table = maker.generator.bytes(exact + 4);
    for (turn, key) in others.iter().enumerate() {
        let stood = exact + turn % 2 * 4;
        maker.add(23, add_call(tally, key, &table[..stood], turn / 2 % 2 * 9));
        if key.len() < SHORT_KEY {
            maker.add(9, add_call(tally, key, &table[..exact - 1], 0));
        }
    }
    for width in [1, 3] {
        let key = key_of(maker, (players, 2, width, 4), player);
        maker.add(0, add_call(tally, &key, &table, 0));
    }
}

/// 23 both ways for boards (p, N, μ, w) that have something in common: N × w, N modulo 2^8, the length of
/// the key, all but w; each key is taken by its own tally.
fn exchanged(maker: &mut Maker) {
    for (one, other) in [
        ((2, 2, 2, 4), (2, 4, 2, 2)),
        ((3, 1, 1, 16), (3, 16, 4, 1)),
        ((4, 1, 1, 16), (4, 16, 8, 1)),
        ((2, 1, 1, 1), (2, 257, 32, 1)),
        ((3, 2, 2, 1), (3, 258, 32, 1)),
        ((2, 1, 2, 1), (2, 1, 1, 2)),
        ((2, 3, 3, 1), (2, 3, 1, 16)),
    ] {
        for (own, another) in [(one, other), (other, one)] {
            let tally = own_tally(board(own), 1);
            let table = maker.generator.bytes(table_bytes(tally) + 1);
            let key = key_of(maker, own, 1);
            maker.add(0, add_call(tally, &key, &table, 0));
            let key = key_of(maker, another, 1);
            maker.add(23, add_call(tally, &key, &table, 300));
        }
    }
}
