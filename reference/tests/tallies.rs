//! Tallies: "When since making each phone adds exactly its keys of the same accepted dealings, in any
//! order, and nothing else changes its tally's table or numbers, the joined entry at a position is the
//! XOR of all values hidden there. A key added twice cancels itself."

use reference::board::Board;
use reference::draw::{Drawn, Generator};
use reference::join::join_shares;
use reference::key::{check_key, header_of};
use reference::open::open_all;
use reference::tally::{add, look_up, make, total, Tally};

/// N, w and the μ of an evening's hunts.
const EVENINGS: [(u32, u32, &[u32]); 6] = [
    (1, 1, &[1, 2, 256]),
    (2, 16, &[1, 2, 3, 2]),
    (13, 5, &[5, 13, 4, 256, 1]),
    (72, 1, &[36, 24, 12, 72, 36, 7]),
    (256, 2, &[16, 255, 256]),
    (300, 3, &[20, 256]),
];

/// What stands past N × w.
const PAST: [u8; 3] = [0xA5, 0x5A, 0xC3];

fn tally(players: u32, player: u32, positions: u32, value_width: u32) -> Tally {
    Tally {
        players,
        player,
        positions,
        value_width,
    }
}

/// The tally that takes a key.
fn tally_of(key: &[u8]) -> Tally {
    Tally::of(&check_key(key).unwrap())
}

/// A made table with three bytes past its own.
fn made(tally: Tally) -> Vec<u8> {
    let exact = (tally.positions * tally.value_width) as usize;
    let mut table = [&vec![0xEE; exact][..], &PAST].concat();
    assert_eq!(make(tally, &mut table), Ok(()));
    assert_eq!(table, [&vec![0; exact][..], &PAST].concat());
    table
}

/// The table after these keys are added to a new tally, without the bytes past its own.
fn table_of(tally: Tally, keys: &[&[u8]]) -> Vec<u8> {
    let mut table = made(tally);
    for key in keys {
        assert_eq!(add(tally, key, &mut table), Ok(()));
    }
    assert_eq!(table.split_off(table.len() - PAST.len()), PAST);
    table
}

fn entry(tally: Tally, table: &[u8], position: u32) -> Vec<u8> {
    let mut output = vec![0xEE; tally.value_width as usize];
    assert_eq!(look_up(tally, table, position, &mut output), Ok(()));
    output
}

fn total_of(tally: Tally, table: &[u8]) -> Vec<u8> {
    let mut output = vec![0xEE; tally.value_width as usize];
    assert_eq!(total(tally, table, &mut output), Ok(()));
    output
}

fn xor<'a>(length: usize, strings: impl Iterator<Item = &'a [u8]>) -> Vec<u8> {
    strings.fold(vec![0; length], |sum, string| {
        assert_eq!(string.len(), length);
        sum.iter().zip(string).map(|(a, b)| a ^ b).collect()
    })
}

/// Three entries of two bytes and one byte past them, by hand.
#[test]
fn entries_and_total_by_hand() {
    let tally = tally(2, 1, 3, 2);
    let table = [0x01, 0x02, 0x03, 0x04, 0x08, 0x10, 0xFF];
    for (position, bytes) in (0..).zip([[0x01, 0x02], [0x03, 0x04], [0x08, 0x10]]) {
        assert_eq!(entry(tally, &table, position), bytes);
    }
    assert_eq!(total_of(tally, &table), [0x0A, 0x16]);
    let mut output = [0xEE; 4];
    assert_eq!(total(tally, &table, &mut output), Ok(()));
    assert_eq!(output, [0x0A, 0x16, 0xEE, 0xEE]);
    assert_eq!(look_up(tally, &table, 1, &mut output), Ok(()));
    assert_eq!(output, [0x03, 0x04, 0xEE, 0xEE]);
}

/// Keys of three players with equal seeds, whose rows cancel: the share is the XOR of the words of the
/// two marked columns.
#[test]
fn keys_added_by_hand() {
    let words = [[0x12, 0x34], [0x01, 0x02], [0x80, 0xF0], [0x55, 0xAA]].concat();
    let key_of = |marks: u8| [&[3, 1, 2, 2, 1, marks][..], &[7; 64], &words].concat();
    let tally = tally(3, 1, 2, 1);
    let mut table = [0xEE, 0xEE, 0xEE];
    assert_eq!(make(tally, &mut table), Ok(()));
    assert_eq!(table, [0x00, 0x00, 0xEE]);
    assert_eq!(add(tally, &key_of(0b0011), &mut table), Ok(()));
    assert_eq!(table, [0x13, 0x36, 0xEE]);
    assert_eq!(add(tally, &key_of(0b1100), &mut table), Ok(()));
    assert_eq!(table, [0xC6, 0x6C, 0xEE]);
    assert_eq!(total_of(tally, &table), [0xAA]);
    assert_eq!(add(tally, &key_of(0b0011), &mut table), Ok(()));
    assert_eq!(table, [0xD5, 0x5A, 0xEE]);
    // Player 0's tally and three positions' refuse it, and another μ is taken.
    let other_player = Tally { player: 0, ..tally };
    assert_eq!(add(other_player, &key_of(0b0011), &mut table), Err(23));
    let more = Tally {
        positions: 3,
        ..tally
    };
    assert_eq!(add(more, &key_of(0b0011), &mut table), Err(23));
    assert_eq!(table, [0xD5, 0x5A, 0xEE]);
    let wider = [3, 1, 2, 3, 1, 0b1001];
    let words = [[0x11, 0x22, 0x33], [0; 3], [0xFF; 3], [0x44, 0x55, 0x66]];
    let wider = [&wider[..], &[9; 64], &words.concat()].concat();
    assert_eq!(add(tally, &wider, &mut table), Ok(()));
    assert_eq!(table, [0xD5 ^ 0x55, 0x5A ^ 0x77, 0xEE]);
}

/// Hunts of an evening: some are drawn on the first one's square, and some have the value zero.
fn hunts(players: u32, place: usize, generator: &mut Generator) -> Vec<Drawn> {
    let (positions, value_width, widths) = EVENINGS[place];
    let mut hunts: Vec<Drawn> = Vec::new();
    for (turn, &width) in widths.iter().enumerate() {
        let board = Board::new(players, positions, width, value_width).unwrap();
        let mut hunt = match turn {
            1 => Drawn::at(board, hunts[0].point as usize, generator),
            _ => Drawn::new(board, generator),
        };
        if turn == 2 {
            hunt.value.fill(0);
        }
        hunts.push(hunt);
    }
    hunts
}

/// Every phone has an order of its own.
#[test]
fn joined_entries_are_the_values_hidden_there() {
    let mut generator = Generator::new(11_000);
    for (players, place) in (2..=6).flat_map(|p| (0..EVENINGS.len()).map(move |place| (p, place))) {
        let (positions, value_width, _) = EVENINGS[place];
        let hunts = hunts(players, place, &mut generator);
        let mut tallies = Vec::new();
        for player in 0..players {
            let mut keys: Vec<Vec<u8>> = hunts
                .iter()
                .map(|hunt| hunt.keys().swap_remove(player as usize))
                .collect();
            generator.shuffle(&mut keys);
            let keys: Vec<&[u8]> = keys.iter().map(Vec::as_slice).collect();
            let tally = tally(players, player, positions, value_width);
            tallies.push((tally, table_of(tally, &keys)));
        }
        let width = value_width as usize;
        let joined = |shares: Vec<Vec<u8>>| {
            let mut output = vec![0xEE; width];
            let answer = join_shares(players, value_width, &shares.concat(), &mut output);
            assert_eq!(answer, Ok(()));
            output
        };
        for position in 0..positions {
            let there = hunts.iter().filter(|hunt| hunt.point == position);
            let hidden = xor(width, there.map(|hunt| &hunt.value[..]));
            let entries = tallies
                .iter()
                .map(|(tally, table)| entry(*tally, table, position));
            assert_eq!(joined(entries.collect()), hidden);
        }
        let hidden = xor(width, hunts.iter().map(|hunt| &hunt.value[..]));
        let totals = tallies.iter().map(|(tally, table)| total_of(*tally, table));
        assert_eq!(joined(totals.collect()), hidden);
    }
}

/// All orders of four keys, of keys that nobody dealt among them, give the XOR of their full tables.
#[test]
fn any_order_gives_the_same_table() {
    let mut generator = Generator::new(12_000);
    for players in 2..=6 {
        let keys = [3, 1, 7, 2].map(|width| {
            let board = Board::new(players, 7, width, 2).unwrap();
            match width {
                1 => generator.key(&board, 1),
                _ => Drawn::new(board, &mut generator).keys().swap_remove(1),
            }
        });
        let tally = tally(players, 1, 7, 2);
        let tables = keys.each_ref().map(|key| {
            let mut table = vec![0; 14];
            assert_eq!(open_all(key, &mut table), Ok(()));
            table
        });
        let whole = xor(14, tables.iter().map(Vec::as_slice));
        for order in 0..4 * 4 * 4 * 4 {
            let places = [order % 4, order / 4 % 4, order / 16 % 4, order / 64];
            let order = places.map(|place| &keys[place][..]);
            let added = table_of(tally, &order);
            let expected = xor(14, places.iter().map(|&place| &tables[place][..]));
            assert_eq!(added, expected);
            if (0..4).all(|place| places.contains(&place)) {
                assert_eq!(added, whole);
            }
        }
    }
}

/// An even number of additions is none, wherever they stand; and adding undoes itself on any table.
#[test]
fn a_key_added_twice_cancels_itself() {
    let mut generator = Generator::new(13_000);
    for players in 2..=6 {
        let board = Board::new(players, 20, 6, 3).unwrap();
        for player in 0..board.players {
            let [one, other] = [(), ()].map(|()| {
                let drawn = Drawn::new(board, &mut generator);
                drawn.keys().swap_remove(player)
            });
            let tally = Tally::of(&header_of(&board, player));
            assert_eq!(tally, tally_of(&one));
            let (once, zeros) = (table_of(tally, &[&one]), vec![0; 60]);
            assert_ne!(once, zeros);
            assert_eq!(table_of(tally, &[&one, &one]), zeros);
            assert_eq!(table_of(tally, &[&one, &one, &one]), once);
            assert_eq!(table_of(tally, &[&other, &one, &other]), once);
            assert_eq!(table_of(tally, &[&one, &other, &one, &other]), zeros);
            let before = generator.bytes(64);
            let mut table = before.clone();
            for _ in 0..2 {
                assert_eq!(add(tally, &one, &mut table), Ok(()));
                assert_eq!(table[60..], before[60..]);
                assert_eq!(add(tally, &one, &mut table), Ok(()));
                assert_eq!(table, before);
            }
        }
    }
}

/// Refused keys change nothing, so the run is that of the others.
#[test]
fn refused_keys_change_nothing() {
    let mut generator = Generator::new(14_000);
    for players in 2..=6 {
        let board = Board::new(players, 9, 4, 2).unwrap();
        let keys = [(), (), ()].map(|()| Drawn::new(board, &mut generator).keys());
        let tally = Tally::of(&header_of(&board, 1));
        let mut table = made(tally);
        for dealt in &keys {
            for (player, key) in dealt.iter().enumerate() {
                let expected = if player == 1 { Ok(()) } else { Err(23) };
                let before = table.clone();
                assert_eq!(add(tally, key, &mut table), expected);
                assert_eq!(table == before, player != 1);
            }
            let before = table.clone();
            for place in 0..dealt[1].len() {
                let mut wrong = dealt[1].clone();
                wrong.truncate(place);
                assert!(add(tally, &wrong, &mut table).is_err());
            }
            assert_eq!(table, before);
        }
        let own = keys.each_ref().map(|dealt| &dealt[1][..]);
        assert_eq!(table_of(tally, &own), table[..18]);
    }
}

/// The largest tables: 65,536 entries of one byte and of sixteen.
#[test]
fn the_largest_tables() {
    let mut generator = Generator::new(15_000);
    for value_width in [1, 16] {
        let board = Board::new(2, 65_536, 256, value_width).unwrap();
        let key = Drawn::new(board, &mut generator).keys().swap_remove(0);
        let tally = tally(2, 0, 65_536, value_width);
        let table = table_of(tally, &[&key]);
        let mut full = vec![0; board.table_bytes()];
        assert_eq!(open_all(&key, &mut full), Ok(()));
        assert_eq!(table, full);
        let width = value_width as usize;
        assert_eq!(entry(tally, &table, 65_535), full[65_535 * width..]);
        assert_eq!(look_up(tally, &table, 65_536, &mut [0; 16]), Err(14));
        assert_eq!(total_of(tally, &table), xor(width, full.chunks(width)));
        let short = &table[1..];
        assert_eq!(total(tally, short, &mut [0; 16]), Err(9));
        assert_eq!(make(tally, &mut short.to_vec()), Err(9));
    }
}
