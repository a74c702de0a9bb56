//! Random dealings join to the value at the point and zeros elsewhere, and a square opened
//! alone is the table's entry.

use reference::board::Board;
use reference::draw::{Drawn, Generator};
use reference::join::{join_keys, join_shares};
use reference::key::{check_key, key_length};
use reference::open::{open_all, open_one};

/// Boards (N, μ): N 1; short last grid rows; full ones; μ above N; μ 1; 256 grid rows.
const GRIDS: [(u32, u32); 12] = [
    (1, 1),
    (1, 7),
    (2, 2),
    (5, 2),
    (6, 4),
    (7, 3),
    (9, 3),
    (10, 256),
    (72, 24),
    (72, 17),
    (256, 1),
    (300, 128),
];

fn check_dealing(drawn: &Drawn) {
    let board = drawn.board;
    let keys = drawn.keys();
    let (players, width) = (board.players as u32, board.value_width as u32);
    let mut tables = Vec::new();
    for (player, key) in keys.iter().enumerate() {
        let header = check_key(key).unwrap();
        assert_eq!(header.player, player as u32);
        assert_eq!(
            Ok(key.len() as u32),
            key_length(
                players,
                board.positions as u32,
                board.grid_width as u32,
                width
            )
        );
        let mut table = vec![0xEE; board.table_bytes()];
        open_all(key, &mut table).unwrap();
        tables.push(table);
    }
    let mut joined = vec![0xEE; board.table_bytes()];
    join_keys(&keys.concat(), &mut joined).unwrap();
    assert_eq!(joined, drawn.joined_table());
    // Some squares alone, the point among them, and their shares joined.
    for position in [0, drawn.point as usize, board.positions - 1] {
        let entry = position * board.value_width..(position + 1) * board.value_width;
        let mut shares = Vec::new();
        for (key, table) in keys.iter().zip(&tables) {
            let mut share = vec![0xEE; board.value_width];
            open_one(key, position as u32, &mut share).unwrap();
            assert_eq!(share, table[entry.clone()]);
            shares.extend(share);
        }
        let mut value = vec![0xEE; board.value_width];
        join_shares(players, width, &shares, &mut value).unwrap();
        assert_eq!(value, joined[entry]);
    }
}

fn check_players(players: u32) {
    let mut generator = Generator::new(1000 + u64::from(players));
    for (positions, grid_width) in GRIDS {
        for value_width in [1, 5, 16] {
            let board = Board::new(players, positions, grid_width, value_width).unwrap();
            let last = board.positions - 1;
            check_dealing(&Drawn::new(board, &mut generator));
            check_dealing(&Drawn::at(board, last, &mut generator));
            let mut zero = Drawn::at(board, 0, &mut generator);
            zero.value.fill(0);
            check_dealing(&zero);
        }
    }
}

#[test]
fn two_players() {
    check_players(2);
}

#[test]
fn three_players() {
    check_players(3);
}

#[test]
fn four_players() {
    check_players(4);
}

#[test]
fn five_players() {
    check_players(5);
}

#[test]
fn six_players() {
    check_players(6);
}

/// Every point of a board with a short last grid row.
#[test]
fn every_point() {
    let mut generator = Generator::new(2000);
    for players in 2..=6 {
        let board = Board::new(players, 11, 4, 2).unwrap();
        for point in 0..11 {
            check_dealing(&Drawn::at(board, point, &mut generator));
        }
    }
}

/// 65,536 positions in 256 grid rows, for two players and for six.
#[test]
fn the_largest_grids() {
    let mut generator = Generator::new(3000);
    for (players, value_width) in [(2, 16), (6, 1)] {
        let board = Board::new(players, 65_536, 256, value_width).unwrap();
        assert_eq!(board.grid_rows(), 256);
        check_dealing(&Drawn::new(board, &mut generator));
    }
}

/// Without one player the others' shares are noise at the point: no p − 1 keys join to the
/// value (but for chance, and these draws are fixed).
#[test]
fn one_key_missing_hides_the_value() {
    let mut generator = Generator::new(4000);
    for players in 2..=6 {
        let board = Board::new(players, 12, 4, 16).unwrap();
        let drawn = Drawn::new(board, &mut generator);
        let keys = drawn.keys();
        for missing in 0..keys.len() {
            let mut joined = vec![0; board.table_bytes()];
            for (player, key) in keys.iter().enumerate() {
                let mut table = vec![0; board.table_bytes()];
                open_all(key, &mut table).unwrap();
                if player != missing {
                    joined.iter_mut().zip(table).for_each(|(a, b)| *a ^= b);
                }
            }
            for entry in joined.chunks(16) {
                assert_ne!(entry, drawn.value);
                assert_ne!(entry, [0; 16]);
            }
        }
    }
}
