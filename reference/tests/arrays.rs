//! Document 02, "Which array is bad": 18, 19 and 20 "with the grid row and column of the first
//! fault, scanning row by row and column by column", on all small arrays and on drawn ones.

use reference::board::Board;
use reference::deal::{array_fault, column_fault, deal, first_fault, Dealing, Place, Refused};
use reference::draw::{Drawn, Generator};
use std::collections::BTreeSet;

const EVEN: u32 = 0;
const ODD: u32 = 1;

/// Bytes with and without a bit at p or above, for two and three players.
const SOME: [u8; 12] = [0, 1, 2, 3, 4, 5, 6, 7, 8, 0x80, 0xC0, 0xFF];

/// Every number that fits at every place, in whatever order: grid row, column, number.
fn all_faults(players: usize, piece_row: usize, arrays: &[Vec<u8>]) -> BTreeSet<(u32, u32, u32)> {
    let mut faults = BTreeSet::new();
    for number in [20, 19, 18] {
        for (row, array) in arrays.iter().enumerate() {
            for (column, &bits) in array.iter().enumerate() {
                let mut ones = 0;
                for bit in 0..8 {
                    ones += u32::from(bits & 1 << bit != 0);
                }
                let even = ones % 2 == 0;
                let fits = match number {
                    18 => usize::from(bits) >= 1 << players,
                    19 => even == (row == piece_row),
                    _ => array.iter().position(|&other| other == bits) != Some(column),
                };
                if fits {
                    faults.insert((row as u32, column as u32, number));
                }
            }
        }
    }
    faults
}

/// The least of all faults, by place and then by number.
fn least_fault(players: usize, piece_row: usize, arrays: &[Vec<u8>]) -> Option<Refused> {
    let faults = all_faults(players, piece_row, arrays);
    faults.first().map(|&(grid_row, column, number)| Refused {
        number,
        place: Some(Place { grid_row, column }),
    })
}

/// All lists of `length` bytes from some.
fn all_lists(bytes: &[u8], length: usize) -> Vec<Vec<u8>> {
    let mut lists = vec![Vec::new()];
    for _ in 0..length {
        lists = lists
            .into_iter()
            .flat_map(|list: Vec<u8>| bytes.iter().map(move |&byte| [&list[..], &[byte]].concat()))
            .collect();
    }
    lists
}

/// One array by itself: its first fault, and none exactly when it "holds every column of p bits"
/// of its parity "exactly once".
fn check_array(players: usize, ones: u32, array: &[u8]) {
    let piece_row = if ones == ODD { 0 } else { 1 };
    let fault = array_fault(players, ones, array);
    let least = least_fault(players, piece_row, &[array.to_vec()]);
    let found = least.map(|refused| (refused.number, refused.place.unwrap().column as usize));
    assert_eq!(fault, found, "{players} players, {ones} ones, {array:?}");
    let holds_each_once = (0..1 << players).all(|column: u8| {
        let times = array.iter().filter(|&&bits| bits == column).count();
        times == usize::from(column.count_ones() % 2 == ones)
    });
    let whole = holds_each_once && array.len() == 1 << (players - 1);
    assert_eq!(
        fault.is_none(),
        whole,
        "{players} players, {ones} ones, {array:?}"
    );
}

/// All 65,536 arrays of two players.
#[test]
fn every_array_of_two_players() {
    let bytes: Vec<u8> = (0..=255).collect();
    for array in all_lists(&bytes, 2) {
        check_array(2, EVEN, &array);
        check_array(2, ODD, &array);
    }
}

#[test]
fn many_arrays_of_three_players() {
    for array in all_lists(&SOME, 4) {
        check_array(3, EVEN, &array);
        check_array(3, ODD, &array);
    }
}

/// Deal itself, on a lent output that must stay as it is.
fn dealt(drawn: &Drawn, arrays: &[u8]) -> Result<(), Refused> {
    let dealing = Dealing {
        arrays,
        ..drawn.dealing()
    };
    let mut output = vec![0xC3; drawn.keys().concat().len()];
    let answer = deal(&dealing, &mut output);
    if answer.is_err() {
        assert!(output.iter().all(|&byte| byte == 0xC3));
    }
    answer
}

/// Two grid rows of two players: all arrays of some bytes, with the point in the one and in the
/// other.
#[test]
fn two_arrays_of_two_players() {
    let board = Board::new(2, 2, 1, 1).unwrap();
    for point in [0, 1] {
        let drawn = Drawn::at(board, point, &mut Generator::new(80));
        let mut accepted = 0;
        for arrays in all_lists(&SOME, 4) {
            let rows: Vec<Vec<u8>> = arrays.chunks(2).map(<[u8]>::to_vec).collect();
            let least = least_fault(2, point, &rows);
            assert_eq!(dealt(&drawn, &arrays).err(), least, "{arrays:?}");
            accepted += usize::from(least.is_none());
        }
        // Two orders of each array.
        assert_eq!(accepted, 4);
    }
}

/// Drawn arrays of every p, mostly right, with up to four columns changed.
#[test]
fn changed_arrays_of_all_players() {
    let mut generator = Generator::new(81);
    let mut met = BTreeSet::new();
    for round in 0..20_000 {
        let players = 2 + round % 5;
        let board = Board::new(players as u32, 5, 2, 1).unwrap();
        let point = generator.below(5);
        let piece_row = board.grid_row_of(point);
        let mut rows: Vec<Vec<u8>> = (0..3)
            .map(|row| generator.array(players, u32::from(row == piece_row)))
            .collect();
        for _ in 0..generator.below(5) {
            let row = generator.below(3);
            let [column, other] = [0, 1].map(|_| generator.below(board.columns()));
            rows[row][column] = match generator.below(4) {
                0 => generator.number() as u8,
                1 => rows[row][column] ^ 1 << generator.below(8),
                _ => rows[row][other],
            };
        }
        let least = least_fault(players, piece_row, &rows);
        let found = first_fault(&board, piece_row, &rows.concat());
        assert_eq!(found, least, "{players} players, point {point}, {rows:?}");
        met.insert((players, least.map_or(0, |refused| refused.number)));
    }
    // Every p gave every answer.
    assert_eq!(met.len(), 5 * 4);
}

/// "scanning row by row and column by column": what comes first by its place is given, also where
/// a smaller number fits later.
#[test]
fn the_first_place_is_given() {
    let first = |arrays: &[u8], point: usize| {
        let board = Board::new(3, arrays.len() as u32 / 4, 1, 1).unwrap();
        let drawn = Drawn::at(board, point, &mut Generator::new(82));
        let refused = dealt(&drawn, arrays).unwrap_err();
        let place = refused.place.unwrap();
        (refused.number, place.grid_row, place.column)
    };
    // 18 at column 1, before 20 at column 2.
    assert_eq!(first(&[1, 8, 1, 2], 0), (18, 0, 1));
    // 20 at column 2, before 18 at column 3.
    assert_eq!(first(&[1, 2, 1, 8], 0), (20, 0, 2));
    // 19 before 18, and before 20, in one array.
    assert_eq!(first(&[1, 3, 8, 1], 0), (19, 0, 1));
    // A smaller number in a later array.
    assert_eq!(first(&[0, 3, 5, 0, 1, 8, 4, 7], 1), (20, 0, 3));
    assert_eq!(first(&[1, 2, 4, 6, 8, 3, 5, 6], 0), (19, 0, 3));
    assert_eq!(first(&[0, 3, 5, 5, 0, 2, 4, 7], 1), (20, 0, 3));
    // The second array alone.
    assert_eq!(first(&[0, 3, 5, 6, 0xFF, 2, 4, 7], 1), (18, 1, 0));
    assert_eq!(first(&[0, 3, 5, 6, 1, 2, 4, 6], 1), (19, 1, 3));
    assert_eq!(first(&[0, 3, 5, 6, 1, 1, 4, 7], 1), (20, 1, 1));
    // "in its array": the first array's columns in the third are no fault there.
    assert_eq!(first(&[0, 3, 5, 6, 1, 2, 4, 7, 0, 3, 5, 0], 1), (20, 2, 3));
}

/// "At one column the order is as follows": where more than one fits, the smallest.
#[test]
fn at_one_column_the_order_is_kept() {
    // All three fit.
    assert_eq!(column_fault(3, ODD, &[9], 9), Some(18));
    assert_eq!(column_fault(3, EVEN, &[8], 8), Some(18));
    // 18 with 19; 18 with 20; 19 with 20.
    assert_eq!(column_fault(3, EVEN, &[], 8), Some(18));
    assert_eq!(column_fault(3, ODD, &[8], 8), Some(18));
    assert_eq!(column_fault(3, ODD, &[3], 3), Some(19));
    // Each alone.
    assert_eq!(column_fault(3, ODD, &[], 8), Some(18));
    assert_eq!(column_fault(3, ODD, &[], 3), Some(19));
    assert_eq!(column_fault(3, ODD, &[1, 2], 2), Some(20));
    assert_eq!(column_fault(3, ODD, &[1, 2], 4), None);
}
