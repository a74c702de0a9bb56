//! Deal and the dealing program on arrays with one fault, and with several: document 02's 18, 19
//! and 20, each at the place of the first fault. 20 cannot stand at column 0, where nothing stood
//! earlier: its first place is column 1.

use super::{board, bytes_call, deal_call, deal_numbers, program_input, Maker};
use crate::data::DEALING_PROGRAM;
use crate::deal::Place;
use crate::draw::Drawn;
use crate::key::key_bytes;

/// Boards (p, N, μ, w) of every p, with more than one grid row.
const BOARDS: [Trial; 5] = [
    trial((2, 5, 2, 1), &[1, 2, 4], 2),
    trial((3, 3, 1, 1), &[0, 2], 1),
    trial((4, 5, 3, 1), &[2, 3], 2),
    trial((5, 2, 1, 1), &[1], 3),
    trial((6, 3, 2, 1), &[1], 4),
];

/// What is tried on a board. Inputs are long where players are many, and the file is not to be.
struct Trial {
    numbers: (u32, u32, u32, u32),
    /// The points of its dealings: the odd array stands first or last, or between the two.
    points: &'static [usize],
    /// Each dealing has every case of one fault, and of several faults one in so many, by turns.
    one_in: usize,
}

const fn trial(numbers: (u32, u32, u32, u32), points: &'static [usize], one_in: usize) -> Trial {
    Trial {
        numbers,
        points,
        one_in,
    }
}

/// Up to this many players the program runs on every other case of one fault; beyond, once for
/// each dealing.
const FEW_PLAYERS: usize = 3;

/// Bytes that make every pair of an array of two players.
const PAIRED: [u8; 7] = [0, 1, 2, 3, 4, 0x80, 0xFF];

/// Arrays, and the first fault of them.
struct Wrong {
    number: u32,
    place: Place,
    arrays: Vec<u8>,
}

impl Wrong {
    fn new(number: u32, grid_row: usize, column: usize, arrays: Vec<u8>) -> Wrong {
        Wrong {
            number,
            place: place(grid_row, column),
            arrays,
        }
    }
}

fn place(grid_row: usize, column: usize) -> Place {
    Place {
        grid_row: grid_row as u32,
        column: column as u32,
    }
}

pub fn add(maker: &mut Maker) {
    for trial in BOARDS {
        for (turn, &point) in trial.points.iter().enumerate() {
            let drawn = Drawn::at(board(trial.numbers), point, &mut maker.generator);
            one_dealing(maker, &drawn, turn, trial.one_in);
        }
    }
    marked(maker);
    pairs(maker);
}

/// The cases of one dealing: its board's first, second or third by this turn.
fn one_dealing(maker: &mut Maker, drawn: &Drawn, turn: usize, one_in: usize) {
    let players = drawn.board.players;
    let single = single_faults(drawn);
    let several = several_faults(drawn).into_iter();
    let several: Vec<Wrong> = several.skip(turn % one_in).step_by(one_in).collect();
    for (place, wrong) in single.iter().chain(&several).enumerate() {
        refused(maker, drawn, wrong, place);
    }
    let (first, step) = if players <= FEW_PLAYERS {
        (0, 2)
    } else {
        ((players + turn) % 3, single.len())
    };
    for wrong in single.iter().skip(first).step_by(step) {
        program(maker, drawn, wrong);
    }
    right_arrays(maker, drawn);
}

/// "stood earlier in its array": the same columns in two arrays are no fault. Then the point moved
/// to each of the other grid rows: the parity is wrong in its own and in the one that it left.
fn right_arrays(maker: &mut Maker, drawn: &Drawn) {
    let board = drawn.board;
    let Some([one, other]) = even_rows(drawn) else {
        return;
    };
    let mut same = drawn.clone();
    let columns = board.columns();
    same.arrays
        .copy_within(one * columns..(one + 1) * columns, other * columns);
    let mut call = deal_call(&same, board.players * key_bytes(&board));
    maker.add(0, call.clone());
    let piece_row = board.grid_row_of(drawn.point as usize);
    for row in [one, other] {
        call.numbers[4] = (row * board.grid_width) as u32;
        maker.add_fault(19, place(row.min(piece_row), 0), call.clone());
    }
}

fn with_arrays(drawn: &Drawn, wrong: &Wrong) -> Drawn {
    Drawn {
        arrays: wrong.arrays.clone(),
        ..drawn.clone()
    }
}

/// Deal on wrong arrays; and by turns with 6 or 7 as well, which come first, and with 9, which
/// comes last.
fn refused(maker: &mut Maker, drawn: &Drawn, wrong: &Wrong, turn: usize) {
    let dealt = drawn.board.players * key_bytes(&drawn.board);
    let call = deal_call(&with_arrays(drawn, wrong), dealt);
    maker.add_fault(wrong.number, wrong.place, call.clone());
    let mut other = call;
    other.lent = 0;
    match turn % 4 {
        0 => maker.add_fault(wrong.number, wrong.place, other),
        1 => {
            other.numbers[4] = drawn.board.positions as u32;
            maker.add(6, other);
        }
        2 => {
            // So few seeds keep the file short.
            other.inputs[2].truncate(31);
            maker.add(7, other);
        }
        _ => {}
    }
}

/// The dealing program on wrong arrays: "the number alone".
fn program(maker: &mut Maker, drawn: &Drawn, wrong: &Wrong) {
    let drawn = with_arrays(drawn, wrong);
    let input = program_input(&deal_numbers(&drawn), &drawn);
    maker.add(wrong.number, bytes_call(DEALING_PROGRAM, &[], &input, 0));
}

/// Two grid rows with even arrays, where there are two.
fn even_rows(drawn: &Drawn) -> Option<[usize; 2]> {
    let piece_row = drawn.board.grid_row_of(drawn.point as usize);
    let mut rows = (0..drawn.board.grid_rows()).filter(|&row| row != piece_row);
    Some([rows.next()?, rows.next()?])
}

/// Changes arrays that are right.
struct Changer<'a> {
    drawn: &'a Drawn,
}

/// A grid row, a column of it and what is put there.
type Change = (usize, usize, u8);

impl Changer<'_> {
    /// Arrays with some columns changed; the first fault is this number at the first change.
    fn first(&self, number: u32, changes: &[Change]) -> Wrong {
        let (grid_row, column, _) = changes[0];
        self.at(number, grid_row, column, changes)
    }

    /// The same with the first fault at another place.
    fn at(&self, number: u32, grid_row: usize, column: usize, changes: &[Change]) -> Wrong {
        let mut arrays = self.drawn.arrays.clone();
        for &(grid_row, column, bits) in changes {
            arrays[grid_row * self.drawn.board.columns() + column] = bits;
        }
        Wrong::new(number, grid_row, column, arrays)
    }

    fn column(&self, grid_row: usize, column: usize) -> u8 {
        self.drawn.arrays[grid_row * self.drawn.board.columns() + column]
    }
}

/// Each number at the first and the last column of the first and the last grid row.
fn single_faults(drawn: &Drawn) -> Vec<Wrong> {
    let arrays = Changer { drawn };
    let (players, last) = (drawn.board.players, drawn.board.columns() - 1);
    let mut found = Vec::new();
    for (turn, row) in [0, drawn.board.grid_rows() - 1].into_iter().enumerate() {
        for (end, column) in [0, last].into_iter().enumerate() {
            let bits = arrays.column(row, column);
            // Bit p, bit 7, two bits, which keep the parity, and all bits.
            let kinds = [bits ^ 1 << players, bits ^ 0x80, bits ^ 0xC0, 0xFF];
            let kind = kinds[(2 * turn + end + players) % 4];
            found.push(arrays.first(18, &[(row, column, kind)]));
            let player = (turn + 2 * end) % players;
            found.push(arrays.first(19, &[(row, column, bits ^ 1 << player)]));
            // The first column again; at the end of the last array, the one before it.
            let (column, earlier) = match end {
                0 => (1, 0),
                _ => (last, (last - 1) * turn),
            };
            if end == 0 || last > 1 {
                let again = arrays.column(row, earlier);
                found.push(arrays.first(20, &[(row, column, again)]));
            }
        }
    }
    found
}

/// More than one fault: the first by its place is given, whatever the numbers of the others.
/// At the place that is given 20 never fits with 18 or 19: these would fit where the column stood
/// earlier.
fn several_faults(drawn: &Drawn) -> Vec<Wrong> {
    let arrays = Changer { drawn };
    let board = drawn.board;
    let (row, last) = (board.grid_rows() - 1, board.columns() - 1);
    let bit = 1 << board.players;
    // The ends of the first array, and those of the last.
    let [[a, b], [c, d]] = [0, row].map(|row| [0, last].map(|column| arrays.column(row, column)));
    let everywhere = |bits| vec![bits; drawn.arrays.len()];
    let mut turned = drawn.arrays.clone();
    turned[row * board.columns()..]
        .iter_mut()
        .for_each(|bits| *bits ^= 2);
    let mut found = vec![
        // 19 before 18 in one array; and in an array before it.
        arrays.first(19, &[(row, 0, c ^ 1), (row, last, d | bit)]),
        arrays.first(19, &[(0, last, b ^ 2), (row, 0, c ^ bit)]),
        // 20 before 18, and before 19, in a later array.
        arrays.first(20, &[(0, 1, a), (row, 0, c | bit)]),
        arrays.first(20, &[(0, last, a), (row, 0, c ^ 1)]),
        arrays.first(20, &[(0, last, arrays.column(0, last - 1)), (row, 0, 0xFF)]),
        // 18, then 19, then 20.
        arrays.first(18, &[(0, 0, a ^ 0x80), (0, last, b ^ 1), (row, last, c)]),
        // 18 and 19 fit one column: 18 is asked first. At the next 20 fits as well.
        arrays.first(18, &[(0, last - 1, b ^ bit), (0, last, b ^ bit)]),
        // A column of the wrong parity, twice: the first of the two is 19.
        arrays.first(19, &[(row, last - 1, d ^ 1), (row, last, d ^ 1)]),
        // A column that is put before its equal: the later of the two is 20.
        arrays.at(20, 0, last, &[(0, 0, b)]),
        arrays.at(20, row, last, &[(row, 0, d)]),
        // No bits, every array of the other parity, all bits, and the last array turned alone.
        match board.grid_row_of(drawn.point as usize) {
            0 => Wrong::new(19, 0, 0, everywhere(0)),
            _ => Wrong::new(20, 0, 1, everywhere(0)),
        },
        Wrong::new(19, 0, 0, drawn.arrays.iter().map(|bits| bits ^ 1).collect()),
        Wrong::new(18, 0, 0, everywhere(0xFF)),
        Wrong::new(19, row, 0, turned),
    ];
    if last > 1 {
        // A column three times: the second is 20. 18, and 19, behind 20 in one array.
        found.push(arrays.first(20, &[(0, 1, a), (0, 2, a), (0, last, a)]));
        found.push(arrays.first(20, &[(0, 1, a), (0, 2, b | bit)]));
        found.push(arrays.first(20, &[(row, 2, c), (row, last, d ^ bit)]));
        found.push(arrays.first(20, &[(row, 1, c), (row, last, d ^ 1)]));
    }
    found
}

/// Three players: an odd array `1, 8, 1, 2`, where 18 at column 1 comes before 20 at column 2; and
/// document 01's three arrays that are neither even nor odd, before an odd one and behind it.
fn marked(maker: &mut Maker) {
    let drawn = Drawn {
        arrays: vec![1, 8, 1, 2],
        ..Drawn::at(board((3, 1, 1, 1)), 0, &mut maker.generator)
    };
    let wrong = Wrong::new(18, 0, 1, drawn.arrays.clone());
    refused(maker, &drawn, &wrong, 0);
    program(maker, &drawn, &wrong);
    let odd = [1, 2, 4, 7];
    for (number, neither) in [(20, [0, 3, 5, 5]), (19, [0, 3, 5, 7]), (18, [0, 3, 5, 8])] {
        for point in [1, 0] {
            let drawn = Drawn::at(board((3, 2, 1, 1)), point, &mut maker.generator);
            let mut rows = [neither, odd];
            rows.rotate_left(1 - point);
            let wrong = Wrong::new(number, 1 - point, 3, rows.concat());
            refused(maker, &drawn, &wrong, 0);
            program(maker, &drawn, &wrong);
        }
    }
}

/// Two players and one grid row: every array of two bytes from a list, accepted or not.
fn pairs(maker: &mut Maker) {
    let mut drawn = Drawn::at(board((2, 1, 1, 1)), 0, &mut maker.generator);
    let dealt = 2 * key_bytes(&drawn.board);
    for first in PAIRED {
        for second in PAIRED {
            drawn.arrays = vec![first, second];
            maker.add_any(deal_call(&drawn, dealt));
        }
    }
}
