//! Which cases the comparison's data has. Each case that is made to be refused names the
//! number that documents 01 and 02 ask for, and the place where it has one, and making it fails
//! when this implementation answers another.

mod accepted;
mod arrays;
mod cards;
mod cells;
mod damaged;
mod evenings;
mod limits;
mod pages;
mod plain;
pub mod programs;
mod starts;
mod tallies;
mod widths;

use crate::board::Board;
use crate::data::{start_numbers, Answer, Call, Case, DRAW_CARD, EXPAND};
use crate::deal::Place;
use crate::draw::{Drawn, Generator};
use crate::key::header_of;
use crate::numbers::groups;

/// The boards (p, N, μ, w) of the accepted cases: every p; N 1, 72 and some thousands; μ 1,
/// above N and 256; w 1, 5 and 16; 256 grid rows; header numbers in two and three groups.
pub const BOARDS: [(u32, u32, u32, u32); 20] = [
    (2, 6, 4, 1),
    (2, 1, 1, 1),
    (2, 2, 2, 1),
    (2, 72, 12, 5),
    (3, 72, 17, 1),
    (4, 72, 24, 1),
    (5, 72, 34, 1),
    (6, 72, 48, 1),
    (3, 7, 3, 16),
    (4, 10, 3, 5),
    (5, 1, 1, 5),
    (6, 1, 1, 16),
    (6, 5, 9, 5),
    (2, 1, 256, 16),
    (2, 256, 1, 1),
    (2, 130, 128, 1),
    (3, 3001, 128, 1),
    (2, 5000, 100, 5),
    (2, 20_000, 200, 1),
    (2, 65_536, 256, 1),
];

/// The boards of the damaged cases: short keys, with spare mark bits (p 2 and 3) and without,
/// one grid row and several, a short last grid row, header numbers in two groups.
pub const DAMAGED_BOARDS: [(u32, u32, u32, u32); 6] = [
    (2, 6, 4, 1),
    (3, 7, 3, 1),
    (2, 130, 128, 1),
    (4, 72, 24, 1),
    (5, 3, 2, 1),
    (6, 2, 2, 1),
];

/// The spring board at the width that Choose width gives.
const SPRING: (u32, u32, u32, u32) = (4, 72, 36, 1);

/// The generator's start, fixed for good: the data is the same each time.
const START: u64 = 0x4E6F_7369_6E67_6731;

/// All cases, in the order of the file. What is added comes last, so that nothing else is drawn for
/// the cases before it.
pub fn all() -> Vec<Case> {
    drawn().cases
}

/// The cases of tallies, which have a file of their own, in its order. They are drawn behind all others.
pub fn of_tallies() -> Vec<Case> {
    let mut maker = drawn();
    let others = maker.cases.len();
    tallies::add(&mut maker);
    evenings::add(&mut maker);
    maker.cases.split_off(others)
}

/// All cases but those of tallies, and the generator behind them.
fn drawn() -> Maker {
    let mut maker = Maker {
        generator: Generator::new(START),
        cases: Vec::new(),
    };
    plain::add(&mut maker);
    for (place, numbers) in BOARDS.iter().enumerate() {
        accepted::add(&mut maker, place, board(*numbers));
    }
    for numbers in DAMAGED_BOARDS {
        damaged::add(&mut maker, board(numbers));
    }
    arrays::add(&mut maker);
    limits::add(&mut maker);
    starts::add(&mut maker);
    cells::add(&mut maker);
    cards::add(&mut maker);
    pages::add(&mut maker);
    widths::add(&mut maker);
    accepted::add(&mut maker, BOARDS.len(), board(SPRING));
    maker
}

/// Collects cases.
struct Maker {
    generator: Generator,
    cases: Vec<Case>,
}

impl Maker {
    /// Adds a call that is refused with this number, which has no place, or accepted when it is
    /// 0.
    fn add(&mut self, refusal: u32, call: Call) -> Answer {
        let answer = self.add_any(call);
        assert_eq!(answer.refusal, refusal, "case {}", self.cases.len());
        assert!(refusal == 0 || answer.results == [0; 5]);
        answer
    }

    /// Adds a call of Deal that is refused with this number at this place.
    fn add_fault(&mut self, refusal: u32, place: Place, call: Call) {
        let answer = self.add_any(call);
        assert_eq!(answer.refusal, refusal, "case {}", self.cases.len());
        assert_eq!(answer.results, [1, place.grid_row, place.column, 0, 0]);
    }

    /// Adds a call with any answer.
    fn add_any(&mut self, call: Call) -> Answer {
        let fill = self.generator.number() as u8;
        let call = Call { fill, ..call };
        let answer = call.answer();
        self.cases.push(Case {
            call,
            answer: answer.clone(),
        });
        answer
    }
}

fn board((players, positions, grid_width, value_width): (u32, u32, u32, u32)) -> Board {
    Board::new(players, positions, grid_width, value_width).expect("a board in range")
}

/// A call with numbers only.
fn numbers_call(operation: u8, numbers: &[u32]) -> Call {
    let mut call = Call {
        operation,
        ..Call::default()
    };
    call.numbers[..numbers.len()].copy_from_slice(numbers);
    call
}

/// A call with numbers, one lent input and a lent output.
fn bytes_call(operation: u8, numbers: &[u32], input: &[u8], lent: usize) -> Call {
    let mut call = numbers_call(operation, numbers);
    call.inputs[0] = input.to_vec();
    call.lent = lent;
    call
}

/// A call of Expand.
fn expand_call(seed: &[u8], start: u64, lent: usize) -> Call {
    bytes_call(EXPAND, &start_numbers(start), seed, lent)
}

/// A call of Draw card.
fn card_call(key: &[u8], deck: &[u8], card_bytes: u32, lent: usize) -> Call {
    let mut call = bytes_call(DRAW_CARD, &[card_bytes], key, lent);
    call.inputs[1] = deck.to_vec();
    call
}

/// A call of Deal.
fn deal_call(drawn: &Drawn, lent: usize) -> Call {
    let mut call = numbers_call(crate::data::DEAL, &deal_numbers(drawn));
    call.inputs = [
        drawn.value.clone(),
        drawn.arrays.clone(),
        drawn.seeds.clone(),
        drawn.words.clone(),
    ];
    call.lent = lent;
    call
}

/// p, N, μ, w, point.
fn deal_numbers(drawn: &Drawn) -> [u32; 5] {
    let board = header_of(&drawn.board, 0);
    [
        board.players,
        board.positions,
        board.grid_width,
        board.value_width,
        drawn.point,
    ]
}

/// Numbers in groups, one after another.
fn in_groups(numbers: &[u32]) -> Vec<u8> {
    numbers.iter().flat_map(|&number| groups(number)).collect()
}

/// The dealing program's input: numbers in groups, then the lent inputs.
fn program_input(numbers: &[u32], drawn: &Drawn) -> Vec<u8> {
    let mut input = in_groups(numbers);
    for lent in [&drawn.value, &drawn.arrays, &drawn.seeds, &drawn.words] {
        input.extend_from_slice(lent);
    }
    input
}
