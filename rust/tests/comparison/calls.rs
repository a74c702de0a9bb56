//! One call of each operation, to the library and to the second implementation, and everything that must be the same.

use crate::counts::{Counts, Operation};
use crate::lent::Lent;
use nosingginger::{raw, Refusal, TallyNumbers};
use reference::board::{Board, MOST_POSITIONS, MOST_VALUE_WIDTH};
use reference::deal::faulty_columns;
use reference::draw::{Drawn, Generator};
use reference::page::page_bytes;
use reference::tally::{self, Tally};
use std::fmt::Debug;

/// The arguments of Deal, but for its output.
#[derive(Clone)]
pub struct Hand {
    /// p, N, μ, w, point.
    pub numbers: [u32; 5],
    /// Value, arrays, seeds, words.
    pub inputs: [Vec<u8>; 4],
}

/// What a call was asked: its numbers and its lent inputs.
struct Asked<'a> {
    operation: Operation,
    numbers: &'a [u32],
    inputs: &'a [Lent],
}

/// Why a call is refused: the number, and grid row and column where it comes with a place.
#[derive(Clone, Copy, Debug, PartialEq, Eq)]
struct Refused {
    number: u32,
    place: Option<(u32, u32)>,
}

impl From<Refusal> for Refused {
    fn from(refusal: Refusal) -> Refused {
        Refused { number: refusal.number(), place: refusal.bad_column() }
    }
}

impl From<u32> for Refused {
    fn from(number: u32) -> Refused {
        Refused { number, place: None }
    }
}

impl From<reference::deal::Refused> for Refused {
    fn from(refused: reference::deal::Refused) -> Refused {
        Refused { number: refused.number, place: refused.place.map(|place| (place.grid_row, place.column)) }
    }
}

/// Numbers that a C function may write, with some before and behind them that it may not.
#[repr(C)]
#[derive(Clone, Copy, PartialEq, Eq)]
struct Guarded<const COUNT: usize> {
    before: [u32; 4],
    numbers: [u32; COUNT],
    behind: [u32; 4],
}

impl<const COUNT: usize> Guarded<COUNT> {
    fn new(generator: &mut Generator) -> Guarded<COUNT> {
        let [before, behind] = [(); 2].map(|()| [(); 4].map(|()| generator.number()));
        Guarded { before, numbers: [(); COUNT].map(|()| generator.number()), behind }
    }
}

pub struct Comparison {
    pub seed: u64,
    pub generator: Generator,
    pub counts: Counts,
}

/// Whether a page or a tally may have so many positions and value bytes.
fn has_table(positions: u32, value_bytes: u32) -> bool {
    (1..=MOST_POSITIONS).contains(&positions) && (1..=MOST_VALUE_WIDTH).contains(&value_bytes)
}

/// The bytes that a tally needs, or 0 where it has no table.
pub fn tally_bytes(TallyNumbers { positions, value_bytes, .. }: TallyNumbers) -> usize {
    if has_table(positions, value_bytes) {
        (positions * value_bytes) as usize
    } else {
        0
    }
}

/// A tally's numbers in their order.
fn listed(TallyNumbers { players, player, positions, value_bytes }: TallyNumbers) -> [u32; 4] {
    [players, player, positions, value_bytes]
}

/// A tally's numbers as the second implementation takes them.
pub fn second_tally(TallyNumbers { players, player, positions, value_bytes }: TallyNumbers) -> Tally {
    Tally { players, player, positions, value_width: value_bytes }
}

/// 0 or the refusal's number.
fn number_of<T>(result: &Result<T, Refused>) -> u32 {
    result.as_ref().err().map_or(0, |refused| refused.number)
}

impl Comparison {
    fn lend(&mut self, input: &[u8]) -> Lent {
        self.counts.input(input.len());
        Lent::input(input, &mut self.generator)
    }

    /// Ends the test, with what it takes to see why.
    fn same(&self, asked: &Asked, same: bool, what: &str) {
        if same {
            return;
        }
        eprintln!("{} at call {} of seed {}: {what}", asked.operation.name(), self.counts.calls() + 1, self.seed);
        eprintln!("numbers {:?}", asked.numbers);
        for input in asked.inputs {
            let hex: String = input.bytes().iter().take(1_000).map(|byte| format!("{byte:02X}")).collect();
            eprintln!("input of {} bytes {hex}", input.bytes().len());
        }
        panic!("library and second implementation differ");
    }

    /// A call that answers some numbers: through the safe function, and through the C function, which leaves a refused call's numbers.
    fn answer<const COUNT: usize>(
        &mut self,
        asked: &Asked,
        right: Result<[u32; COUNT], u32>,
        given: Result<[u32; COUNT], Refusal>,
        c_function: impl Fn(&mut [u32; COUNT]) -> u32,
    ) {
        let (given, right) = (given.map_err(Refused::from), right.map_err(Refused::from));
        self.same(asked, given == right, &format!("{given:?}, should be {right:?}"));
        let before = Guarded::new(&mut self.generator);
        let mut left = before;
        let number = c_function(&mut left.numbers);
        self.same(asked, number == number_of(&right), "the C function gives another number");
        let numbers = right.unwrap_or(before.numbers);
        self.same(asked, left == Guarded { numbers, ..before }, "the C function leaves other numbers");
        self.inputs_kept(asked);
        self.counts.call(asked.operation, number);
    }

    /// A call that writes to an output: `exact` bytes where it is accepted. Gives its number, 0 where it is accepted.
    fn output(
        &mut self,
        asked: &Asked,
        length: usize,
        exact: usize,
        second: impl Fn(&mut [u8]) -> Result<(), u32>,
        library: impl Fn(&mut [u8]) -> Result<(), Refusal>,
    ) -> u32 {
        let output = Lent::output(length, &mut self.generator);
        self.output_from(asked, output, exact, second, library).0
    }

    /// The same of an output whose bytes are given. Gives what it holds after the call too.
    fn output_from(
        &mut self,
        asked: &Asked,
        mut output: Lent,
        exact: usize,
        second: impl Fn(&mut [u8]) -> Result<(), u32>,
        library: impl Fn(&mut [u8]) -> Result<(), Refusal>,
    ) -> (u32, Vec<u8>) {
        let number = number_of(&self.written(asked, &mut output, exact, second, library));
        self.output_counted(asked, output.bytes().len(), exact, number);
        (number, output.bytes().to_vec())
    }

    /// The same without counting it, of any call that writes. Gives the answer.
    fn written<Answer: Debug + PartialEq, SecondRefused: Into<Refused>>(
        &mut self,
        asked: &Asked,
        output: &mut Lent,
        exact: usize,
        second: impl Fn(&mut [u8]) -> Result<Answer, SecondRefused>,
        library: impl Fn(&mut [u8]) -> Result<Answer, Refusal>,
    ) -> Result<Answer, Refused> {
        let mut right_output = output.bytes().to_vec();
        let right = second(&mut right_output).map_err(SecondRefused::into);
        let given = library(output.bytes_mut()).map_err(Refused::from);
        self.same(asked, given == right, &format!("{given:?}, should be {right:?}; output of {} bytes", right_output.len()));
        let written = if right.is_ok() { exact } else { 0 };
        self.same(asked, output.bytes()[..written] == right_output[..written], "other bytes are written");
        self.same(asked, output.kept_past(written), "bytes of the output or beside it are changed");
        self.inputs_kept(asked);
        right
    }

    /// A call that writes to an output through the C function, which gives this number, and leaves these numbers or those that were there.
    fn c_written<const COUNT: usize>(
        &mut self,
        asked: &Asked,
        length: usize,
        exact: usize,
        right_number: u32,
        right_numbers: Option<[u32; COUNT]>,
        c_function: impl Fn(*mut u8, &mut [u32; COUNT]) -> u32,
    ) {
        let mut output = Lent::output(length, &mut self.generator);
        let before = Guarded::new(&mut self.generator);
        let mut left = before;
        let number = c_function(output.bytes_mut().as_mut_ptr(), &mut left.numbers);
        self.same(asked, number == right_number, "the C function gives another number");
        let numbers = right_numbers.unwrap_or(before.numbers);
        self.same(asked, left == Guarded { numbers, ..before }, "the C function leaves other numbers");
        let written = if right_number == 0 { exact } else { 0 };
        self.same(asked, output.kept_past(written), "the C function changes other bytes of the output or beside it");
        self.inputs_kept(asked);
    }

    fn output_counted(&mut self, asked: &Asked, length: usize, exact: usize, number: u32) {
        self.counts.output(length, exact, number);
        self.counts.call(asked.operation, number);
    }

    fn inputs_kept(&self, asked: &Asked) {
        for input in asked.inputs {
            self.same(asked, input.kept_past(0), "bytes of an input or beside it are changed");
        }
    }

    pub fn key_length(&mut self, numbers: [u32; 4]) {
        let [players, positions, width, value_bytes] = numbers;
        let right = reference::key::key_length(players, positions, width, value_bytes);
        let given = nosingginger::key_length(nosingginger::Board { players, positions, width, value_bytes });
        let asked = Asked { operation: Operation::KeyLength, numbers: &numbers, inputs: &[] };
        self.answer(&asked, right.map(|length| [length]), given.map(|length| [length]), |[length]| unsafe {
            raw::nsg_key_length(players, positions, width, value_bytes, length)
        });
    }

    pub fn deal(&mut self, hand: &Hand, length: usize) {
        let [players, positions, width, value_bytes, point] = hand.numbers;
        let inputs = [0, 1, 2, 3].map(|input| self.lend(&hand.inputs[input]));
        let [value, arrays, seeds, words] = [0, 1, 2, 3].map(|input| inputs[input].bytes());
        let in_range = Board::new(players, positions, width, value_bytes);
        let exact = in_range.map_or(0, |board| board.players * reference::key::key_bytes(&board));
        let second = reference::deal::Dealing {
            players,
            positions,
            grid_width: width,
            value_width: value_bytes,
            point,
            value,
            arrays,
            seeds,
            words,
        };
        let board = nosingginger::Board { players, positions, width, value_bytes };
        let library = nosingginger::Dealing { board, point, value, arrays, seeds, words };
        let asked = Asked { operation: Operation::Deal, numbers: &hand.numbers, inputs: &inputs };
        let mut keys = Lent::output(length, &mut self.generator);
        let right =
            self.written(&asked, &mut keys, exact, |keys| reference::deal::deal(&second, keys), |keys| nosingginger::deal(&library, keys));
        self.fault(&asked, &library, length, exact, right);
        self.output_counted(&asked, length, exact, number_of(&right));
        let Ok(board) = in_range else { return };
        match right {
            Ok(()) => self.counts.board(&board),
            Err(Refused { number, place: Some(place) }) => {
                let piece_row = board.grid_row_of(point as usize);
                let odd = place.0 as usize == piece_row;
                self.counts.place(&board, number, place, odd, faulty_columns(&board, piece_row, arrays));
            }
            Err(_) => {}
        }
    }

    /// Deal through the C function: `fault` holds the place where the answer has one, and is left alone otherwise.
    fn fault(&mut self, asked: &Asked, dealing: &nosingginger::Dealing, length: usize, exact: usize, right: Result<(), Refused>) {
        let nosingginger::Dealing { board, point, value, arrays, seeds, words } = *dealing;
        let nosingginger::Board { players, positions, width, value_bytes } = board;
        let lent = |bytes: &[u8]| (bytes.as_ptr(), bytes.len() as u64);
        let [value, arrays, seeds, words] = [value, arrays, seeds, words].map(lent);
        let place = right.err().and_then(|refused| refused.place).map(<[u32; 2]>::from);
        self.c_written(asked, length, exact, number_of(&right), place, |keys, fault| unsafe {
            raw::nsg_deal(
                players,
                positions,
                width,
                value_bytes,
                point,
                value.0,
                value.1,
                arrays.0,
                arrays.1,
                seeds.0,
                seeds.1,
                words.0,
                words.1,
                keys,
                length as u64,
                fault,
            )
        });
    }

    pub fn check_key(&mut self, key: &[u8]) {
        let inputs = [self.lend(key)];
        let key = inputs[0].bytes();
        let right = reference::key::check_key(key);
        let right = right.map(|read| [read.players, read.player, read.positions, read.grid_width, read.value_width]);
        let given = nosingginger::check_key(key).map(|read| {
            let board = read.board;
            [board.players, read.player, board.positions, board.width, board.value_bytes]
        });
        let asked = Asked { operation: Operation::CheckKey, numbers: &[], inputs: &inputs };
        self.answer(&asked, right, given, |header| unsafe { raw::nsg_check_key(key.as_ptr(), key.len() as u64, header) });
    }

    pub fn open_one(&mut self, key: &[u8], position: u32, length: usize) {
        let inputs = [self.lend(key)];
        let key = inputs[0].bytes();
        let board = reference::key::check_key(key).and_then(|read| read.check());
        let exact = board.map_or(0, |board| board.value_width);
        let asked = Asked { operation: Operation::OpenOne, numbers: &[position], inputs: &inputs };
        let number = self.output(
            &asked,
            length,
            exact,
            |share| reference::open::open_one(key, position, share),
            |share| nosingginger::open_one(key, position, share),
        );
        if let (0, Ok(board)) = (number, board) {
            self.counts.cell(&board, position);
        }
    }

    pub fn open_all(&mut self, key: &[u8], length: usize) {
        let inputs = [self.lend(key)];
        let key = inputs[0].bytes();
        let exact = reference::key::check_key(key).map_or(0, |read| (read.positions * read.value_width) as usize);
        let asked = Asked { operation: Operation::OpenAll, numbers: &[], inputs: &inputs };
        self.output(&asked, length, exact, |table| reference::open::open_all(key, table), |table| nosingginger::open_all(key, table));
    }

    pub fn draw_card(&mut self, key: &[u8], deck: &[u8], card_bytes: u32, length: usize) {
        let inputs = [self.lend(key), self.lend(deck)];
        let [key, deck] = [0, 1].map(|input| inputs[input].bytes());
        let asked = Asked { operation: Operation::DrawCard, numbers: &[card_bytes], inputs: &inputs };
        let number = self.output(
            &asked,
            length,
            card_bytes as usize,
            |card| reference::cards::draw_card(key, deck, card_bytes, card),
            |card| nosingginger::draw_card(key, deck, card_bytes, card),
        );
        if let Ok(header) = reference::key::check_key(key) {
            self.counts.card(header.positions as usize, deck.len(), card_bytes, number);
        }
    }

    /// A card that all players draw, each with a key of one dealing, and join: the right one, or zeros.
    pub fn whole_draw(&mut self, drawn: &Drawn, keys: &[Vec<u8>], card_bytes: u32) {
        let (players, length) = (keys.len() as u32, card_bytes as usize);
        let deck = self.generator.bytes(drawn.board.positions * length);
        let (mut answers, mut card) = (vec![0; keys.len() * length], vec![0; length]);
        for (key, answer) in keys.iter().zip(answers.chunks_mut(length)) {
            self.draw_card(key, &deck, card_bytes, length);
            nosingginger::draw_card(key, &deck, card_bytes, answer).expect("the same call again");
        }
        self.join_shares(players, card_bytes, &answers, length);
        nosingginger::join_shares(players, card_bytes, &answers, &mut card).expect("the same call again");
        let value = drawn.value[0];
        let right = if value % 2 == 1 { &deck[drawn.point as usize * length..][..length] } else { &vec![0; length] };
        assert_eq!(card, right, "{players} players, seed {}: the card at {} of value {value}", self.seed, drawn.point);
        self.counts.whole_draw(keys.len(), value);
    }

    pub fn join_shares(&mut self, players: u32, value_bytes: u32, shares: &[u8], length: usize) {
        let inputs = [self.lend(shares)];
        let shares = inputs[0].bytes();
        let asked = Asked { operation: Operation::JoinShares, numbers: &[players, value_bytes], inputs: &inputs };
        let number = self.output(
            &asked,
            length,
            value_bytes as usize,
            |value| reference::join::join_shares(players, value_bytes, shares, value),
            |value| nosingginger::join_shares(players, value_bytes, shares, value),
        );
        self.counts.shares(value_bytes, number);
    }

    pub fn join_keys(&mut self, keys: &[u8], length: usize) {
        let inputs = [self.lend(keys)];
        let keys = inputs[0].bytes();
        let first = reference::key::Header::read(keys).and_then(|header| header.check());
        let exact = first.map_or(0, |board| board.table_bytes());
        let asked = Asked { operation: Operation::JoinKeys, numbers: &[], inputs: &inputs };
        self.output(&asked, length, exact, |table| reference::join::join_keys(keys, table), |table| nosingginger::join_keys(keys, table));
    }

    /// The C function tells how many bytes are written where the answer is 0, and leaves that number alone otherwise.
    pub fn write_page(&mut self, positions: u32, value_bytes: u32, table: &[u8], length: usize) {
        let inputs = [self.lend(table)];
        let table = inputs[0].bytes();
        let exact = if has_table(positions, value_bytes) { page_bytes(positions as usize, value_bytes as usize) } else { 0 };
        let asked = Asked { operation: Operation::WritePage, numbers: &[positions, value_bytes], inputs: &inputs };
        let mut page = Lent::output(length, &mut self.generator);
        let right = self.written(
            &asked,
            &mut page,
            exact,
            |page| reference::page::write_page(positions, value_bytes, table, page),
            |page| nosingginger::write_page(positions, value_bytes, table, page),
        );
        let number = number_of(&right);
        let written = right.ok().map(|written| [written as u32]);
        self.c_written(&asked, length, exact, number, written, |page, [written]| unsafe {
            raw::nsg_write_page(positions, value_bytes, table.as_ptr(), table.len() as u64, page, length as u64, written)
        });
        self.output_counted(&asked, length, exact, number);
        self.counts.page([positions, value_bytes], table.len(), length, number);
    }

    /// Gives the number and what the table holds after the call, as the next does.
    pub fn tally_make(&mut self, numbers: TallyNumbers, table: &[u8]) -> (u32, Vec<u8>) {
        let second = second_tally(numbers);
        let asked = Asked { operation: Operation::TallyMake, numbers: &listed(numbers), inputs: &[] };
        let lent = Lent::input(table, &mut self.generator);
        let (number, made) = self.output_from(
            &asked,
            lent,
            tally_bytes(numbers),
            |table| tally::make(second, table),
            |table| nosingginger::tally_make(numbers, table),
        );
        self.counts.tally(numbers, table.len(), number);
        (number, made)
    }

    pub fn tally_add(&mut self, numbers: TallyNumbers, key: &[u8], table: &[u8]) -> (u32, Vec<u8>) {
        let inputs = [self.lend(key)];
        let key = inputs[0].bytes();
        let second = second_tally(numbers);
        let asked = Asked { operation: Operation::TallyAdd, numbers: &listed(numbers), inputs: &inputs };
        let lent = Lent::input(table, &mut self.generator);
        let (number, added) = self.output_from(
            &asked,
            lent,
            tally_bytes(numbers),
            |table| tally::add(second, key, table),
            |table| nosingginger::tally_add(numbers, key, table),
        );
        self.counts.tally(numbers, table.len(), number);
        if let Ok(header) = reference::key::check_key(key) {
            self.counts.tally_key(&second, &Tally::of(&header), number);
        }
        (number, added)
    }

    /// Gives what the output holds after the call, as the next does.
    pub fn tally_look_up(&mut self, numbers: TallyNumbers, table: &[u8], position: u32, length: usize) -> Vec<u8> {
        let inputs = [self.lend(table)];
        let table = inputs[0].bytes();
        let second = second_tally(numbers);
        let [players, player, positions, value_bytes] = listed(numbers);
        let asked =
            Asked { operation: Operation::TallyLookUp, numbers: &[players, player, positions, value_bytes, position], inputs: &inputs };
        let lent = Lent::output(length, &mut self.generator);
        let (number, entry) = self.output_from(
            &asked,
            lent,
            value_bytes as usize,
            |entry| tally::look_up(second, table, position, entry),
            |entry| nosingginger::tally_look_up(numbers, table, position, entry),
        );
        self.counts.tally(numbers, table.len(), number);
        self.counts.tally_output(numbers, table.len(), length, number);
        self.counts.tally_position(numbers, position, number);
        entry
    }

    pub fn tally_total(&mut self, numbers: TallyNumbers, table: &[u8], length: usize) -> Vec<u8> {
        let inputs = [self.lend(table)];
        let table = inputs[0].bytes();
        let second = second_tally(numbers);
        let asked = Asked { operation: Operation::TallyTotal, numbers: &listed(numbers), inputs: &inputs };
        let lent = Lent::output(length, &mut self.generator);
        let (number, total) = self.output_from(
            &asked,
            lent,
            numbers.value_bytes as usize,
            |total| tally::total(second, table, total),
            |total| nosingginger::tally_total(numbers, table, total),
        );
        self.counts.tally(numbers, table.len(), number);
        self.counts.tally_output(numbers, table.len(), length, number);
        total
    }

    pub fn held_seed(&mut self, key: &[u8], grid_row: u32, column: u32) {
        let inputs = [self.lend(key)];
        let key = inputs[0].bytes();
        let right = reference::key::held_seed_place(key, grid_row, column).map(|place| (place, 32));
        let given = nosingginger::held_seed(key, grid_row, column);
        // The part is one of the caller's own bytes: where it begins, and how long it is.
        let given = given.map(|seed| (seed.as_ptr() as usize - key.as_ptr() as usize, seed.len()));
        let asked = Asked { operation: Operation::HeldSeed, numbers: &[grid_row, column], inputs: &inputs };
        self.same(&asked, given == right, &format!("{given:?}, should be {right:?}"));
        self.inputs_kept(&asked);
        self.counts.held_seed(right.is_some());
    }

    pub fn expand(&mut self, seed: &[u8], start: u64, length: usize) {
        let inputs = [self.lend(seed)];
        let seed = inputs[0].bytes();
        // The start as reference/FORMAT.md has it.
        let numbers = [start as u32, (start >> 32) as u32];
        let asked = Asked { operation: Operation::Expand, numbers: &numbers, inputs: &inputs };
        let number = self.output(
            &asked,
            length,
            length,
            |row| reference::chacha::expand(seed, start, row),
            |row| nosingginger::expand(seed, start, row),
        );
        self.counts.stretch(start, length as u64, number);
    }

    pub fn choose_width(&mut self, players: u32, positions: u32, value_bytes: u32) {
        let right = reference::width::choose_width(players, positions, value_bytes);
        let given = nosingginger::choose_width(players, positions, value_bytes);
        let asked = Asked { operation: Operation::ChooseWidth, numbers: &[players, positions, value_bytes], inputs: &[] };
        self.answer(&asked, right.map(|width| [width]), given.map(|width| [width]), |[width]| unsafe {
            raw::nsg_choose_width(players, positions, value_bytes, width)
        });
        if let Ok(width) = right {
            self.counts.width([players, positions, value_bytes], width);
        }
    }

    pub fn sensor_position(&mut self, sensor: u32) {
        let right = reference::sensors::sensor_position(sensor);
        let given = nosingginger::sensor_position(sensor);
        let asked = Asked { operation: Operation::SensorPosition, numbers: &[sensor], inputs: &[] };
        self.answer(&asked, right.map(|position| [position]), given.map(|position| [position]), |[position]| unsafe {
            raw::nsg_sensor_position(sensor, position)
        });
    }
}
