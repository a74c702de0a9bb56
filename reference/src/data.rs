//! The comparison's data: cases with their answers, in the bytes that FORMAT.md describes.

use crate::cards::draw_card;
use crate::chacha::expand;
use crate::deal::{deal, Dealing, Refused};
use crate::join::{join_keys, join_shares};
use crate::key::{check_key, held_seed, held_seed_place, key_length};
use crate::open::{open_all, open_one};
use crate::page::write_page;
use crate::programs::{dealing_program, joining_program};
use crate::sensors::sensor_position;
use crate::tally::{self, Tally};
use crate::width::choose_width;

/// The operations of document 01, numbered in its order, then the two programs, then the operations
/// of document 02, and last a run of a tally: it is made, and keys are added.
pub const KEY_LENGTH: u8 = 1;
pub const DEAL: u8 = 2;
pub const CHECK_KEY: u8 = 3;
pub const OPEN_ONE: u8 = 4;
pub const OPEN_ALL: u8 = 5;
pub const JOIN_SHARES: u8 = 6;
pub const JOIN_KEYS: u8 = 7;
pub const HELD_SEED: u8 = 8;
pub const EXPAND: u8 = 9;
pub const CHOOSE_WIDTH: u8 = 10;
pub const SENSOR_POSITION: u8 = 11;
pub const DEALING_PROGRAM: u8 = 12;
pub const JOINING_PROGRAM: u8 = 13;
pub const DRAW_CARD: u8 = 14;
pub const WRITE_PAGE: u8 = 15;
pub const TALLY_MAKE: u8 = 16;
pub const TALLY_ADD: u8 = 17;
pub const TALLY_LOOK_UP: u8 = 18;
pub const TALLY_TOTAL: u8 = 19;
pub const TALLY_RUN: u8 = 20;

/// The first eight bytes of the file.
pub const MAGIC: &[u8; 8] = b"NGCASES1";
/// The file's first part: the magic and four numbers.
pub const FILE_HEADER_BYTES: usize = 24;
/// A case's first part: four bytes and sixteen numbers.
pub const CASE_HEADER_BYTES: usize = 68;
/// A case's fourth byte, when its inputs are those of the case before and do not follow.
pub const INPUTS_KEPT: u8 = 1;

/// A call: what goes in.
#[derive(Clone, Debug, Default, PartialEq, Eq)]
pub struct Call {
    pub operation: u8,
    /// The arguments that are numbers; those that an operation has not are zero.
    pub numbers: [u32; 5],
    /// The lent inputs; those that an operation has not are empty.
    pub inputs: [Vec<u8>; 4],
    /// The length of the lent output, and the byte that fills it before the call, but for the bytes
    /// that stand there: see [`Call::stood`].
    pub lent: usize,
    pub fill: u8,
}

/// What comes out.
#[derive(Clone, Debug, Default, PartialEq, Eq)]
pub struct Answer {
    /// 0 when accepted.
    pub refusal: u32,
    /// The answers that are numbers, else zero; all zero on a refusal without a place.
    pub results: [u32; 5],
    /// The bytes at the front of the output that are written, or stood there; all others keep the
    /// fill.
    pub bytes: Vec<u8>,
}

impl Call {
    /// What the lent output begins with before the call: the table that a key is added to, else
    /// nothing.
    fn stood(&self) -> &[u8] {
        match self.operation {
            TALLY_ADD => &self.inputs[1],
            _ => &[],
        }
    }

    /// Makes the call on an output that is `fill` behind what stood there, and gives the results and
    /// all the output.
    fn on_output(&self, fill: u8) -> (Result<[u32; 5], Refused>, Vec<u8>) {
        let mut output = vec![fill; self.lent];
        output[..self.stood().len()].copy_from_slice(self.stood());
        let result = match self.operation {
            DEAL => deal(&self.dealing(), &mut output).map(|()| [0; 5]),
            _ => self.but_deal(&mut output).map_err(Refused::from),
        };
        (result, output)
    }

    /// What a call of Deal is lent.
    fn dealing(&self) -> Dealing<'_> {
        let [players, positions, grid_width, value_width, point] = self.numbers;
        let [value, arrays, seeds, words] = &self.inputs;
        Dealing {
            players,
            positions,
            grid_width,
            value_width,
            point,
            value,
            arrays,
            seeds,
            words,
        }
    }

    /// Makes the call of any operation but Deal, whose refusals alone have a place.
    fn but_deal(&self, output: &mut [u8]) -> Result<[u32; 5], u32> {
        let [a, b, c, d, position] = self.numbers;
        let input = &self.inputs[0];
        let one = |number| [number, 0, 0, 0, 0];
        let none = |()| [0; 5];
        match self.operation {
            KEY_LENGTH => key_length(a, b, c, d).map(one),
            CHECK_KEY => check_key(input).map(|header| {
                [
                    header.players,
                    header.player,
                    header.positions,
                    header.grid_width,
                    header.value_width,
                ]
            }),
            OPEN_ONE => open_one(input, a, output).map(none),
            OPEN_ALL => open_all(input, output).map(none),
            JOIN_SHARES => join_shares(a, b, input, output).map(none),
            JOIN_KEYS => join_keys(input, output).map(none),
            EXPAND => expand(input, start_of([a, b]), output).map(none),
            CHOOSE_WIDTH => choose_width(a, b, c).map(one),
            SENSOR_POSITION => sensor_position(a).map(one),
            DRAW_CARD => draw_card(input, &self.inputs[1], a, output).map(none),
            WRITE_PAGE => write_page(a, b, input, output).map(|written| one(written as u32)),
            TALLY_MAKE => tally::make(self.tally(), output).map(none),
            TALLY_ADD => tally::add(self.tally(), input, output).map(none),
            TALLY_LOOK_UP => tally::look_up(self.tally(), input, position, output).map(none),
            TALLY_TOTAL => tally::total(self.tally(), input, output).map(none),
            TALLY_RUN => self.run(output),
            other => panic!("no operation {other} on a lent output"),
        }
    }

    /// The numbers of a call's tally.
    fn tally(&self) -> Tally {
        let [players, player, positions, value_width, _] = self.numbers;
        Tally {
            players,
            player,
            positions,
            value_width,
        }
    }

    /// The keys of a run, in the order in which they are added.
    pub fn run_keys(&self) -> Vec<&[u8]> {
        let [lengths, keys, ..] = &self.inputs;
        let mut reader = FileReader { bytes: lengths };
        let mut keys = FileReader { bytes: keys };
        let lengths = std::iter::from_fn(|| reader.number());
        let cut: Option<Vec<&[u8]>> = lengths.map(|length| keys.take(length as usize)).collect();
        let cut = cut.expect("keys as long as their lengths say");
        assert_eq!(cut.len(), self.numbers[4] as usize);
        assert!(reader.bytes.is_empty() && keys.bytes.is_empty());
        cut
    }

    /// Makes a tally and adds keys, the refused ones too. Gives how many are added, and the sum of the
    /// numbers answered, each times its place counted from 1, modulo 2^32.
    fn run(&self, table: &mut [u8]) -> Result<[u32; 5], u32> {
        tally::make(self.tally(), table)?;
        let (mut added, mut sum) = (0, 0u32);
        for (place, key) in (1..).zip(self.run_keys()) {
            match tally::add(self.tally(), key, table) {
                Ok(()) => added += 1,
                Err(number) => sum = sum.wrapping_add(number.wrapping_mul(place)),
            }
        }
        Ok([added, sum, 0, 0, 0])
    }

    /// The call's answer by this implementation. Panics when a byte outside of the answer's
    /// bytes is not as it was.
    pub fn answer(&self) -> Answer {
        match self.operation {
            HELD_SEED => return self.held_seed_answer(),
            DEALING_PROGRAM => return program_answer(dealing_program(&self.inputs[0])),
            JOINING_PROGRAM => return program_answer(joining_program(&self.inputs[0])),
            _ => {}
        }
        // The bytes written are those that do not depend on what stood there before.
        let (result, output) = self.on_output(self.fill);
        let (result_again, output_again) = self.on_output(!self.fill);
        assert_eq!(result, result_again);
        let pairs = output.iter().zip(&output_again);
        let written = pairs.take_while(|(byte, again)| byte == again).count();
        assert!(output[written..].iter().all(|&byte| byte == self.fill));
        assert!(output_again[written..]
            .iter()
            .all(|&byte| byte == !self.fill));
        if result.is_err() {
            assert_eq!(
                output[..written],
                *self.stood(),
                "a refusal leaves all lent bytes unchanged"
            );
        }
        Answer {
            refusal: result.err().map_or(0, |refused| refused.number),
            results: result.unwrap_or_else(place_numbers),
            bytes: output[..written].to_vec(),
        }
    }

    fn held_seed_answer(&self) -> Answer {
        let (key, grid_row, column) = (&self.inputs[0], self.numbers[0], self.numbers[1]);
        let place = held_seed_place(key, grid_row, column).unwrap_or(0);
        Answer {
            refusal: 0,
            results: [place as u32, 0, 0, 0, 0],
            bytes: held_seed(key, grid_row, column).to_vec(),
        }
    }
}

/// Expand's start as numbers of 32 bits: modulo 2^32, and div 2^32.
pub fn start_numbers(start: u64) -> [u32; 2] {
    [start as u32, (start >> 32) as u32]
}

/// The start of these numbers.
fn start_of([modulo, div]: [u32; 2]) -> u64 {
    u64::from(div) << 32 | u64::from(modulo)
}

/// The numbers that come out of a refusal: 1, grid row and column where it has a place.
fn place_numbers(refused: Refused) -> [u32; 5] {
    match refused.place {
        Some(place) => [1, place.grid_row, place.column, 0, 0],
        None => [0; 5],
    }
}

/// A program's output, with the number of its line `refused n` if it is one.
fn program_answer(bytes: Vec<u8>) -> Answer {
    let text = String::from_utf8_lossy(&bytes);
    let number = text
        .strip_prefix("refused ")
        .and_then(|rest| rest.strip_suffix('\n'))
        .and_then(|number| number.parse().ok());
    Answer {
        refusal: number.unwrap_or(0),
        results: [0; 5],
        bytes,
    }
}

/// A case is a call with its answer.
#[derive(Clone, Debug, PartialEq, Eq)]
pub struct Case {
    pub call: Call,
    pub answer: Answer,
}

impl Case {
    fn input_bytes(&self) -> usize {
        self.call.inputs.iter().map(Vec::len).sum()
    }

    fn output_bytes(&self) -> usize {
        self.call.lent.max(self.answer.bytes.len())
    }

    /// Writes the case; inputs that are those of the case before are not written again.
    fn write(&self, before: Option<&Case>, file: &mut Vec<u8>) {
        let kept = before.is_some_and(|case| case.call.inputs == self.call.inputs);
        file.push(self.call.operation);
        file.push(self.answer.refusal as u8);
        file.push(self.call.fill);
        file.push(if kept { INPUTS_KEPT } else { 0 });
        for number in self.call.numbers.iter().chain(&self.answer.results) {
            push_number(file, *number as usize);
        }
        for input in &self.call.inputs {
            push_number(file, input.len());
        }
        push_number(file, self.call.lent);
        push_number(file, self.answer.bytes.len());
        if !kept {
            file.extend(self.call.inputs.concat());
        }
        file.extend_from_slice(&self.answer.bytes);
    }
}

fn push_number(file: &mut Vec<u8>, number: usize) {
    let number = u32::try_from(number).expect("the format's numbers have 32 bits");
    file.extend_from_slice(&number.to_le_bytes());
}

/// The whole file.
pub fn write_file(cases: &[Case]) -> Vec<u8> {
    let mut body = Vec::new();
    let mut before = None;
    for case in cases {
        case.write(before, &mut body);
        before = Some(case);
    }
    let most_input = cases.iter().map(Case::input_bytes).max().unwrap_or(0);
    let most_output = cases.iter().map(Case::output_bytes).max().unwrap_or(0);
    let mut file = MAGIC.to_vec();
    push_number(&mut file, cases.len());
    push_number(&mut file, most_input);
    push_number(&mut file, most_output);
    push_number(&mut file, FILE_HEADER_BYTES + body.len());
    file.extend(body);
    file
}

/// Reads bytes from the front of a file.
struct FileReader<'a> {
    bytes: &'a [u8],
}

impl<'a> FileReader<'a> {
    fn take(&mut self, count: usize) -> Option<&'a [u8]> {
        if count > self.bytes.len() {
            return None;
        }
        let (front, rest) = self.bytes.split_at(count);
        self.bytes = rest;
        Some(front)
    }

    fn number(&mut self) -> Option<u32> {
        let bytes = self.take(4)?;
        Some(u32::from_le_bytes([bytes[0], bytes[1], bytes[2], bytes[3]]))
    }

    /// The next case; `before` are the inputs of the case before it.
    fn case(&mut self, before: &[Vec<u8>; 4]) -> Option<Case> {
        let first = self.take(4)?;
        let mut call = Call {
            operation: first[0],
            fill: first[2],
            ..Call::default()
        };
        let mut answer = Answer {
            refusal: u32::from(first[1]),
            ..Answer::default()
        };
        for number in call.numbers.iter_mut().chain(&mut answer.results) {
            *number = self.number()?;
        }
        let mut lengths = [0; 6];
        for length in &mut lengths {
            *length = self.number()? as usize;
        }
        call.lent = lengths[4];
        if first[3] == INPUTS_KEPT {
            call.inputs = before.clone();
        } else {
            for (input, length) in call.inputs.iter_mut().zip(lengths) {
                *input = self.take(length)?.to_vec();
            }
        }
        answer.bytes = self.take(lengths[5])?.to_vec();
        Some(Case { call, answer })
    }
}

/// The cases of a file, or nothing when it is not one.
pub fn read_file(file: &[u8]) -> Option<Vec<Case>> {
    let mut reader = FileReader { bytes: file };
    if reader.take(8)? != MAGIC {
        return None;
    }
    let count = reader.number()?;
    reader.number()?;
    reader.number()?;
    if reader.number()? as usize != file.len() {
        return None;
    }
    let mut cases: Vec<Case> = Vec::new();
    let mut before = Default::default();
    for _ in 0..count {
        let case = reader.case(&before)?;
        before = case.call.inputs.clone();
        cases.push(case);
    }
    reader.bytes.is_empty().then_some(cases)
}
