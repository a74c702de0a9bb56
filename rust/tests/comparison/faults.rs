//! Faults: what is done to a dealing, to a key and to several keys before they are lent. Some leave them as good as they were.

use crate::calls::Hand;
use crate::draw::Draw;
use reference::board::{Board, FEWEST_PLAYERS, MOST_GRID_WIDTH, MOST_PLAYERS, MOST_POSITIONS, MOST_VALUE_WIDTH};
use reference::draw::{Drawn, Generator};
use reference::key::{header_of, key_bytes};
use reference::numbers::groups;

/// The largest number in three groups.
const MOST_IN_GROUPS: u32 = (1 << 21) - 1;

/// How many faults: one often, none or several sometimes.
fn count(generator: &mut Generator) -> usize {
    generator.pick(&[0, 1, 1, 1, 1, 2, 2, 3])
}

/// One byte more at the end, one less, many more or less, or none left.
fn other_length(bytes: &mut Vec<u8>, generator: &mut Generator) {
    match generator.below(6) {
        0 => bytes.clear(),
        1 => bytes.truncate(generator.below(bytes.len() + 1)),
        2 => bytes.extend(generator.bytes(40)),
        3 | 4 => bytes.truncate(bytes.len().saturating_sub(1)),
        _ => bytes.push(0),
    }
}

fn change_one_byte(bytes: &mut [u8], generator: &mut Generator) {
    if !bytes.is_empty() {
        let place = generator.below(bytes.len());
        bytes[place] = generator.number() as u8;
    }
}

/// A dealing as Deal takes it.
pub fn hand(drawn: &Drawn) -> Hand {
    let header = header_of(&drawn.board, 0);
    Hand {
        numbers: [header.players, header.positions, header.grid_width, header.value_width, drawn.point],
        inputs: [drawn.value.clone(), drawn.arrays.clone(), drawn.seeds.clone(), drawn.words.clone()],
    }
}

/// A dealing with some faults, or none.
pub fn faulty_hand(drawn: &Drawn, generator: &mut Generator) -> Hand {
    let mut hand = hand(drawn);
    for _ in 0..count(generator) {
        fault_of_hand(&mut hand, drawn, generator);
    }
    hand
}

fn fault_of_hand(hand: &mut Hand, drawn: &Drawn, generator: &mut Generator) {
    let board = drawn.board;
    match generator.below(16) {
        0 => hand.numbers[0] = generator.near(FEWEST_PLAYERS, MOST_PLAYERS),
        1 => hand.numbers[1] = generator.near(1, MOST_POSITIONS),
        2 => hand.numbers[2] = generator.near(1, MOST_GRID_WIDTH),
        3 => hand.numbers[3] = generator.near(1, MOST_VALUE_WIDTH),
        4 => hand.numbers[1..3].copy_from_slice(&generator.pick(&[[257, 1], [MOST_POSITIONS, 255], [MOST_POSITIONS, 1]])),
        5 => hand.numbers[4] = generator.near(0, board.positions as u32 - 1),
        6 | 7 => other_length(&mut hand.inputs[generator.below(4)], generator),
        8 => {
            // A byte moved to the next input: the sum of the lengths is right, the lengths are not.
            let from = generator.below(3);
            if let Some(byte) = hand.inputs[from].pop() {
                hand.inputs[from + 1].insert(0, byte);
            }
        }
        9 => change_one_byte(&mut hand.inputs[generator.below(4)], generator),
        _ => fault_of_arrays(&mut hand.inputs[1], board, generator),
    }
}

/// An array with a bit of no player, of the wrong parity or with a column twice; or in another order. The first and the last array, and the
/// ends of an array, come often.
fn fault_of_arrays(arrays: &mut [u8], board: Board, generator: &mut Generator) {
    let columns = board.columns();
    if arrays.len() < columns {
        return;
    }
    let drawn = generator.below(arrays.len() / columns);
    let start = generator.pick(&[drawn, 0, arrays.len() / columns - 1]) * columns;
    let (drawn, other) = (generator.below(columns), generator.below(columns));
    let place = generator.pick(&[drawn, 0, columns - 1]);
    let array = &mut arrays[start..][..columns];
    match generator.below(12) {
        // Two bits keep the parity.
        0 => array[place] ^= 0xC0,
        1 => array[place] ^= 1 << generator.within(board.players as u32, 7),
        2 => array[place] = generator.pick(&[0x40, 0x80, 0xFF]),
        3 | 4 => array[place] ^= 1 << generator.below(board.players),
        5 => array[place] = array[other],
        // An earlier column again, where there is one.
        6 | 7 => array[place.max(1)] = array[generator.below(place.max(1))],
        // Another column of the same parity, so that one stands twice.
        8 => array[place] ^= 3,
        // A right array of the other parity.
        9 => array.iter_mut().for_each(|column| *column ^= 1),
        // Any bytes from there on, in all later arrays too.
        10 => arrays[start + place..].iter_mut().for_each(|column| *column = generator.number() as u8),
        _ => array.swap(place, other),
    }
}

/// A dealing whose first fault is this number, 18, 19 or 20, at the first or the last column of the first or the last grid row; and every
/// other time any bytes behind it.
pub fn hand_with_fault(drawn: &Drawn, number: u32, generator: &mut Generator) -> Hand {
    let mut hand = hand(drawn);
    let board = drawn.board;
    let columns = board.columns();
    // 20 cannot stand at column 0.
    let column = generator.pick(&[usize::from(number == 20), columns - 1]);
    let start = generator.pick(&[0, board.grid_rows() - 1]) * columns;
    let (array, behind) = hand.inputs[1][start..].split_at_mut(column + 1);
    array[column] = match number {
        18 => generator.number() as u8 | 1 << generator.within(board.players as u32, 7),
        19 => array[column] ^ 1 << generator.below(board.players),
        _ => array[generator.below(column)],
    };
    if generator.one_in(2) {
        behind.iter_mut().for_each(|column| *column = generator.number() as u8);
    }
    hand
}

/// A key taken apart: its header's numbers in groups, and all that follows.
struct Draft {
    board: Board,
    header: [Vec<u8>; 5],
    body: Vec<u8>,
}

impl Draft {
    fn of(board: Board, key: &[u8]) -> Draft {
        let header = reference::key::Header::read(key).expect("a dealt key");
        let numbers = [header.players, header.player, header.positions, header.grid_width, header.value_width];
        let body = key[header.bytes().len()..].to_vec();
        Draft { board, header: numbers.map(groups), body }
    }

    fn bytes(&self) -> Vec<u8> {
        [&self.header.concat()[..], &self.body].concat()
    }

    fn fault(&mut self, generator: &mut Generator) {
        let number = generator.below(5);
        match generator.below(12) {
            0..=3 => self.header[number] = groups(self.other_number(number, generator)),
            // One group more than the shortest form has.
            4 => {
                *self.header[number].last_mut().expect("a group") |= 0x80;
                self.header[number].push(0);
            }
            // More than three groups.
            5 => self.header[number] = generator.pick(&[[0x80, 0x80, 0x80, 0x01], [0x82, 0x80, 0x80, 0x00], [0xFF; 4]]).to_vec(),
            6..=8 => self.fault_of_marks(generator),
            9 => change_one_byte(&mut self.body, generator),
            _ => other_length(&mut self.body, generator),
        }
    }

    /// A number at its limits, just outside or far outside, or that of a board nearby.
    fn other_number(&self, number: usize, generator: &mut Generator) -> u32 {
        let board = self.board;
        let (own, most) = match number {
            0 => (board.players, MOST_PLAYERS),
            1 => (board.players, board.players as u32 - 1),
            2 => (board.positions, MOST_POSITIONS),
            3 => (board.grid_width, MOST_GRID_WIDTH),
            _ => (board.value_width, MOST_VALUE_WIDTH),
        };
        let own = own as u32;
        generator.pick(&[0, 1, own - 1, own, own + 1, own | 0x80, most - 1, most, most + 1, most + 1, MOST_IN_GROUPS])
    }

    /// Another count of marks, a spare bit, or a mark moved to another column.
    fn fault_of_marks(&mut self, generator: &mut Generator) {
        let board = self.board;
        let columns = board.columns();
        let drawn = generator.below(board.grid_rows());
        let start = generator.pick(&[drawn, 0, board.grid_rows() - 1]) * board.key_row_bytes();
        let Some(marks) = self.body.get_mut(start..start + board.mark_bytes()) else {
            return;
        };
        let (column, other) = (generator.below(columns), generator.below(columns));
        match generator.below(5) {
            0 => marks[column / 8] ^= 1 << (column % 8),
            1 => marks.fill(generator.pick(&[0, 0xFF])),
            2 => marks[0] ^= generator.pick(&[0x10, 0x40, 0x80]),
            3 => change_one_byte(marks, generator),
            _ => {
                if reference::key::mark(marks, column) != reference::key::mark(marks, other) {
                    marks[column / 8] ^= 1 << (column % 8);
                    marks[other / 8] ^= 1 << (other % 8);
                }
            }
        }
    }
}

/// A key with some faults, or none.
pub fn faulty_key(board: Board, key: &[u8], generator: &mut Generator) -> Vec<u8> {
    if generator.one_in(60) {
        let length = generator.below(80);
        return generator.bytes(length);
    }
    let mut draft = Draft::of(board, key);
    for _ in 0..count(generator) {
        draft.fault(generator);
    }
    let mut key = draft.bytes();
    let header = header_of(&board, 0).bytes().len();
    match generator.below(16) {
        0 => change_one_byte(&mut key, generator),
        1 => key.truncate(generator.below(header + 1)),
        2 => other_length(&mut key, generator),
        3 => {
            let within = header.min(key.len());
            change_one_byte(&mut key[..within], generator);
        }
        // Whatever became of the header, the length is right for the board.
        4..=7 => key.resize(key_bytes(&board), 0),
        _ => {}
    }
    key
}

/// All keys of a dealing, with others to confuse them with.
pub struct Keys<'a> {
    pub board: Board,
    pub keys: &'a [Vec<u8>],
    /// Keys of another board that are equally long, where there is one.
    pub as_long: &'a [Vec<u8>],
    /// Keys of the board before.
    pub earlier: &'a [Vec<u8>],
}

impl Keys<'_> {
    /// The keys in one slice, with some faults, or none.
    pub fn faulty(&self, generator: &mut Generator) -> Vec<u8> {
        let mut keys = self.keys.to_vec();
        for _ in 0..generator.pick(&[0, 0, 1, 1, 1, 1, 1, 2]) {
            self.fault(&mut keys, generator);
        }
        let mut whole = keys.concat();
        match generator.below(24) {
            0 => other_length(&mut whole, generator),
            1 => change_one_byte(&mut whole, generator),
            2 => whole.truncate(generator.below(12)),
            _ => {}
        }
        whole
    }

    fn fault(&self, keys: &mut Vec<Vec<u8>>, generator: &mut Generator) {
        let length = key_bytes(&self.board);
        let (place, other) = (generator.below(keys.len()), generator.below(self.keys.len()));
        match generator.below(16) {
            0 => {
                let last = keys.len() - 1;
                keys.swap(place, last);
            }
            // The same key twice, or one in another's place.
            1 => keys[place] = self.keys[other].clone(),
            2 if keys.len() > 1 => drop(keys.remove(place)),
            3 => keys.insert(place, self.keys[other].clone()),
            4 | 5 if !self.as_long.is_empty() => keys[place] = self.as_long[place % self.as_long.len()].clone(),
            6 if !self.earlier.is_empty() => {
                keys[place] = self.earlier[place % self.earlier.len()].clone();
                if generator.one_in(2) {
                    keys[place].resize(length, 0);
                }
            }
            7 => keys[place] = faulty_key(self.board, &self.keys[other], generator),
            _ => {
                keys[place] = faulty_key(self.board, &self.keys[place % self.keys.len()], generator);
                keys[place].resize(length, 0);
            }
        }
    }
}
