//! The programs' limits of 65,536 bytes, each at its place in the order, and a table of more
//! than 65,536 bytes.

use super::{board, bytes_call, deal_numbers, program_input, Maker};
use crate::data::{DEALING_PROGRAM, JOINING_PROGRAM, JOIN_KEYS};
use crate::draw::Drawn;

pub fn add(maker: &mut Maker) {
    // The dealing program's output above the limit is 9; its input is below it.
    let drawn = Drawn::new(board((6, 20, 21, 16)), &mut maker.generator);
    let input = program_input(&deal_numbers(&drawn), &drawn);
    assert!(drawn.keys().concat().len() > 65_536);
    maker.add(9, bytes_call(DEALING_PROGRAM, &[], &input, 0));
    // An input of the length asked, above the limit, is 7.
    let drawn = Drawn::new(board((6, 100, 130, 16)), &mut maker.generator);
    let input = program_input(&deal_numbers(&drawn), &drawn);
    assert!(input.len() > 65_536);
    maker.add(7, bytes_call(DEALING_PROGRAM, &[], &input, 0));
    // Keys that join, together above the limit, are 12.
    let drawn = Drawn::new(board((4, 100, 127, 16)), &mut maker.generator);
    let keys = drawn.keys().concat();
    assert_eq!(keys.len(), 65_560);
    maker.add(12, bytes_call(JOINING_PROGRAM, &[], &keys, 0));
    // A table of 65,538 bytes is 9 in the joining program; Join keys writes it.
    let drawn = Drawn::new(board((2, 32_769, 256, 2)), &mut maker.generator);
    let keys = drawn.keys().concat();
    maker.add(9, bytes_call(JOINING_PROGRAM, &[], &keys, 0));
    maker.add(9, bytes_call(JOIN_KEYS, &[], &keys, 65_536));
}
