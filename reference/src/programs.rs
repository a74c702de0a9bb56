//! The dealing program and the joining program, each a function from the bytes of standard
//! input to the bytes of standard output.

use crate::board::Board;
use crate::deal::{deal, input_lengths, Dealing};
use crate::join::join_keys;
use crate::key::{key_bytes, Header};
use crate::numbers::Reader;
use crate::refusal;
use std::fmt::Write;

/// "Above 65,536 bytes, its input is 7, its output 9, the joining program's input 12 and its
/// table 9, each at its place in the order."
pub const MOST_BYTES: usize = 65_536;

/// "A refusal is the line `refused n`, the number alone. Every line ends in one line feed."
pub fn refused(number: u32) -> Vec<u8> {
    format!("refused {number}\n").into_bytes()
}

/// "The dealing program reads p, N, μ, w, point in the groups above, then value, arrays,
/// seeds, words, and writes the keys."
pub fn dealing_program(input: &[u8]) -> Vec<u8> {
    deal_input(input).unwrap_or_else(refused)
}

/// "The dealing program checks 10 first, then as Deal, 7 on the whole input."
fn deal_input(input: &[u8]) -> Result<Vec<u8>, u32> {
    // 10
    let (numbers, reader) = Reader::new(input).five_numbers()?;
    let [players, positions, grid_width, value_width, point] = numbers;
    let lent = reader.rest();
    // 1 to 5
    let board = Board::new(players, positions, grid_width, value_width)?;
    // 6
    if point >= positions {
        return Err(refusal::POINT);
    }
    // 7, on the whole input
    let lengths = input_lengths(&board);
    if lent.len() != lengths.iter().sum::<usize>() || input.len() > MOST_BYTES {
        return Err(refusal::INPUT_LENGTH);
    }
    let (value, lent) = lent.split_at(lengths[0]);
    let (arrays, lent) = lent.split_at(lengths[1]);
    let (seeds, words) = lent.split_at(lengths[2]);
    let dealing = Dealing {
        players,
        positions,
        grid_width,
        value_width,
        point,
        value,
        arrays,
        seeds,
        words,
    };
    // 18 to 20, "the number alone", and 9 when the keys do not fit into the most bytes that the
    // program writes
    let mut output = vec![0; MOST_BYTES];
    deal(&dealing, &mut output).map_err(|refused| refused.number)?;
    output.truncate(board.players * key_bytes(&board));
    Ok(output)
}

/// "The joining program reads p keys and writes a line with p, N and w in the words shown
/// below, then a line for each position from 0 up".
pub fn joining_program(input: &[u8]) -> Vec<u8> {
    join_input(input).unwrap_or_else(refused)
}

fn join_input(input: &[u8]) -> Result<Vec<u8>, u32> {
    // for the first key 10, 1 to 5, 11
    let first = Header::read(input)?;
    let board = first.check()?;
    // 12: above the limit here, of another length than p × K in Join keys
    if input.len() > MOST_BYTES {
        return Err(refusal::KEY_LENGTH);
    }
    // each key's own in turn, then 9 when the table is above the limit
    let mut table = vec![0; MOST_BYTES];
    join_keys(input, &mut table)?;
    Ok(table_text(&board, &table[..board.table_bytes()]).into_bytes())
}

/// "the position, unpadded, one space, and its value in two upper-case hexadecimal digits a
/// byte", below the line with p, N and w.
fn table_text(board: &Board, table: &[u8]) -> String {
    let mut text = String::new();
    writeln!(
        text,
        "players {} squares {} width {}",
        board.players, board.positions, board.value_width
    )
    .unwrap();
    for (position, entry) in table.chunks(board.value_width).enumerate() {
        write!(text, "{position} ").unwrap();
        for byte in entry {
            write!(text, "{byte:02X}").unwrap();
        }
        text.push('\n');
    }
    text
}
