//! Write page, of document 02: the opened table as lines of text that a club pins up.

use crate::board::{MOST_POSITIONS, MOST_VALUE_WIDTH};
use crate::refusal;

/// "write lines of eight cells".
pub const LINE_CELLS: usize = 8;

/// "Every line is 6 + 8 × (2 × w + 1) bytes".
pub fn line_bytes(value_width: usize) -> usize {
    6 + 8 * (2 * value_width + 1)
}

/// A page has a line for each eight positions, the last of them for what is left.
pub fn page_bytes(positions: usize, value_width: usize) -> usize {
    positions.div_ceil(LINE_CELLS) * line_bytes(value_width)
}

/// **Write page** "Given N, w and N × w bytes": "The order is 2, 4, 7, 9." "The answer gives the
/// bytes written."
pub fn write_page(
    positions: u32,
    value_width: u32,
    table: &[u8],
    output: &mut [u8],
) -> Result<usize, u32> {
    if !(1..=MOST_POSITIONS).contains(&positions) {
        return Err(refusal::POSITIONS);
    }
    if !(1..=MOST_VALUE_WIDTH).contains(&value_width) {
        return Err(refusal::VALUE_WIDTH);
    }
    let (positions, value_width) = (positions as usize, value_width as usize);
    if table.len() != positions * value_width {
        return Err(refusal::INPUT_LENGTH);
    }
    let written = page_bytes(positions, value_width);
    if output.len() < written {
        return Err(refusal::OUTPUT_SHORT);
    }
    let entries: Vec<&[u8]> = table.chunks(value_width).collect();
    let lines = (0..positions).step_by(LINE_CELLS);
    let page: String = lines
        .map(|first| line(first, &entries, value_width))
        .collect();
    output[..written].copy_from_slice(page.as_bytes());
    Ok(written)
}

/// The line of eight cells from a position on.
fn line(first: usize, entries: &[&[u8]], value_width: usize) -> String {
    // "the first position in five places, right-aligned with spaces"
    let mut line = format!("{first:>5}");
    for position in first..first + LINE_CELLS {
        // "then for each cell one space and 2 × w upper-case hexadecimal digits"
        line.push(' ');
        match entries.get(position) {
            Some(entry) => entry
                .iter()
                .for_each(|byte| line.push_str(&format!("{byte:02X}"))),
            // "spaces for cells past N"
            None => line.push_str(&" ".repeat(2 * value_width)),
        }
    }
    // "one line feed"
    line.push('\n');
    line
}
