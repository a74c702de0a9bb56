//! Open one and Open all: a player's share at one position, and at all of them.

use crate::chacha;
use crate::deal::xor_into;
use crate::key::Parts;
use crate::refusal;

/// "A share at a position is the XOR, over the columns that the player's mark has in that grid
/// row, of word and row, at the position's cell." `marked` has word and row of each marked
/// column; `value_width` is w.
pub fn share_at_cell(marked: &[(&[u8], Vec<u8>)], cell: usize, value_width: usize) -> Vec<u8> {
    let mut share = vec![0; value_width];
    for (word, row) in marked {
        // "Cell c of a row or word is the w bytes from c × w on".
        xor_into(&mut share, &word[cell * value_width..][..value_width]);
        xor_into(&mut share, &row[cell * value_width..][..value_width]);
    }
    share
}

/// Word and row of each column that the player marks in a grid row.
fn marked_columns<'a>(parts: &Parts<'a>, grid_row: usize) -> Vec<(&'a [u8], Vec<u8>)> {
    // "Opening a position works on the part of the key that begins at its grid row."
    let part = parts.from_grid_row(grid_row);
    (0..parts.board.columns())
        .filter(|&column| part.is_marked(column))
        .map(|column| {
            let row = chacha::row(part.seed(column), parts.board.row_bytes());
            (parts.word(column), row)
        })
        .collect()
}

/// The full table of a key: entry a is its player's share at a, for each a below N.
pub fn table(parts: &Parts) -> Vec<u8> {
    let board = parts.board;
    let mut table = Vec::with_capacity(board.table_bytes());
    for grid_row in 0..board.grid_rows() {
        let marked = marked_columns(parts, grid_row);
        for cell in 0..board.grid_width {
            // "Cells past N in the last grid row exist in rows and words, never in tables."
            if grid_row * board.grid_width + cell < board.positions {
                table.extend(share_at_cell(&marked, cell, board.value_width));
            }
        }
    }
    table
}

/// **Open one** "writes w bytes: the refusals of Check key; 14 position ≥ N; 9 output under
/// w."
pub fn open_one(key: &[u8], position: u32, output: &mut [u8]) -> Result<(), u32> {
    let parts = Parts::check(key)?;
    let board = parts.board;
    if position as usize >= board.positions {
        return Err(refusal::POSITION);
    }
    if output.len() < board.value_width {
        return Err(refusal::OUTPUT_SHORT);
    }
    let marked = marked_columns(&parts, board.grid_row_of(position as usize));
    let cell = board.cell_of(position as usize);
    let share = share_at_cell(&marked, cell, board.value_width);
    output[..board.value_width].copy_from_slice(&share);
    Ok(())
}

/// **Open all** "writes N × w bytes: as Check key; 9."
pub fn open_all(key: &[u8], output: &mut [u8]) -> Result<(), u32> {
    let parts = Parts::check(key)?;
    let table_bytes = parts.board.table_bytes();
    if output.len() < table_bytes {
        return Err(refusal::OUTPUT_SHORT);
    }
    output[..table_bytes].copy_from_slice(&table(&parts));
    Ok(())
}
