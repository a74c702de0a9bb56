//! Open one on rows of more than one block of 64 bytes, of which document 02 has it expand its
//! cell's bytes only: cells across two blocks, at the start and at the end of a block, and at both
//! ends of the row, in every grid row. Open all on the same keys has the whole tables.

use super::{board, bytes_call, Maker};
use crate::board::Board;
use crate::chacha::BLOCK_BYTES;
use crate::data::{OPEN_ALL, OPEN_ONE};
use crate::draw::Drawn;

/// Grid width μ and value width w of the boards for every p. Among 66 cells are one that ends with
/// a block and one that starts with the next whatever w is, and another behind them.
const WIDTHS: [(u32, u32); 6] = [(66, 1), (66, 3), (66, 5), (66, 7), (24, 12), (6, 16)];

/// Boards (p, N, μ, w) with long rows: document 02's for the timed run, and one with two grid
/// rows. One edge in so many is opened.
const LONG_ROWS: [((u32, u32, u32, u32), usize); 2] =
    [((2, 256, 256, 16), 15), ((2, 512, 256, 15), 5)];

pub fn add(maker: &mut Maker) {
    for players in 2..=6 {
        for (grid_width, value_width) in WIDTHS {
            // Three grid rows, of which the last is a cell short.
            let positions = 3 * grid_width - 1;
            let board = board((players, positions, grid_width, value_width));
            edges(maker, board, 1);
        }
    }
    for (numbers, one_in) in LONG_ROWS {
        edges(maker, board(numbers), one_in);
    }
}

/// One player's key, opened at its edges from the last one back.
fn edges(maker: &mut Maker, board: Board, one_in: usize) {
    let drawn = Drawn::new(board, &mut maker.generator);
    let player = maker.generator.below(board.players);
    let key = &drawn.keys()[player];
    maker.add(0, bytes_call(OPEN_ALL, &[], key, board.table_bytes()));
    let positions = (0..board.positions).rev();
    let edges = positions.filter(|&position| is_edge(&board, board.cell_of(position)));
    for (place, position) in edges.step_by(one_in).enumerate() {
        // Every other output is longer than it needs to be.
        let lent = board.value_width + place % 2 * 5;
        maker.add(0, bytes_call(OPEN_ONE, &[position as u32], key, lent));
    }
}

/// A cell that starts or ends with a block or lies across two, or that ends the row. The row's
/// first starts with a block.
fn is_edge(board: &Board, cell: usize) -> bool {
    let start = cell * board.value_width % BLOCK_BYTES;
    let end = start + board.value_width;
    start == 0 || end >= BLOCK_BYTES || cell == board.grid_width - 1
}
