//! The board as a grid: document 01's four numbers p, N, μ and w, and what follows from them.

use crate::refusal;

/// "p players, 2 to 6".
pub const FEWEST_PLAYERS: u32 = 2;
pub const MOST_PLAYERS: u32 = 6;
/// "N positions, 1 to 65,536".
pub const MOST_POSITIONS: u32 = 65_536;
/// "Grid width μ, 1 to 256".
pub const MOST_GRID_WIDTH: u32 = 256;
/// "Value width w bytes, 1 to 16".
pub const MOST_VALUE_WIDTH: u32 = 16;
/// "ν = N/μ rounded up, at most 256".
pub const MOST_GRID_ROWS: u32 = 256;
/// "Each grid row and column has a 32-byte seed."
pub const SEED_BYTES: usize = 32;

/// Four numbers that refusals 1 to 5 do not turn away.
#[derive(Clone, Copy, Debug, PartialEq, Eq)]
pub struct Board {
    /// p
    pub players: usize,
    /// N
    pub positions: usize,
    /// μ
    pub grid_width: usize,
    /// w
    pub value_width: usize,
}

impl Board {
    /// Refusals 1 to 5, in their order.
    pub fn new(
        players: u32,
        positions: u32,
        grid_width: u32,
        value_width: u32,
    ) -> Result<Board, u32> {
        // "1 p outside its range; 2 N; 3 μ; 4 w; 5 ν above 256."
        if !(FEWEST_PLAYERS..=MOST_PLAYERS).contains(&players) {
            return Err(refusal::PLAYERS);
        }
        if !(1..=MOST_POSITIONS).contains(&positions) {
            return Err(refusal::POSITIONS);
        }
        if !(1..=MOST_GRID_WIDTH).contains(&grid_width) {
            return Err(refusal::GRID_WIDTH);
        }
        if !(1..=MOST_VALUE_WIDTH).contains(&value_width) {
            return Err(refusal::VALUE_WIDTH);
        }
        if positions.div_ceil(grid_width) > MOST_GRID_ROWS {
            return Err(refusal::GRID_ROWS);
        }
        Ok(Board {
            players: players as usize,
            positions: positions as usize,
            grid_width: grid_width as usize,
            value_width: value_width as usize,
        })
    }

    /// "J = 2^(p−1) columns of an array".
    pub fn columns(&self) -> usize {
        1 << (self.players - 1)
    }

    /// "ν = N/μ rounded up".
    pub fn grid_rows(&self) -> usize {
        self.positions.div_ceil(self.grid_width)
    }

    /// "Position a lies in grid row a div μ".
    pub fn grid_row_of(&self, position: usize) -> usize {
        position / self.grid_width
    }

    /// "... cell a mod μ".
    pub fn cell_of(&self, position: usize) -> usize {
        position % self.grid_width
    }

    /// "A seed's row is μ × w bytes", and so is a correction word.
    pub fn row_bytes(&self) -> usize {
        self.grid_width * self.value_width
    }

    /// "J/8 bytes rounded up of marks".
    pub fn mark_bytes(&self) -> usize {
        self.columns().div_ceil(8)
    }

    /// One grid row of a key: its marks, then J/2 seeds of 32 bytes ("marks + 16 × J").
    pub fn key_row_bytes(&self) -> usize {
        self.mark_bytes() + 16 * self.columns()
    }

    /// A table has an entry of w bytes for each of the N positions.
    pub fn table_bytes(&self) -> usize {
        self.positions * self.value_width
    }
}
