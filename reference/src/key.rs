//! Bytes of a key: its header, its grid rows of marks and held seeds, its correction words.

use crate::board::{Board, SEED_BYTES};
use crate::numbers::{groups, Reader};
use crate::refusal;

/// "The header is p, player, N, μ, w."
#[derive(Clone, Copy, Debug, PartialEq, Eq)]
pub struct Header {
    /// p
    pub players: u32,
    pub player: u32,
    /// N
    pub positions: u32,
    /// μ
    pub grid_width: u32,
    /// w
    pub value_width: u32,
}

impl Header {
    /// "All header numbers are read before 1 to 5": 10 comes first.
    pub fn read(bytes: &[u8]) -> Result<Header, u32> {
        let (numbers, _) = Reader::new(bytes).five_numbers()?;
        let [players, player, positions, grid_width, value_width] = numbers;
        Ok(Header {
            players,
            player,
            positions,
            grid_width,
            value_width,
        })
    }

    /// Refusals 1 to 5, then 11.
    pub fn check(&self) -> Result<Board, u32> {
        let board = Board::new(
            self.players,
            self.positions,
            self.grid_width,
            self.value_width,
        )?;
        // "11 player ≥ p"
        if self.player >= self.players {
            return Err(refusal::PLAYER);
        }
        Ok(board)
    }

    /// The header's bytes, in groups.
    pub fn bytes(&self) -> Vec<u8> {
        let mut bytes = groups(self.players);
        bytes.extend(groups(self.player));
        bytes.extend(groups(self.positions));
        bytes.extend(groups(self.grid_width));
        bytes.extend(groups(self.value_width));
        bytes
    }
}

/// The header of one player's key on a board.
pub fn header_of(board: &Board, player: usize) -> Header {
    Header {
        players: board.players as u32,
        player: player as u32,
        positions: board.positions as u32,
        grid_width: board.grid_width as u32,
        value_width: board.value_width as u32,
    }
}

/// "Length K = header + ν × (marks + 16 × J) + J × μ × w." Every player's number is one
/// group, so all keys of a board are equally long.
pub fn key_bytes(board: &Board) -> usize {
    header_of(board, 0).bytes().len()
        + board.grid_rows() * board.key_row_bytes()
        + board.columns() * board.row_bytes()
}

/// **Key length** (p, N, μ, w): 1 to 5.
pub fn key_length(
    players: u32,
    positions: u32,
    grid_width: u32,
    value_width: u32,
) -> Result<u32, u32> {
    let board = Board::new(players, positions, grid_width, value_width)?;
    Ok(key_bytes(&board) as u32)
}

/// "column j is bit j mod 8 of byte j div 8".
pub fn mark(marks: &[u8], column: usize) -> bool {
    marks[column / 8] >> (column % 8) & 1 == 1
}

/// The parts of an accepted key.
pub struct Parts<'a> {
    pub header: Header,
    pub board: Board,
    /// From the first grid row's marks to the end of the key.
    body: &'a [u8],
    /// Where the body begins in the key.
    body_place: usize,
}

impl<'a> Parts<'a> {
    /// Check key: "10 ...; 1 to 5; 11 player ≥ p; 12 length not K; 13 some mark row without
    /// exactly J/2 ones, or a spare bit set."
    pub fn check(key: &'a [u8]) -> Result<Parts<'a>, u32> {
        let header = Header::read(key)?;
        let board = header.check()?;
        if key.len() != key_bytes(&board) {
            return Err(refusal::KEY_LENGTH);
        }
        let parts = Parts::cut(header, board, key);
        if !parts.marks_are_right() {
            return Err(refusal::MARKS);
        }
        Ok(parts)
    }

    /// The parts of K bytes whose header is read and checked.
    pub fn cut(header: Header, board: Board, key: &'a [u8]) -> Parts<'a> {
        let body_place = header.bytes().len();
        Parts {
            header,
            board,
            body: &key[body_place..],
            body_place,
        }
    }

    /// Refusal 13, asked of all grid rows.
    pub fn marks_are_right(&self) -> bool {
        let columns = self.board.columns();
        for grid_row in 0..self.board.grid_rows() {
            let marks = self.from_grid_row(grid_row).marks();
            // "A player marks exactly J/2 columns."
            let ones = (0..columns).filter(|&column| mark(marks, column)).count();
            if ones != columns / 2 {
                return false;
            }
            // "spare bits zero"
            if (columns..8 * marks.len()).any(|spare| mark(marks, spare)) {
                return false;
            }
        }
        true
    }

    /// "the part of the key that begins at its grid row".
    pub fn from_grid_row(&self, grid_row: usize) -> GridRow<'a> {
        GridRow {
            board: self.board,
            part: &self.body[grid_row * self.board.key_row_bytes()..],
        }
    }

    /// "Then the J words."
    pub fn word(&self, column: usize) -> &'a [u8] {
        let words = self.board.grid_rows() * self.board.key_row_bytes();
        let row_bytes = self.board.row_bytes();
        &self.body[words + column * row_bytes..][..row_bytes]
    }

    /// Where a grid row's part begins in the key.
    fn place_of_grid_row(&self, grid_row: usize) -> usize {
        self.body_place + grid_row * self.board.key_row_bytes()
    }
}

/// The part of a key that begins at a grid row.
pub struct GridRow<'a> {
    board: Board,
    part: &'a [u8],
}

impl<'a> GridRow<'a> {
    pub fn marks(&self) -> &'a [u8] {
        &self.part[..self.board.mark_bytes()]
    }

    pub fn is_marked(&self, column: usize) -> bool {
        mark(self.marks(), column)
    }

    /// Where a marked column's seed begins in this part: after the marks and "the seeds of
    /// marked columns in column order".
    fn place_of_seed(&self, column: usize) -> usize {
        let before = (0..column).filter(|&earlier| self.is_marked(earlier));
        self.board.mark_bytes() + SEED_BYTES * before.count()
    }

    /// The held seed of a marked column.
    pub fn seed(&self, column: usize) -> &'a [u8] {
        &self.part[self.place_of_seed(column)..][..SEED_BYTES]
    }
}

/// **Check key**: "An accepted key gives its header numbers."
pub fn check_key(key: &[u8]) -> Result<Header, u32> {
    Ok(Parts::check(key)?.header)
}

/// **Held seed** "returns the 32 bytes of the caller's key itself for a grid row and column.
/// The part is empty if Check key refuses, the row or column doesn't exist, or the mark is
/// zero. It has no numbers."
pub fn held_seed(key: &[u8], grid_row: u32, column: u32) -> &[u8] {
    match held_seed_place(key, grid_row, column) {
        Some(place) => &key[place..place + SEED_BYTES],
        None => &[],
    }
}

/// Where Held seed's 32 bytes begin in the key.
pub fn held_seed_place(key: &[u8], grid_row: u32, column: u32) -> Option<usize> {
    let parts = Parts::check(key).ok()?;
    let (grid_row, column) = (grid_row as usize, column as usize);
    if grid_row >= parts.board.grid_rows() || column >= parts.board.columns() {
        return None;
    }
    let row = parts.from_grid_row(grid_row);
    if !row.is_marked(column) {
        return None;
    }
    Some(parts.place_of_grid_row(grid_row) + row.place_of_seed(column))
}
