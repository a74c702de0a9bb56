//! Deal: p keys from a point, a value, arrays, seeds and lent correction words.

use crate::board::{Board, SEED_BYTES};
use crate::chacha;
use crate::key::{header_of, key_bytes};
use crate::refusal;

/// What Deal is lent, but for its output.
#[derive(Clone, Copy)]
pub struct Dealing<'a> {
    /// p
    pub players: u32,
    /// N
    pub positions: u32,
    /// μ
    pub grid_width: u32,
    /// w
    pub value_width: u32,
    /// The piece's position.
    pub point: u32,
    /// w bytes.
    pub value: &'a [u8],
    /// ν × J bytes, grid row by grid row, in column order.
    pub arrays: &'a [u8],
    /// ν × J × 32 bytes, grid row by grid row, in column order.
    pub seeds: &'a [u8],
    /// (J−1) × μ × w bytes: the words of columns 0 to J−2, in column order.
    pub words: &'a [u8],
}

/// The lengths that Deal asks of its four lent inputs: "value, arrays, seeds, words, in bytes
/// w, ν × J, ν × J × 32, (J−1) × μ × w".
pub fn input_lengths(board: &Board) -> [usize; 4] {
    let array_bytes = board.grid_rows() * board.columns();
    [
        board.value_width,
        array_bytes,
        array_bytes * SEED_BYTES,
        (board.columns() - 1) * board.row_bytes(),
    ]
}

/// Where a column stands: places are in order "row by row and column by column".
#[derive(Clone, Copy, Debug, PartialEq, Eq, PartialOrd, Ord)]
pub struct Place {
    pub grid_row: u32,
    /// Counted from 0 in its array.
    pub column: u32,
}

/// Why Deal refuses: a number, and where it is 18, 19 or 20 "the grid row and column of the
/// first fault". No other number has a place.
#[derive(Clone, Copy, Debug, PartialEq, Eq)]
pub struct Refused {
    pub number: u32,
    pub place: Option<Place>,
}

impl From<u32> for Refused {
    /// A refusal without a place.
    fn from(number: u32) -> Refused {
        Refused {
            number,
            place: None,
        }
    }
}

/// What is wrong with one column, where `earlier` are the columns before it in its array:
/// document 02's three numbers, "at one column the order is as follows". "An even array holds
/// every column of p bits with an even count of ones exactly once; an odd array every column
/// with an odd count": `ones` is 0 for even and 1 for odd.
pub fn column_fault(players: usize, ones: u32, earlier: &[u8], column: u8) -> Option<u32> {
    // "18 when a bit at p or above is set"
    if column >> players != 0 {
        return Some(refusal::COLUMN_BIT);
    }
    // "19 when the parity is wrong"
    if column.count_ones() % 2 != ones {
        return Some(refusal::COLUMN_PARITY);
    }
    // "20 when the column stood earlier in its array"
    if earlier.contains(&column) {
        return Some(refusal::COLUMN_TWICE);
    }
    None
}

/// The first fault of one array, its number and its column. J columns without a fault are all
/// those of one parity, each exactly once.
pub fn array_fault(players: usize, ones: u32, array: &[u8]) -> Option<(u32, usize)> {
    for (column, &bits) in array.iter().enumerate() {
        if let Some(number) = column_fault(players, ones, &array[..column], bits) {
            return Some((number, column));
        }
    }
    None
}

/// "the first fault, scanning row by row and column by column".
pub fn first_fault(board: &Board, piece_row: usize, arrays: &[u8]) -> Option<Refused> {
    for (grid_row, array) in arrays.chunks(board.columns()).enumerate() {
        // "The piece's grid row has an odd array, all others even ones."
        let ones = u32::from(grid_row == piece_row);
        if let Some((number, column)) = array_fault(board.players, ones, array) {
            return Some(Refused {
                number,
                place: Some(Place {
                    grid_row: grid_row as u32,
                    column: column as u32,
                }),
            });
        }
    }
    None
}

/// How many columns have a fault.
pub fn faulty_columns(board: &Board, piece_row: usize, arrays: &[u8]) -> usize {
    let mut count = 0;
    for (grid_row, array) in arrays.chunks(board.columns()).enumerate() {
        let ones = u32::from(grid_row == piece_row);
        for (column, &bits) in array.iter().enumerate() {
            count +=
                usize::from(column_fault(board.players, ones, &array[..column], bits).is_some());
        }
    }
    count
}

/// A player's mark bytes for an array: "bit i of a column is player i's mark" and "column j is
/// bit j mod 8 of byte j div 8, spare bits zero".
pub fn mark_bytes(player: usize, array: &[u8]) -> Vec<u8> {
    let mut marks = vec![0; array.len().div_ceil(8)];
    for (column, &bits) in array.iter().enumerate() {
        marks[column / 8] |= (bits >> player & 1) << (column % 8);
    }
    marks
}

/// "The last is such that the XOR of all words and of all J rows of the piece's grid row is the
/// value in the piece's cell and zero in the others."
pub fn last_word(rows: &[Vec<u8>], lent_words: &[&[u8]], cell: usize, value: &[u8]) -> Vec<u8> {
    let mut word = vec![0; rows[0].len()];
    // "Cell c of a row or word is the w bytes from c × w on".
    word[cell * value.len()..][..value.len()].copy_from_slice(value);
    for row in rows {
        xor_into(&mut word, row);
    }
    for lent in lent_words {
        xor_into(&mut word, lent);
    }
    word
}

/// XORs one run of bytes into another of the same length.
pub fn xor_into(target: &mut [u8], other: &[u8]) {
    assert_eq!(target.len(), other.len());
    for (byte, with) in target.iter_mut().zip(other) {
        *byte ^= with;
    }
}

impl Dealing<'_> {
    /// Refusals 1 to 7, then 18 to 20, in their order.
    fn check(&self) -> Result<Board, Refused> {
        let board = Board::new(
            self.players,
            self.positions,
            self.grid_width,
            self.value_width,
        )?;
        // "6 point ≥ N"
        if self.point >= self.positions {
            return Err(refusal::POINT.into());
        }
        // "7 a lent input ... of another length"
        let lent = [
            self.value.len(),
            self.arrays.len(),
            self.seeds.len(),
            self.words.len(),
        ];
        if lent != input_lengths(&board) {
            return Err(refusal::INPUT_LENGTH.into());
        }
        // "all take the place of 8"
        let piece_row = board.grid_row_of(self.point as usize);
        match first_fault(&board, piece_row, self.arrays) {
            Some(fault) => Err(fault),
            None => Ok(board),
        }
    }

    /// The seed of a grid row and column: "grid row by grid row, in column order".
    fn seed(&self, board: &Board, grid_row: usize, column: usize) -> &[u8] {
        let place = grid_row * board.columns() + column;
        &self.seeds[place * SEED_BYTES..][..SEED_BYTES]
    }

    /// All J correction words, one after another.
    fn all_words(&self, board: &Board) -> Vec<u8> {
        let piece_row = board.grid_row_of(self.point as usize);
        let rows: Vec<Vec<u8>> = (0..board.columns())
            .map(|column| chacha::row(self.seed(board, piece_row, column), board.row_bytes()))
            .collect();
        let lent: Vec<&[u8]> = self.words.chunks(board.row_bytes()).collect();
        let cell = board.cell_of(self.point as usize);
        let mut words = self.words.to_vec();
        words.extend(last_word(&rows, &lent, cell, self.value));
        words
    }

    /// One player's key.
    fn key(&self, board: &Board, player: usize, all_words: &[u8]) -> Vec<u8> {
        let mut key = header_of(board, player).bytes();
        for (grid_row, array) in self.arrays.chunks(board.columns()).enumerate() {
            // "Then for each grid row: ... marks ..., then the seeds of marked columns in
            // column order."
            key.extend(mark_bytes(player, array));
            for (column, &bits) in array.iter().enumerate() {
                if bits >> player & 1 == 1 {
                    key.extend_from_slice(self.seed(board, grid_row, column));
                }
            }
        }
        // "Then the J words."
        key.extend_from_slice(all_words);
        key
    }
}

/// **Deal** "writes p keys one after another, player 0 first: 1 to 5; 6 ...; 7 ...; 8 ...; 9
/// output shorter than p × K", with document 02's 18, 19 and 20 in place of 8.
pub fn deal(dealing: &Dealing, output: &mut [u8]) -> Result<(), Refused> {
    let board = dealing.check()?;
    let key_length = key_bytes(&board);
    if output.len() < board.players * key_length {
        return Err(refusal::OUTPUT_SHORT.into());
    }
    let all_words = dealing.all_words(&board);
    for player in 0..board.players {
        let key = dealing.key(&board, player, &all_words);
        output[player * key_length..][..key_length].copy_from_slice(&key);
    }
    Ok(())
}
