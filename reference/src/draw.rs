//! Dealings drawn from a small fixed generator, for tests and for the comparison's data. It is
//! no source of secrets: the same start gives the same bytes.

use crate::board::{Board, SEED_BYTES};
use crate::deal::{deal, input_lengths, mark_bytes, Dealing};
use crate::key::{header_of, key_bytes};

/// Marsaglia's xorshift on 64 bits, its state multiplied on the way out (xorshift64*).
pub struct Generator {
    state: u64,
}

impl Generator {
    /// `start` must not be zero.
    pub fn new(start: u64) -> Generator {
        assert_ne!(start, 0);
        Generator { state: start }
    }

    pub fn number(&mut self) -> u32 {
        self.state ^= self.state >> 12;
        self.state ^= self.state << 25;
        self.state ^= self.state >> 27;
        (self.state.wrapping_mul(0x2545_F491_4F6C_DD1D) >> 32) as u32
    }

    /// A number below `bound`, nearly uniform.
    pub fn below(&mut self, bound: usize) -> usize {
        self.number() as usize % bound
    }

    pub fn bytes(&mut self, count: usize) -> Vec<u8> {
        (0..count).map(|_| self.number() as u8).collect()
    }

    /// All columns of p bits with an even (`ones` 0) or odd (`ones` 1) count of ones, in some
    /// order.
    pub fn array(&mut self, players: usize, ones: u32) -> Vec<u8> {
        let mut columns: Vec<u8> = (0..1u8 << players)
            .filter(|column| column.count_ones() % 2 == ones)
            .collect();
        self.shuffle(&mut columns);
        columns
    }

    /// Puts things in some order.
    pub fn shuffle<T>(&mut self, things: &mut [T]) {
        for last in (1..things.len()).rev() {
            things.swap(last, self.below(last + 1));
        }
    }

    /// An accepted key that nobody dealt: J/2 marks in each grid row, any seeds and any words.
    pub fn key(&mut self, board: &Board, player: usize) -> Vec<u8> {
        let mut key = header_of(board, player).bytes();
        for _ in 0..board.grid_rows() {
            key.extend(mark_bytes(player, &self.array(board.players, 0)));
            key.extend(self.bytes(board.columns() / 2 * SEED_BYTES));
        }
        key.extend(self.bytes(board.columns() * board.row_bytes()));
        key
    }
}

/// A dealing with bytes of its own.
#[derive(Clone)]
pub struct Drawn {
    pub board: Board,
    pub point: u32,
    pub value: Vec<u8>,
    pub arrays: Vec<u8>,
    pub seeds: Vec<u8>,
    pub words: Vec<u8>,
}

impl Drawn {
    /// A dealing with the point given, all else drawn.
    pub fn at(board: Board, point: usize, generator: &mut Generator) -> Drawn {
        let [value_bytes, _, seed_bytes, word_bytes] = input_lengths(&board);
        let value = generator.bytes(value_bytes);
        let piece_row = board.grid_row_of(point);
        let mut arrays = Vec::new();
        for grid_row in 0..board.grid_rows() {
            arrays.extend(generator.array(board.players, u32::from(grid_row == piece_row)));
        }
        Drawn {
            board,
            point: point as u32,
            value,
            arrays,
            seeds: generator.bytes(seed_bytes),
            words: generator.bytes(word_bytes),
        }
    }

    /// A dealing with all drawn but the board.
    pub fn new(board: Board, generator: &mut Generator) -> Drawn {
        let point = generator.below(board.positions);
        Drawn::at(board, point, generator)
    }

    pub fn dealing(&self) -> Dealing<'_> {
        Dealing {
            players: self.board.players as u32,
            positions: self.board.positions as u32,
            grid_width: self.board.grid_width as u32,
            value_width: self.board.value_width as u32,
            point: self.point,
            value: &self.value,
            arrays: &self.arrays,
            seeds: &self.seeds,
            words: &self.words,
        }
    }

    /// The p keys, player 0 first.
    pub fn keys(&self) -> Vec<Vec<u8>> {
        let key_length = key_bytes(&self.board);
        let mut output = vec![0; self.board.players * key_length];
        deal(&self.dealing(), &mut output).expect("a drawn dealing is accepted");
        output.chunks(key_length).map(<[u8]>::to_vec).collect()
    }

    /// The table that the keys join to: the value at the point and zeros elsewhere.
    pub fn joined_table(&self) -> Vec<u8> {
        let mut table = vec![0; self.board.table_bytes()];
        let entry = self.point as usize * self.board.value_width;
        table[entry..entry + self.board.value_width].copy_from_slice(&self.value);
        table
    }
}
