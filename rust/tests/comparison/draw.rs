//! Draws: numbers at and beyond their limits, lengths of outputs, boards.

use nosingginger::{TallyNumbers, MOST_SHARE_BYTES};
use reference::board::{Board, FEWEST_PLAYERS, MOST_GRID_ROWS, MOST_GRID_WIDTH, MOST_PLAYERS, MOST_POSITIONS, MOST_VALUE_WIDTH};
use reference::chacha::{BLOCK_BYTES, MOST_ROW_BYTES};
use reference::draw::Generator;

/// The most bytes of a table that is drawn for other positions than a board's.
const MOST_OTHER_TABLE: u32 = 1 << 13;

/// The least number that makes 2^32 or more with this factor.
fn wraps(factor: u32) -> u32 {
    (1u64 << 32).div_ceil(u64::from(factor)) as u32
}

pub trait Draw {
    /// True once in `count` draws.
    fn one_in(&mut self, count: usize) -> bool;
    fn pick<T: Copy>(&mut self, choices: &[T]) -> T;
    /// A number of a range.
    fn within(&mut self, least: u32, most: u32) -> u32;
    /// A number of a range, mostly; else one at its ends, just outside, far outside, or in it but for a single higher bit.
    fn near(&mut self, least: u32, most: u32) -> u32;
    /// The length of an output that takes `exact` bytes: that, or longer, one short, empty, shorter.
    fn output_length(&mut self, exact: usize) -> usize;
    /// Where so many bytes of a row start: mostly so that the longest row holds them, often at or beside the border of
    /// two blocks or so that they end with the longest row; else further on, up to where the end is past 64 bits.
    fn start(&mut self, length: usize) -> u64;
    /// The bytes of a card, so that a board's deck has at most `most_deck` bytes if any has: any number of them, the least
    /// or the most.
    fn card_bytes(&mut self, board: &Board, most_deck: usize) -> u32;
    /// Bytes of a card and of a deck: mostly right ones; else of a card at and beyond its limits, or so that all cards
    /// together have 2^32 bytes more than the deck; else of a deck that is too short or too long.
    fn card_and_deck(&mut self, board: &Board, most_deck: usize) -> (u32, usize);
    /// Positions and value bytes of a page, and bytes of its table: mostly right ones; else numbers at and beyond their
    /// limits, or so that all entries together have 2^32 bytes more than the table; else a table that is too short or too long.
    fn page_and_table(&mut self) -> (u32, u32, usize);
    /// A tally like this one, and bytes of its table: mostly the same, with a table that is right or longer; else another
    /// number, near the tally's own or at and beyond its limits, or so that all entries together have 2^32 bytes more than
    /// the table; else a table that is too short.
    fn tally_and_table(&mut self, numbers: TallyNumbers) -> (TallyNumbers, usize);
    /// A board whose openings cost at most `most_cost`.
    fn board(&mut self, most_cost: usize) -> Board;
}

impl Draw for Generator {
    fn one_in(&mut self, count: usize) -> bool {
        self.below(count) == 0
    }

    fn pick<T: Copy>(&mut self, choices: &[T]) -> T {
        choices[self.below(choices.len())]
    }

    fn within(&mut self, least: u32, most: u32) -> u32 {
        least + self.below((most - least + 1) as usize) as u32
    }

    fn near(&mut self, least: u32, most: u32) -> u32 {
        match self.below(24) {
            0 => least,
            1 => most,
            2 => least.wrapping_sub(1),
            3 => most + 1,
            4 => u32::MAX,
            5 => self.number(),
            6 => self.within(least, most) | 1 << self.within(5, 31),
            _ => self.within(least, most),
        }
    }

    fn output_length(&mut self, exact: usize) -> usize {
        match self.below(16) {
            0 => exact.saturating_sub(1),
            1 => 0,
            2 => self.below(exact + 1),
            3 | 4 => exact + 1,
            5 | 6 => exact + self.below(50),
            _ => exact,
        }
    }

    fn start(&mut self, length: usize) -> u64 {
        let last = MOST_ROW_BYTES.saturating_sub(length);
        let near = match self.below(16) {
            0..=2 => 0,
            3..=6 => self.below(last + 1) as u64,
            7..=10 => (BLOCK_BYTES * self.below(last / BLOCK_BYTES + 1)) as u64,
            11 | 12 => last as u64,
            13 => (length as u64).wrapping_neg(),
            14 => u64::from(self.number()) << 32 | self.below(last + 1) as u64,
            _ => u64::from(self.number()) << self.below(33),
        };
        near.wrapping_add_signed(self.pick(&[0, 0, 0, -1, 1]))
    }

    fn card_bytes(&mut self, board: &Board, most_deck: usize) -> u32 {
        let most = (most_deck / board.positions).clamp(1, MOST_SHARE_BYTES as usize) as u32;
        let drawn = self.within(1, most);
        self.pick(&[drawn, drawn, drawn, drawn, 1, most])
    }

    fn card_and_deck(&mut self, board: &Board, most_deck: usize) -> (u32, usize) {
        let (positions, card_bytes) = (board.positions, self.card_bytes(board, most_deck));
        let (card, deck) = (card_bytes as usize, positions * card_bytes as usize);
        match self.below(20) {
            0 => (card_bytes, deck - 1),
            1 => (card_bytes, deck + 1),
            2 => (card_bytes, deck - card),
            3 => (card_bytes, deck + card),
            4 => (card_bytes, self.below(2 * deck)),
            5 => (self.pick(&[0, MOST_SHARE_BYTES + 1]), self.pick(&[0, deck])),
            6 => (MOST_SHARE_BYTES + 1, (positions * (MOST_SHARE_BYTES as usize + 1)).min(most_deck)),
            7 => (self.near(1, MOST_SHARE_BYTES), deck),
            // One position cannot have so many bytes.
            8 | 9 if positions > 1 => {
                let wraps = (1u64 << 32).div_ceil(positions as u64) as u32 + self.pick(&[0, card_bytes]);
                (wraps, (wraps as usize * positions) & u32::MAX as usize)
            }
            _ => (card_bytes, deck),
        }
    }

    fn page_and_table(&mut self) -> (u32, u32, usize) {
        let most = if self.one_in(500) { MOST_POSITIONS } else { self.pick(&[8, 8, 17, 17, 80, 300, 1_100]) };
        let (positions, value_bytes) = (self.within(1, most), self.within(1, MOST_VALUE_WIDTH));
        let (table, entry) = ((positions * value_bytes) as usize, value_bytes as usize);
        match self.below(32) {
            0 => (positions, value_bytes, table - 1),
            1 => (positions, value_bytes, table + 1),
            2 => (positions, value_bytes, table - entry),
            3 => (positions, value_bytes, table + entry),
            4 => (positions, value_bytes, self.below(2 * table)),
            5 => (self.pick(&[0, MOST_POSITIONS + 1]), value_bytes, self.pick(&[0, table])),
            6 => (positions, self.pick(&[0, MOST_VALUE_WIDTH + 1]), self.pick(&[0, table])),
            7 => (positions, MOST_VALUE_WIDTH + 1, positions as usize * (MOST_VALUE_WIDTH as usize + 1)),
            8 => (self.near(1, MOST_POSITIONS), value_bytes, table),
            9 => (positions, self.near(1, MOST_VALUE_WIDTH), table),
            10 => (self.near(1, MOST_POSITIONS), self.near(1, MOST_VALUE_WIDTH), self.pick(&[0, table])),
            // With a factor of one there are not so many bytes.
            11 if value_bytes > 1 => {
                let positions = wraps(value_bytes) + self.pick(&[0, positions]);
                (positions, value_bytes, positions.wrapping_mul(value_bytes) as usize)
            }
            12 if positions > 1 => {
                let value_bytes = wraps(positions) + self.pick(&[0, value_bytes]);
                (positions, value_bytes, positions.wrapping_mul(value_bytes) as usize)
            }
            _ => (positions, value_bytes, table),
        }
    }

    fn tally_and_table(&mut self, numbers: TallyNumbers) -> (TallyNumbers, usize) {
        let mut tally = numbers;
        let TallyNumbers { players, player, positions, value_bytes } = &mut tally;
        match self.below(24) {
            0 => *players = self.near(FEWEST_PLAYERS, MOST_PLAYERS),
            1 => *player = self.near(0, *players - 1),
            2 => *positions = self.near(1, MOST_POSITIONS),
            3 => *value_bytes = self.near(1, MOST_VALUE_WIDTH),
            4 => *players = self.pick(&[*players - 1, *players + 1]),
            5 => *player = self.pick(&[0, *players - 1, *players]),
            6 => *positions = self.pick(&[*positions - 1, *positions + 1]),
            7 => *value_bytes = self.pick(&[*value_bytes - 1, *value_bytes + 1]),
            8 => (*players, *positions) = (self.near(FEWEST_PLAYERS, MOST_PLAYERS), self.near(1, MOST_POSITIONS)),
            9 => (*value_bytes, *player) = (self.near(1, MOST_VALUE_WIDTH), self.near(0, *players - 1)),
            // With a factor of one there are not so many bytes.
            10 if *value_bytes > 1 => *positions = wraps(*value_bytes) + self.pick(&[0, *positions]),
            11 if *positions > 1 => *value_bytes = wraps(*positions) + self.pick(&[0, *value_bytes]),
            _ => {}
        }
        // Another number of positions, or of value bytes far outside their range, may ask for a large table, and mostly gets one
        // that is too short.
        let right = tally.positions.wrapping_mul(tally.value_bytes);
        let is_near = tally.positions == numbers.positions && tally.value_bytes <= MOST_VALUE_WIDTH + 1;
        let most = if is_near { right } else { right.min(MOST_OTHER_TABLE) };
        (tally, self.output_length(most as usize))
    }

    fn board(&mut self, most_cost: usize) -> Board {
        loop {
            let most_positions = self.pick(&[1, 12, 80, 300, 4_000, MOST_POSITIONS]);
            let most_width = self.pick(&[1, 8, 30, MOST_GRID_WIDTH]);
            let most_value = self.pick(&[1, 4, MOST_VALUE_WIDTH]);
            let players = self.within(FEWEST_PLAYERS, MOST_PLAYERS);
            let width = if self.one_in(12) { most_width } else { self.within(1, most_width) };
            // The most grid rows, sometimes, and the last of them short or whole.
            let positions =
                if self.one_in(12) { MOST_GRID_ROWS * width - self.within(0, width - 1) } else { self.within(1, most_positions) };
            let value = if self.one_in(12) { most_value } else { self.within(1, most_value) };
            match Board::new(players, positions, width, value) {
                Ok(board) if cost(&board) <= most_cost => return board,
                _ => {}
            }
        }
    }
}

/// About how much it takes to open and to join a board's tables: blocks of the key stream and entries.
pub fn cost(board: &Board) -> usize {
    let blocks = board.grid_rows() * board.row_bytes().div_ceil(64);
    board.players * board.columns() * (blocks + board.positions / 16)
}

/// Whether the cell of a position lies in two blocks of its row.
pub fn in_two_blocks(board: &Board, position: usize) -> bool {
    let first = board.cell_of(position) * board.value_width;
    first / BLOCK_BYTES != (first + board.value_width - 1) / BLOCK_BYTES
}

/// A position whose cell does, if the board has one.
pub fn cell_in_two_blocks(board: &Board, generator: &mut Generator) -> Option<u32> {
    let first = generator.below(board.positions);
    let mut positions = (first..board.positions).chain(0..first);
    positions.find(|&position| in_two_blocks(board, position)).map(|position| position as u32)
}

/// A board whose keys are as long as those of `board`, if a nearby one is: other positions in as many grid rows, or cells of another width.
pub fn as_long(board: &Board, generator: &mut Generator) -> Option<Board> {
    let Board { players, positions, grid_width, value_width } = *board;
    let [players, positions, grid_width, value_width] = [players, positions, grid_width, value_width].map(|number| number as u32);
    let other = match generator.below(4) {
        0 => Board::new(players, positions + 1, grid_width, value_width),
        1 => Board::new(players, positions.wrapping_sub(1), grid_width, value_width),
        2 => Board::new(players, positions, value_width, grid_width),
        _ => Board::new(players, positions, grid_width * 2, value_width / 2),
    };
    let same_length = |other: &Board| reference::key::key_bytes(other) == reference::key::key_bytes(board);
    other.ok().filter(|other| other != board && same_length(other))
}
