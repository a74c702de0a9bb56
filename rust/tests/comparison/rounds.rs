//! A round: one board, one drawn dealing, and calls about them, first right ones at the limits of their outputs, then drawn ones.

use crate::calls::Comparison;
use crate::counts::Operation;
use crate::draw::{as_long, cell_in_two_blocks, cost, Draw};
use crate::faults::{faulty_hand, faulty_key, hand, hand_with_fault, Keys};
use nosingginger::{TallyNumbers, MOST_SHARE_BYTES};
use reference::board::{Board, FEWEST_PLAYERS, MOST_GRID_WIDTH, MOST_PLAYERS, MOST_POSITIONS, MOST_VALUE_WIDTH};
use reference::chacha::MOST_ROW_BYTES;
use reference::draw::Drawn;
use reference::key::key_bytes;
use reference::open::open_one;
use reference::page::page_bytes;

/// Boards (p, N, μ, w) at the limits, each visited once: document 01's own, the spring board at the width that Choose
/// width gives, the least and the largest numbers, 256 grid rows, a short last grid row, header numbers in one, two and
/// three groups; last values of all widths that do not divide a block, in rows that have a cell in two blocks.
pub const LIMIT_BOARDS: [(u32, u32, u32, u32); 34] = [
    (2, 6, 4, 1),
    (2, 2, 2, 1),
    (4, 72, 24, 1),
    (4, 72, 36, 1),
    (2, 1, 1, 1),
    (6, 1, 1, 1),
    (3, 1, 1, 16),
    (2, 1, 256, 16),
    (6, 1, 256, 16),
    (2, 256, 1, 1),
    (6, 256, 1, 16),
    (3, 127, 127, 2),
    (4, 128, 128, 2),
    (5, 256, 256, 16),
    (5, 257, 256, 1),
    (3, 16_383, 64, 1),
    (4, 16_384, 64, 3),
    (2, 65_281, 256, 1),
    (3, 65_535, 256, 1),
    (2, 65_536, 256, 1),
    (3, 65_536, 256, 5),
    (2, 65_536, 256, 16),
    (6, 65_536, 256, 16),
    (2, 44, 22, 3),
    (3, 40, 17, 5),
    (4, 24, 12, 6),
    (5, 20, 10, 7),
    (6, 72, 48, 9),
    (2, 72, 12, 10),
    (3, 72, 17, 11),
    (4, 72, 24, 12),
    (5, 72, 34, 13),
    (6, 30, 29, 14),
    (2, 300, 256, 15),
];

/// The costs of small, medium and large boards: the larger, the fewer of them are drawn, and the fewer calls of each.
pub const SMALL: usize = 1_500;
const MEDIUM: usize = 20_000;
const LARGE: usize = 200_000;

/// The most bytes of a drawn deck, but for one-byte cards. The largest is left to the boards at the limits.
const MOST_DRAWN_DECK: usize = 1 << 14;

/// The most positions of an evening, whose entries are all looked up and joined.
const MOST_EVENING_POSITIONS: usize = 80;

/// How often an operation is drawn.
const WEIGHTS: [(Operation, usize); 17] = [
    (Operation::KeyLength, 6),
    (Operation::Deal, 15),
    (Operation::CheckKey, 16),
    (Operation::OpenOne, 16),
    (Operation::OpenAll, 13),
    (Operation::DrawCard, 16),
    (Operation::JoinShares, 8),
    (Operation::JoinKeys, 18),
    (Operation::WritePage, 14),
    (Operation::TallyMake, 5),
    (Operation::TallyAdd, 16),
    (Operation::TallyLookUp, 7),
    (Operation::TallyTotal, 6),
    (Operation::HeldSeed, 8),
    (Operation::Expand, 5),
    (Operation::ChooseWidth, 4),
    (Operation::SensorPosition, 3),
];

/// A dealing and its keys.
pub struct Round {
    drawn: Drawn,
    keys: Vec<Vec<u8>>,
    as_long: Vec<Vec<u8>>,
    earlier: Vec<Vec<u8>>,
}

impl Comparison {
    /// Visits a board of the list.
    pub fn limit_board(&mut self, numbers: (u32, u32, u32, u32)) {
        let (players, positions, grid_width, value_width) = numbers;
        let board = Board::new(players, positions, grid_width, value_width).expect("a board in range");
        let round = self.new_round(board, &[]);
        self.right_calls(&round);
        if value_width == 1 {
            self.whole_draw(&round.drawn, &round.keys, MOST_SHARE_BYTES);
        }
        for _ in 0..if cost(&board) <= MEDIUM { 40 } else { 8 } {
            self.drawn_call(&round);
        }
    }

    /// The least pages and the largest, and numbers just outside of their limits where all else is right.
    pub fn limit_pages(&mut self) {
        for (positions, value_bytes) in [
            (1, 1),
            (1, MOST_VALUE_WIDTH),
            (MOST_POSITIONS, 1),
            (MOST_POSITIONS, MOST_VALUE_WIDTH),
            (0, 1),
            (MOST_POSITIONS + 1, 1),
            (8, 0),
            (8, MOST_VALUE_WIDTH + 1),
        ] {
            let table = self.generator.bytes((positions * value_bytes) as usize);
            self.write_page(positions, value_bytes, &table, page_bytes(positions as usize, value_bytes as usize));
        }
    }

    /// Visits a drawn board, after one whose keys were `earlier`. Gives the keys of this one.
    pub fn drawn_board(&mut self, earlier: &[Vec<u8>]) -> Vec<Vec<u8>> {
        let (most_cost, calls) = match self.generator.below(500) {
            0 => (LARGE, 10),
            1..=24 => (MEDIUM, 30),
            _ => (SMALL, 60),
        };
        let mut board = self.generator.board(most_cost);
        // Few boards have a cell in two blocks: one in eight is drawn until it does.
        if self.generator.one_in(8) {
            while cell_in_two_blocks(&board, &mut self.generator).is_none() {
                board = self.generator.board(most_cost);
            }
        }
        let round = self.new_round(board, earlier);
        self.right_calls(&round);
        if board.positions <= MOST_EVENING_POSITIONS && self.generator.one_in(12) {
            self.evening(board);
        }
        for _ in 0..calls {
            self.drawn_call(&round);
        }
        round.keys
    }

    fn new_round(&mut self, board: Board, earlier: &[Vec<u8>]) -> Round {
        let point = self.generator.below(board.positions);
        let point = self.generator.pick(&[point, point, 0, board.positions - 1]);
        let drawn = Drawn::at(board, point, &mut self.generator);
        let other = as_long(&board, &mut self.generator);
        let as_long = other.map_or(Vec::new(), |board| Drawn::new(board, &mut self.generator).keys());
        Round { keys: drawn.keys(), drawn, as_long, earlier: earlier.to_vec() }
    }

    /// Every operation on a board, dealt keys and right arguments, but for a fault of the arrays; outputs exact and one short.
    fn right_calls(&mut self, round: &Round) {
        let board = round.drawn.board;
        let [players, positions, grid_width, value_width] =
            [board.players, board.positions, board.grid_width, board.value_width].map(|number| number as u32);
        self.key_length([players, positions, grid_width, value_width]);
        self.choose_width(players, positions, value_width);
        let dealt = board.players * key_bytes(&board);
        self.deal(&hand(&round.drawn), dealt);
        self.deal(&hand(&round.drawn), dealt - 1);
        for number in [18, 19, 20] {
            let hand = hand_with_fault(&round.drawn, number, &mut self.generator);
            let length = self.generator.pick(&[dealt, dealt - 1]);
            self.deal(&hand, length);
        }
        for key in &round.keys {
            self.check_key(key);
            self.held_seed(key, board.grid_rows() as u32 - 1, board.columns() as u32 - 1);
        }
        let player = self.generator.below(board.players);
        let key = &round.keys[player];
        let across = cell_in_two_blocks(&board, &mut self.generator);
        for position in [0, round.drawn.point, positions - 1, positions].into_iter().chain(across) {
            self.open_one(key, position, board.value_width);
        }
        self.open_one(key, 0, board.value_width - 1);
        self.open_all(key, board.table_bytes());
        self.open_all(key, board.table_bytes() - 1);
        self.right_draws(round, key);
        let shares = round.shares(round.drawn.point);
        self.join_shares(players, value_width, &shares, board.value_width);
        self.join_keys(&round.keys.concat(), board.table_bytes());
        self.join_keys(&round.keys.concat(), board.table_bytes() - 1);
        self.right_pages(&round.drawn);
        self.right_tallies(round, player);
    }

    /// The page of the joined table, an output one short, and tables a byte short and a byte long.
    fn right_pages(&mut self, drawn: &Drawn) {
        let (positions, value_bytes) = (drawn.board.positions as u32, drawn.board.value_width as u32);
        let mut table = drawn.joined_table();
        let exact = page_bytes(drawn.board.positions, drawn.board.value_width);
        self.write_page(positions, value_bytes, &table, exact);
        self.write_page(positions, value_bytes, &table, exact - 1);
        self.write_page(positions, value_bytes, &table[1..], exact);
        table.push(0);
        self.write_page(positions, value_bytes, &table, exact);
    }

    /// A tally of this player and one of its keys, with a right table, a byte more and a byte less; a key of the player
    /// behind it; entries at the ends and past them; outputs exact and one short.
    fn right_tallies(&mut self, round: &Round, player: usize) {
        let board = round.drawn.board;
        let numbers = tally_of(&board, player);
        let (all, entry) = (board.table_bytes(), board.value_width);
        let table = self.generator.bytes(all + 1);
        self.tally_make(numbers, &table[..all]);
        self.tally_make(numbers, &table);
        self.tally_make(numbers, &table[..all - 1]);
        let key = &round.keys[player];
        let other = &round.keys[(player + 1) % round.keys.len()];
        let table_bytes = self.generator.pick(&[all, all + 1]);
        self.tally_add(numbers, key, &table[..table_bytes]);
        self.tally_add(numbers, key, &table[..all - 1]);
        self.tally_add(numbers, other, &table[..all]);
        for position in [0, numbers.positions - 1, numbers.positions] {
            self.tally_look_up(numbers, &table[..all], position, entry);
        }
        self.tally_look_up(numbers, &table, 0, entry - 1);
        self.tally_look_up(numbers, &table[..all - 1], 0, entry);
        self.tally_total(numbers, &table, entry);
        self.tally_total(numbers, &table[..all], entry - 1);
        self.tally_total(numbers, &table[..all - 1], entry);
    }

    /// A card with one key, from a right deck, from one a byte short and one a byte long, and with an output one short; and
    /// by all players. Where values are wider, the first alone.
    fn right_draws(&mut self, round: &Round, key: &[u8]) {
        let board = round.drawn.board;
        let card_bytes = self.generator.card_bytes(&board, MOST_DRAWN_DECK);
        let deck = self.generator.bytes(board.positions * card_bytes as usize + 1);
        let (exact, length) = (deck.len() - 1, card_bytes as usize);
        self.draw_card(key, &deck[..exact], card_bytes, length);
        if board.value_width == 1 {
            self.draw_card(key, &deck[..exact - 1], card_bytes, length);
            self.draw_card(key, &deck, card_bytes, length);
            self.draw_card(key, &deck[..exact], card_bytes, length - 1);
            self.whole_draw(&round.drawn, &round.keys, card_bytes);
        }
    }

    fn drawn_call(&mut self, round: &Round) {
        match self.drawn_operation() {
            Operation::KeyLength => {
                let least = [FEWEST_PLAYERS, 1, 1, 1];
                let most = [MOST_PLAYERS, MOST_POSITIONS, MOST_GRID_WIDTH, MOST_VALUE_WIDTH];
                let numbers = [0, 1, 2, 3].map(|number| self.generator.near(least[number], most[number]));
                self.key_length(numbers);
            }
            Operation::Deal => {
                let hand = faulty_hand(&round.drawn, &mut self.generator);
                let length = self.generator.output_length(round.drawn.board.players * key_bytes(&round.drawn.board));
                self.deal(&hand, length);
            }
            Operation::CheckKey => {
                let key = self.drawn_key(round);
                self.check_key(&key);
            }
            Operation::OpenOne => self.drawn_open_one(round),
            Operation::OpenAll => {
                let key = self.drawn_key(round);
                let length = self.generator.output_length(round.drawn.board.table_bytes());
                self.open_all(&key, length);
            }
            Operation::DrawCard => self.drawn_draw_card(round),
            Operation::JoinShares => self.drawn_join_shares(),
            Operation::JoinKeys => {
                let Round { drawn, keys, as_long, earlier } = round;
                let keys = Keys { board: drawn.board, keys, as_long, earlier }.faulty(&mut self.generator);
                let length = self.generator.output_length(drawn.board.table_bytes());
                self.join_keys(&keys, length);
            }
            Operation::WritePage => self.drawn_write_page(),
            Operation::TallyMake => {
                let (numbers, table) = self.drawn_tally(round, None);
                self.tally_make(numbers, &table);
            }
            Operation::TallyAdd => self.drawn_tally_add(round),
            Operation::TallyLookUp => {
                let (numbers, table) = self.drawn_tally(round, None);
                let position = self.generator.near(0, round.drawn.board.positions as u32 - 1);
                let length = self.generator.output_length(round.drawn.board.value_width);
                self.tally_look_up(numbers, &table, position, length);
            }
            Operation::TallyTotal => {
                let (numbers, table) = self.drawn_tally(round, None);
                let length = self.generator.output_length(round.drawn.board.value_width);
                self.tally_total(numbers, &table, length);
            }
            Operation::HeldSeed => self.drawn_held_seed(round),
            Operation::Expand => self.drawn_expand(),
            Operation::ChooseWidth => self.drawn_choose_width(),
            Operation::SensorPosition => {
                let sensor = self.generator.near(0, 71);
                self.sensor_position(sensor);
            }
        }
    }

    fn drawn_operation(&mut self) -> Operation {
        let all = WEIGHTS.iter().map(|(_, weight)| weight).sum();
        let mut left = self.generator.below(all);
        for (operation, weight) in WEIGHTS {
            if left < weight {
                return operation;
            }
            left -= weight;
        }
        unreachable!("the draw is below the sum of all weights")
    }

    /// One of the round's keys, with some faults, or none.
    fn drawn_key(&mut self, round: &Round) -> Vec<u8> {
        let player = self.generator.below(round.keys.len());
        faulty_key(round.drawn.board, &round.keys[player], &mut self.generator)
    }

    fn drawn_open_one(&mut self, round: &Round) {
        let board = round.drawn.board;
        let key = self.drawn_key(round);
        let drawn = self.generator.near(0, board.positions as u32 - 1);
        let across = self.generator.one_in(2).then(|| cell_in_two_blocks(&board, &mut self.generator)).flatten();
        let length = self.generator.output_length(board.value_width);
        self.open_one(&key, across.unwrap_or(drawn), length);
    }

    fn drawn_draw_card(&mut self, round: &Round) {
        // Half of the keys have no fault: most of the rest are refused before the deck is looked at.
        let player = self.generator.below(round.keys.len());
        let key = if self.generator.one_in(2) { self.drawn_key(round) } else { round.keys[player].clone() };
        let (card_bytes, deck_length) = self.generator.card_and_deck(&round.drawn.board, MOST_DRAWN_DECK);
        let deck = self.generator.bytes(deck_length);
        let length = self.generator.output_length(card_bytes.min(1_000) as usize);
        self.draw_card(&key, &deck, card_bytes, length);
    }

    /// A tally of the round's board, of this player or of any, and its table, with a fault or with none.
    fn drawn_tally(&mut self, round: &Round, player: Option<usize>) -> (TallyNumbers, Vec<u8>) {
        let player = player.unwrap_or_else(|| self.generator.below(round.keys.len()));
        let (numbers, table_bytes) = self.generator.tally_and_table(tally_of(&round.drawn.board, player));
        (numbers, self.generator.bytes(table_bytes))
    }

    /// Half of the keys have no fault, and some of them are of a board that is nearly the tally's.
    fn drawn_tally_add(&mut self, round: &Round) {
        let player = self.generator.below(round.keys.len());
        let faultless = if round.as_long.len() == round.keys.len() && self.generator.one_in(4) { &round.as_long } else { &round.keys };
        let key = if self.generator.one_in(2) {
            faulty_key(round.drawn.board, &round.keys[player], &mut self.generator)
        } else {
            faultless[player].clone()
        };
        let (numbers, table) = self.drawn_tally(round, Some(player));
        self.tally_add(numbers, &key, &table);
    }

    fn drawn_held_seed(&mut self, round: &Round) {
        let board = round.drawn.board;
        let player = self.generator.below(round.keys.len());
        let key = if self.generator.one_in(4) { self.drawn_key(round) } else { round.keys[player].clone() };
        let grid_row = self.generator.near(0, board.grid_rows() as u32 - 1);
        let column = self.generator.near(0, board.columns() as u32 - 1);
        self.held_seed(&key, grid_row, column);
    }

    fn drawn_join_shares(&mut self) {
        let players = self.generator.near(FEWEST_PLAYERS, MOST_PLAYERS);
        let most = self.generator.pick(&[MOST_VALUE_WIDTH, MOST_SHARE_BYTES]);
        let value_bytes = self.generator.near(1, most);
        let exact = players.wrapping_mul(value_bytes).min(2_000) as usize;
        let length = self.generator.pick(&[exact, exact, exact, exact, exact, exact.saturating_sub(1), exact + 1, 0]);
        let shares = self.generator.bytes(length);
        let output = self.generator.output_length(value_bytes.min(1_000) as usize);
        self.join_shares(players, value_bytes, &shares, output);
    }

    fn drawn_write_page(&mut self) {
        let (positions, value_bytes, table_bytes) = self.generator.page_and_table();
        let table = self.generator.bytes(table_bytes);
        // An output for the page where the table is right, if any is so long; else a short one does.
        let right_table = table_bytes as u64 == u64::from(positions) * u64::from(value_bytes);
        let most_positions = if right_table { MOST_POSITIONS } else { 80 };
        let count = positions.min(most_positions) as usize;
        let entry = value_bytes.min(MOST_VALUE_WIDTH + 1) as usize;
        let length = self.generator.output_length(page_bytes(count, entry));
        self.write_page(positions, value_bytes, &table, length);
    }

    fn drawn_expand(&mut self) {
        let seed_length = self.generator.pick(&[32, 32, 32, 32, 32, 32, 32, 32, 0, 31, 33, 64]);
        let seed = self.generator.bytes(seed_length);
        let most = MOST_ROW_BYTES;
        let drawn = self.generator.below(most + 1);
        let short = self.generator.below(300);
        let length =
            self.generator.pick(&[short, short, short, drawn, 0, 1, 63, 64, 65, 255, 256, 257, most - 1, most, most + 1, most + 900]);
        let start = self.generator.start(length);
        self.expand(&seed, start, length);
    }

    /// Few positions as often as many: for many the widest grid is often the best. Half of them fill all grid rows of a
    /// drawn width, or begin one more.
    fn drawn_choose_width(&mut self) {
        let players = self.generator.near(FEWEST_PLAYERS, MOST_PLAYERS);
        let most_positions = self.generator.pick(&[100, 1_000, 10_000, MOST_POSITIONS]);
        let mut positions = self.generator.near(1, most_positions);
        if self.generator.one_in(2) {
            let width = self.generator.within(1, MOST_GRID_WIDTH);
            positions = (positions / width * width).saturating_add(self.generator.within(0, 1));
        }
        let value_bytes = self.generator.near(1, MOST_VALUE_WIDTH);
        self.choose_width(players, positions, value_bytes);
    }
}

/// The numbers of a player's tally.
pub fn tally_of(board: &Board, player: usize) -> TallyNumbers {
    let [players, player, positions, value_bytes] = [board.players, player, board.positions, board.value_width].map(|number| number as u32);
    TallyNumbers { players, player, positions, value_bytes }
}

impl Round {
    /// All players' shares of a position.
    fn shares(&self, position: u32) -> Vec<u8> {
        let mut shares = Vec::new();
        for key in &self.keys {
            let mut share = vec![0; self.drawn.board.value_width];
            open_one(key, position, &mut share).expect("a dealt key");
            shares.extend(share);
        }
        shares
    }
}
