//! An evening: several hunts on one board, each at a width of its own, and a tally of each player. Every player adds its keys in an order of
//! its own, with keys in between that are refused, or that are added twice. Every entry and the totals are looked up and joined, and must be
//! the XOR of what was hidden.

use crate::calls::{second_tally, tally_bytes, Comparison};
use crate::draw::{cost, Draw};
use crate::faults::faulty_key;
use crate::rounds::{tally_of, SMALL};
use nosingginger::TallyNumbers;
use reference::board::{Board, MOST_GRID_WIDTH};
use reference::deal::xor_into;
use reference::draw::Drawn;

/// The most hunts, and the most of each kind of key that a player adds beside its own.
const MOST_HUNTS: usize = 4;
const MOST_OTHERS: usize = 3;

/// A key that a player adds, and whether it is to be refused.
#[derive(Clone)]
struct Step {
    key: Vec<u8>,
    refused: bool,
}

impl Comparison {
    /// Plays an evening on a board, whose width is that of some hunts.
    pub fn evening(&mut self, board: Board) {
        let hunts = self.hunts(board);
        let keys: Vec<Vec<Vec<u8>>> = hunts.iter().map(Drawn::keys).collect();
        let tables: Vec<Vec<u8>> = (0..board.players).map(|player| self.player_s_evening(board, player, &keys)).collect();
        let mut hidden = vec![0; board.table_bytes()];
        let mut all_values = vec![0; board.value_width];
        for hunt in &hunts {
            xor_into(&mut hidden, &hunt.joined_table());
            xor_into(&mut all_values, &hunt.value);
        }
        for (position, right) in (0..).zip(hidden.chunks(board.value_width)) {
            let joined = self
                .joined(board, &tables, |comparison, numbers, table| comparison.tally_look_up(numbers, table, position, board.value_width));
            assert_eq!(joined, right, "position {position} of an evening on {board:?}, seed {}", self.seed);
        }
        let joined = self.joined(board, &tables, |comparison, numbers, table| comparison.tally_total(numbers, table, board.value_width));
        assert_eq!(joined, all_values, "the total of an evening on {board:?}, seed {}", self.seed);
        self.counts.evening(board.players, &hunts);
    }

    /// Some hunts, or none: on any squares and on those of earlier ones, with any values and with an earlier one's.
    fn hunts(&mut self, board: Board) -> Vec<Drawn> {
        let mut hunts: Vec<Drawn> = Vec::new();
        for count in 0..self.generator.below(MOST_HUNTS + 1) {
            let mut hunt = Drawn::new(self.other_width(board), &mut self.generator);
            if count > 0 && self.generator.one_in(3) {
                let earlier = &hunts[self.generator.below(count)];
                hunt = Drawn::at(hunt.board, earlier.point as usize, &mut self.generator);
                if self.generator.one_in(3) {
                    hunt.value.clone_from(&earlier.value);
                }
            }
            hunts.push(hunt);
        }
        hunts
    }

    /// The board at another width, or at its own.
    fn other_width(&mut self, board: Board) -> Board {
        let [players, positions, value_width] = [board.players, board.positions, board.value_width].map(|number| number as u32);
        let width = self.generator.within(1, MOST_GRID_WIDTH);
        match Board::new(players, positions, width, value_width) {
            Ok(other) if cost(&other) <= SMALL => other,
            _ => board,
        }
    }

    /// Makes a player's tally, adds its keys of all hunts and others between them, and gives the table.
    fn player_s_evening(&mut self, board: Board, player: usize, hunts: &[Vec<Vec<u8>>]) -> Vec<u8> {
        let numbers = tally_of(&board, player);
        let mut steps: Vec<Step> = hunts.iter().map(|keys| Step { key: keys[player].clone(), refused: false }).collect();
        steps.extend(self.twice(board, player, hunts));
        steps.extend(self.refused(board, player, hunts));
        self.generator.shuffle(&mut steps);
        let length = tally_bytes(numbers) + self.generator.below(3);
        let before = self.generator.bytes(length);
        let (_, mut table) = self.tally_make(numbers, &before);
        for Step { key, refused } in steps {
            let (number, after) = self.tally_add(numbers, &key, &table);
            assert_eq!(number != 0, refused, "{number} in an evening of player {player} on {board:?}, seed {}", self.seed);
            table = after;
        }
        table
    }

    /// Keys that cancel themselves: one that nobody dealt, twice, and one of a hunt, twice more.
    fn twice(&mut self, board: Board, player: usize, hunts: &[Vec<Vec<u8>>]) -> Vec<Step> {
        let mut steps = Vec::new();
        for _ in 0..self.generator.below(MOST_OTHERS) {
            let board = self.other_width(board);
            let key = match hunts {
                [_, ..] if self.generator.one_in(2) => hunts[self.generator.below(hunts.len())][player].clone(),
                _ => self.generator.key(&board, player),
            };
            steps.extend(vec![Step { key, refused: false }; 2]);
        }
        steps
    }

    /// Keys that the tally does not take: other players', and the player's own with a fault.
    fn refused(&mut self, board: Board, player: usize, hunts: &[Vec<Vec<u8>>]) -> Vec<Step> {
        let mut steps = Vec::new();
        for keys in hunts {
            for _ in 0..self.generator.below(MOST_OTHERS) {
                let (other, faulty) = (self.generator.below(board.players), faulty_key(board, &keys[player], &mut self.generator));
                steps.extend([keys[other].clone(), faulty].map(|key| Step { key, refused: true }));
            }
        }
        let tally = second_tally(tally_of(&board, player));
        steps.retain(|step| reference::tally::add(tally, &step.key, &mut vec![0; board.table_bytes()]).is_err());
        steps
    }

    /// What all players are answered of their tallies, joined.
    fn joined(&mut self, board: Board, tables: &[Vec<u8>], answer: impl Fn(&mut Comparison, TallyNumbers, &[u8]) -> Vec<u8>) -> Vec<u8> {
        let mut shares = Vec::new();
        for (player, table) in tables.iter().enumerate() {
            shares.extend(answer(self, tally_of(&board, player), table));
        }
        let (players, value_bytes) = (board.players as u32, board.value_width as u32);
        self.join_shares(players, value_bytes, &shares, board.value_width);
        let mut joined = vec![0; board.value_width];
        nosingginger::join_shares(players, value_bytes, &shares, &mut joined).expect("the same call again");
        joined
    }
}
