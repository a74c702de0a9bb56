//! What was met: how many of each refusal each operation gave, and which limits; and what must have been met.

use crate::draw::in_two_blocks;
use nosingginger::{TallyNumbers, MOST_DECK_BYTES, MOST_SHARE_BYTES, MOST_TABLE_BYTES};
use reference::board::{Board, FEWEST_PLAYERS, MOST_GRID_ROWS, MOST_GRID_WIDTH, MOST_PLAYERS, MOST_POSITIONS, MOST_VALUE_WIDTH};
use reference::chacha::{BLOCK_BYTES, MOST_ROW_BYTES};
use reference::draw::Drawn;
use reference::page::{line_bytes, page_bytes, LINE_CELLS};
use reference::tally::Tally;

#[derive(Clone, Copy, Debug, PartialEq, Eq)]
pub enum Operation {
    KeyLength,
    Deal,
    CheckKey,
    OpenOne,
    OpenAll,
    DrawCard,
    JoinShares,
    JoinKeys,
    WritePage,
    TallyMake,
    TallyAdd,
    TallyLookUp,
    TallyTotal,
    HeldSeed,
    Expand,
    ChooseWidth,
    SensorPosition,
}

/// The operations in their order, with the numbers that each can give.
const OPERATIONS: [(Operation, &str, &[usize]); 17] = [
    (Operation::KeyLength, "key length", &[1, 2, 3, 4, 5]),
    (Operation::Deal, "deal", &[1, 2, 3, 4, 5, 6, 7, 9, 18, 19, 20]),
    (Operation::CheckKey, "check key", &[1, 2, 3, 4, 5, 10, 11, 12, 13]),
    (Operation::OpenOne, "open one", &[1, 2, 3, 4, 5, 9, 10, 11, 12, 13, 14]),
    (Operation::OpenAll, "open all", &[1, 2, 3, 4, 5, 9, 10, 11, 12, 13]),
    (Operation::DrawCard, "draw card", &[1, 2, 3, 4, 5, 9, 10, 11, 12, 13, 21, 22]),
    (Operation::JoinShares, "join shares", &[1, 4, 7, 9]),
    (Operation::JoinKeys, "join keys", &[1, 2, 3, 4, 5, 9, 10, 11, 12, 13, 15]),
    (Operation::WritePage, "write page", &[2, 4, 7, 9]),
    (Operation::TallyMake, "tally make", &[1, 2, 4, 9, 11]),
    (Operation::TallyAdd, "tally add", &[1, 2, 3, 4, 5, 9, 10, 11, 12, 13, 23]),
    (Operation::TallyLookUp, "tally look up", &[1, 2, 4, 9, 11, 14]),
    (Operation::TallyTotal, "tally total", &[1, 2, 4, 9, 11]),
    (Operation::HeldSeed, "held seed", &[]),
    (Operation::Expand, "expand", &[7, 16]),
    (Operation::ChooseWidth, "choose width", &[1, 2, 4]),
    (Operation::SensorPosition, "sensor position", &[17]),
];

/// Limits that calls must have met, those of boards in accepted dealings.
const LIMITS: [&str; 69] = [
    "2 players",
    "3 players",
    "4 players",
    "5 players",
    "6 players",
    "1 position",
    "65,536 positions",
    "grid width 1",
    "grid width 256",
    "value of 1 byte",
    "value of 16 bytes",
    "1 grid row",
    "256 grid rows",
    "short last grid row",
    "the longest keys",
    "empty input",
    "empty output",
    "output one short",
    "output exact",
    "output longer",
    "empty output accepted",
    "start within a block",
    "start at a later block",
    "start at the longest row's end",
    "end at the longest row's end",
    "end one byte past it",
    "end past 64 bits",
    "card of 0 bytes",
    "card of 1 byte",
    "card of 256 bytes",
    "card of 257 bytes",
    "deck one byte short",
    "deck one byte long",
    "deck of all cards' bytes modulo 2^32",
    "the largest deck",
    "shares of 256 bytes",
    "shares of 257 bytes",
    "page of 1 position",
    "page of 65,536 positions",
    "the largest page",
    "page of 0 positions, all else right",
    "page of 65,537 positions, all else right",
    "page of values of 0 bytes, all else right",
    "page of values of 17 bytes, all else right",
    "table one byte short",
    "table one byte long",
    "table of all entries' bytes modulo 2^32",
    "chosen width 1",
    "chosen width 256",
    "chosen width that ties with a larger one",
    "tally of 1 position",
    "tally of 65,536 positions",
    "the largest tally",
    "tally's table one byte short",
    "tally's table exact",
    "tally's table longer",
    "tally's table of all entries' bytes modulo 2^32",
    "short table, output with room",
    "right table, output one short",
    "entry at the last position",
    "entry at N",
    "key of other players than its tally's, all else right",
    "key of another player than its tally's, all else right",
    "key of other positions than its tally's, all else right",
    "key of other value bytes than its tally's, all else right",
    "evening of no hunts",
    "evening of hunts of several widths",
    "two pieces on one square in an evening",
    "a piece on a square of its own in an evening",
];

/// Accepted, and every refusal. 8 is given no more.
const NUMBERS: usize = 24;

/// The refusals that come with a place, from 18 on.
const PLACED: usize = 3;
const FIRST_PLACED: usize = 18;

/// Where each of these must have stood. The ends are those of boards with more than one grid row and more than two columns. 20 cannot stand
/// at column 0: its first column is 1.
const PLACES: [&str; 8] = [
    "first column of the first grid row",
    "last column of the first grid row",
    "first column of the last grid row",
    "last column of the last grid row",
    "the odd array",
    "an even array",
    "arrays with no other fault",
    "arrays with more faults",
];

/// A line's first position has at most so many digits.
const MOST_PAGE_DIGITS: usize = 5;

pub struct Counts {
    numbers: [[u64; NUMBERS]; OPERATIONS.len()],
    /// Of Held seed's calls, those that no seed answered.
    not_held: u64,
    limits: [u64; LIMITS.len()],
    places: [[u64; PLACES.len()]; PLACED],
    /// Cells in two blocks of their row that were opened alone, by the bytes of a value.
    in_two_blocks: [u64; MOST_VALUE_WIDTH as usize + 1],
    /// Cards that all players drew and joined, by the players: those of an even value, and those of an odd one.
    whole_draws: [[u64; 2]; MOST_PLAYERS as usize + 1],
    /// Evenings that were joined, by the players.
    evenings: [u64; MOST_PLAYERS as usize + 1],
    /// Pages, by the bytes of a value and the cells past N.
    pages: [[u64; LINE_CELLS]; MOST_VALUE_WIDTH as usize + 1],
    /// Pages, by the digits of the last line's first position.
    page_digits: [u64; MOST_PAGE_DIGITS + 1],
}

impl Operation {
    pub fn name(self) -> &'static str {
        OPERATIONS[self as usize].1
    }
}

impl Counts {
    pub fn new() -> Counts {
        Counts {
            numbers: [[0; NUMBERS]; OPERATIONS.len()],
            not_held: 0,
            limits: [0; LIMITS.len()],
            places: [[0; PLACES.len()]; PLACED],
            in_two_blocks: [0; MOST_VALUE_WIDTH as usize + 1],
            whole_draws: [[0; 2]; MOST_PLAYERS as usize + 1],
            evenings: [0; MOST_PLAYERS as usize + 1],
            pages: [[0; LINE_CELLS]; MOST_VALUE_WIDTH as usize + 1],
            page_digits: [0; MOST_PAGE_DIGITS + 1],
        }
    }

    /// How many calls were made.
    pub fn calls(&self) -> u64 {
        self.numbers.iter().flatten().sum()
    }

    /// A call that gave a number, or 0 where it was accepted.
    pub fn call(&mut self, operation: Operation, number: u32) {
        self.numbers[operation as usize][number as usize] += 1;
    }

    pub fn held_seed(&mut self, held: bool) {
        self.call(Operation::HeldSeed, 0);
        self.not_held += u64::from(!held);
    }

    /// The board of an accepted dealing.
    pub fn board(&mut self, board: &Board) {
        let numbers = [board.positions, board.grid_width, board.value_width, board.grid_rows()].map(|number| number as u32);
        let [positions, grid_width, value_width, grid_rows] = numbers;
        self.limits[board.players - 2] += 1;
        self.limit("1 position", positions == 1);
        self.limit("65,536 positions", positions == MOST_POSITIONS);
        self.limit("grid width 1", grid_width == 1);
        self.limit("grid width 256", grid_width == MOST_GRID_WIDTH);
        self.limit("value of 1 byte", value_width == 1);
        self.limit("value of 16 bytes", value_width == MOST_VALUE_WIDTH);
        self.limit("1 grid row", grid_rows == 1);
        self.limit("256 grid rows", grid_rows == MOST_GRID_ROWS);
        self.limit("short last grid row", positions % grid_width != 0);
        self.limit("the longest keys", reference::key::key_bytes(board) == 263_176);
    }

    /// A refusal that came with a place: whether that is in the odd array, and how many columns of all arrays have a fault.
    pub fn place(&mut self, board: &Board, number: u32, (grid_row, column): (u32, u32), odd: bool, faulty: usize) {
        let least_column = u32::from(number == 20);
        let (last_row, last_column) = (board.grid_rows() as u32 - 1, board.columns() as u32 - 1);
        let apart = last_row > 0 && last_column > 1;
        let at = |row: u32, end: u32| apart && (grid_row, column) == (row, end);
        let met = [
            at(0, least_column),
            at(0, last_column),
            at(last_row, least_column),
            at(last_row, last_column),
            odd,
            !odd,
            faulty == 1,
            faulty > 1,
        ];
        for (calls, met) in self.places[number as usize - FIRST_PLACED].iter_mut().zip(met) {
            *calls += u64::from(met);
        }
    }

    /// A position that Open one opened.
    pub fn cell(&mut self, board: &Board, position: u32) {
        self.in_two_blocks[board.value_width] += u64::from(in_two_blocks(board, position as usize));
    }

    /// Bytes of a row that were asked of Expand, and the number that it gave.
    pub fn stretch(&mut self, start: u64, length: u64, number: u32) {
        let (block, most) = (BLOCK_BYTES as u64, MOST_ROW_BYTES as u64);
        let end = start.checked_add(length);
        let written = number == 0 && length > 0;
        self.limit("start within a block", written && start % block != 0);
        self.limit("start at a later block", written && start > 0 && start % block == 0);
        self.limit("start at the longest row's end", number == 0 && start == most);
        self.limit("end at the longest row's end", written && start > 0 && end == Some(most));
        self.limit("end one byte past it", number == 16 && start > 0 && end == Some(most + 1));
        self.limit("end past 64 bits", number == 16 && end.is_none());
    }

    /// A card of so many bytes that was asked of a deck of so many, with an accepted key of `positions`, and the number
    /// that was given.
    pub fn card(&mut self, positions: usize, deck: usize, card_bytes: u32, number: u32) {
        let (deck, all) = (deck as u64, positions as u64 * u64::from(card_bytes));
        let (accepted, refused) = (number == 0, number == 22);
        let other_deck = refused && (1..=MOST_SHARE_BYTES).contains(&card_bytes);
        self.limit("card of 0 bytes", refused && card_bytes == 0);
        self.limit("card of 1 byte", accepted && card_bytes == 1);
        self.limit("card of 256 bytes", accepted && card_bytes == MOST_SHARE_BYTES);
        self.limit("card of 257 bytes", refused && card_bytes == MOST_SHARE_BYTES + 1);
        self.limit("deck one byte short", other_deck && deck + 1 == all);
        self.limit("deck one byte long", other_deck && deck == all + 1);
        self.limit("deck of all cards' bytes modulo 2^32", refused && deck + (1 << 32) == all);
        self.limit("the largest deck", accepted && deck == MOST_DECK_BYTES as u64);
    }

    /// A card that all players drew with the keys of a value, and joined.
    pub fn whole_draw(&mut self, players: usize, value: u8) {
        self.whole_draws[players][usize::from(value % 2)] += 1;
    }

    /// The bytes of each share that was joined, and the number that was given.
    pub fn shares(&mut self, value_bytes: u32, number: u32) {
        self.limit("shares of 256 bytes", number == 0 && value_bytes == MOST_SHARE_BYTES);
        self.limit("shares of 257 bytes", number == 4 && value_bytes == MOST_SHARE_BYTES + 1);
    }

    /// The N and w of a page, the bytes of its table and of its output, and the number that was given.
    pub fn page(&mut self, [positions, value_bytes]: [u32; 2], table: usize, output: usize, number: u32) {
        let (count, entry, table) = (positions as usize, value_bytes as usize, table as u64);
        let all = all_entries(positions, value_bytes);
        if number == 0 {
            let last_line = (count - 1) / LINE_CELLS * LINE_CELLS;
            self.pages[entry][count.next_multiple_of(LINE_CELLS) - count] += 1;
            self.page_digits[last_line.to_string().len()] += 1;
        }
        // Room for the page of these numbers, in range or not: the product may have more than 64 bits.
        let room = output as u128 >= count.div_ceil(LINE_CELLS) as u128 * line_bytes(entry) as u128;
        let alone = |refusal: u32| number == refusal && table == all && room;
        self.limit("page of 1 position", number == 0 && positions == 1);
        self.limit("page of 65,536 positions", number == 0 && positions == MOST_POSITIONS);
        self.limit("the largest page", number == 0 && page_bytes(count, entry) == 2_211_840);
        self.limit("page of 0 positions, all else right", alone(2) && positions == 0);
        self.limit("page of 65,537 positions, all else right", alone(2) && positions == MOST_POSITIONS + 1);
        self.limit("page of values of 0 bytes, all else right", alone(4) && value_bytes == 0);
        self.limit("page of values of 17 bytes, all else right", alone(4) && value_bytes == MOST_VALUE_WIDTH + 1);
        self.limit("table one byte short", number == 7 && table + 1 == all);
        self.limit("table one byte long", number == 7 && table == all + 1);
        self.limit("table of all entries' bytes modulo 2^32", [2, 4].contains(&number) && table + (1 << 32) == all);
    }

    /// The width that was chosen for p, N and w.
    pub fn width(&mut self, [players, positions, value_bytes]: [u32; 3], width: u32) {
        let board = |width| Board::new(players, positions, width, value_bytes);
        let key_bytes = |width| board(width).map(|board| reference::key::key_bytes(&board));
        let ties = (width + 1..=MOST_GRID_WIDTH).any(|larger| key_bytes(larger) == key_bytes(width));
        self.limit("chosen width 1", width == 1);
        self.limit("chosen width 256", width == MOST_GRID_WIDTH);
        self.limit("chosen width that ties with a larger one", ties);
    }

    /// The numbers of a tally, the bytes of the table that was lent, and the number that was given.
    pub fn tally(&mut self, numbers: TallyNumbers, table: usize, number: u32) {
        let all = all_entries(numbers.positions, numbers.value_bytes);
        let (accepted, table) = (number == 0, table as u64);
        self.limit("tally of 1 position", accepted && numbers.positions == 1);
        self.limit("tally of 65,536 positions", accepted && numbers.positions == MOST_POSITIONS);
        self.limit("the largest tally", accepted && all == MOST_TABLE_BYTES as u64);
        self.limit("tally's table one byte short", number == 9 && table + 1 == all);
        self.limit("tally's table exact", accepted && table == all);
        self.limit("tally's table longer", accepted && table > all);
        self.limit("tally's table of all entries' bytes modulo 2^32", [2, 4].contains(&number) && table + (1 << 32) == all);
    }

    /// Whose room a 9 was about, of a tally's table or of the output.
    pub fn tally_output(&mut self, numbers: TallyNumbers, table: usize, output: usize, number: u32) {
        let TallyNumbers { positions, value_bytes, .. } = numbers;
        let (entry, short_table) = (value_bytes as usize, (table as u64) < all_entries(positions, value_bytes));
        self.limit("short table, output with room", number == 9 && short_table && output >= entry);
        self.limit("right table, output one short", number == 9 && !short_table && output + 1 == entry);
    }

    /// The position that was looked up in a tally.
    pub fn tally_position(&mut self, numbers: TallyNumbers, position: u32, number: u32) {
        self.limit("entry at the last position", number == 0 && position + 1 == numbers.positions);
        self.limit("entry at N", number == 14 && position == numbers.positions);
    }

    /// The tally that an accepted key was added to, and the one that takes it.
    pub fn tally_key(&mut self, tally: &Tally, takes: &Tally, number: u32) {
        let alone = |but: Tally| number == 23 && but == *takes;
        self.limit("key of other players than its tally's, all else right", alone(Tally { players: takes.players, ..*tally }));
        self.limit("key of another player than its tally's, all else right", alone(Tally { player: takes.player, ..*tally }));
        self.limit("key of other positions than its tally's, all else right", alone(Tally { positions: takes.positions, ..*tally }));
        self.limit("key of other value bytes than its tally's, all else right", alone(Tally { value_width: takes.value_width, ..*tally }));
    }

    /// An evening that was joined.
    pub fn evening(&mut self, players: usize, hunts: &[Drawn]) {
        let pieces_on = |point: u32| hunts.iter().filter(|hunt| hunt.point == point).count();
        let any = |met: &dyn Fn(&Drawn) -> bool| hunts.iter().any(met);
        self.evenings[players] += 1;
        self.limit("evening of no hunts", hunts.is_empty());
        self.limit("evening of hunts of several widths", any(&|hunt| hunt.board != hunts[0].board));
        self.limit("two pieces on one square in an evening", any(&|hunt| pieces_on(hunt.point) == 2));
        self.limit("a piece on a square of its own in an evening", any(&|hunt| pieces_on(hunt.point) == 1));
    }

    pub fn input(&mut self, length: usize) {
        self.limit("empty input", length == 0);
    }

    /// An output of a call that writes `exact` bytes where its output has room, and that gave `number`.
    pub fn output(&mut self, length: usize, exact: usize, number: u32) {
        self.limit("empty output", length == 0);
        self.limit("output one short", length + 1 == exact && number == 9);
        self.limit("output exact", length == exact && number == 0);
        self.limit("output longer", length > exact && number == 0);
        self.limit("empty output accepted", length == 0 && number == 0);
    }

    fn limit(&mut self, limit: &str, met: bool) {
        let place = LIMITS.iter().position(|other| *other == limit).expect("a limit that is listed");
        self.limits[place] += u64::from(met);
    }

    /// Prints what was met.
    pub fn print(&self) {
        for (operation, name, refusals) in OPERATIONS {
            let numbers = &self.numbers[operation as usize];
            let calls: u64 = numbers.iter().sum();
            let mut line = format!("{name}: {calls} calls");
            if operation == Operation::HeldSeed {
                line += &format!(", {} held, {} not held", numbers[0] - self.not_held, self.not_held);
            } else {
                line += &format!(", {} accepted, refused", numbers[0]);
            }
            for &number in refusals {
                line += &format!(" {number}: {}", numbers[number]);
            }
            println!("{line}");
        }
        let given = |number: &usize| OPERATIONS.iter().any(|(_, _, refusals)| refusals.contains(number));
        let each: Vec<String> = (1..NUMBERS).filter(given).map(|number| format!("{number}: {}", self.refused(number))).collect();
        println!("all operations: {} calls, refused {}", self.calls(), each.join(" "));
        let limits: Vec<String> = LIMITS.iter().zip(self.limits).map(|(limit, met)| format!("{limit}: {met}")).collect();
        println!("limits met: {}", limits.join(", "));
        for (number, calls) in (FIRST_PLACED..).zip(self.places) {
            let places: Vec<String> = PLACES.iter().zip(calls).map(|(place, calls)| format!("{place}: {calls}")).collect();
            println!("deal's {number} in: {}", places.join(", "));
        }
        let met = |width: usize| format!("{width}: {}", self.in_two_blocks[width]);
        let cells: Vec<String> = widths_in_two_blocks().map(met).collect();
        println!("open one's cells in two blocks, by value bytes: {}", cells.join(", "));
        let met = |(players, [even, odd]): (usize, [u64; 2])| format!("{players}: {odd} and {even}");
        let draws: Vec<String> = self.draws_of().map(met).collect();
        println!("cards drawn by all players, of odd values and of even ones, by players: {}", draws.join(", "));
        let evenings: Vec<String> = self.evenings_of().map(|(players, evenings)| format!("{players}: {evenings}")).collect();
        println!("evenings joined, by players: {}", evenings.join(", "));
        self.print_pages();
    }

    fn print_pages(&self) {
        let met = |(width, pages): (usize, [u64; LINE_CELLS])| format!("{width}: {}", pages.iter().sum::<u64>());
        let pages: Vec<String> = self.pages_of().map(met).collect();
        println!("pages, by value bytes: {}", pages.join(", "));
        let met = |past: usize| format!("{past}: {}", self.pages.iter().map(|pages| pages[past]).sum::<u64>());
        let pages: Vec<String> = (0..LINE_CELLS).map(met).collect();
        println!("pages, by cells past the last position: {}", pages.join(", "));
        let met = |digits: usize| format!("{digits}: {}", self.page_digits[digits]);
        let pages: Vec<String> = (1..=MOST_PAGE_DIGITS).map(met).collect();
        println!("pages, by digits of the last line's first position: {}", pages.join(", "));
    }

    /// Each number of bytes of a value, with its pages by the cells past N.
    fn pages_of(&self) -> impl Iterator<Item = (usize, [u64; LINE_CELLS])> + '_ {
        (1..).zip(self.pages[1..].iter().copied())
    }

    /// Each number of players, with its whole draws of even and of odd values.
    fn draws_of(&self) -> impl Iterator<Item = (usize, [u64; 2])> + '_ {
        (FEWEST_PLAYERS as usize..).zip(self.whole_draws[FEWEST_PLAYERS as usize..].iter().copied())
    }

    /// Each number of players, with its evenings.
    fn evenings_of(&self) -> impl Iterator<Item = (usize, u64)> + '_ {
        (FEWEST_PLAYERS as usize..).zip(self.evenings[FEWEST_PLAYERS as usize..].iter().copied())
    }

    fn refused(&self, number: usize) -> u64 {
        self.numbers.iter().map(|numbers| numbers[number]).sum()
    }

    /// What should have been met and was not, and the other way about.
    pub fn faults(&self) -> Vec<String> {
        let mut faults = Vec::new();
        for (operation, name, refusals) in OPERATIONS {
            for (number, &calls) in self.numbers[operation as usize].iter().enumerate() {
                let can = number == 0 || refusals.contains(&number);
                if can != (calls > 0) {
                    faults.push(format!("{name} gave {number} {calls} times"));
                }
            }
        }
        let held = self.numbers[Operation::HeldSeed as usize][0] - self.not_held;
        if held == 0 || self.not_held == 0 {
            faults.push(format!("held seed gave a seed {held} times, and none {} times", self.not_held));
        }
        for (limit, met) in LIMITS.iter().zip(self.limits) {
            if met == 0 {
                faults.push(format!("never met: {limit}"));
            }
        }
        for (number, calls) in (FIRST_PLACED..).zip(self.places) {
            for (place, calls) in PLACES.iter().zip(calls) {
                if calls == 0 {
                    faults.push(format!("never met: {number} in {place}"));
                }
            }
        }
        for width in widths_in_two_blocks().filter(|&width| self.in_two_blocks[width] == 0) {
            faults.push(format!("never met: a cell of {width} bytes in two blocks, opened alone"));
        }
        for (players, draws) in self.draws_of().filter(|(_, draws)| draws.contains(&0)) {
            faults.push(format!("never met: a card of an even or an odd value drawn by {players} players: {draws:?}"));
        }
        for (players, _) in self.evenings_of().filter(|&(_, evenings)| evenings == 0) {
            faults.push(format!("never met: an evening of {players} players"));
        }
        for (width, pages) in self.pages_of().filter(|(_, pages)| pages.contains(&0)) {
            faults.push(format!("never met: pages of values of {width} bytes with each number of cells past N: {pages:?}"));
        }
        for digits in (1..=MOST_PAGE_DIGITS).filter(|&digits| self.page_digits[digits] == 0) {
            faults.push(format!("never met: a page whose last line begins with {digits} digits"));
        }
        faults
    }
}

/// The bytes of all entries of a table, in range or not.
fn all_entries(positions: u32, value_bytes: u32) -> u64 {
    u64::from(positions) * u64::from(value_bytes)
}

/// The bytes of values that do not divide a block: some of their cells lie in two, where a row is longer than one.
fn widths_in_two_blocks() -> impl Iterator<Item = usize> {
    (1..=MOST_VALUE_WIDTH as usize).filter(|width| BLOCK_BYTES % width != 0)
}
