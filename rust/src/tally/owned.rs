//! The tally that owns its table, for programs with an allocator.

use super::{tally_add, tally_look_up, tally_total, TallyNumbers};
use crate::{join_shares, Refusal, MOST_SHARE_BYTES};
use alloc::vec;
use alloc::vec::Vec;
use core::cmp::Ordering;
use core::fmt;

/// A tally over many hunts, with the table of its own; here with the feature `alloc`. Its numbers are in their ranges and
/// its table is as long as they ask, always: a call is refused for a key or for a position, and for nothing else.
///
/// Each player makes one at the start of an evening, adds its key of every hunt, in any order, and hands it over at the
/// end. The crate's first page says what the joined table shows, and what nothing checks.
///
/// The table is not wiped when a tally is dropped. [`into_table`](Tally::into_table) gives it to who wants to.
///
/// ```
/// # use nosingginger::{deal, join_shares, Board, Dealing, Refusal, Tally, TallyNumbers};
/// // Fixed bytes stand here for those that a game draws, as the crate's first page does.
/// fn hunt(width: u32, arrays: &[u8], point: u32, value: u8) -> Result<Vec<u8>, Refusal> {
///     let board = Board { players: 2, positions: 6, width, value_bytes: 1 };
///     let seeds: Vec<u8> = (value..).take(board.seeds_len()?).collect();
///     let words = vec![value; board.words_len()?];
///     let mut keys = vec![0; board.keys_len()?];
///     deal(&Dealing { board, point, value: &[value], arrays, seeds: &seeds, words: &words }, &mut keys)?;
///     Ok(keys)
/// }
///
/// // Three hunts of two players on six squares, in grid rows of 4 and of 6 cells.
/// let hunts = [hunt(4, &[0, 3, 1, 2], 4, 0x50)?, hunt(6, &[2, 1], 4, 0x05)?, hunt(4, &[1, 2, 3, 0], 1, 0x33)?];
/// let numbers = TallyNumbers { players: 2, player: 0, positions: 6, value_bytes: 1 };
/// let mut tallies = [Tally::new(numbers)?, Tally::new(TallyNumbers { player: 1, ..numbers })?];
/// for keys in &hunts {
///     let (first, second) = keys.split_at(keys.len() / 2);
///     tallies[0].add(first)?;
///     tallies[1].add(second)?;
///     assert_eq!(tallies[0].add(second), Err(Refusal::Tally)); // the other player's key
/// }
///
/// // All tallies together: two hunts hid their pieces on square 4, one on square 1.
/// assert_eq!(Tally::join(&tallies)?, [0, 0x33, 0, 0, 0x50 ^ 0x05, 0]);
/// // A square alone, and all squares' total: each player hands over no more than these bytes.
/// let mut joined = [0];
/// join_shares(2, 1, &[tallies[0].get(4)?, tallies[1].get(4)?].concat(), &mut joined)?;
/// assert_eq!(joined, [0x55]);
/// join_shares(2, 1, &[tallies[0].total()?, tallies[1].total()?].concat(), &mut joined)?;
/// assert_eq!(joined, [0x55 ^ 0x33]);
/// # Ok::<(), Refusal>(())
/// ```
#[derive(Clone, PartialEq, Eq)]
pub struct Tally {
    numbers: TallyNumbers,
    /// As long as the numbers ask.
    table: Vec<u8>,
}

impl Tally {
    /// A tally to which nothing was added.
    ///
    /// Refuses as [`TallyNumbers::table_len`].
    pub fn new(numbers: TallyNumbers) -> Result<Tally, Refusal> {
        let table = vec![0; numbers.table_len()?];
        Ok(Tally { numbers, table })
    }

    /// The tally of a table that was kept, over a restart or by another player: what [`table`](Tally::table) or
    /// [`into_table`](Tally::into_table) gave. Nothing tells whether it is that of these numbers, but for its length.
    ///
    /// Refuses as [`TallyNumbers::table_len`], then [`Room`](Refusal::Room) for a table that is shorter, as
    /// [`tally_make`](crate::tally_make) does, and [`Lent`](Refusal::Lent) for one that is longer.
    ///
    /// ```
    /// # use nosingginger::{Refusal, Tally, TallyNumbers};
    /// let numbers = TallyNumbers { players: 2, player: 1, positions: 3, value_bytes: 2 };
    /// let tally = Tally::from_table(numbers, vec![1, 2, 3, 4, 5, 6])?;
    /// assert_eq!(tally.get(2)?, [5, 6]);
    /// assert_eq!(tally.into_table(), [1, 2, 3, 4, 5, 6]);
    /// assert_eq!(Tally::from_table(numbers, vec![1, 2, 3, 4, 5]), Err(Refusal::Room));
    /// # Ok::<(), Refusal>(())
    /// ```
    pub fn from_table(numbers: TallyNumbers, table: Vec<u8>) -> Result<Tally, Refusal> {
        match table.len().cmp(&numbers.table_len()?) {
            Ordering::Less => Err(Refusal::Room),
            Ordering::Equal => Ok(Tally { numbers, table }),
            Ordering::Greater => Err(Refusal::Lent),
        }
    }

    /// The numbers that the tally was made with.
    pub fn numbers(&self) -> TallyNumbers {
        self.numbers
    }

    /// The table: the entries of all positions, one after another.
    pub fn table(&self) -> &[u8] {
        &self.table
    }

    /// The table, to be kept, handed over or wiped.
    pub fn into_table(self) -> Vec<u8> {
        self.table
    }

    /// Adds a key of the tally's player: [`tally_add`]. The same key once more takes it out again.
    ///
    /// Refuses as [`check_key`](crate::check_key), then [`Tally`](Refusal::Tally). A refused key changes nothing.
    pub fn add(&mut self, key: &[u8]) -> Result<(), Refusal> {
        tally_add(self.numbers, key, &mut self.table)
    }

    /// The entry of a position, value_bytes bytes: [`tally_look_up`].
    ///
    /// Refuses [`Position`](Refusal::Position).
    pub fn get(&self, position: u32) -> Result<Vec<u8>, Refusal> {
        let mut entry = self.zeros();
        tally_look_up(self.numbers, &self.table, position, &mut entry)?;
        Ok(entry)
    }

    /// The XOR of all entries, value_bytes bytes: [`tally_total`].
    ///
    /// Nothing is left for it to refuse.
    pub fn total(&self) -> Result<Vec<u8>, Refusal> {
        let mut total = self.zeros();
        tally_total(self.numbers, &self.table, &mut total)?;
        Ok(total)
    }

    /// The joined table of all players' tallies, which are given in any order: each entry is the XOR of theirs, by
    /// [`join_shares`]. Where all players added exactly their keys of the same hunts, that is the XOR of all values
    /// hidden on the square; where one did not, it is noise, and nothing tells.
    ///
    /// Refuses [`Place`](Refusal::Place) for the first tally of other players, positions or value_bytes than those
    /// before it, or of the same player as one of them; then [`Lent`](Refusal::Lent) where a player's is missing.
    pub fn join<'a>(tallies: impl IntoIterator<Item = &'a Tally>) -> Result<Vec<u8>, Refusal> {
        let mut placed: Vec<&Tally> = Vec::new();
        for tally in tallies {
            if placed.iter().any(|earlier| !earlier.stands_beside(tally)) {
                return Err(Refusal::Place);
            }
            placed.push(tally);
        }
        let players = placed.len() as u32;
        match placed.first() {
            Some(first) if first.numbers.players == players => joined(players, first.table.len(), &placed),
            _ => Err(Refusal::Lent),
        }
    }

    /// Whether two tallies are of one board and of two players.
    fn stands_beside(&self, other: &Tally) -> bool {
        let (one, two) = (self.numbers, other.numbers);
        one != two && one == TallyNumbers { player: one.player, ..two }
    }

    /// An entry of zeros, to be written.
    fn zeros(&self) -> Vec<u8> {
        vec![0; self.numbers.value_bytes as usize]
    }
}

/// The XOR of all players' tables, each of `length` bytes, joined as many bytes at once as shares may have.
fn joined(players: u32, length: usize, tallies: &[&Tally]) -> Result<Vec<u8>, Refusal> {
    let part_bytes = MOST_SHARE_BYTES as usize;
    let mut parts: Vec<_> = tallies.iter().map(|tally| tally.table.chunks(part_bytes)).collect();
    let mut joined = vec![0; length];
    for part in joined.chunks_mut(part_bytes) {
        let shares: Vec<u8> = parts.iter_mut().filter_map(Iterator::next).flatten().copied().collect();
        join_shares(players, part.len() as u32, &shares, part)?;
    }
    Ok(joined)
}

impl fmt::Debug for Tally {
    /// The numbers, without the table: the tables of all players together show the board, so none belongs in a log.
    fn fmt(&self, formatter: &mut fmt::Formatter<'_>) -> fmt::Result {
        formatter.debug_struct("Tally").field("numbers", &self.numbers).finish_non_exhaustive()
    }
}
