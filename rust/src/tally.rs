//! A tally over many hunts: the calls over its four numbers and a lent table, and, with the feature `alloc`, the type that owns both.

#[cfg(feature = "alloc")]
mod owned;

use crate::{answered, lent, lent_out, raw, Board, Header, Refusal, MOST_WIDTH};

#[cfg(feature = "alloc")]
pub use owned::Tally;

/// The numbers of a tally, which each of its calls is given. Its table has an entry for each position, and is lent to each
/// call: [`table_len`](TallyNumbers::table_len) bytes, or more, of which no call reads or writes those past them. With the
/// feature `alloc` a `Tally` has both.
///
/// A tally is one player's. It takes that player's keys of all hunts on boards of these numbers, whatever their width.
///
/// ```
/// # use nosingginger::{Refusal, TallyNumbers};
/// let spring = TallyNumbers { players: 4, player: 2, positions: 72, value_bytes: 1 };
/// assert_eq!(spring.table_len(), Ok(72));
/// assert_eq!(TallyNumbers { player: 4, ..spring }.table_len(), Err(Refusal::Player));
/// ```
#[derive(Clone, Copy, Debug, PartialEq, Eq, Hash)]
pub struct TallyNumbers {
    /// Players, 2 to 6.
    pub players: u32,
    /// The player whose tally it is, numbered from 0.
    pub player: u32,
    /// Positions, 1 to 65,536, numbered from 0.
    pub positions: u32,
    /// Value width, 1 to 16: the bytes of an entry.
    pub value_bytes: u32,
}

impl TallyNumbers {
    /// Bytes of the table: positions × value_bytes, which are those of [`Board::table_len`].
    ///
    /// Refuses [`Players`](Refusal::Players), [`Positions`](Refusal::Positions), [`ValueBytes`](Refusal::ValueBytes),
    /// [`Player`](Refusal::Player), as [`tally_make`] does.
    pub fn table_len(self) -> Result<usize, Refusal> {
        let TallyNumbers { players, player, positions, value_bytes } = self;
        // No tally depends on the width. With this one, every number of positions in its range has few enough grid rows.
        let length = Board { players, positions, width: MOST_WIDTH, value_bytes }.table_len()?;
        if player < players {
            Ok(length)
        } else {
            Err(Refusal::Player)
        }
    }
}

impl From<Header> for TallyNumbers {
    /// The numbers of the tally that takes keys with this header.
    fn from(Header { board, player }: Header) -> TallyNumbers {
        TallyNumbers { players: board.players, player, positions: board.positions, value_bytes: board.value_bytes }
    }
}

/// **Tally make**: makes every entry zero, positions × value_bytes bytes of the table.
///
/// Refuses [`Players`](Refusal::Players), [`Positions`](Refusal::Positions), [`ValueBytes`](Refusal::ValueBytes),
/// [`Player`](Refusal::Player), and [`Room`](Refusal::Room) for a table that is shorter. Every call of a tally begins with these.
///
/// ```
/// # use nosingginger::{tally_make, Refusal, TallyNumbers};
/// let numbers = TallyNumbers { players: 2, player: 1, positions: 3, value_bytes: 2 };
/// let mut table = [0xC3; 7];
/// tally_make(numbers, &mut table)?;
/// assert_eq!(table, [0, 0, 0, 0, 0, 0, 0xC3]);
/// assert_eq!(tally_make(numbers, &mut table[..5]), Err(Refusal::Room));
/// # Ok::<(), Refusal>(())
/// ```
pub fn tally_make(numbers: TallyNumbers, table: &mut [u8]) -> Result<(), Refusal> {
    let TallyNumbers { players, player, positions, value_bytes } = numbers;
    let (table, table_length) = lent_out(table);
    answered(unsafe { raw::nsg_tally_make(players, player, positions, value_bytes, table, table_length) })
}

/// **Tally add**: XORs a key's shares of all positions, which [`open_all`](crate::open_all) writes, into the table. The same
/// key once more takes them out again.
///
/// Refuses as [`tally_make`], then as [`check_key`](crate::check_key), then [`Tally`](Refusal::Tally) for a key of other
/// players, another player, other positions or other value_bytes than the tally's. Its width may be any.
///
/// ```
/// # use nosingginger::{check_key, open_all, tally_add, Refusal, TallyNumbers};
/// // The key of player 0 of 2 on a board of one square, as for held_seed.
/// let mut key = vec![2, 0, 1, 1, 1, 0b01];
/// key.extend(1..=32);
/// key.extend([0x5A, 0xC3]);
/// let numbers = TallyNumbers::from(check_key(&key)?);
/// let (mut table, mut share) = ([0x11], [0]);
/// open_all(&key, &mut share)?;
/// tally_add(numbers, &key, &mut table)?;
/// assert_eq!(table, [0x11 ^ share[0]]);
/// tally_add(numbers, &key, &mut table)?;
/// assert_eq!(table, [0x11]);
/// assert_eq!(tally_add(TallyNumbers { player: 1, ..numbers }, &key, &mut table), Err(Refusal::Tally));
/// # Ok::<(), Refusal>(())
/// ```
pub fn tally_add(numbers: TallyNumbers, key: &[u8], table: &mut [u8]) -> Result<(), Refusal> {
    let TallyNumbers { players, player, positions, value_bytes } = numbers;
    let (key, key_length) = lent(key);
    let (table, table_length) = lent_out(table);
    answered(unsafe { raw::nsg_tally_add(players, player, positions, value_bytes, key, key_length, table, table_length) })
}

/// **Tally look up**: writes the entry of a position, value_bytes bytes. The entries of all players' tallies at one
/// position are joined by [`join_shares`](crate::join_shares).
///
/// Refuses as [`tally_make`], then [`Position`](Refusal::Position), then [`Room`](Refusal::Room) for an output that is too
/// short.
///
/// ```
/// # use nosingginger::{tally_look_up, Refusal, TallyNumbers};
/// let numbers = TallyNumbers { players: 2, player: 1, positions: 3, value_bytes: 2 };
/// let mut entry = [0; 2];
/// tally_look_up(numbers, &[1, 2, 3, 4, 5, 6], 1, &mut entry)?;
/// assert_eq!(entry, [3, 4]);
/// assert_eq!(tally_look_up(numbers, &[1, 2, 3, 4, 5, 6], 3, &mut entry), Err(Refusal::Position));
/// # Ok::<(), Refusal>(())
/// ```
pub fn tally_look_up(numbers: TallyNumbers, table: &[u8], position: u32, entry: &mut [u8]) -> Result<(), Refusal> {
    let TallyNumbers { players, player, positions, value_bytes } = numbers;
    let (table, table_length) = lent(table);
    let (entry, entry_length) = lent_out(entry);
    answered(unsafe { raw::nsg_tally_look_up(players, player, positions, value_bytes, table, table_length, position, entry, entry_length) })
}

/// **Tally total**: writes the XOR of all entries, value_bytes bytes. The totals of all players' tallies are joined by
/// [`join_shares`](crate::join_shares), to the XOR of all values that were hidden.
///
/// Refuses as [`tally_make`], then [`Room`](Refusal::Room) for an output that is too short.
///
/// ```
/// # use nosingginger::{tally_total, Refusal, TallyNumbers};
/// let numbers = TallyNumbers { players: 2, player: 1, positions: 3, value_bytes: 2 };
/// let mut total = [0; 2];
/// tally_total(numbers, &[1, 2, 3, 4, 5, 7], &mut total)?;
/// assert_eq!(total, [1 ^ 3 ^ 5, 2 ^ 4 ^ 7]);
/// # Ok::<(), Refusal>(())
/// ```
pub fn tally_total(numbers: TallyNumbers, table: &[u8], total: &mut [u8]) -> Result<(), Refusal> {
    let TallyNumbers { players, player, positions, value_bytes } = numbers;
    let (table, table_length) = lent(table);
    let (total, total_length) = lent_out(total);
    answered(unsafe { raw::nsg_tally_total(players, player, positions, value_bytes, table, table_length, total, total_length) })
}
