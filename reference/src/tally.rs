//! A tally, of document 02: "Each phone wants a table of its own over an evening." The tally is four
//! numbers; its table is lent to each call, and bytes of it past N × w are nobody's.

use crate::board::{FEWEST_PLAYERS, MOST_PLAYERS, MOST_POSITIONS, MOST_VALUE_WIDTH};
use crate::deal::xor_into;
use crate::key::{Header, Parts};
use crate::open;
use crate::refusal;

/// "A tally is made for p, player, N and w".
#[derive(Clone, Copy, Debug, PartialEq, Eq)]
pub struct Tally {
    /// p
    pub players: u32,
    pub player: u32,
    /// N
    pub positions: u32,
    /// w
    pub value_width: u32,
}

impl Tally {
    /// The tally that takes keys with this header: "μ may differ".
    pub fn of(header: &Header) -> Tally {
        Tally {
            players: header.players,
            player: header.player,
            positions: header.positions,
            value_width: header.value_width,
        }
    }

    /// "Making one checks 1, 2, 4, 11, 9." Gives N × w, the bytes that the table needs.
    fn check(&self, table: &[u8]) -> Result<usize, u32> {
        if !(FEWEST_PLAYERS..=MOST_PLAYERS).contains(&self.players) {
            return Err(refusal::PLAYERS);
        }
        if !(1..=MOST_POSITIONS).contains(&self.positions) {
            return Err(refusal::POSITIONS);
        }
        if !(1..=MOST_VALUE_WIDTH).contains(&self.value_width) {
            return Err(refusal::VALUE_WIDTH);
        }
        if self.player >= self.players {
            return Err(refusal::PLAYER);
        }
        let table_bytes = (self.positions * self.value_width) as usize;
        if table.len() < table_bytes {
            return Err(refusal::OUTPUT_SHORT);
        }
        Ok(table_bytes)
    }
}

/// **Make** a tally, "all zero": 1, 2, 4, 11, 9.
pub fn make(tally: Tally, table: &mut [u8]) -> Result<(), u32> {
    let table_bytes = tally.check(table)?;
    table[..table_bytes].fill(0);
    Ok(())
}

/// **Add** a key: "adding an accepted key XORs its full table in". "Every later call first repeats
/// making's checks"; then, "After Check key's numbers, 23 when p, player, N or w of the key differ
/// from the tally's".
pub fn add(tally: Tally, key: &[u8], table: &mut [u8]) -> Result<(), u32> {
    let table_bytes = tally.check(table)?;
    let parts = Parts::check(key)?;
    if Tally::of(&parts.header) != tally {
        return Err(refusal::TALLY);
    }
    xor_into(&mut table[..table_bytes], &open::table(&parts));
    Ok(())
}

/// **Look up** an entry, w bytes: making's checks; "looking up at or above N is then 14"; "with 9
/// last", of the output.
pub fn look_up(tally: Tally, table: &[u8], position: u32, output: &mut [u8]) -> Result<(), u32> {
    tally.check(table)?;
    if position >= tally.positions {
        return Err(refusal::POSITION);
    }
    let value_width = tally.value_width as usize;
    if output.len() < value_width {
        return Err(refusal::OUTPUT_SHORT);
    }
    let entry = &table[position as usize * value_width..][..value_width];
    output[..value_width].copy_from_slice(entry);
    Ok(())
}

/// **Total**, w bytes: "the total is the XOR of all entries". Making's checks, "with 9 last", of the
/// output.
pub fn total(tally: Tally, table: &[u8], output: &mut [u8]) -> Result<(), u32> {
    let table_bytes = tally.check(table)?;
    let value_width = tally.value_width as usize;
    if output.len() < value_width {
        return Err(refusal::OUTPUT_SHORT);
    }
    let mut total = vec![0; value_width];
    for entry in table[..table_bytes].chunks(value_width) {
        xor_into(&mut total, entry);
    }
    output[..value_width].copy_from_slice(&total);
    Ok(())
}
