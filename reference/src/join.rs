//! Join shares and Join keys: all players' shares together give the value at the point and
//! zero elsewhere.

use crate::board::{FEWEST_PLAYERS, MOST_PLAYERS};
use crate::deal::xor_into;
use crate::key::{key_bytes, Header, Parts};
use crate::open::table;
use crate::refusal;

/// "Join shares takes widths to 256 from now on", and a board's values keep theirs.
pub const MOST_SHARE_WIDTH: u32 = 256;

/// **Join shares** "(p, w, p × w bytes): 1; 4; 7; 9. It writes the w-byte XOR."
pub fn join_shares(
    players: u32,
    value_width: u32,
    shares: &[u8],
    output: &mut [u8],
) -> Result<(), u32> {
    if !(FEWEST_PLAYERS..=MOST_PLAYERS).contains(&players) {
        return Err(refusal::PLAYERS);
    }
    if !(1..=MOST_SHARE_WIDTH).contains(&value_width) {
        return Err(refusal::VALUE_WIDTH);
    }
    if shares.len() != (players * value_width) as usize {
        return Err(refusal::INPUT_LENGTH);
    }
    if output.len() < value_width as usize {
        return Err(refusal::OUTPUT_SHORT);
    }
    let mut joined = vec![0; value_width as usize];
    for share in shares.chunks(value_width as usize) {
        xor_into(&mut joined, share);
    }
    output[..joined.len()].copy_from_slice(&joined);
    Ok(())
}

/// One key of several: "its 10, 1 to 5, 11, then 15 when p, N, μ or w differ from the first or
/// the player is not its place, then 13". Its length is K, since it is a K-th of the whole.
fn check_one_of<'a>(first: &Header, place: usize, key: &'a [u8]) -> Result<Parts<'a>, u32> {
    let header = Header::read(key)?;
    let board = header.check()?;
    let expected = Header {
        player: place as u32,
        ..*first
    };
    if header != expected {
        return Err(refusal::KEYS_DIFFER);
    }
    let parts = Parts::cut(header, board, key);
    if !parts.marks_are_right() {
        return Err(refusal::MARKS);
    }
    Ok(parts)
}

/// **Join keys** "(p keys in one slice, the first header fixing p and K) writes the joined N ×
/// w table: for the first key 10, 1 to 5, 11; 12 whole length not p × K; then for each key in
/// turn its 10, 1 to 5, 11, then 15 ..., then 13; last 9."
pub fn join_keys(keys: &[u8], output: &mut [u8]) -> Result<(), u32> {
    let first = Header::read(keys)?;
    let board = first.check()?;
    let key_length = key_bytes(&board);
    if keys.len() != board.players * key_length {
        return Err(refusal::KEY_LENGTH);
    }
    let mut checked = Vec::new();
    for (place, key) in keys.chunks(key_length).enumerate() {
        checked.push(check_one_of(&first, place, key)?);
    }
    let table_bytes = board.table_bytes();
    if output.len() < table_bytes {
        return Err(refusal::OUTPUT_SHORT);
    }
    let mut joined = vec![0; table_bytes];
    for parts in &checked {
        xor_into(&mut joined, &table(parts));
    }
    output[..table_bytes].copy_from_slice(&joined);
    Ok(())
}
