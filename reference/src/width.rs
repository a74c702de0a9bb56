//! Choose width, of document 02: the grid width that makes the shortest key.

use crate::board::{
    FEWEST_PLAYERS, MOST_GRID_WIDTH, MOST_PLAYERS, MOST_POSITIONS, MOST_VALUE_WIDTH,
};
use crate::key::key_length;
use crate::refusal;

/// **Choose width** (p, N, w): "Its order becomes 1, 2, 4." It "gives the μ, among those with at
/// most 256 grid rows, whose K is least, the smaller μ when two tie."
pub fn choose_width(players: u32, positions: u32, value_width: u32) -> Result<u32, u32> {
    if !(FEWEST_PLAYERS..=MOST_PLAYERS).contains(&players) {
        return Err(refusal::PLAYERS);
    }
    if !(1..=MOST_POSITIONS).contains(&positions) {
        return Err(refusal::POSITIONS);
    }
    if !(1..=MOST_VALUE_WIDTH).contains(&value_width) {
        return Err(refusal::VALUE_WIDTH);
    }
    // "among those with at most 256 grid rows": Key length refuses the others by 5, and no other of
    // its numbers fits.
    let lengths = (1..=MOST_GRID_WIDTH).filter_map(|grid_width| {
        let length = key_length(players, positions, grid_width, value_width).ok()?;
        Some((length, grid_width))
    });
    // "whose K is least, the smaller μ when two tie": the pairs are ordered by K first and by μ
    // where K is the same.
    let (_, grid_width) = lengths.min().expect("256 has at most 256 grid rows");
    Ok(grid_width)
}
