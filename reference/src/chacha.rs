//! Rows from seeds: the ChaCha20 key stream of RFC 8439.

use crate::board::SEED_BYTES;
use crate::refusal;

/// "The constant is the sixteen bytes "expand 32-byte k"".
const CONSTANT: &[u8; 16] = b"expand 32-byte k";

/// "The eight quarter rounds of a double round stand as a constant table of state places."
const DOUBLE_ROUND: [[usize; 4]; 8] = [
    [0, 4, 8, 12],
    [1, 5, 9, 13],
    [2, 6, 10, 14],
    [3, 7, 11, 15],
    [0, 5, 10, 15],
    [1, 6, 11, 12],
    [2, 7, 8, 13],
    [3, 4, 9, 14],
];

/// RFC 8439, 2.3: twenty rounds, two in a double round.
const DOUBLE_ROUNDS: usize = 10;

/// RFC 8439, 2.3: a block is 64 bytes.
pub const BLOCK_BYTES: usize = 64;

/// "the start plus the output length being at most 4,096": the longest row, 256 × 16.
pub const MOST_ROW_BYTES: usize = 4_096;

/// RFC 8439, 2.1, on four places of the state.
pub fn quarter_round(state: &mut [u32; 16], places: [usize; 4]) {
    let [a, b, c, d] = places;
    state[a] = state[a].wrapping_add(state[b]);
    state[d] = (state[d] ^ state[a]).rotate_left(16);
    state[c] = state[c].wrapping_add(state[d]);
    state[b] = (state[b] ^ state[c]).rotate_left(12);
    state[a] = state[a].wrapping_add(state[b]);
    state[d] = (state[d] ^ state[a]).rotate_left(8);
    state[c] = state[c].wrapping_add(state[d]);
    state[b] = (state[b] ^ state[c]).rotate_left(7);
}

/// RFC 8439, 2.3: constant, key, block counter, nonce; "words are little-endian".
fn first_state(key: &[u8; 32], counter: u32, nonce: &[u8; 12]) -> [u32; 16] {
    let mut bytes = Vec::with_capacity(BLOCK_BYTES);
    bytes.extend_from_slice(CONSTANT);
    bytes.extend_from_slice(key);
    bytes.extend_from_slice(&counter.to_le_bytes());
    bytes.extend_from_slice(nonce);
    let mut state = [0; 16];
    for (word, four) in state.iter_mut().zip(bytes.chunks(4)) {
        *word = u32::from_le_bytes([four[0], four[1], four[2], four[3]]);
    }
    state
}

/// RFC 8439, 2.3: one block of the key stream.
pub fn block(key: &[u8; 32], counter: u32, nonce: &[u8; 12]) -> [u8; BLOCK_BYTES] {
    let first = first_state(key, counter, nonce);
    let mut state = first;
    for _ in 0..DOUBLE_ROUNDS {
        for places in DOUBLE_ROUND {
            quarter_round(&mut state, places);
        }
    }
    let mut bytes = [0; BLOCK_BYTES];
    for i in 0..16 {
        let word = state[i].wrapping_add(first[i]);
        bytes[4 * i..4 * i + 4].copy_from_slice(&word.to_le_bytes());
    }
    bytes
}

/// "The seed is the ChaCha20 key, the nonce twelve zero bytes, the block counter starts at 0.
/// A row is the first μ × w bytes of the key stream."
pub fn row(seed: &[u8], row_bytes: usize) -> Vec<u8> {
    let mut key = [0; SEED_BYTES];
    key.copy_from_slice(seed);
    let mut stream = Vec::new();
    let mut counter = 0;
    while stream.len() < row_bytes {
        stream.extend_from_slice(&block(&key, counter, &[0; 12]));
        counter += 1;
    }
    stream.truncate(row_bytes);
    stream
}

/// **Expand**: "7 seed not 32 bytes; 16 output above 4,096 bytes. It fills the output; length
/// 0 is accepted." Document 02: "Expansion shall take a starting byte and fill the output from
/// there, the start plus the output length being at most 4,096 (else 16)."
pub fn expand(seed: &[u8], start: u64, output: &mut [u8]) -> Result<(), u32> {
    if seed.len() != SEED_BYTES {
        return Err(refusal::INPUT_LENGTH);
    }
    // 128 bits hold the sum, whatever the start is.
    let end = u128::from(start) + output.len() as u128;
    if end > MOST_ROW_BYTES as u128 {
        return Err(refusal::EXPANSION_LONG);
    }
    // The row as far as the output goes, and of it the bytes from the start on.
    let row = row(seed, end as usize);
    output.copy_from_slice(&row[start as usize..]);
    Ok(())
}
