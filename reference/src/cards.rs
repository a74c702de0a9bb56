//! Draw card, of document 02: one phone's answer for a card of a deck that all phones hold.

use crate::deal::xor_into;
use crate::key::Parts;
use crate::open::table;
use crate::refusal;

/// "A player hides the value 1, with w = 1".
pub const CARD_VALUE_WIDTH: usize = 1;
/// "N cards, each L bytes, L from 1 to 256".
pub const MOST_CARD_BYTES: u32 = 256;

/// **Draw card** writes L bytes: "After the numbers of Check key: 21 when w of the key isn't 1, 22
/// when L is out of range or the deck isn't N × L bytes; then 9." `card_bytes` is L.
pub fn draw_card(key: &[u8], deck: &[u8], card_bytes: u32, output: &mut [u8]) -> Result<(), u32> {
    let parts = Parts::check(key)?;
    let board = parts.board;
    if board.value_width != CARD_VALUE_WIDTH {
        return Err(refusal::CARD_KEY);
    }
    if !(1..=MOST_CARD_BYTES).contains(&card_bytes) {
        return Err(refusal::DECK);
    }
    let card_bytes = card_bytes as usize;
    if deck.len() != board.positions * card_bytes {
        return Err(refusal::DECK);
    }
    if output.len() < card_bytes {
        return Err(refusal::OUTPUT_SHORT);
    }
    // "Each phone returns the XOR of the cards at which its share has its lowest bit set".
    let mut answer = vec![0; card_bytes];
    for (share, card) in table(&parts).iter().zip(deck.chunks(card_bytes)) {
        if share & 1 == 1 {
            xor_into(&mut answer, card);
        }
    }
    output[..card_bytes].copy_from_slice(&answer);
    Ok(())
}
