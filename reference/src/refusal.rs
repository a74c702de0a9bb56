//! The refusal numbers of document 01, "Operations and what each turns away", and of document 02.
//! There is no 8: three numbers of document 02 "take the place of 8, which is no longer given".

/// 1: p outside its range.
pub const PLAYERS: u32 = 1;
/// 2: N outside its range.
pub const POSITIONS: u32 = 2;
/// 3: μ outside its range.
pub const GRID_WIDTH: u32 = 3;
/// 4: w outside its range.
pub const VALUE_WIDTH: u32 = 4;
/// 5: ν above 256.
pub const GRID_ROWS: u32 = 5;
/// 6: point ≥ N.
pub const POINT: u32 = 6;
/// 7: a lent input of another length.
pub const INPUT_LENGTH: u32 = 7;
/// 9: output too short.
pub const OUTPUT_SHORT: u32 = 9;
/// 10: a header number cut short, over three groups or not shortest.
pub const HEADER_NUMBER: u32 = 10;
/// 11: player ≥ p.
pub const PLAYER: u32 = 11;
/// 12: length not K (of p keys: not p × K).
pub const KEY_LENGTH: u32 = 12;
/// 13: some mark row without exactly J/2 ones, or a spare bit set.
pub const MARKS: u32 = 13;
/// 14: position ≥ N.
pub const POSITION: u32 = 14;
/// 15: p, N, μ or w differ from the first key, or the player is not its place.
pub const KEYS_DIFFER: u32 = 15;
/// 16: expansion's start plus its output's length above 4,096.
pub const EXPANSION_LONG: u32 = 16;
/// 17: sensor ≥ 72.
pub const SENSOR: u32 = 17;
/// 18: a column with a bit at p or above.
pub const COLUMN_BIT: u32 = 18;
/// 19: a column of the wrong parity for its grid row.
pub const COLUMN_PARITY: u32 = 19;
/// 20: a column that stood earlier in its array.
pub const COLUMN_TWICE: u32 = 20;
/// 21: a card drawn with a key whose w is not 1.
pub const CARD_KEY: u32 = 21;
/// 22: a card's length L outside its range, or a deck that is not N × L bytes.
pub const DECK: u32 = 22;
/// 23: the key's players, player, positions or value bytes are not the tally's.
pub const TALLY: u32 = 23;
