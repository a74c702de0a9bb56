#![doc = include_str!("../README.md")]
#![no_std]
#![deny(missing_docs)]
// What could panic is seen where clippy is run, in this crate's tests too.
#![deny(clippy::panic, clippy::unreachable, clippy::unwrap_used, clippy::expect_used)]
#![deny(clippy::indexing_slicing, clippy::arithmetic_side_effects)]

#[cfg(feature = "alloc")]
extern crate alloc;

mod board;
pub mod raw;
mod refusal;
mod tally;

use core::fmt;

pub use board::*;
pub use refusal::Refusal;
pub use tally::*;

/// What [`deal`] is lent, but for its output. An array has a column for each set of players of one parity: 2^(players − 1) columns.
#[derive(Clone, Copy, Debug)]
pub struct Dealing<'a> {
    /// The board.
    pub board: Board,
    /// The piece's position.
    pub point: u32,
    /// The piece: value_bytes bytes. Zero is allowed.
    pub value: &'a [u8],
    /// An array for each grid row: one byte for each column, bit i of a column being player i's mark. The array of the piece's grid row
    /// has each column of an odd count of ones exactly once, every other array each of an even count, both in an order drawn uniformly and
    /// anew for every grid row and every deal. [`Board::arrays_len`] bytes.
    pub arrays: &'a [u8],
    /// A seed of 32 random bytes for each column of each array, in the order of the arrays. Never used for another deal.
    /// [`Board::seeds_len`] bytes.
    pub seeds: &'a [u8],
    /// The correction words of all columns but the last: width × value_bytes random bytes for each. [`Board::words_len`] bytes.
    pub words: &'a [u8],
}

/// The numbers of an accepted key's header.
#[derive(Clone, Copy, Debug, PartialEq, Eq, Hash)]
pub struct Header {
    /// The board that the key was dealt for.
    pub board: Board,
    /// The player that the key was dealt to, numbered from 0.
    pub player: u32,
}

/// The end, where an archive does what the proved library never does: it is not this crate's, and what else it did is not
/// known. So this stops, rather than call it accepted or refused.
#[expect(clippy::panic, reason = "the crate's only one, and the README names it")]
fn not_the_archive(what: fmt::Arguments<'_>) -> ! {
    panic!("the archive is not this crate's: {what}")
}

/// The library's answer as a result. The proved library gives 0 and the numbers of refusals alone.
fn judged(number: u32, refusal: Option<Refusal>) -> Result<(), Refusal> {
    match refusal {
        Some(refusal) => Err(refusal),
        None if number == 0 => Ok(()),
        None => not_the_archive(format_args!("it gave the number {number}")),
    }
}

/// The answer of a call that gives no place.
fn answered(number: u32) -> Result<(), Refusal> {
    judged(number, Refusal::from_number(number, None))
}

/// The answer of a call that says where a bad column stands.
fn answered_at(number: u32, [grid_row, column]: [u32; raw::FAULT_NUMBERS]) -> Result<(), Refusal> {
    judged(number, Refusal::from_number(number, Some((grid_row, column))))
}

/// A slice as the library takes it.
fn lent(bytes: &[u8]) -> (*const u8, u64) {
    (bytes.as_ptr(), bytes.len() as u64)
}

/// An output as the library takes it.
fn lent_out(bytes: &mut [u8]) -> (*mut u8, u64) {
    (bytes.as_mut_ptr(), bytes.len() as u64)
}

// Each call below lends slices whole, for the length of the call; a mutable one overlaps no other, by Rust's own rule. That is all that
// the functions of `raw` ask, since a slice's pointer is never null.

/// **Key length**: the bytes of each player's key.
///
/// Refuses [`Players`](Refusal::Players), [`Positions`](Refusal::Positions), [`Width`](Refusal::Width),
/// [`ValueBytes`](Refusal::ValueBytes), [`GridRows`](Refusal::GridRows).
///
/// ```
/// # use nosingginger::{key_length, Board, Refusal};
/// let spring = Board { players: 4, positions: 72, width: 36, value_bytes: 1 };
/// assert_eq!(key_length(spring), Ok(551));
/// assert_eq!(key_length(Board { width: 0, ..spring }), Err(Refusal::Width));
/// ```
pub fn key_length(board: Board) -> Result<u32, Refusal> {
    let mut length = 0;
    let number = unsafe { raw::nsg_key_length(board.players, board.positions, board.width, board.value_bytes, &mut length) };
    answered(number).map(|()| length)
}

/// **Deal**: writes the keys of all players one after another, player 0 first. That takes [`Board::keys_len`] bytes.
///
/// The caller wipes point, value, arrays, seeds and words after the call, refused or not: together they tell where the piece is.
///
/// Refuses as [`key_length`], then [`Point`](Refusal::Point), [`Lent`](Refusal::Lent), then the first bad column of the arrays, grid row by
/// grid row and column by column, then [`Room`](Refusal::Room). A column is refused with [`ColumnBit`](Refusal::ColumnBit) for a bit at
/// players or above, else with [`ColumnParity`](Refusal::ColumnParity) for a count of ones that is even in the point's grid row or odd in
/// another, else with [`ColumnTwice`](Refusal::ColumnTwice) where it stood earlier in its array. The refusal says where, and can tell the
/// point's grid row with it: it is for the board's maker, not for players.
///
/// ```
/// # use nosingginger::{deal, Board, Dealing, Refusal};
/// // Three players and two grid rows, the piece in the second. Its array has the column 8: that is bit 3, and three players have
/// // the bits 0 to 2.
/// let board = Board { players: 3, positions: 4, width: 2, value_bytes: 1 };
/// let arrays = [0, 3, 5, 6, 1, 8, 1, 2];
/// let (seeds, words) = (vec![0; board.seeds_len()?], vec![0; board.words_len()?]);
/// let mut keys = vec![0; board.keys_len()?];
/// let refused = deal(&Dealing { board, point: 2, value: &[0xA5], arrays: &arrays, seeds: &seeds, words: &words }, &mut keys);
/// assert_eq!(refused, Err(Refusal::ColumnBit { grid_row: 1, column: 1 }));
/// # Ok::<(), Refusal>(())
/// ```
pub fn deal(dealing: &Dealing<'_>, keys: &mut [u8]) -> Result<(), Refusal> {
    let board = dealing.board;
    let (value, value_length) = lent(dealing.value);
    let (arrays, arrays_length) = lent(dealing.arrays);
    let (seeds, seeds_length) = lent(dealing.seeds);
    let (words, words_length) = lent(dealing.words);
    let (keys, keys_length) = lent_out(keys);
    let mut fault = [0; raw::FAULT_NUMBERS];
    let number = unsafe {
        raw::nsg_deal(
            board.players,
            board.positions,
            board.width,
            board.value_bytes,
            dealing.point,
            value,
            value_length,
            arrays,
            arrays_length,
            seeds,
            seeds_length,
            words,
            words_length,
            keys,
            keys_length,
            &mut fault,
        )
    };
    answered_at(number, fault)
}

/// **Check key**: the header's numbers of a key that can be opened.
///
/// Refuses [`Number`](Refusal::Number), then as [`key_length`], then [`Player`](Refusal::Player),
/// [`Length`](Refusal::Length), [`Marks`](Refusal::Marks).
///
/// ```
/// # use nosingginger::{check_key, Refusal};
/// assert_eq!(check_key(&[]), Err(Refusal::Number));
/// assert_eq!(check_key(&[2, 0, 6, 4, 1]), Err(Refusal::Length));
/// ```
pub fn check_key(key: &[u8]) -> Result<Header, Refusal> {
    let (key, length) = lent(key);
    let mut header = [0; 5];
    answered(unsafe { raw::nsg_check_key(key, length, &mut header) })?;
    let [players, player, positions, width, value_bytes] = header;
    let board = Board { players, positions, width, value_bytes };
    Ok(Header { board, player })
}

/// **Open one**: writes the key's share of one position, value_bytes bytes.
///
/// Refuses as [`check_key`], then [`Position`](Refusal::Position), [`Room`](Refusal::Room).
pub fn open_one(key: &[u8], position: u32, share: &mut [u8]) -> Result<(), Refusal> {
    let (key, length) = lent(key);
    let (share, share_length) = lent_out(share);
    answered(unsafe { raw::nsg_open_one(key, length, position, share, share_length) })
}

/// **Open all** (full-domain evaluation): writes the key's shares of all positions, [`Board::table_len`] bytes.
///
/// Refuses as [`check_key`], then [`Room`](Refusal::Room).
pub fn open_all(key: &[u8], table: &mut [u8]) -> Result<(), Refusal> {
    let (key, length) = lent(key);
    let (table, table_length) = lent_out(table);
    answered(unsafe { raw::nsg_open_all(key, length, table, table_length) })
}

/// **Draw card**: writes what a player answers to a key that asks for a card: the XOR of the cards at the positions where
/// the key's share has its lowest bit set, card_bytes bytes. Card a is the card_bytes bytes of the deck from
/// a × card_bytes on, and all players hold the same deck, [`Board::deck_len`] bytes.
///
/// Who wants the card at a position deals keys with value_bytes 1, that position as the point and the value 1, and joins
/// the answers of all players with [`join_shares`], with card_bytes as its value_bytes. They join to the card at the point
/// where the value is odd, and to zeros where it is even. Keys of different deals, or decks that differ, are not refused:
/// what they join to need not be a card.
///
/// Refuses as [`check_key`], then [`CardKey`](Refusal::CardKey) for a key whose value_bytes is not 1,
/// [`Deck`](Refusal::Deck) where card_bytes is not 1 to [`MOST_SHARE_BYTES`] or the deck is not positions × card_bytes
/// bytes, [`Room`](Refusal::Room).
///
/// ```
/// # use nosingginger::{deal, draw_card, join_shares, Board, Dealing, Refusal};
/// // Two players hold a deck of six cards, five bytes each. Who wants the queen hides a 1 at her position.
/// let deck = b"sevenjack queenking ace  joker";
/// let board = Board { players: 2, positions: 6, width: 4, value_bytes: 1 };
/// assert_eq!(board.deck_len(5)?, deck.len());
/// // Fixed bytes stand here for those that a game draws, as the crate's first page does.
/// let (arrays, words) = ([1, 2, 3, 0], [0x5A, 0xC3, 0x0F, 0x96]);
/// let seeds: Vec<u8> = (0..128).collect();
/// let mut keys = vec![0; board.keys_len()?];
/// deal(&Dealing { board, point: 2, value: &[1], arrays: &arrays, seeds: &seeds, words: &words }, &mut keys)?;
///
/// // Each player answers with a key of its own; together the answers are the card.
/// let mut answers = [0; 2 * 5];
/// for (key, answer) in keys.chunks(board.key_len()?).zip(answers.chunks_mut(5)) {
///     draw_card(key, deck, 5, answer)?;
/// }
/// let mut card = [0; 5];
/// join_shares(2, 5, &answers, &mut card)?;
/// assert_eq!(&card, b"queen");
/// assert_eq!(draw_card(&keys[..board.key_len()?], &deck[1..], 5, &mut card), Err(Refusal::Deck));
/// # Ok::<(), Refusal>(())
/// ```
pub fn draw_card(key: &[u8], deck: &[u8], card_bytes: u32, card: &mut [u8]) -> Result<(), Refusal> {
    let (key, length) = lent(key);
    let (deck, deck_length) = lent(deck);
    let (card, card_length) = lent_out(card);
    answered(unsafe { raw::nsg_draw_card(key, length, deck, deck_length, card_bytes, card, card_length) })
}

/// **Join shares**: writes the XOR of the shares of all players, which stand one after another; value_bytes bytes, 1 to
/// [`MOST_SHARE_BYTES`]. It joins what [`draw_card`] writes as well.
///
/// Refuses [`Players`](Refusal::Players), [`ValueBytes`](Refusal::ValueBytes), [`Lent`](Refusal::Lent),
/// [`Room`](Refusal::Room).
///
/// ```
/// # use nosingginger::{join_shares, Refusal};
/// let mut value = [0; 2];
/// join_shares(3, 2, &[1, 0, 2, 0, 4, 9], &mut value)?;
/// assert_eq!(value, [7, 9]);
/// # Ok::<(), Refusal>(())
/// ```
pub fn join_shares(players: u32, value_bytes: u32, shares: &[u8], value: &mut [u8]) -> Result<(), Refusal> {
    let (shares, shares_length) = lent(shares);
    let (value, value_length) = lent_out(value);
    answered(unsafe { raw::nsg_join_shares(players, value_bytes, shares, shares_length, value, value_length) })
}

/// **Join keys**: writes the XOR of the tables of all keys, which stand one after another, player 0 first; [`Board::table_len`]
/// bytes. Keys of one board that come from different deals are not refused: they join to noise.
///
/// Refuses as [`check_key`] but for the length and the marks, on the first key; [`Length`](Refusal::Length) on all; then for each key in
/// turn as [`check_key`] but for the length, with [`Place`](Refusal::Place) before [`Marks`](Refusal::Marks);
/// last [`Room`](Refusal::Room).
pub fn join_keys(keys: &[u8], table: &mut [u8]) -> Result<(), Refusal> {
    let (keys, length) = lent(keys);
    let (table, table_length) = lent_out(table);
    answered(unsafe { raw::nsg_join_keys(keys, length, table, table_length) })
}

/// **Write page**: writes a table as lines of text, to be printed and pinned up, and gives how many bytes that are:
/// [`page_len`]. A line has eight positions: the first of them in five places, right-aligned with spaces; for each a
/// space and its entry in 2 × value_bytes upper-case hexadecimal digits, byte 0 first and of a byte the high digit; as
/// many spaces for each cell past the last position; a line feed. All bytes are ASCII.
///
/// Every line is equally long, 6 + 8 × (2 × value_bytes + 1) bytes, so a cell is found by its line and column alone: the
/// digits of position a begin at (a div 8) × line + 6 + (a mod 8) × (2 × value_bytes + 1).
///
/// Each digit is looked up, so that addresses in memory depend on the table. A page shows its table to everybody who
/// reads it: a table that nobody may see is not for a page.
///
/// Refuses [`Positions`](Refusal::Positions), [`ValueBytes`](Refusal::ValueBytes) for value_bytes that are not 1 to
/// [`MOST_VALUE_BYTES`], [`Lent`](Refusal::Lent) for a table that is not positions × value_bytes bytes,
/// [`Room`](Refusal::Room).
///
/// ```
/// # use nosingginger::{page_len, write_page, Refusal};
/// // Ten squares of one byte. The last line has six cells past them, of three spaces each.
/// let table = [0, 1, 2, 3, 4, 5, 6, 7, 8, 0xA5];
/// let mut page = [0; 100];
/// let written = write_page(10, 1, &table, &mut page)?;
/// assert_eq!(written, page_len(10, 1)?);
/// let text = core::str::from_utf8(&page[..written]).unwrap();
/// assert_eq!(text, concat!("    0 00 01 02 03 04 05 06 07\n", "    8 08 A5                  \n"));
///
/// // Square 9 is in line 1, cell 1; lines have 30 bytes and cells 3.
/// assert_eq!(&text[30 + 6 + 3..][..2], "A5");
/// assert_eq!(write_page(10, 1, &table, &mut page[..59]), Err(Refusal::Room));
/// # Ok::<(), Refusal>(())
/// ```
pub fn write_page(positions: u32, value_bytes: u32, table: &[u8], output: &mut [u8]) -> Result<usize, Refusal> {
    let (table, table_length) = lent(table);
    let (out, out_length) = lent_out(output);
    let mut written = 0;
    let number = unsafe { raw::nsg_write_page(positions, value_bytes, table, table_length, out, out_length, &mut written) };
    answered(number).map(|()| written as usize)
}

/// The page that [`write_page`] writes, as text of its own. It takes memory from the heap, so it is here with the feature
/// `alloc` only.
///
/// Refuses [`Positions`](Refusal::Positions), [`ValueBytes`](Refusal::ValueBytes), [`Lent`](Refusal::Lent), as
/// [`write_page`] does.
///
/// ```
/// # use nosingginger::{page, Refusal};
/// let text = page(3, 2, &[0xCA, 0xFE, 0, 1, 0xBE, 0xEF])?;
/// assert_eq!(text.trim_end(), "    0 CAFE 0001 BEEF");
/// assert_eq!(text.len(), 6 + 8 * 5);
/// assert_eq!(page(3, 2, &[0xCA, 0xFE]), Err(Refusal::Lent));
/// # Ok::<(), Refusal>(())
/// ```
#[cfg(feature = "alloc")]
pub fn page(positions: u32, value_bytes: u32, table: &[u8]) -> Result<alloc::string::String, Refusal> {
    let mut bytes = alloc::vec![0; page_len(positions, value_bytes)?];
    let written = write_page(positions, value_bytes, table, &mut bytes)?;
    bytes.truncate(written);
    Ok(alloc::string::String::from_utf8(bytes).unwrap_or_else(|_| not_the_archive(format_args!("its page is no text"))))
}

/// **Held seed**: the 32 bytes of the key itself that are the seed of a grid row and column. There are none where [`check_key`] refuses
/// the key, where the grid row or the column does not exist, or where the key does not mark the column.
///
/// ```
/// # use nosingginger::held_seed;
/// // A key of player 0 of 2, on a board of one square: five header bytes, the mark of column 0, its seed, and two words of a byte.
/// let mut key = vec![2, 0, 1, 1, 1, 0b01];
/// let seed: Vec<u8> = (1..=32).collect();
/// key.extend(&seed);
/// key.extend([0x5A, 0xC3]);
/// assert_eq!(held_seed(&key, 0, 0), Some(&seed[..]));
/// assert_eq!(held_seed(&key, 0, 1), None);
/// ```
pub fn held_seed(key: &[u8], grid_row: u32, column: u32) -> Option<&[u8]> {
    let (bytes, length) = lent(key);
    match unsafe { raw::nsg_held_seed(bytes, length, grid_row, column) } {
        0 => None,
        place => key.get(place as usize..)?.get(..SEED_BYTES),
    }
}

/// **Expand**: fills the output with bytes of the seed's ChaCha20 key stream (RFC 8439, nonce zero, counter from 0), from
/// its byte `start` on; 0 is the first.
///
/// Refuses [`Lent`](Refusal::Lent) for a seed that has not 32 bytes, [`Expansion`](Refusal::Expansion) where start and
/// the output's length are together above [`MOST_EXPANDED_BYTES`], whatever the start: nothing overflows.
///
/// ```
/// # use nosingginger::{expand, Refusal};
/// // The first key stream of the RFC's appendix A.1, and four bytes of it where the second block of 64 begins.
/// let mut row = [0; 4];
/// expand(&[0; 32], 0, &mut row)?;
/// assert_eq!(row, [0x76, 0xB8, 0xE0, 0xAD]);
/// expand(&[0; 32], 62, &mut row)?;
/// assert_eq!(row, [0x65, 0x86, 0x9F, 0x07]);
/// assert_eq!(expand(&[0; 32], 4_093, &mut row), Err(Refusal::Expansion));
/// # Ok::<(), Refusal>(())
/// ```
pub fn expand(seed: &[u8], start: u64, out: &mut [u8]) -> Result<(), Refusal> {
    let (seed, length) = lent(seed);
    let (out, out_length) = lent_out(out);
    answered(unsafe { raw::nsg_expand(seed, length, start, out, out_length) })
}

/// **Choose width**: the grid width that makes keys shortest. Among the widths 1 to 256 at which the board has at most
/// 256 grid rows it is the one whose [`key_length`], which has the header in it, is least, and the smaller where two tie.
///
/// Refuses [`Players`](Refusal::Players), [`Positions`](Refusal::Positions), [`ValueBytes`](Refusal::ValueBytes).
///
/// ```
/// # use nosingginger::{choose_width, key_length, Board};
/// assert_eq!(choose_width(4, 72, 1), Ok(36));
/// let key_bytes = |width| key_length(Board { players: 4, positions: 72, width, value_bytes: 1 });
/// assert_eq!((key_bytes(36), key_bytes(24)), (Ok(551), Ok(584)));
/// ```
pub fn choose_width(players: u32, positions: u32, value_bytes: u32) -> Result<u32, Refusal> {
    let mut width = 0;
    answered(unsafe { raw::nsg_choose_width(players, positions, value_bytes, &mut width) }).map(|()| width)
}

/// **Sensor position**: the position of a sensor of the spring board, whose 72 sensors run in a line that turns at each end.
///
/// Refuses [`Sensor`](Refusal::Sensor).
///
/// ```
/// assert_eq!(nosingginger::sensor_position(8), Ok(15));
/// ```
pub fn sensor_position(sensor: u32) -> Result<u32, Refusal> {
    let mut position = 0;
    answered(unsafe { raw::nsg_sensor_position(sensor, &mut position) }).map(|()| position)
}

/// The repository's README, whose example runs too.
#[cfg(doctest)]
#[doc = include_str!("../../README.md")]
pub struct RepositoryReadme;
