//! The refusals, with their numbers, names and words: those of the repository's `refusals.txt`, which a test holds this list to.

use core::error::Error;
use core::fmt;

/// The place of a refusal, made of its fields; none where it has none.
macro_rules! place_of {
    () => {
        None
    };
    ($grid_row:ident $column:ident) => {
        Some(($grid_row, $column))
    };
}

/// The place that a refusal is made with; anything will do where it has none.
macro_rules! place_for {
    () => {
        _
    };
    ($grid_row:ident $column:ident) => {
        Some(($grid_row, $column))
    };
}

/// Writes the refusals and what is said of them from one list, a line for each: number, variant, its place if it has one, name, words.
macro_rules! refusals {
    ($($number:literal $variant:ident $({ $grid_row:ident, $column:ident })? $name:literal $words:literal)*) => {
        /// Why a call was refused: the first of these that fits, in the order that each function names.
        /// A later version may have more.
        #[derive(Clone, Copy, Debug, PartialEq, Eq, Hash, PartialOrd, Ord)]
        #[non_exhaustive]
        pub enum Refusal {
            $(
                #[doc = concat!($number, ": ", $words, ".")]
                $variant $({
                    /// The column's grid row, from 0.
                    $grid_row: u32,
                    /// The column in its grid row's array, from 0.
                    $column: u32,
                })?,
            )*
        }

        impl Refusal {
            /// Number, name and words of every refusal, in the order of the numbers. There is none of number 8.
            pub const LIST: [(u32, &'static str, &'static str); [$($number),*].len()] = [$(($number, concat!("REFUSED_", $name), $words)),*];

            /// The refusal's number, which is the same in every language.
            pub const fn number(self) -> u32 {
                match self {
                    $(Refusal::$variant { .. } => $number,)*
                }
            }

            /// The refusal's name, which is the same in every language, as `REFUSED_LENGTH`; C's macros put `NSG_` before it.
            pub const fn name(self) -> &'static str {
                match self {
                    $(Refusal::$variant { .. } => concat!("REFUSED_", $name),)*
                }
            }

            /// The refusal in words. [`Display`](fmt::Display) gives them too, and the place behind them.
            pub const fn words(self) -> &'static str {
                match self {
                    $(Refusal::$variant { .. } => $words,)*
                }
            }

            /// Grid row and column of the bad column, for the refusals that have them: those of a dealing's arrays. It is the byte
            /// grid row × [`columns`](crate::Board::columns) + column of [`Dealing::arrays`](crate::Dealing::arrays).
            pub const fn bad_column(self) -> Option<(u32, u32)> {
                match self {
                    $(Refusal::$variant $({ $grid_row, $column })? => place_of!($($grid_row $column)?),)*
                }
            }

            /// The refusal of a number, if it is a refusal's. Those of a bad column are made with its grid row and column, and not
            /// without them; the others have no place, whatever is given.
            pub const fn from_number(number: u32, place: Option<(u32, u32)>) -> Option<Refusal> {
                match (number, place) {
                    $(($number, place_for!($($grid_row $column)?)) => Some(Refusal::$variant $({ $grid_row, $column })?),)*
                    _ => None,
                }
            }
        }
    };
}

refusals! {
    1 Players "PLAYERS" "the number of players is not 2 to 6"
    2 Positions "POSITIONS" "the number of positions is not 1 to 65,536"
    3 Width "WIDTH" "the grid's width is not 1 to 256"
    4 ValueBytes "VALUE_BYTES" "a value's width is not 1 to 16 bytes, or the width of shares to be joined not 1 to 256"
    5 GridRows "GRID_ROWS" "the board has more than 256 grid rows at this width"
    6 Point "POINT" "the piece's point is none of the board's positions"
    7 Lent "LENT" "an input does not have the length that the numbers ask for"
    9 Room "ROOM" "the output is too short for what is to be written"
    10 Number "NUMBER" "a key's header has a number that is cut short, over three groups or not in its shortest form"
    11 Player "PLAYER" "a key's player is not below its number of players"
    12 Length "LENGTH" "a key, or all keys together, do not have the length that the header asks for"
    13 Marks "MARKS" "a key marks another number of columns than half in some grid row, or has a spare bit set"
    14 Position "POSITION" "the position is none of the board's"
    15 Place "PLACE" "a key is of another board than the first, or not of the player whose place it stands in"
    16 Expansion "EXPANSION" "what is asked of a seed ends past its first 4,096 bytes"
    17 Sensor "SENSOR" "the sensor is none of the spring board's 72"
    18 ColumnBit { grid_row, column } "COLUMN_BIT" "an array's column has a bit of no player"
    19 ColumnParity { grid_row, column } "COLUMN_PARITY" "an array's column has the wrong parity for its grid row"
    20 ColumnTwice { grid_row, column } "COLUMN_TWICE" "an array's column stood earlier in its array"
    21 CardKey "CARD_KEY" "the key's values are wider than the one byte that drawing a card takes"
    22 Deck "DECK" "a card is not 1 to 256 bytes long, or the deck is not one card for each position"
    23 Tally "TALLY" "the key's players, player, positions or value bytes are not the tally's"
}

impl fmt::Display for Refusal {
    /// The refusal in words, and its place behind them if it has one: "… (grid row 3, column 5)". A width or a precision that is
    /// asked for is that of the words; the place follows whole.
    fn fmt(&self, formatter: &mut fmt::Formatter<'_>) -> fmt::Result {
        formatter.pad(self.words())?;
        match self.bad_column() {
            Some((grid_row, column)) => write!(formatter, " (grid row {grid_row}, column {column})"),
            None => Ok(()),
        }
    }
}

impl Error for Refusal {}
