//! A board as a grid: its bounds, its largest sizes, and how many bytes each part of it takes.

use crate::{key_length, Refusal};

/// The fewest players.
pub const LEAST_PLAYERS: u32 = 2;
/// The most players.
pub const MOST_PLAYERS: u32 = 6;
/// The most positions; the least is 1, as for the three below.
pub const MOST_POSITIONS: u32 = 65_536;
/// The most cells of a grid row.
pub const MOST_WIDTH: u32 = 256;
/// The most bytes of a value.
pub const MOST_VALUE_BYTES: u32 = 16;
/// The most bytes of what [`join_shares`](crate::join_shares) joins, and of a card that
/// [`draw_card`](crate::draw_card) draws.
pub const MOST_SHARE_BYTES: u32 = 256;
/// The most grid rows.
pub const MOST_GRID_ROWS: usize = 256;
/// The most columns of an array: those of six players.
pub const MOST_COLUMNS: usize = 32;
/// The bytes of a seed.
pub const SEED_BYTES: usize = 32;
/// The bytes of the longest row, and how far [`expand`](crate::expand) goes into one.
pub const MOST_EXPANDED_BYTES: usize = 4_096;
/// The sensors of the spring board, nine lines of eight squares.
pub const SENSORS: u32 = 72;
/// The cells of a line of a page.
pub const PAGE_CELLS: usize = 8;
/// The stack that a call may need: a thread with this much to spare is enough. The C tests measure every call of the library, and fail
/// above it.
pub const STACK_BYTES: usize = 32_768;

/// The most bytes that [`Board::arrays_len`] gives.
pub const MOST_ARRAYS_BYTES: usize = MOST_GRID_ROWS * MOST_COLUMNS;
/// The most bytes that [`Board::seeds_len`] gives.
pub const MOST_SEEDS_BYTES: usize = MOST_ARRAYS_BYTES * SEED_BYTES;
/// The most bytes that [`Board::words_len`] gives.
pub const MOST_WORDS_BYTES: usize = (MOST_COLUMNS - 1) * MOST_EXPANDED_BYTES;
/// The most bytes that [`Board::table_len`] gives.
pub const MOST_TABLE_BYTES: usize = 1_048_576;
/// The most bytes that [`Board::deck_len`] gives.
pub const MOST_DECK_BYTES: usize = 16_777_216;
/// The most bytes that [`page_len`] gives.
pub const MOST_PAGE_BYTES: usize = 2_211_840;
/// The most bytes that [`Board::key_len`] gives.
pub const MOST_KEY_BYTES: usize = 263_176;
/// The most bytes that [`Board::keys_len`] gives.
pub const MOST_KEYS_BYTES: usize = 1_579_056;

// Every size here has at most 25 bits: it fits where addresses have 32, and nothing smaller is built for.
const _: () = assert!(usize::BITS >= 32);

/// A board as a grid. [`key_length`] says whether its numbers are in their ranges.
///
/// The functions below tell how long the slices must be that a call is lent. Each refuses as [`key_length`] does, and asks it before it
/// reckons, so no number is too large for them. [`deck_len`](Board::deck_len) alone has more to refuse.
///
/// ```
/// # use nosingginger::{Board, Refusal};
/// let spring = Board { players: 4, positions: 72, width: 36, value_bytes: 1 };
/// assert_eq!((spring.columns()?, spring.grid_rows()?), (8, 2));
/// // What deal is lent, beside the value's bytes; what it writes; what open_all and join_keys write.
/// assert_eq!((spring.arrays_len()?, spring.seeds_len()?, spring.words_len()?), (16, 512, 252));
/// assert_eq!((spring.key_len()?, spring.keys_len()?), (551, 2_204));
/// assert_eq!(spring.table_len()?, 72);
/// // What draw_card is lent beside the key, for cards of 100 bytes.
/// assert_eq!(spring.deck_len(100)?, 7_200);
/// // What write_page writes: nine lines of 30 bytes.
/// assert_eq!(spring.page_len()?, 270);
/// assert_eq!(Board { players: u32::MAX, ..spring }.seeds_len(), Err(Refusal::Players));
/// # Ok::<(), Refusal>(())
/// ```
#[derive(Clone, Copy, Debug, PartialEq, Eq, Hash)]
pub struct Board {
    /// Players, 2 to 6.
    pub players: u32,
    /// Positions, 1 to 65,536, numbered from 0: the squares of the board.
    pub positions: u32,
    /// Grid width, 1 to 256: the cells of a grid row. Position a lies in grid row a div width, cell a mod width, and there are at most 256
    /// grid rows. [`choose_width`](crate::choose_width) gives the one that makes keys shortest.
    pub width: u32,
    /// Value width, 1 to 16: the bytes of a value and of a share.
    pub value_bytes: u32,
}

impl Board {
    /// Columns of an array: 2^(players − 1), one for each set of players of one parity.
    pub fn columns(self) -> Result<usize, Refusal> {
        self.in_range().map(InRange::columns)
    }

    /// Grid rows: positions / width, rounded up.
    pub fn grid_rows(self) -> Result<usize, Refusal> {
        self.in_range().map(InRange::grid_rows)
    }

    /// Bytes of [`Dealing::arrays`](crate::Dealing::arrays): one for each column of each grid row.
    pub fn arrays_len(self) -> Result<usize, Refusal> {
        self.in_range().map(InRange::arrays_len)
    }

    /// Bytes of [`Dealing::seeds`](crate::Dealing::seeds): a seed for each column of each grid row.
    pub fn seeds_len(self) -> Result<usize, Refusal> {
        self.in_range().map(InRange::seeds_len)
    }

    /// Bytes of [`Dealing::words`](crate::Dealing::words): a word of width × value_bytes for each column but the last.
    pub fn words_len(self) -> Result<usize, Refusal> {
        self.in_range().map(InRange::words_len)
    }

    /// Bytes of a table, as [`open_all`](crate::open_all) and [`join_keys`](crate::join_keys) write it: positions × value_bytes.
    pub fn table_len(self) -> Result<usize, Refusal> {
        self.in_range().map(InRange::table_len)
    }

    /// Bytes of a deck, as [`draw_card`](crate::draw_card) takes it with a key of this board: positions × card_bytes.
    /// Refuses further as that does: [`CardKey`](Refusal::CardKey) where value_bytes is not 1, [`Deck`](Refusal::Deck)
    /// where card_bytes is not 1 to [`MOST_SHARE_BYTES`].
    pub fn deck_len(self, card_bytes: u32) -> Result<usize, Refusal> {
        let board = self.in_range()?;
        if board.value_bytes != 1 {
            return Err(Refusal::CardKey);
        }
        if !(1..=MOST_SHARE_BYTES).contains(&card_bytes) {
            return Err(Refusal::Deck);
        }
        Ok(board.deck_len(card_bytes as usize))
    }

    /// Bytes of a table's page, as [`write_page`](crate::write_page) writes it: as many lines as positions / 8, rounded up,
    /// of 6 + 8 × (2 × value_bytes + 1) bytes. [`page_len`] tells it without players and width.
    pub fn page_len(self) -> Result<usize, Refusal> {
        self.in_range().map(InRange::page_len)
    }

    /// Bytes of one player's key: [`key_length`] as the length of a slice.
    pub fn key_len(self) -> Result<usize, Refusal> {
        self.in_range().map(|board| board.key_len)
    }

    /// Bytes of all players' keys, as [`deal`](crate::deal) writes them one after another.
    pub fn keys_len(self) -> Result<usize, Refusal> {
        self.in_range().map(InRange::keys_len)
    }

    /// The numbers, where the library takes them.
    fn in_range(self) -> Result<InRange, Refusal> {
        let key_len = key_length(self)? as usize;
        let Board { players, positions, width, value_bytes } = self;
        let [players, positions, width, value_bytes] = [players, positions, width, value_bytes].map(|number| number as usize);
        Ok(InRange { players, positions, width, value_bytes, key_len })
    }
}

/// The numbers of a board that the library takes, and its key's length.
#[derive(Clone, Copy)]
struct InRange {
    players: usize,
    positions: usize,
    width: usize,
    value_bytes: usize,
    key_len: usize,
}

#[expect(clippy::arithmetic_side_effects, reason = "players and width are not zero, and the largest result is MOST_DECK_BYTES")]
impl InRange {
    fn columns(self) -> usize {
        1 << (self.players - 1)
    }

    fn grid_rows(self) -> usize {
        self.positions.div_ceil(self.width)
    }

    fn arrays_len(self) -> usize {
        self.grid_rows() * self.columns()
    }

    fn seeds_len(self) -> usize {
        self.arrays_len() * SEED_BYTES
    }

    fn words_len(self) -> usize {
        (self.columns() - 1) * self.width * self.value_bytes
    }

    fn table_len(self) -> usize {
        self.positions * self.value_bytes
    }

    fn deck_len(self, card_bytes: usize) -> usize {
        self.positions * card_bytes
    }

    fn page_len(self) -> usize {
        self.positions.div_ceil(PAGE_CELLS) * (6 + PAGE_CELLS * (2 * self.value_bytes + 1))
    }

    fn keys_len(self) -> usize {
        self.players * self.key_len
    }
}

/// Bytes of the page of a table, as [`write_page`](crate::write_page) writes it, where no more is known than how many
/// positions it has and how many bytes an entry.
///
/// Refuses [`Positions`](Refusal::Positions), [`ValueBytes`](Refusal::ValueBytes), as [`write_page`](crate::write_page)
/// does.
///
/// ```
/// # use nosingginger::{page_len, Refusal};
/// assert_eq!(page_len(72, 1), Ok(270));
/// assert_eq!(page_len(65_537, 17), Err(Refusal::Positions));
/// assert_eq!(page_len(72, 17), Err(Refusal::ValueBytes));
/// ```
pub fn page_len(positions: u32, value_bytes: u32) -> Result<usize, Refusal> {
    // No page depends on players or width. With these two, every number of positions in its range has few enough grid
    // rows.
    Board { players: LEAST_PLAYERS, positions, width: MOST_WIDTH, value_bytes }.page_len()
}
