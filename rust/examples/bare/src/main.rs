//! A deal without the standard library and without a heap, as on a small board: it draws, deals, opens, joins and writes the page in memory
//! of a fixed size. That it links shows that the crate needs neither: a second `panic_impl`, or no allocator, would stop the build.
//!
//! What a board would have of its own comes here from the C library: random bytes (`getrandom`), an end (`abort`), and the memory functions
//! that the archive wants. The exit status is 0 where the piece is found as it was hidden, 1 where it is not, and 2 where a call was refused.

#![no_std]
#![no_main]

use core::ffi::{c_int, c_uint, c_void};
use core::panic::PanicInfo;
use nosingginger::{choose_width, deal, join_keys, join_shares, open_one, write_page, Board, Dealing, Refusal};

#[link(name = "c")]
extern "C" {
    fn getrandom(bytes: *mut c_void, length: usize, flags: c_uint) -> isize;
    fn abort() -> !;
}

#[panic_handler]
fn panicked(_: &PanicInfo<'_>) -> ! {
    unsafe { abort() }
}

/// The spring board for two players. Its width and sizes are known when the program is built; the library is asked whether they are right.
const BOARD: Board = Board { players: 2, positions: 72, width: 36, value_bytes: 1 };
const ARRAYS: usize = 4;
const SEEDS: usize = 128;
const WORDS: usize = 36;
const KEY: usize = 143;
const KEYS: usize = 2 * KEY;
const TABLE: usize = 72;
const LINE: usize = 30;
const PAGE: usize = 9 * LINE;

const POINT: u32 = 37;
const VALUE: u8 = 0xA5;

/// The noise chip. One that fails stops the deal.
fn random(bytes: &mut [u8]) {
    for byte in bytes {
        if unsafe { getrandom(core::ptr::from_mut(byte).cast(), 1, 0) } != 1 {
            unsafe { abort() }
        }
    }
}

/// Two columns in an order drawn uniformly: for two players an array has no more, so the lowest bit of a byte is the whole shuffle.
fn shuffle(array: &mut [u8]) {
    let mut byte = [0];
    random(&mut byte);
    if byte[0] & 1 == 1 {
        array.reverse();
    }
}

/// All players' keys of a dealing that is drawn anew.
fn dealt() -> Result<[u8; KEYS], Refusal> {
    let (mut arrays, mut seeds, mut words) = ([0; ARRAYS], [0; SEEDS], [0; WORDS]);
    for (grid_row, array) in (0..).zip(arrays.chunks_mut(BOARD.columns()?)) {
        let odd = grid_row == POINT / BOARD.width;
        array.copy_from_slice(if odd { &[1, 2] } else { &[0, 3] });
        shuffle(array);
    }
    random(&mut seeds);
    random(&mut words);
    let dealing = Dealing { board: BOARD, point: POINT, value: &[VALUE], arrays: &arrays, seeds: &seeds, words: &words };
    let mut keys = [0; KEYS];
    deal(&dealing, &mut keys)?;
    Ok(keys)
}

/// The width is the one that makes keys shortest, and the sizes are what the library says of the board.
fn sizes_fit() -> Result<bool, Refusal> {
    let width = choose_width(BOARD.players, BOARD.positions, BOARD.value_bytes)?;
    let parts = [BOARD.arrays_len()?, BOARD.seeds_len()?, BOARD.words_len()?, BOARD.key_len()?, BOARD.keys_len()?];
    let shown = [BOARD.table_len()?, BOARD.page_len()?];
    Ok(width == BOARD.width && parts == [ARRAYS, SEEDS, WORDS, KEY, KEYS] && shown == [TABLE, PAGE])
}

/// Whether the table's page has the piece's digits on its square and zeros on every other, each found by its line and
/// column alone.
fn page_shows(table: &[u8]) -> Result<bool, Refusal> {
    let mut page = [0; PAGE];
    let written = write_page(BOARD.positions, BOARD.value_bytes, table, &mut page)?;
    let cells = page.chunks(LINE).flat_map(|line| line[6..].chunks(3));
    let as_hidden = (0..).zip(cells).all(|(position, cell)| cell.starts_with(if position == POINT { b"A5" } else { b"00" }));
    Ok(as_hidden && written == PAGE)
}

/// Whether the piece is found as it was hidden, on its square and on no other.
fn found() -> Result<bool, Refusal> {
    let keys = dealt()?;
    let mut shares = [0; 2];
    for (key, share) in keys.chunks(KEY).zip(shares.chunks_mut(1)) {
        open_one(key, POINT, share)?;
    }
    let mut value = [0];
    join_shares(BOARD.players, BOARD.value_bytes, &shares, &mut value)?;
    let mut table = [0; TABLE];
    join_keys(&keys, &mut table)?;
    let as_hidden = (0..).zip(table).all(|(position, entry)| entry == if position == POINT { VALUE } else { 0 });
    Ok(as_hidden && value == [VALUE] && page_shows(&table)?)
}

#[no_mangle]
extern "C" fn main() -> c_int {
    match sizes_fit().and_then(|fit| Ok(fit && found()?)) {
        Ok(true) => 0,
        Ok(false) => 1,
        Err(_) => 2,
    }
}
