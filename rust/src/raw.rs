//! The C functions of the archive as they are, for callers that hold pointers. `include/nosingginger.h` is their full description.
//!
//! A slice is a pointer and a length in bytes. No pointer may be null, that of an empty slice too. Bytes that a function reads must not
//! overlap those that it writes. Each answers 0 or the number of a refusal, but for [`nsg_held_seed`];
//! [`Refusal::from_number`](crate::Refusal::from_number) makes a refusal of the number, and of what [`nsg_deal`] left in `fault`.

/// How many numbers [`nsg_check_key`] gives.
pub const HEADER_NUMBERS: usize = 5;

/// How many numbers [`nsg_deal`] gives of a bad column.
pub const FAULT_NUMBERS: usize = 2;

extern "C" {
    /// [`key_length`](crate::key_length); the length goes to `length`.
    pub fn nsg_key_length(players: u32, positions: u32, width: u32, value_bytes: u32, length: *mut u32) -> u32;

    /// [`deal`](crate::deal); the grid row and the column of the first bad column go to `fault`, where the answer is 18, 19 or 20.
    pub fn nsg_deal(
        players: u32,
        positions: u32,
        width: u32,
        value_bytes: u32,
        point: u32,
        value: *const u8,
        value_length: u64,
        arrays: *const u8,
        arrays_length: u64,
        seeds: *const u8,
        seeds_length: u64,
        words: *const u8,
        words_length: u64,
        keys: *mut u8,
        keys_length: u64,
        fault: *mut [u32; FAULT_NUMBERS],
    ) -> u32;

    /// [`check_key`](crate::check_key); players, player, positions, width and value bytes go to `header`.
    pub fn nsg_check_key(key: *const u8, key_length: u64, header: *mut [u32; HEADER_NUMBERS]) -> u32;

    /// [`open_one`](crate::open_one).
    pub fn nsg_open_one(key: *const u8, key_length: u64, position: u32, out: *mut u8, out_length: u64) -> u32;

    /// [`open_all`](crate::open_all).
    pub fn nsg_open_all(key: *const u8, key_length: u64, out: *mut u8, out_length: u64) -> u32;

    /// [`draw_card`](crate::draw_card).
    pub fn nsg_draw_card(
        key: *const u8,
        key_length: u64,
        deck: *const u8,
        deck_length: u64,
        card_bytes: u32,
        out: *mut u8,
        out_length: u64,
    ) -> u32;

    /// [`join_shares`](crate::join_shares).
    pub fn nsg_join_shares(players: u32, value_bytes: u32, shares: *const u8, shares_length: u64, out: *mut u8, out_length: u64) -> u32;

    /// [`join_keys`](crate::join_keys).
    pub fn nsg_join_keys(keys: *const u8, keys_length: u64, out: *mut u8, out_length: u64) -> u32;

    /// [`write_page`](crate::write_page); the bytes written go to `written`.
    pub fn nsg_write_page(
        positions: u32,
        value_bytes: u32,
        table: *const u8,
        table_length: u64,
        out: *mut u8,
        out_length: u64,
        written: *mut u32,
    ) -> u32;

    /// [`tally_make`](crate::tally_make).
    pub fn nsg_tally_make(players: u32, player: u32, positions: u32, value_bytes: u32, table: *mut u8, table_length: u64) -> u32;

    /// [`tally_add`](crate::tally_add).
    pub fn nsg_tally_add(
        players: u32,
        player: u32,
        positions: u32,
        value_bytes: u32,
        key: *const u8,
        key_length: u64,
        table: *mut u8,
        table_length: u64,
    ) -> u32;

    /// [`tally_look_up`](crate::tally_look_up).
    pub fn nsg_tally_look_up(
        players: u32,
        player: u32,
        positions: u32,
        value_bytes: u32,
        table: *const u8,
        table_length: u64,
        position: u32,
        out: *mut u8,
        out_length: u64,
    ) -> u32;

    /// [`tally_total`](crate::tally_total).
    pub fn nsg_tally_total(
        players: u32,
        player: u32,
        positions: u32,
        value_bytes: u32,
        table: *const u8,
        table_length: u64,
        out: *mut u8,
        out_length: u64,
    ) -> u32;

    /// Where the 32 bytes of [`held_seed`](crate::held_seed) begin in the key; 0 where there are none.
    pub fn nsg_held_seed(key: *const u8, key_length: u64, grid_row: u32, column: u32) -> u64;

    /// [`expand`](crate::expand).
    pub fn nsg_expand(seed: *const u8, seed_length: u64, start: u64, out: *mut u8, out_length: u64) -> u32;

    /// [`choose_width`](crate::choose_width); the width goes to `width`.
    pub fn nsg_choose_width(players: u32, positions: u32, value_bytes: u32, width: *mut u32) -> u32;

    /// [`sensor_position`](crate::sensor_position); the position goes to `position`.
    pub fn nsg_sensor_position(sensor: u32, position: *mut u32) -> u32;
}
