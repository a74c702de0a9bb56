//! Every refusal by its name, from a call that meets it, one step away from a call that is accepted. The refusals of a column at every place.

use nosingginger::{
    check_key, choose_width, deal, draw_card, expand, join_keys, join_shares, key_length, open_all, open_one, page_len, sensor_position,
    write_page, Board, Dealing, Header, Refusal, MOST_EXPANDED_BYTES, MOST_SHARE_BYTES,
};
use reference::draw::Generator;

const BOARD: Board = Board { players: 2, positions: 6, width: 4, value_bytes: 1 };
const KEY_BYTES: usize = 79;

/// Four seeds that differ; to what is refused it does not matter that they are not random.
const SEEDS: [u8; 128] = {
    let mut seeds = [0; 128];
    let mut place = 0;
    while place < 128 {
        seeds[place] = place as u8;
        place += 1;
    }
    seeds
};

const DEALING: Dealing = Dealing { board: BOARD, point: 4, value: &[0xA5], arrays: &[0, 3, 1, 2], seeds: &SEEDS, words: &[9, 3, 7, 1] };

fn dealt() -> Vec<u8> {
    let mut keys = vec![0; 2 * KEY_BYTES];
    deal(&DEALING, &mut keys).unwrap();
    keys
}

/// A dealt key with one byte changed.
fn changed(place: usize, byte: u8) -> Vec<u8> {
    let mut key = dealt()[..KEY_BYTES].to_vec();
    key[place] = byte;
    key
}

#[test]
fn of_boards() {
    assert_eq!(key_length(BOARD), Ok(KEY_BYTES as u32));
    assert_eq!(key_length(Board { players: 7, ..BOARD }), Err(Refusal::Players));
    assert_eq!(key_length(Board { positions: 0, ..BOARD }), Err(Refusal::Positions));
    assert_eq!(key_length(Board { width: 257, ..BOARD }), Err(Refusal::Width));
    assert_eq!(key_length(Board { value_bytes: 17, ..BOARD }), Err(Refusal::ValueBytes));
    assert_eq!(key_length(Board { value_bytes: MOST_SHARE_BYTES, ..BOARD }), Err(Refusal::ValueBytes));
    assert_eq!(key_length(Board { positions: 1_025, ..BOARD }), Err(Refusal::GridRows));
    assert_eq!(sensor_position(72), Err(Refusal::Sensor));
}

/// Players, positions, value bytes: the first that is out of its range is refused, whatever stands behind it.
#[test]
fn of_widths() {
    // The first of each is in its range; some of the others are so in their lowest bits alone.
    let all_players = [4, 0, 1, 7, 1 << 8 | 4, 1 << 31 | 4, u32::MAX];
    let all_positions = [72, 0, 65_537, 1 << 16 | 72, 1 << 31 | 72, u32::MAX];
    let all_value_bytes = [1, 0, 17, 1 << 8 | 1, 1 << 31 | 1, u32::MAX];
    for players in all_players {
        for positions in all_positions {
            for value_bytes in all_value_bytes {
                let wanted = match (players, positions, value_bytes) {
                    (4, 72, 1) => Ok(36),
                    (4, 72, _) => Err(Refusal::ValueBytes),
                    (4, _, _) => Err(Refusal::Positions),
                    _ => Err(Refusal::Players),
                };
                let given = choose_width(players, positions, value_bytes);
                assert_eq!(given, wanted, "{players}, {positions}, {value_bytes}");
            }
        }
    }
}

#[test]
fn of_dealings() {
    let mut keys = [0xC3; 2 * KEY_BYTES];
    assert_eq!(deal(&Dealing { point: 6, ..DEALING }, &mut keys), Err(Refusal::Point));
    assert_eq!(deal(&Dealing { words: &[9, 3, 7], ..DEALING }, &mut keys), Err(Refusal::Lent));
    assert_eq!(deal(&Dealing { arrays: &[0, 3, 5, 1], ..DEALING }, &mut keys), Err(Refusal::ColumnBit { grid_row: 1, column: 0 }));
    assert_eq!(deal(&Dealing { arrays: &[0, 1, 1, 2], ..DEALING }, &mut keys), Err(Refusal::ColumnParity { grid_row: 0, column: 1 }));
    assert_eq!(deal(&Dealing { arrays: &[0, 3, 1, 1], ..DEALING }, &mut keys), Err(Refusal::ColumnTwice { grid_row: 1, column: 1 }));
    assert_eq!(deal(&DEALING, &mut keys[1..]), Err(Refusal::Room));
    assert_eq!(keys, [0xC3; 2 * KEY_BYTES]);
}

/// The arrays of a board of three grid rows, and what `deal` says of them. Seeds, words and value are zeros, since no deal is accepted.
struct Shuffled {
    board: Board,
    point: u32,
    arrays: Vec<u8>,
}

impl Shuffled {
    fn new(players: u32, point: u32, generator: &mut Generator) -> Shuffled {
        let board = Board { players, positions: 5, width: 2, value_bytes: 1 };
        let arrays = (0..3).flat_map(|row| generator.array(players as usize, u32::from(row == point / 2))).collect();
        Shuffled { board, point, arrays }
    }

    /// What is said with other columns at these bytes of the arrays; whether the keys have room does not matter, and they stay as they are.
    fn refusal(&self, others: &[(usize, u8)]) -> Refusal {
        let mut arrays = self.arrays.clone();
        others.iter().for_each(|&(at, column)| arrays[at] = column);
        let (seeds, words) = (vec![0; self.board.seeds_len().unwrap()], vec![0; self.board.words_len().unwrap()]);
        let dealing = Dealing { board: self.board, point: self.point, value: &[0], arrays: &arrays, seeds: &seeds, words: &words };
        let mut keys = vec![0xC3; self.board.keys_len().unwrap()];
        let refusal = deal(&dealing, &mut keys).unwrap_err();
        assert_eq!(deal(&dealing, &mut []), Err(refusal));
        assert!(keys.iter().all(|&byte| byte == 0xC3));
        refusal
    }

    /// Grid row and column of a byte of the arrays.
    fn place(&self, at: usize) -> (u32, u32) {
        let columns = self.board.columns().unwrap();
        ((at / columns) as u32, (at % columns) as u32)
    }

    /// Columns that are refused at this byte, each with its refusal: a bit of no player, the wrong parity, and a column that stands before it.
    fn bad_columns(&self, at: usize) -> Vec<(u8, Refusal)> {
        let (grid_row, column) = self.place(at);
        let right = self.arrays[at];
        let mut bad: Vec<(u8, Refusal)> = Vec::new();
        for bit in self.board.players..8 {
            bad.push((right ^ 1 << bit, Refusal::ColumnBit { grid_row, column }));
            bad.push((right ^ 1 << bit ^ 1, Refusal::ColumnBit { grid_row, column }));
        }
        bad.extend((0..self.board.players).map(|bit| (right ^ 1 << bit, Refusal::ColumnParity { grid_row, column })));
        let earlier = &self.arrays[at - column as usize..at];
        bad.extend(earlier.iter().map(|&other| (other, Refusal::ColumnTwice { grid_row, column })));
        bad
    }
}

/// All numbers of players, with the point in each of the three grid rows.
fn shuffled_boards() -> Vec<Shuffled> {
    let mut generator = Generator::new(18);
    (2..=6).flat_map(|players| [0, 2, 4].map(|point| Shuffled::new(players, point, &mut generator))).collect()
}

#[test]
fn of_every_column() {
    for drawn in shuffled_boards() {
        for at in 0..drawn.arrays.len() {
            for (other, refusal) in drawn.bad_columns(at) {
                assert_eq!(drawn.refusal(&[(at, other)]), refusal, "{:?}, byte {at}: {other:#010b}", drawn.board);
                assert_eq!(refusal.bad_column(), Some(drawn.place(at)));
            }
        }
    }
}

#[test]
fn of_the_first_bad_column() {
    for drawn in shuffled_boards().into_iter().filter(|drawn| drawn.board.players <= 3) {
        for (first, second) in (0..drawn.arrays.len()).flat_map(|second| (0..second).map(move |first| (first, second))) {
            for (one, refusal) in drawn.bad_columns(first) {
                for (other, _) in drawn.bad_columns(second) {
                    assert_eq!(drawn.refusal(&[(first, one), (second, other)]), refusal, "bytes {first} and {second}: {one}, {other}");
                }
            }
        }
    }
}

/// Of two columns that are alike the second is refused, also where the first is the one that was changed.
#[test]
fn of_a_column_that_stands_twice() {
    for drawn in shuffled_boards() {
        let columns = drawn.board.columns().unwrap();
        for (at, other) in (0..3 * columns).flat_map(|other| (other - other % columns..other).map(move |at| (at, other))) {
            let (grid_row, column) = drawn.place(other);
            assert_eq!(drawn.refusal(&[(at, drawn.arrays[other])]), Refusal::ColumnTwice { grid_row, column });
        }
    }
}

/// The piece in another grid row than the odd array: the first of the two is refused, at its first column.
#[test]
fn of_an_odd_array_in_another_grid_row() {
    for drawn in shuffled_boards() {
        for point in (0..5).filter(|point| point / 2 != drawn.point / 2) {
            let moved = Shuffled { board: drawn.board, point, arrays: drawn.arrays.clone() };
            let grid_row = point.min(drawn.point) / 2;
            assert_eq!(moved.refusal(&[]), Refusal::ColumnParity { grid_row, column: 0 });
        }
    }
}

#[test]
fn of_keys() {
    assert_eq!(check_key(&dealt()[KEY_BYTES..]), Ok(Header { board: BOARD, player: 1 }));
    assert_eq!(check_key(&changed(4, 0x81)), Err(Refusal::ValueBytes));
    assert_eq!(check_key(&dealt()[..4]), Err(Refusal::Number));
    assert_eq!(check_key(&changed(1, 2)), Err(Refusal::Player));
    assert_eq!(check_key(&dealt()), Err(Refusal::Length));
    assert_eq!(check_key(&changed(5, 3)), Err(Refusal::Marks));
    assert_eq!(open_one(&dealt()[..KEY_BYTES], 6, &mut [0]), Err(Refusal::Position));
    assert_eq!(open_all(&dealt()[..KEY_BYTES], &mut [0; 5]), Err(Refusal::Room));
}

#[test]
fn of_joining() {
    let twice = [&dealt()[..KEY_BYTES], &dealt()[..KEY_BYTES]].concat();
    assert_eq!(join_keys(&twice, &mut [0; 6]), Err(Refusal::Place));
    assert_eq!(join_shares(2, 1, &[1], &mut [0]), Err(Refusal::Lent));
}

/// Shares of more bytes than a value has are joined, up to 256. The length of `shares` and the room matter after that.
#[test]
fn of_joining_wide_shares() {
    let shares: Vec<u8> = (0..6 * 257).map(|place| (place * place / 7) as u8).collect();
    for width in [16, 17, 255, 256] {
        let (lent, mut joined) = (&shares[..3 * width], vec![0xC3; width + 1]);
        assert_eq!(join_shares(3, width as u32, &shares[..3 * width - 1], &mut []), Err(Refusal::Lent), "{width}");
        assert_eq!(join_shares(3, width as u32, &shares[..3 * width + 1], &mut joined), Err(Refusal::Lent), "{width}");
        assert_eq!(join_shares(3, width as u32, lent, &mut joined[..width - 1]), Err(Refusal::Room), "{width}");
        assert_eq!(joined, vec![0xC3; width + 1]);
        assert_eq!(join_shares(3, width as u32, lent, &mut joined), Ok(()), "{width}");
        let right = (0..width).map(|place| lent[place] ^ lent[width + place] ^ lent[2 * width + place]);
        assert_eq!(joined, right.chain([0xC3]).collect::<Vec<u8>>(), "{width}");
    }
    // The last two make a product that is small where it wraps at 32 bits.
    for (width, length) in [(0, 0), (257, 6 * 257), (512, 0), (1 << 16 | 1, 6), (u32::MAX, 0), (1 << 31, 0), (1 << 31 | 1, 6)] {
        let mut joined = [0xC3; 257];
        assert_eq!(join_shares(6, width, &shares[..length], &mut joined), Err(Refusal::ValueBytes), "{width}");
        assert_eq!(join_shares(6, width, &[], &mut []), Err(Refusal::ValueBytes), "{width}");
        assert_eq!(join_shares(7, width, &[], &mut []), Err(Refusal::Players), "{width}");
        assert_eq!(joined, [0xC3; 257]);
    }
}

/// Keys of two players for six cards, with values of so many bytes.
fn keys_of_width(value_bytes: u32) -> Vec<u8> {
    let board = Board { value_bytes, ..BOARD };
    let (value, words) = (vec![1; value_bytes as usize], vec![7; board.words_len().unwrap()]);
    let mut keys = vec![0; board.keys_len().unwrap()];
    deal(&Dealing { board, value: &value, words: &words, ..DEALING }, &mut keys).unwrap();
    keys
}

/// A draw that is refused with this, also where the card has no room, and that leaves what the card was.
#[track_caller]
fn refuses_to_draw(key: &[u8], deck: &[u8], card_bytes: u32, refusal: Refusal) {
    let mut card = [0xC3; 300];
    for room in [card.len(), 1, 0] {
        assert_eq!(draw_card(key, deck, card_bytes, &mut card[..room]), Err(refusal), "{card_bytes} bytes, a deck of {}", deck.len());
    }
    assert_eq!(card, [0xC3; 300]);
}

/// Check key's own come first, and then the width of its values: deck and room matter after that.
#[test]
fn of_drawing_with_another_key() {
    for (key, refusal) in [
        (dealt()[..4].to_vec(), Refusal::Number),
        (changed(0, 7), Refusal::Players),
        (changed(2, 0), Refusal::Positions),
        (changed(3, 0), Refusal::Width),
        (changed(4, 17), Refusal::ValueBytes),
        (changed(1, 2), Refusal::Player),
        (changed(4, 2), Refusal::Length),
        (changed(5, 3), Refusal::Marks),
    ] {
        refuses_to_draw(&key, &[0x5A; 6], 1, refusal);
        refuses_to_draw(&key, &[], 0, refusal);
    }
    for value_bytes in [2, 3, 16] {
        let keys = keys_of_width(value_bytes);
        let key = &keys[..keys.len() / 2];
        assert_eq!(check_key(key).map(|header| header.board.value_bytes), Ok(value_bytes));
        for (length, card_bytes) in [(6, 1), (6 * value_bytes, value_bytes), (6, 0), (6 * 257, 257), (5, 1), (0, u32::MAX)] {
            refuses_to_draw(key, &vec![0x5A; length as usize], card_bytes, Refusal::CardKey);
        }
    }
}

/// The card's length and then the deck's, before the room.
#[test]
fn of_drawing_from_another_deck() {
    let (deck, keys) = ([0x5A; 7 * 257], dealt());
    let key = &keys[..KEY_BYTES];
    for card_bytes in [0, 257, 258, 512, 1 << 16 | 1, 1 << 31, u32::MAX] {
        for length in [0, 6, 6 * 256, 6 * 257] {
            refuses_to_draw(key, &deck[..length], card_bytes, Refusal::Deck);
        }
    }
    // Six cards of this are 2^32 + 2 bytes.
    refuses_to_draw(key, &deck[..2], 715_827_883, Refusal::Deck);
    for card_bytes in [1, 2, 16, 17, 255, 256] {
        let right = 6 * card_bytes;
        for length in [0, card_bytes, right - card_bytes, right - 1, right + 1, right + card_bytes] {
            refuses_to_draw(key, &deck[..length], card_bytes as u32, Refusal::Deck);
        }
        let mut card = vec![0xC3; card_bytes];
        assert_eq!(draw_card(key, &deck[..right], card_bytes as u32, &mut card[1..]), Err(Refusal::Room));
        assert_eq!(draw_card(key, &deck[..right], card_bytes as u32, &mut []), Err(Refusal::Room));
        assert_eq!(card, vec![0xC3; card_bytes]);
        assert_eq!(draw_card(key, &deck[..right], card_bytes as u32, &mut card), Ok(()));
    }
}

/// A page that is refused with this, and that leaves what the output was.
#[track_caller]
fn refuses_to_write(positions: u32, value_bytes: u32, table: &[u8], room: usize, refusal: Refusal) {
    let mut output = vec![0xC3; room];
    let answer = write_page(positions, value_bytes, table, &mut output);
    assert_eq!(answer, Err(refusal), "{positions} positions, {value_bytes} bytes, a table of {}, room for {room}", table.len());
    assert_eq!(output, vec![0xC3; room]);
}

/// Every choice of things that are wrong, each in several ways: the first of them is told.
#[test]
fn of_writing_a_page() {
    for (positions, value_bytes) in [(1, 1), (8, 16), (9, 3), (72, 1), (1_000, 2)] {
        let (length, room) = ((positions * value_bytes) as usize, page_len(positions, value_bytes).unwrap());
        let others = [0, 17, 256, 1 << 16 | 1, 1 << 31, u32::MAX];
        let tables = [0, length - 1, length + 1, 2 * length, length - value_bytes as usize, length + value_bytes as usize];
        let rooms = [0, 1, room - 1, room / 2, room / 3, length];
        for (wrong, way) in (1_u32..16).flat_map(|wrong| (0..6).map(move |way| (wrong, way))) {
            let is_wrong = |part: u32| wrong >> part & 1 == 1;
            let positions = if is_wrong(0) { [0, 65_537, 65_608, 1 << 24 | 1, 1 << 31, u32::MAX][way] } else { positions };
            let value_bytes = if is_wrong(1) { others[way] } else { value_bytes };
            let table = vec![0x5A; if is_wrong(2) { tables[way] } else { length }];
            let room = if is_wrong(3) { rooms[way] } else { room + way };
            let refusals = [Refusal::Positions, Refusal::ValueBytes, Refusal::Lent, Refusal::Room];
            refuses_to_write(positions, value_bytes, &table, room, refusals[wrong.trailing_zeros() as usize]);
        }
    }
}

/// Numbers just out of their ranges, with a table and a room that would fit them; and those whose product is small where
/// it wraps at 32 bits, with such a table.
#[test]
fn of_writing_a_page_that_would_fit() {
    refuses_to_write(0, 1, &[], 0, Refusal::Positions);
    refuses_to_write(65_537, 1, &[0; 65_537], 8_193 * 30, Refusal::Positions);
    refuses_to_write(1 << 28 | 1, 16, &[0; 16], 1_000, Refusal::Positions);
    refuses_to_write(72, 0, &[], 9 * 14, Refusal::ValueBytes);
    refuses_to_write(72, 17, &[0; 72 * 17], 9 * 286, Refusal::ValueBytes);
    refuses_to_write(1, MOST_SHARE_BYTES, &[0; 256], 10_000, Refusal::ValueBytes);
    refuses_to_write(65_536, 1 << 16, &[], 1_000, Refusal::ValueBytes);
    refuses_to_write(65_536, 1 << 16 | 1, &[0; 65_536], 300_000, Refusal::ValueBytes);
}

/// Starts that are refused with so many bytes: just past the last that is accepted; far past it, some of them small
/// without their upper bits; and those with which the sum of start and length fills 64 bits or is small where it wraps.
fn starts_past(length: usize) -> [u64; 8] {
    let (bytes, last) = (length as u64, MOST_EXPANDED_BYTES.saturating_sub(length) as u64);
    let wraps_to_0 = u64::MAX - bytes.saturating_sub(1);
    [last + 1, last + 64, 1 << 32, (1 << 32) + last, 1 << 63, u64::MAX - bytes, wraps_to_0, u64::MAX]
}

#[test]
fn of_expanding() {
    let mut row = [0; MOST_EXPANDED_BYTES];
    expand(&SEEDS[..32], 0, &mut row).unwrap();
    for length in [0, 1, 16, 63, 64, 65, 4_095, 4_096] {
        let mut part = vec![0xC3; length];
        for start in starts_past(length) {
            assert_eq!(expand(&SEEDS[..32], start, &mut part), Err(Refusal::Expansion), "{length} bytes from {start}");
            assert_eq!(expand(&SEEDS[..31], start, &mut part), Err(Refusal::Lent), "{length} bytes from {start}");
            assert_eq!(part, vec![0xC3; length]);
        }
        let last = MOST_EXPANDED_BYTES - length;
        for start in [0, last / 2, last] {
            assert_eq!(expand(&SEEDS[..33], start as u64, &mut part), Err(Refusal::Lent));
            assert_eq!(expand(&SEEDS[..32], start as u64, &mut part), Ok(()), "{length} bytes from {start}");
            assert_eq!(part, row[start..][..length], "{length} bytes from {start}");
        }
    }
    let mut long = [0xC3; MOST_EXPANDED_BYTES + 1];
    for start in [0].into_iter().chain(starts_past(long.len())) {
        assert_eq!(expand(&SEEDS[..32], start, &mut long), Err(Refusal::Expansion), "from {start}");
    }
    assert_eq!(long, [0xC3; MOST_EXPANDED_BYTES + 1]);
}
