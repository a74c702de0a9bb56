//! The sizes that a board tells, held to what the calls accept: a length one less or one more is refused, or is too short for the output.
//! And the width that makes the shortest key, held to every other width.

use nosingginger::{
    check_key, choose_width, deal, draw_card, held_seed, join_keys, key_length, open_all, page_len, write_page, Board, Dealing, Refusal,
    MOST_ARRAYS_BYTES, MOST_COLUMNS, MOST_DECK_BYTES, MOST_GRID_ROWS, MOST_KEYS_BYTES, MOST_KEY_BYTES, MOST_PAGE_BYTES, MOST_POSITIONS,
    MOST_SEEDS_BYTES, MOST_SHARE_BYTES, MOST_TABLE_BYTES, MOST_VALUE_BYTES, MOST_WIDTH, MOST_WORDS_BYTES,
};
use reference::draw::Generator;

const LARGEST: Board = Board { players: 6, positions: 65_536, width: 256, value_bytes: 16 };

/// What `deal` is lent, each part a byte longer than the board asks.
struct Drawn {
    board: Board,
    point: u32,
    value: Vec<u8>,
    arrays: Vec<u8>,
    seeds: Vec<u8>,
    words: Vec<u8>,
}

/// By how many bytes each part that is lent has another length than the board's: value, arrays, seeds, words.
type Off = [isize; 4];

fn near(length: usize, off: isize) -> usize {
    length.checked_add_signed(off).expect("no size is zero")
}

impl Drawn {
    fn new(board: Board, generator: &mut Generator) -> Drawn {
        let point = generator.below(board.positions as usize) as u32;
        let grid_rows = board.grid_rows().unwrap() as u32;
        let mut arrays: Vec<u8> =
            (0..grid_rows).flat_map(|row| generator.array(board.players as usize, u32::from(row == point / board.width))).collect();
        arrays.push(0);
        let value = generator.bytes(board.value_bytes as usize + 1);
        let seeds = generator.bytes(board.seeds_len().unwrap() + 1);
        let words = generator.bytes(board.words_len().unwrap() + 1);
        Drawn { board, point, value, arrays, seeds, words }
    }

    fn deal(&self, [value, arrays, seeds, words]: Off, keys: &mut [u8]) -> Result<(), Refusal> {
        let board = self.board;
        let dealing = Dealing {
            board,
            point: self.point,
            value: &self.value[..near(board.value_bytes as usize, value)],
            arrays: &self.arrays[..near(board.arrays_len()?, arrays)],
            seeds: &self.seeds[..near(board.seeds_len()?, seeds)],
            words: &self.words[..near(board.words_len()?, words)],
        };
        deal(&dealing, keys)
    }
}

/// All players, boards of one square and of many, of one grid row and of 256, with a last grid row that is short or whole.
fn boards() -> Vec<Board> {
    let mut boards = vec![LARGEST];
    for players in 2..=6 {
        for (positions, value_bytes) in [(1, 1), (2, 16), (72, 1), (75, 3), (1_000, 2)] {
            let chosen = choose_width(players, positions, value_bytes).unwrap();
            for width in [chosen, 256, positions.min(256), positions.div_ceil(256), 7] {
                boards.push(Board { players, positions, width, value_bytes });
            }
        }
    }
    boards.retain(|board| key_length(*board) != Err(Refusal::GridRows));
    boards
}

#[test]
fn a_dealing_has_these_lengths_and_no_other() {
    let mut generator = Generator::new(15);
    for board in boards() {
        let drawn = Drawn::new(board, &mut generator);
        let mut keys = vec![0; board.keys_len().unwrap() + 1];
        for part in 0..4 {
            for off in [-1, 1] {
                let mut lengths = [0; 4];
                lengths[part] = off;
                assert_eq!(drawn.deal(lengths, &mut keys), Err(Refusal::Lent), "{board:?}, part {part} by {off}");
            }
        }
        let enough = board.keys_len().unwrap();
        assert_eq!(drawn.deal([0; 4], &mut keys[..enough - 1]), Err(Refusal::Room), "{board:?}");
        assert_eq!(drawn.deal([0; 4], &mut keys[..enough]), Ok(()), "{board:?}");
    }
}

#[test]
fn a_dealt_key_has_these_lengths_and_no_other() {
    let mut generator = Generator::new(16);
    for board in boards() {
        let mut keys = vec![0; board.keys_len().unwrap() + 1];
        Drawn::new(board, &mut generator).deal([0; 4], &mut keys).unwrap();
        let length = board.key_len().unwrap();
        assert_eq!(length * board.players as usize, board.keys_len().unwrap());
        assert_eq!(check_key(&keys[..length]).map(|header| header.board), Ok(board));
        for other in [length - 1, length + 1] {
            assert_eq!(check_key(&keys[..other]), Err(Refusal::Length), "{board:?}");
        }
        let mut table = vec![0; board.table_len().unwrap()];
        let joined = &keys[..board.keys_len().unwrap()];
        assert_eq!(open_all(&keys[..length], &mut table), Ok(()), "{board:?}");
        assert_eq!(join_keys(joined, &mut table), Ok(()), "{board:?}");
        assert_eq!(open_all(&keys[..length], &mut table[1..]), Err(Refusal::Room), "{board:?}");
        assert_eq!(join_keys(joined, &mut table[1..]), Err(Refusal::Room), "{board:?}");
    }
}

/// A deck has a length where a draw is accepted, and there alone: the refusals are the draw's own.
#[test]
fn a_deck_has_this_length_and_no_other() {
    let mut generator = Generator::new(19);
    let widest = Board { value_bytes: 1, ..LARGEST };
    for board in boards().into_iter().chain([widest]) {
        let mut keys = vec![0; board.keys_len().unwrap()];
        Drawn::new(board, &mut generator).deal([0; 4], &mut keys).unwrap();
        let key = &keys[..board.key_len().unwrap()];
        let mut card = [0; MOST_SHARE_BYTES as usize];
        for card_bytes in [0, 1, 2, 100, 255, MOST_SHARE_BYTES, 257, u32::MAX] {
            let length = board.deck_len(card_bytes);
            let deck = vec![0x5A; length.map_or(1, |length| length + 1)];
            let mut draw = |length: usize| draw_card(key, &deck[..length], card_bytes, &mut card);
            match length {
                Ok(length) => {
                    assert_eq!(draw(length), Ok(()), "{board:?}, {card_bytes}");
                    assert_eq!(draw(length - 1), Err(Refusal::Deck), "{board:?}, {card_bytes}");
                    assert_eq!(draw(length + 1), Err(Refusal::Deck), "{board:?}, {card_bytes}");
                    assert!(length <= MOST_DECK_BYTES);
                }
                Err(refusal) => assert_eq!([draw(0), draw(1)], [Err(refusal); 2], "{board:?}, {card_bytes}"),
            }
        }
    }
    assert_eq!(widest.deck_len(MOST_SHARE_BYTES), Ok(MOST_DECK_BYTES));
    assert_eq!(LARGEST.deck_len(1), Err(Refusal::CardKey));
}

/// A page has a length where it can be written, and there alone: the refusals are the writing's own, and a board's are
/// the same where it is one.
#[test]
fn a_page_has_this_length_and_no_other() {
    let numbers = [0, 1, 2, 7, 8, 9, 16, 17, 72, 256, 65_535, 65_536, 65_537, 1 << 31, u32::MAX];
    for (positions, value_bytes) in numbers.into_iter().flat_map(|positions| numbers.map(|value_bytes| (positions, value_bytes))) {
        let length = page_len(positions, value_bytes);
        let mut page = vec![0xC3; length.unwrap_or(100) + 1];
        let table = vec![0x5A; length.map_or(100, |_| positions as usize * value_bytes as usize)];
        let mut write = |room: usize| write_page(positions, value_bytes, &table, &mut page[..room]);
        match length {
            Ok(length) => {
                assert_eq!(write(length - 1), Err(Refusal::Room), "{positions}, {value_bytes}");
                assert_eq!([write(length), write(length + 1)], [Ok(length); 2], "{positions}, {value_bytes}");
                assert!(length <= MOST_PAGE_BYTES);
            }
            Err(refusal) => assert_eq!([write(0), write(100)], [Err(refusal); 2], "{positions}, {value_bytes}"),
        }
        // A board has the page of its table, whatever its players and its width.
        for (players, width) in [(2, 256), (4, 24), (6, 1)] {
            let board = Board { players, positions, width, value_bytes };
            if key_length(board) != Err(Refusal::GridRows) {
                assert_eq!(board.page_len(), length, "{board:?}");
            }
        }
    }
    assert_eq!(page_len(MOST_POSITIONS, MOST_VALUE_BYTES), Ok(MOST_PAGE_BYTES));
}

/// The chosen width is accepted, no accepted one makes a shorter key, and every smaller one makes a longer key.
fn chosen_makes_the_shortest_key(players: u32, positions: u32, value_bytes: u32) {
    let width = choose_width(players, positions, value_bytes).unwrap();
    let chosen = Board { players, positions, width, value_bytes };
    let least = key_length(chosen).unwrap();
    for width in 1..=MOST_WIDTH {
        match key_length(Board { width, ..chosen }) {
            Ok(other) => assert!(if width < chosen.width { least < other } else { least <= other }, "{chosen:?}, {width}"),
            Err(refusal) => assert_eq!(refusal, Refusal::GridRows),
        }
    }
}

#[test]
fn the_chosen_width_makes_the_shortest_key() {
    for players in 2..=6 {
        for value_bytes in [1, 2, 5, 11, 13, 16] {
            for positions in [1, 2, 36, 64, 72, 128, 256, 257, 400, 892, 16_383, 16_384, 65_280, 65_281, 65_535, 65_536] {
                chosen_makes_the_shortest_key(players, positions, value_bytes);
            }
        }
    }
    for (players, positions, value_bytes, width) in [(2, 64, 1, 32), (4, 72, 1, 36), (6, 65_536, 1, 256)] {
        assert_eq!(choose_width(players, positions, value_bytes), Ok(width));
    }
}

/// Where two widths make keys of one length, the smaller is chosen, also where the larger takes a byte more in the header.
#[test]
fn of_two_widths_that_tie_the_smaller_is_chosen() {
    for (players, positions, value_bytes, widths, key_bytes) in
        [(4, 892, 1, [112, 128], 1_934), (2, 36, 11, [6, 9], 335), (3, 400, 13, [20, 25], 2_346)]
    {
        assert_eq!(choose_width(players, positions, value_bytes), Ok(widths[0]));
        for width in widths {
            assert_eq!(key_length(Board { players, positions, width, value_bytes }), Ok(key_bytes));
        }
    }
}

/// A player holds the seeds of half of the columns in every grid row, and none behind the last.
#[test]
fn columns_and_grid_rows_are_where_seeds_are_held() {
    let mut generator = Generator::new(17);
    for board in boards() {
        let mut keys = vec![0; board.keys_len().unwrap()];
        Drawn::new(board, &mut generator).deal([0; 4], &mut keys).unwrap();
        let key = &keys[..board.key_len().unwrap()];
        let (columns, grid_rows) = (board.columns().unwrap(), board.grid_rows().unwrap());
        let held = |grid_row: usize| (0..1_000).filter(|&column| held_seed(key, grid_row as u32, column).is_some()).collect::<Vec<u32>>();
        for grid_row in [0, grid_rows - 1] {
            assert_eq!(held(grid_row).len(), columns / 2, "{board:?}");
            assert!(held(grid_row).iter().all(|&column| (column as usize) < columns), "{board:?}");
        }
        assert_eq!(held(grid_rows), [], "{board:?}");
    }
}

/// Every size of a board.
fn sizes(board: Board) -> [Result<usize, Refusal>; 9] {
    [
        board.columns(),
        board.grid_rows(),
        board.arrays_len(),
        board.seeds_len(),
        board.words_len(),
        board.table_len(),
        board.page_len(),
        board.key_len(),
        board.keys_len(),
    ]
}

#[test]
fn every_size_refuses_as_key_length_does() {
    let numbers = [0, 1, 2, 6, 7, 16, 17, 256, 257, 65_536, 65_537, 1 << 31, u32::MAX - 1, u32::MAX];
    let mut met = [0; 5];
    for players in numbers {
        for positions in numbers {
            for (width, value_bytes) in numbers.into_iter().flat_map(|width| numbers.map(|value_bytes| (width, value_bytes))) {
                let board = Board { players, positions, width, value_bytes };
                if let Err(refusal) = key_length(board) {
                    assert_eq!(sizes(board), [Err(refusal); 9], "{board:?}");
                    assert_eq!([0, 1].map(|card_bytes| board.deck_len(card_bytes)), [Err(refusal); 2], "{board:?}");
                    met[refusal.number() as usize - 1] += 1;
                } else {
                    assert!(sizes(board).iter().all(Result::is_ok), "{board:?}");
                }
            }
        }
    }
    assert!(met.iter().all(|&times| times > 0), "refusals met: {met:?}");
}

#[test]
fn the_largest_board_has_the_largest_sizes() {
    let largest = [
        MOST_COLUMNS,
        MOST_GRID_ROWS,
        MOST_ARRAYS_BYTES,
        MOST_SEEDS_BYTES,
        MOST_WORDS_BYTES,
        MOST_TABLE_BYTES,
        MOST_PAGE_BYTES,
        MOST_KEY_BYTES,
        MOST_KEYS_BYTES,
    ];
    assert_eq!(sizes(LARGEST), largest.map(Ok));
    for board in boards() {
        assert!(sizes(board).iter().zip(largest).all(|(size, most)| size.is_ok_and(|size| size <= most)), "{board:?}");
    }
}
