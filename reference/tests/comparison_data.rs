//! The comparison's data: enough of it, the same each time, and right.

use reference::board::Board;
use reference::cases::{all, BOARDS};
use reference::chacha::block;
use reference::data::{
    read_file, write_file, Call, Case, CHECK_KEY, CHOOSE_WIDTH, DEAL, DEALING_PROGRAM, DRAW_CARD,
    EXPAND, HELD_SEED, JOINING_PROGRAM, JOIN_KEYS, JOIN_SHARES, KEY_LENGTH, OPEN_ALL, OPEN_ONE,
    SENSOR_POSITION, WRITE_PAGE,
};
use reference::deal::{faulty_columns, first_fault};
use reference::key::check_key;
use reference::open::open_all;
use std::collections::{BTreeMap, BTreeSet};
use std::fs;

/// Every number that each operation can give, 0 for acceptance.
const ANSWERS: [(u8, &[u32]); 15] = [
    (KEY_LENGTH, &[0, 1, 2, 3, 4, 5]),
    (DEAL, &[0, 1, 2, 3, 4, 5, 6, 7, 9, 18, 19, 20]),
    (CHECK_KEY, &[0, 1, 2, 3, 4, 5, 10, 11, 12, 13]),
    (OPEN_ONE, &[0, 1, 2, 3, 4, 5, 9, 10, 11, 12, 13, 14]),
    (OPEN_ALL, &[0, 1, 2, 3, 4, 5, 9, 10, 11, 12, 13]),
    (JOIN_SHARES, &[0, 1, 4, 7, 9]),
    (JOIN_KEYS, &[0, 1, 2, 3, 4, 5, 9, 10, 11, 12, 13, 15]),
    (HELD_SEED, &[0]),
    (EXPAND, &[0, 7, 16]),
    (CHOOSE_WIDTH, &[0, 1, 2, 4]),
    (SENSOR_POSITION, &[0, 17]),
    (
        DEALING_PROGRAM,
        &[0, 1, 2, 3, 4, 5, 6, 7, 9, 10, 18, 19, 20],
    ),
    (JOINING_PROGRAM, &[0, 1, 2, 3, 4, 5, 9, 10, 11, 12, 13, 15]),
    (DRAW_CARD, &[0, 1, 2, 3, 4, 5, 9, 10, 11, 12, 13, 21, 22]),
    (WRITE_PAGE, &[0, 2, 4, 7, 9]),
];

/// The file's fingerprint, fixed so that every machine makes the same bytes.
const FINGERPRINT: u64 = 0xEF80_5F96_91EB_8B45;

/// FNV-1a on 64 bits.
fn fingerprint(bytes: &[u8]) -> u64 {
    bytes.iter().fold(0xCBF2_9CE4_8422_2325, |hash, &byte| {
        (hash ^ u64::from(byte)).wrapping_mul(0x0000_0100_0000_01B3)
    })
}

#[test]
fn the_data_is_enough_and_the_same_each_time() {
    let cases = all();
    let file = write_file(&cases);
    assert_eq!(write_file(&all()), file);
    assert_eq!(cases.len(), 5_344);
    assert_eq!(file.len(), 2_549_143);
    assert_eq!(fingerprint(&file), FINGERPRINT);
    // Every answer that an operation can give, and no other.
    let mut met: BTreeMap<u8, BTreeSet<u32>> = BTreeMap::new();
    for case in &cases {
        let answers = met.entry(case.call.operation).or_default();
        answers.insert(case.answer.refusal);
    }
    let all_answers = ANSWERS.map(|(operation, numbers)| {
        let numbers: BTreeSet<u32> = numbers.iter().copied().collect();
        (operation, numbers)
    });
    assert_eq!(met, BTreeMap::from(all_answers));
    // What the file says is what was written, and this implementation answers so again.
    let read = read_file(&file).expect("a file of the format");
    assert_eq!(read, cases);
    for case in &read {
        assert_eq!(case.call.answer(), case.answer);
    }
}

/// The board of a call of Deal, if it is one.
fn board_of(call: &Call) -> Option<Board> {
    let [players, positions, grid_width, value_width, _] = call.numbers;
    Board::new(players, positions, grid_width, value_width).ok()
}

/// Each of 18, 19 and 20 stands alone at the first and the last column of the first and the last
/// grid row for every p, and is given before other faults, in the odd array and in even ones, with
/// an output and without.
#[test]
fn every_fault_of_arrays_stands_at_every_end() {
    let mut met = BTreeSet::new();
    for case in all() {
        let (number, results) = (case.answer.refusal, case.answer.results);
        if case.call.operation != DEAL || !(18..=20).contains(&number) {
            continue;
        }
        let board = board_of(&case.call).expect("1 to 5 come first");
        let [has_place, grid_row, column, ..] = results.map(|number| number as usize);
        assert_eq!((has_place, &results[3..]), (1, &[0; 2][..]));
        assert!(grid_row < board.grid_rows() && column < board.columns());
        let ends = |place: usize, least: usize, last: usize| {
            [(place == least, "first"), (place == last, "last")]
        };
        // 20 cannot stand at column 0.
        let least = usize::from(number == 20);
        assert!(column >= least);
        let piece_row = board.grid_row_of(case.call.numbers[4] as usize);
        let alone = faulty_columns(&board, piece_row, &case.call.inputs[1]) == 1;
        let odd = grid_row == piece_row;
        let mut meet =
            |what: &str| met.insert(format!("{} players, {number} {what}", board.players));
        for (at_row, row) in ends(grid_row, 0, board.grid_rows() - 1) {
            for (at_column, column) in ends(column, least, board.columns() - 1) {
                if alone && board.grid_rows() > 1 && at_row && at_column {
                    meet(&format!("alone in the {row} grid row's {column} column"));
                }
            }
        }
        meet(if alone { "alone" } else { "before others" });
        meet(if odd {
            "in the odd array"
        } else {
            "in an even one"
        });
        meet(if case.call.lent == 0 {
            "before 9"
        } else {
            "with an output"
        });
    }
    assert_eq!(met.len(), 5 * 3 * (4 + 2 + 2 + 2), "{met:#?}");
}

/// Every other answer of Deal has no place; 6 and 7 are given before each of 18, 19 and 20.
#[test]
fn no_other_answer_of_deal_has_a_place() {
    let mut behind = BTreeSet::new();
    for case in all() {
        let number = case.answer.refusal;
        if case.call.operation != DEAL || (18..=20).contains(&number) {
            continue;
        }
        assert_eq!(case.answer.results, [0; 5]);
        let Some(board) = board_of(&case.call) else {
            continue;
        };
        let arrays = &case.call.inputs[1];
        if (6..=7).contains(&number) && arrays.len() == board.grid_rows() * board.columns() {
            let piece_row = board.grid_row_of(case.call.numbers[4] as usize);
            let fault = first_fault(&board, piece_row, arrays);
            behind.extend(fault.map(|refused| (number, refused.number)));
        }
    }
    let both = [6, 7].map(|number| [18, 19, 20].map(|behind| (number, behind)));
    assert_eq!(behind, BTreeSet::from_iter(both.concat()));
}

/// The calls of Expand: each with its start.
fn expansions() -> Vec<(Case, u64)> {
    let cases = all().into_iter();
    let cases = cases.filter(|case| case.call.operation == EXPAND);
    cases
        .map(|case| {
            let [modulo, div, ..] = case.call.numbers.map(u64::from);
            (case, modulo + (div << 32))
        })
        .collect()
}

/// Every answer of Expand, by the blocks of the key stream.
#[test]
fn expansions_are_parts_of_the_key_stream() {
    for (case, start) in expansions() {
        let length = case.call.lent;
        let fits = start <= 4_096 && length <= 4_096 - start as usize;
        let (number, part) = match <&[u8; 32]>::try_from(&case.call.inputs[0][..]) {
            Err(_) => (7, Vec::new()),
            Ok(_) if !fits => (16, Vec::new()),
            Ok(seed) => {
                let stream = (0..64).flat_map(|counter| block(seed, counter, &[0; 12]));
                let part = stream.skip(start as usize).take(length);
                (0, part.collect())
            }
        };
        assert_eq!((case.answer.refusal, case.answer.bytes), (number, part));
        assert_eq!(case.call.numbers[2..], [0; 3]);
    }
}

/// In the row the lengths that fit, the largest that does and one above it, at every start; beyond
/// the row starts up to the largest number, with sums that are small modulo 2^32 or 2^64; outputs
/// longer than any row; and 7 before 16. Asked for are the seed's length, the start and the length.
#[test]
fn expansions_start_at_every_end() {
    let mut asked: BTreeSet<(usize, u64, usize)> = BTreeSet::new();
    for start in [
        0, 1, 63, 64, 65, 127, 128, 192, 255, 256, 4_080, 4_095, 4_096,
    ] {
        let most = 4_096 - start;
        let lengths = [0, 1, 5, 16, 63, 64, 65, 128, 192, 193, 255, 256, 257];
        let fitting = lengths.into_iter().filter(|&length| length <= most);
        let lengths = fitting.chain([most, most + 1]);
        asked.extend(lengths.map(|length| (32, start as u64, length)));
    }
    let beyond = [4_097, 1 << 63, u64::MAX - 4_095, u64::MAX - 4_094, u64::MAX];
    for start in beyond.into_iter().chain((1 << 32) - 1..=(1 << 32) + 1) {
        asked.extend([0, 1, 4_096].map(|length| (32, start, length)));
    }
    for start in [0, 1, 64, 4_096, u64::MAX] {
        asked.extend([4_097, 8_192].map(|length| (32, start, length)));
    }
    for seed in [0, 31, 33, 64] {
        asked.extend([(seed, 4_096, 1), (seed, 4_097, 0), (seed, u64::MAX, 1)]);
    }
    let cases = expansions().into_iter();
    let met = cases.map(|(case, start)| (case.call.inputs[0].len(), start, case.call.lent));
    let missing: Vec<_> = asked.difference(&met.collect()).copied().collect();
    assert_eq!(missing, []);
}

/// Where a cell stands in its row.
#[derive(Clone, Copy, Debug, PartialEq, Eq, PartialOrd, Ord)]
enum Stands {
    /// Across two blocks, with so many bytes in the first.
    Across(usize),
    AtBlockStart,
    AtBlockEnd,
    AtRowStart,
    AtRowEnd,
}
use Stands::{Across, AtBlockEnd, AtBlockStart, AtRowEnd, AtRowStart};

/// By the blocks of the cell's first byte and of its last.
fn stands(first: usize, last: usize, row_bytes: usize) -> Vec<Stands> {
    let in_block = |byte: usize| byte % 64;
    let places = [
        (first / 64 != last / 64, Across(64 - in_block(first))),
        (in_block(first) == 0 && first > 0, AtBlockStart),
        (in_block(last) == 63, AtBlockEnd),
        (first == 0, AtRowStart),
        (last == row_bytes - 1, AtRowEnd),
    ];
    let met = places.into_iter().filter(|(is_met, _)| *is_met);
    met.map(|(_, place)| place).collect()
}

/// What is asked of every grid row of three, for every p: cells of several widths at every end of a
/// block and of the row, and across two blocks with every split of their bytes that can be.
fn asked_cells(grid_row: usize) -> Vec<(usize, Stands)> {
    let mut asked = Vec::new();
    for width in [1, 3, 5, 7, 12, 16] {
        asked.extend([AtBlockStart, AtBlockEnd, AtRowStart].map(|place| (width, place)));
        // The last grid row is a cell short.
        if grid_row < 2 {
            asked.push((width, AtRowEnd));
        }
    }
    for width in [3, 5, 7] {
        asked.extend((1..width).map(|bytes| (width, Across(bytes))));
    }
    asked.extend([4, 8].map(|bytes| (12, Across(bytes))));
    asked
}

/// Every opened square is the entry of its key's full table, and those asked for are opened.
#[test]
fn squares_are_opened_at_every_end() {
    let mut met = BTreeSet::new();
    let mut timed = false;
    for case in all() {
        if case.call.operation != OPEN_ONE || case.answer.refusal != 0 {
            continue;
        }
        let (key, position) = (&case.call.inputs[0], case.call.numbers[0] as usize);
        let header = check_key(key).expect("an accepted key");
        let (cells, width) = (header.grid_width as usize, header.value_width as usize);
        let mut table = vec![0; header.positions as usize * width];
        assert_eq!(open_all(key, &mut table), Ok(()));
        assert_eq!(case.answer.bytes, table[position * width..][..width]);
        let (grid_row, first) = (position / cells, position % cells * width);
        for place in stands(first, first + width - 1, cells * width) {
            met.insert((header.players, grid_row, width, place));
        }
        let board = [header.players, header.positions, header.grid_width];
        timed |= board == [2, 256, 256] && width == 16 && position == 255;
    }
    assert!(timed, "document 02's timed square");
    for (players, grid_row) in (2..=6).flat_map(|players| [0, 1, 2].map(|row| (players, row))) {
        for (width, place) in asked_cells(grid_row) {
            let asked = (players, grid_row, width, place);
            assert!(met.contains(&asked), "{asked:?}");
        }
    }
}

/// A number as FORMAT.md writes it.
fn with_commas(number: usize) -> String {
    match number {
        0..=999 => number.to_string(),
        _ => format!("{},{:03}", with_commas(number / 1_000), number % 1_000),
    }
}

#[test]
fn the_figures_of_the_format_are_those_of_the_file() {
    let cases = all();
    let file = write_file(&cases);
    let head = |at: usize| u32::from_le_bytes(file[at..at + 4].try_into().unwrap()) as usize;
    let words: Vec<&str> = include_str!("../FORMAT.md").split_whitespace().collect();
    let text = words.join(" ");
    for figure in [
        format!(
            "{} cases over {} boards",
            with_commas(cases.len()),
            BOARDS.len()
        ),
        format!("in {} bytes", with_commas(file.len())),
        format!("(all its inputs together): {}", with_commas(head(12))),
        format!("(lent or answered): {}", with_commas(head(16))),
    ] {
        assert!(text.contains(&figure), "{figure}");
    }
}

#[test]
fn the_committed_file_is_what_is_made() {
    let path = concat!(
        env!("CARGO_MANIFEST_DIR"),
        "/../crates/test_compare/data/cases.bin"
    );
    let committed = fs::read(path).expect("the committed file");
    assert!(committed == write_file(&all()), "run reference/make-data");
}

#[test]
fn the_boards_are_those_asked_for() {
    let any = |found: &dyn Fn((u32, u32, u32, u32)) -> bool| BOARDS.into_iter().any(found);
    assert!(BOARDS.len() >= 12);
    for players in 2..=6 {
        assert!(any(&|board| board.0 == players));
    }
    for positions in [1, 72, 3_001, 5_000] {
        assert!(any(&|board| board.1 == positions));
    }
    for width in [1, 5, 16] {
        assert!(any(&|board| board.3 == width));
    }
    assert!(any(&|(_, _, grid_width, _)| grid_width == 1));
    assert!(any(&|(_, _, grid_width, _)| grid_width == 256));
    assert!(any(&|(_, positions, grid_width, _)| grid_width > positions));
    assert!(any(&|(_, positions, grid_width, _)| {
        positions.div_ceil(grid_width) == 256
    }));
    assert!(any(&|board| (128..16_384).contains(&board.1)));
    assert!(any(&|board| board.1 >= 16_384));
    assert!(any(&|board| board.2 >= 128));
}

#[test]
fn a_damaged_file_is_not_read() {
    let file = write_file(&all()[..20]);
    assert!(read_file(&file).is_some());
    assert!(read_file(&file[..file.len() - 1]).is_none());
    assert!(read_file(&[&file[..], &[0]].concat()).is_none());
    assert!(read_file(&file[1..]).is_none());
}
