//! The comparison's data on Write page: right, and enough.

use reference::cases::all;
use reference::data::{Call, Case, WRITE_PAGE};
use std::collections::BTreeSet;
use std::iter::once;

/// N and w whose outputs and tables have many lengths.
const SHAPES: [(u64, u64); 6] = [(1, 1), (8, 1), (9, 3), (24, 16), (10, 16), (72, 1)];

fn pages() -> Vec<Case> {
    let cases = all().into_iter();
    cases
        .filter(|case| case.call.operation == WRITE_PAGE)
        .collect()
}

/// What is asked for and was not met.
fn missing<T: Ord + Clone>(asked: impl IntoIterator<Item = T>, met: &BTreeSet<T>) -> Vec<T> {
    let asked: BTreeSet<T> = asked.into_iter().collect();
    asked.difference(met).cloned().collect()
}

/// N and w, whatever they are.
fn numbers(call: &Call) -> (u64, u64) {
    let [positions, width, ..] = call.numbers.map(u64::from);
    (positions, width)
}

/// The bytes of a line and of a page.
fn lengths(call: &Call) -> (u128, u128) {
    let (positions, width) = numbers(call);
    let line = 6 + 8 * (2 * u128::from(width) + 1);
    (line, u128::from(positions.div_ceil(8)) * line)
}

/// Which of 2, 4, 7 and 9 fit a call, whatever comes first.
fn faults(call: &Call) -> [bool; 4] {
    let (positions, width) = numbers(call);
    let table = call.inputs[0].len() as u128;
    [
        !(1..=65_536).contains(&positions),
        !(1..=16).contains(&width),
        table != u128::from(positions) * u128::from(width),
        (call.lent as u128) < lengths(call).1,
    ]
}

/// The byte at a place of a line, by the place alone.
fn byte_at(call: &Call, line: usize, column: usize) -> u8 {
    let width = call.numbers[1] as usize;
    let first = 8 * line;
    if column < 5 {
        // The column's digit stands for this power of ten.
        let power = 10_usize.pow(4 - column as u32);
        let shown = first >= power || column == 4;
        let digit = b'0' + (first / power % 10) as u8;
        return if shown { digit } else { b' ' };
    }
    let (cell, place) = (
        (column - 5) / (2 * width + 1),
        (column - 5) % (2 * width + 1),
    );
    if cell == 8 {
        return b'\n';
    }
    let position = first + cell;
    if place == 0 || position >= call.numbers[0] as usize {
        return b' ';
    }
    let byte = call.inputs[0][position * width + (place - 1) / 2];
    let digit = if place % 2 == 1 { byte / 16 } else { byte % 16 };
    b"0123456789ABCDEF"[digit as usize]
}

/// Every answer: the first number that fits, or the page, byte by byte, and how many bytes it has.
#[test]
fn pages_are_those_of_their_tables() {
    for case in pages() {
        let fits = faults(&case.call).into_iter().zip([2, 4, 7, 9]);
        let first = fits
            .filter(|(fits, _)| *fits)
            .map(|(_, number)| number)
            .next();
        let number = first.unwrap_or(0);
        assert_eq!(case.answer.refusal, number);
        assert_eq!(case.call.numbers[2..], [0; 3]);
        assert_eq!(case.call.inputs[1..], [const { Vec::<u8>::new() }; 3]);
        let (line, page) = lengths(&case.call);
        let (line, page) = if number == 0 {
            (line as usize, page as usize)
        } else {
            (1, 0)
        };
        assert_eq!(case.answer.results, [page as u32, 0, 0, 0, 0]);
        let bytes = (0..page).map(|at| byte_at(&case.call, at / line, at % line));
        assert_eq!(case.answer.bytes, bytes.collect::<Vec<u8>>());
    }
}

/// Document 02's nine lines of 30 bytes, the page of ten positions as it is written by hand, and opened
/// boards: one entry that is not zeros.
#[test]
fn pages_of_boards_are_there() {
    let (mut texts, mut opened) = (BTreeSet::new(), BTreeSet::new());
    for case in pages() {
        let (positions, width) = numbers(&case.call);
        let entries = case.call.inputs[0].chunks(width.max(1) as usize);
        let shown = entries.filter(|entry| entry.iter().any(|&byte| byte != 0));
        if case.answer.refusal == 0 && positions > 1 && shown.count() == 1 {
            opened.insert((positions, width));
        }
        texts.insert(case.answer.bytes);
    }
    assert_eq!(missing([(72, 1), (6, 1), (21, 5)], &opened), []);
    let spaces = " ".repeat(18);
    let ten = format!("    0 00 01 02 03 04 05 06 07\n    8 08 09{spaces}\n");
    assert!(texts.contains(ten.as_bytes()));
    let nine_lines = "    0 00 01 02 03 04 05 06 07\n    \
                      8 08 09 0A 0B 0C 0D 0E 0F\n   \
                      16 10 11 12 13 14 15 16 17\n   \
                      24 18 19 1A 1B 1C 1D 1E 1F\n   \
                      32 20 21 22 23 24 25 26 27\n   \
                      40 28 29 2A 2B 2C 2D 2E 2F\n   \
                      48 30 31 32 33 34 35 36 37\n   \
                      56 38 39 3A 3B 3C 3D 3E 3F\n   \
                      64 40 41 42 43 44 45 46 47\n";
    assert!(texts.contains(nine_lines.as_bytes()));
}

/// Every w with every count of cells past N, in one line and in more; outputs that are exact, longer
/// and a byte short for every w and for every count; all N of two lines; and the long pages.
#[test]
fn pages_have_every_shape() {
    let mut met = BTreeSet::new();
    for case in pages() {
        let (positions, width) = numbers(&case.call);
        let [.., short] = faults(&case.call);
        let (_, page) = lengths(&case.call);
        let lent = case.call.lent as u128;
        let output = match case.answer.refusal {
            0 if lent == page => "exact",
            0 => "longer",
            9 if lent + 1 == page => "a byte short",
            _ => continue,
        };
        assert_eq!(short, output == "a byte short");
        let past = positions.next_multiple_of(8) - positions;
        let lines = if positions > 8 {
            "more lines"
        } else {
            "one line"
        };
        met.extend([
            format!("w {width}, {past} past N, a byte short {short}"),
            format!("w {width}, {lines}, {output}"),
            format!("{past} past N, {lines}, {output}"),
            format!("N {positions}, w {width}, a byte short {short}"),
        ]);
    }
    let mut asked = Vec::new();
    for short in [false, true] {
        for (width, past) in (1..=16).flat_map(|width| (0..8).map(move |past| (width, past))) {
            asked.push(format!("w {width}, {past} past N, a byte short {short}"));
        }
        let widths = [1, 2, 5, 16].into_iter();
        let shapes = widths.flat_map(|width| (1..=17).map(move |positions| (positions, width)));
        let long = [(72, 1), (97, 1), (105, 16), (1_001, 1), (17_473, 1)];
        for (positions, width) in shapes.chain(long) {
            asked.push(format!("N {positions}, w {width}, a byte short {short}"));
        }
    }
    for output in ["exact", "longer", "a byte short"] {
        for lines in ["one line", "more lines"] {
            asked.extend((1..=16).map(|width| format!("w {width}, {lines}, {output}")));
            asked.extend((0..8).map(|past| format!("{past} past N, {lines}, {output}")));
        }
    }
    assert_eq!(missing(asked, &met), Vec::<String>::new());
}

/// A line's first position has one to five digits, the last of as many and the first of one more
/// among them; and every byte stands at every place of entries of 1 and of 16 bytes.
#[test]
fn pages_have_every_digit() {
    let (mut firsts, mut bytes) = (BTreeSet::new(), BTreeSet::new());
    for case in pages() {
        if case.answer.refusal != 0 {
            continue;
        }
        let (positions, width) = numbers(&case.call);
        firsts.extend((0..positions).step_by(8));
        for (at, &byte) in (0..).zip(&case.call.inputs[0]) {
            bytes.insert((width, at % width, byte));
        }
    }
    let at_digits = [0, 8, 16, 96, 104, 992, 1_000, 9_992, 10_000];
    assert_eq!(missing(at_digits, &firsts), []);
    let places = once((1, 0)).chain((0..16).map(|place| (16, place)));
    let asked = places.flat_map(|(width, place)| (0..=255).map(move |byte| (width, place, byte)));
    assert_eq!(missing(asked, &bytes), []);
}

/// Outputs that have room for lines more, and those that have too little by lines or modulo 2^8 or
/// 2^16.
#[test]
fn pages_are_refused_their_outputs() {
    let mut met = BTreeSet::new();
    for case in pages() {
        let (positions, width) = numbers(&case.call);
        let (line, page) = lengths(&case.call);
        let lent = case.call.lent as u128;
        let outputs = [
            (lent == 0, "none"),
            (lent == 1, "a byte"),
            (lent == case.call.inputs[0].len() as u128, "as the table"),
            (lent + 1 == line, "a byte short of a line"),
            (lent + line == page, "a line short"),
            (lent == page % 256 && lent < page, "as the page modulo 2^8"),
            (
                lent == page % 65_536 && lent < page,
                "as the page modulo 2^16",
            ),
            (lent == page + 1, "a byte longer"),
            (lent == page + line, "a line longer"),
            (lent == page + 1_000, "1,000 bytes longer"),
        ];
        if [0, 9].contains(&case.answer.refusal) {
            let outputs = outputs.into_iter().filter(|(met, _)| *met);
            met.extend(outputs.map(|(_, output)| (positions, width, output)));
        }
    }
    let mut asked = vec![
        (17_473, 1, "as the page modulo 2^16"),
        (17_473, 1, "as the page modulo 2^8"),
        (257, 1, "as the page modulo 2^8"),
    ];
    for (positions, width) in SHAPES {
        for output in [
            "none",
            "a byte",
            "as the table",
            "a byte short of a line",
            "a line short",
            "a byte longer",
            "a line longer",
            "1,000 bytes longer",
        ] {
            asked.push((positions, width, output));
        }
    }
    assert_eq!(missing(asked, &met), []);
}

/// Every choice of 2, 4, 7 and 9, but for one: 2 and 9 without 4 and 7 takes a table of more than
/// 65,536 bytes. So each number is given alone and before each that comes after it.
#[test]
fn every_choice_of_faults_is_met() {
    let met: BTreeSet<[bool; 4]> = pages().iter().map(|case| faults(&case.call)).collect();
    let choices = (0..16).map(|choice| [8, 4, 2, 1].map(|bit| choice & bit != 0));
    let asked = choices.filter(|choice| *choice != [true, false, false, true]);
    assert_eq!(missing(asked, &met), Vec::<[bool; 4]>::new());
}

/// 2 and 4 beside the ends of their ranges and far beyond, with an output and without; the largest N and
/// w are neither.
#[test]
fn numbers_out_of_range_are_refused() {
    let mut met = BTreeSet::new();
    for case in pages() {
        let (positions, width) = numbers(&case.call);
        met.insert((case.answer.refusal, positions, width, case.call.lent > 0));
    }
    let most = u64::from(u32::MAX);
    let mut asked = Vec::new();
    for lent in [false, true] {
        for positions in [0, 65_537, 1 << 31, most] {
            asked.extend([0, 1, 16, 17, most].map(|width| (2, positions, width, lent)));
        }
        for positions in [1, 8, 65_536] {
            asked.extend([0, 17, 256, most].map(|width| (4, positions, width, lent)));
        }
        asked.extend([1, 16].map(|width| (7, 65_536, width, lent)));
    }
    assert_eq!(missing(asked, &met), []);
}

/// Tables that are not right, and would be if N, w or N × w were taken modulo 2^8, 2^16 or 2^32.
#[test]
fn tables_right_modulo_are_refused() {
    let mut met = BTreeSet::new();
    for case in pages() {
        let (positions, width) = numbers(&case.call);
        let table = case.call.inputs[0].len() as u64;
        if table == positions * width || table == 0 {
            continue;
        }
        for bits in [8, 16, 32] {
            let modulo = 1 << bits;
            let right = [
                ("N", positions % modulo * width),
                ("w", positions * (width % modulo)),
                ("N × w", positions * width % modulo),
            ];
            let right = right.into_iter().filter(|(_, right)| *right == table);
            met.extend(right.map(|(what, _)| (case.answer.refusal, bits, what)));
        }
    }
    let asked = [
        (2, 16, "N"),
        (2, 32, "N × w"),
        (4, 8, "w"),
        (4, 16, "w"),
        (4, 32, "N × w"),
        (7, 8, "N × w"),
        (7, 16, "N × w"),
    ];
    assert_eq!(missing(asked, &met), []);
}

/// 7, with an output for the page, with one a byte short and with none, for tables that are empty, a
/// byte or an entry off, of one byte an entry, of all cells of the last line, or as long as the page.
#[test]
fn wrong_tables_are_refused_before_outputs() {
    let mut met = BTreeSet::new();
    for case in pages() {
        if case.answer.refusal == 7 {
            let (positions, width) = numbers(&case.call);
            let short = lengths(&case.call).1 as i64 - case.call.lent as i64;
            met.insert((positions, width, case.call.inputs[0].len() as u64, short));
        }
    }
    let mut asked = Vec::new();
    for (positions, width) in SHAPES {
        let page = positions.div_ceil(8) * (6 + 8 * (2 * width + 1));
        let exact = positions * width;
        let cells = positions.next_multiple_of(8) * width;
        let wrong = [
            0,
            exact - width,
            exact - 1,
            exact + 1,
            exact + width,
            positions,
            cells,
            page,
        ];
        for table in wrong.into_iter().filter(|&table| table != exact) {
            asked.extend([0, 1, page as i64].map(|short| (positions, width, table, short)));
        }
    }
    assert_eq!(missing(asked, &met), []);
}
