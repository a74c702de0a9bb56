//! What this crate says again of the repository's own lists: the refusals, the bounds and sizes of the C header, the version.

use nosingginger::{raw, Refusal};
use std::collections::BTreeMap;

const REFUSALS: &str = include_str!("../../refusals.txt");
const HEADER: &str = include_str!("../../include/nosingginger.h");
const VERSION: &str = include_str!("../../VERSION");

/// A place that can be told from its two numbers turned round.
const PLACE: (u32, u32) = (3, 5);

/// The refusal of a number, with a place if it has one.
fn of_number(number: u32) -> Option<Refusal> {
    Refusal::from_number(number, Some(PLACE))
}

/// A variant's own name as the list writes names: ValueBytes is VALUE_BYTES.
fn listed_name(refusal: Refusal) -> String {
    let mut name = String::new();
    for letter in format!("{refusal:?}").chars().take_while(|letter| letter.is_alphabetic()) {
        if letter.is_uppercase() && !name.is_empty() {
            name.push('_');
        }
        name.extend(letter.to_uppercase());
    }
    name
}

#[test]
fn refusals_are_those_of_the_list() {
    let lines: Vec<&str> = REFUSALS.lines().filter(|line| !line.starts_with('#')).collect();
    assert_eq!(lines.len(), Refusal::LIST.len());
    for (line, (number, name, words)) in lines.iter().zip(Refusal::LIST) {
        assert_eq!(format!("{number} {name} {words}"), line.replacen(' ', " REFUSED_", 1));
        let refusal = of_number(number).unwrap();
        assert_eq!((refusal.number(), refusal.name(), refusal.words()), (number, name, words));
        assert_eq!(name, format!("REFUSED_{}", listed_name(refusal)));
    }
}

#[test]
fn numbers_run_from_1_to_22_without_8_and_lead_back() {
    let numbers: Vec<u32> = (0..1_000).chain([u32::MAX - 1, u32::MAX]).filter(|number| of_number(*number).is_some()).collect();
    // 23 is the tally's, which came behind them
    assert_eq!(numbers.last(), Some(&23));
    assert_eq!(numbers[..numbers.len() - 1], (1..=7).chain(9..=22).collect::<Vec<u32>>());
    assert_eq!(numbers, Refusal::LIST.map(|(number, ..)| number));
    for number in numbers {
        let refusal = of_number(number).unwrap();
        assert_eq!(Refusal::from_number(number, refusal.bad_column()), Some(refusal));
    }
}

/// 18, 19 and 20 have a place and are not made without one; the others have none, and are the same with one given or without.
#[test]
fn three_refusals_have_a_place() {
    for (number, ..) in Refusal::LIST {
        let (refusal, has_place) = (of_number(number).unwrap(), (18..=20).contains(&number));
        assert_eq!(refusal.bad_column(), has_place.then_some(PLACE), "{number}");
        assert_eq!(Refusal::from_number(number, None), (!has_place).then_some(refusal), "{number}");
    }
    let (grid_row, column) = PLACE;
    assert_eq!(of_number(18), Some(Refusal::ColumnBit { grid_row, column }));
    assert_eq!(of_number(19), Some(Refusal::ColumnParity { grid_row, column }));
    assert_eq!(of_number(20), Some(Refusal::ColumnTwice { grid_row, column }));
}

/// In words, with the place behind them, and at the width that is asked for the words.
#[test]
fn refusals_are_shown_in_words() {
    for (number, _, words) in Refusal::LIST {
        let refusal = of_number(number).unwrap();
        let place = if (18..=20).contains(&number) { " (grid row 3, column 5)" } else { "" };
        assert_eq!(refusal.to_string(), format!("{words}{place}"));
        assert_eq!(format!("{refusal:<120}"), format!("{words:<120}{place}"));
    }
    let far = Refusal::ColumnParity { grid_row: 255, column: 31 };
    assert_eq!(far.to_string(), "an array's column has the wrong parity for its grid row (grid row 255, column 31)");
}

/// The header's plain numbers by their names, without `NSG_` and without what a call returns: `#define NSG_NAME 12u`.
fn header_numbers() -> BTreeMap<&'static str, u64> {
    let mut numbers = BTreeMap::new();
    for line in HEADER.lines() {
        let mut words = line.split_whitespace();
        let (Some("#define"), Some(name), Some(number)) = (words.next(), words.next(), words.next()) else { continue };
        let Some(name) = name.strip_prefix("NSG_") else { continue };
        let Some(Ok(number)) = number.strip_suffix('u').map(str::parse) else { continue };
        if name != "ACCEPTED" && !name.starts_with("REFUSED_") {
            numbers.insert(name, number);
        }
    }
    numbers
}

/// Constants of this crate by their names.
macro_rules! named {
    ($($name:ident)*) => {
        [$((stringify!($name), u64::try_from(nosingginger::$name).unwrap())),*]
    };
}

#[test]
fn bounds_and_largest_sizes_are_those_of_the_header() {
    let mut ours = BTreeMap::from(named!(LEAST_PLAYERS MOST_PLAYERS MOST_POSITIONS MOST_WIDTH MOST_VALUE_BYTES MOST_SHARE_BYTES
        MOST_GRID_ROWS MOST_COLUMNS SEED_BYTES MOST_EXPANDED_BYTES SENSORS PAGE_CELLS STACK_BYTES MOST_KEY_BYTES MOST_KEYS_BYTES
        MOST_TABLE_BYTES MOST_DECK_BYTES MOST_PAGE_BYTES));
    ours.insert("HEADER_NUMBERS", raw::HEADER_NUMBERS as u64);
    ours.insert("FAULT_NUMBERS", raw::FAULT_NUMBERS as u64);
    assert_eq!(ours, header_numbers());
}

#[test]
fn the_version_is_the_repository_s() {
    assert_eq!(VERSION.trim_end(), env!("CARGO_PKG_VERSION"));
}
