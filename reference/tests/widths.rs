//! Choose width, of document 02: the width of the shortest key, for boards of every p and w, and the
//! comparison's data on it, right and enough. K is written here once more, without the library.

use reference::cases::all;
use reference::data::{Case, CHOOSE_WIDTH};
use reference::key::key_length;
use reference::width::choose_width;
use std::collections::{BTreeMap, BTreeSet};

/// p, N and w.
type Numbers = [u32; 3];

/// "J = 2^(p−1)".
fn columns(players: u32) -> u32 {
    2_u32.pow(players - 1)
}

/// The bytes of a header number: seven bits in each.
fn header_bytes(number: u32) -> u32 {
    match number {
        0..=127 => 1,
        128..=16_383 => 2,
        _ => 3,
    }
}

/// "ν = N/μ rounded up".
fn grid_rows(positions: u32, width: u32) -> u32 {
    positions.div_ceil(width)
}

/// A key without its header: "ν × (marks + 16 × J) + J × μ × w".
fn body([players, positions, value_width]: Numbers, width: u32) -> u32 {
    let columns = columns(players);
    let marks = if columns < 8 { 1 } else { columns / 8 };
    grid_rows(positions, width) * (marks + 16 * columns) + columns * width * value_width
}

/// K.
fn length(numbers: Numbers, width: u32) -> u32 {
    // p, the player and w are below 128.
    let header = 3 + header_bytes(numbers[1]) + header_bytes(width);
    header + body(numbers, width)
}

/// The widths with at most so many grid rows.
fn widths(positions: u32, most_rows: u32) -> impl DoubleEndedIterator<Item = u32> {
    (1..=256).filter(move |&width| grid_rows(positions, width) <= most_rows)
}

/// All N to 1,000, then a spread to 65,536 with both ends of header numbers and of the grid rows.
fn every_positions() -> impl Iterator<Item = u32> {
    let spread = (1_001..=65_536).step_by(431);
    let ends = [
        16_383..=16_384,
        32_768..=32_769,
        65_280..=65_281,
        65_535..=65_536,
    ];
    (1..=1_000).chain(spread).chain(ends.into_iter().flatten())
}

#[test]
fn lengths_are_those_of_key_length() {
    for positions in every_positions().step_by(7) {
        for (players, value_width) in [(2, 1), (3, 16), (4, 1), (5, 7), (6, 16)] {
            for width in 1..=256 {
                let expected = match grid_rows(positions, width) {
                    0..=256 => Ok(length([players, positions, value_width], width)),
                    _ => Err(5),
                };
                let answer = key_length(players, positions, width, value_width);
                assert_eq!(answer, expected);
            }
        }
    }
}

/// The width has at most 256 grid rows; none that has is of a shorter key, and each smaller one is of
/// a longer key.
fn is_the_first_shortest(numbers: Numbers, chosen: u32) -> bool {
    let [_, positions, _] = numbers;
    let shortest = length(numbers, chosen);
    (1..=256).contains(&chosen)
        && grid_rows(positions, chosen) <= 256
        && widths(positions, 256).all(|width| length(numbers, width) >= shortest)
        && widths(positions, 256)
            .take_while(|&width| width < chosen)
            .all(|width| length(numbers, width) > shortest)
}

fn check([players, positions, value_width]: Numbers) {
    let numbers = [players, positions, value_width];
    let chosen = choose_width(players, positions, value_width).unwrap();
    assert!(is_the_first_shortest(numbers, chosen), "{numbers:?}");
}

#[test]
fn every_width_is_the_first_of_the_shortest_key() {
    for players in 2..=6 {
        for value_width in 1..=16 {
            every_positions().for_each(|positions| check([players, positions, value_width]));
        }
    }
}

/// Every N that there is, with four players and values of one byte.
#[test]
fn every_width_of_four_players_is_the_first_of_the_shortest_key() {
    (1..=65_536).for_each(|positions| check([4, positions, 1]));
}

/// All widths that have the shortest key, whose length is given: the smallest is chosen.
#[test]
fn the_smallest_of_a_tie_is_chosen() {
    let ties: [(Numbers, u32, &[u32]); 8] = [
        ([4, 892, 1], 1_934, &[112, 128]),
        ([2, 36, 11], 335, &[6, 9]),
        ([3, 400, 13], 2_346, &[20, 25]),
        ([2, 2_019, 2], 1_042, &[127, 135]),
        ([2, 1_910, 2], 1_014, &[120, 128]),
        ([3, 5_720, 5], 5_467, &[130, 143]),
        ([2, 1_248, 11], 1_920, &[39, 42, 45, 48]),
        (
            [2, 33_228, 11],
            9_842,
            &[213, 216, 219, 222, 225, 228, 231, 234],
        ),
    ];
    for ([players, positions, value_width], shortest, tied) in ties {
        let length = |width| key_length(players, positions, width, value_width);
        let widths = (1..=256).filter(|&width| length(width) == Ok(shortest));
        assert_eq!(widths.collect::<Vec<u32>>(), tied);
        let chosen = choose_width(players, positions, value_width);
        assert_eq!(chosen, Ok(tied[0]));
    }
}

/// The stored calls, each with its numbers.
fn stored() -> Vec<(Numbers, Case)> {
    let cases = all().into_iter();
    cases
        .filter(|case| case.call.operation == CHOOSE_WIDTH)
        .map(|case| {
            let [players, positions, value_width, ..] = case.call.numbers;
            ([players, positions, value_width], case)
        })
        .collect()
}

/// The stored calls that are accepted: their numbers and widths.
fn accepted() -> BTreeMap<Numbers, u32> {
    let cases = stored().into_iter();
    cases
        .filter(|(_, case)| case.answer.refusal == 0)
        .map(|(numbers, case)| (numbers, case.answer.results[0]))
        .collect()
}

/// Which of 1, 2 and 4 fit, whatever comes first.
fn faults([players, positions, value_width]: Numbers) -> [bool; 3] {
    [
        !(2..=6).contains(&players),
        !(1..=65_536).contains(&positions),
        !(1..=16).contains(&value_width),
    ]
}

/// Every answer: the first number that fits, or the first width of the shortest key.
#[test]
fn stored_widths_are_right() {
    for (numbers, Case { call, answer }) in stored() {
        let number = match faults(numbers) {
            [true, ..] => 1,
            [_, true, _] => 2,
            [.., true] => 4,
            _ => 0,
        };
        assert_eq!(answer.refusal, number);
        let [width, others @ ..] = answer.results;
        assert_eq!(others, [0; 4]);
        match number {
            0 => assert!(is_the_first_shortest(numbers, width), "{numbers:?}"),
            _ => assert_eq!(width, 0),
        }
        // Nothing else goes in, and nothing else comes out.
        assert_eq!(call.numbers[3..], [0; 2]);
        assert_eq!(call.inputs, [const { Vec::<u8>::new() }; 4]);
        assert_eq!((call.lent, answer.bytes), (0, Vec::new()));
    }
}

/// Boards with their widths: the marked ones and the ties, the ends of N and w for every p, one grid
/// row and two, N beside 256, widths of one group and of two, and many grid rows.
#[test]
fn stored_widths_are_those_asked_for() {
    let mut asked = BTreeMap::from([
        ([2, 64, 1], 32),
        ([4, 72, 1], 36),
        ([4, 892, 1], 112),
        ([2, 36, 11], 6),
        ([3, 400, 13], 20),
        ([3, 33, 1], 33),
        ([3, 34, 1], 17),
        ([2, 3, 16], 3),
        ([2, 4, 16], 2),
        ([4, 256, 1], 64),
        ([4, 257, 1], 65),
        ([5, 256, 16], 16),
        ([5, 257, 16], 20),
        ([2, 2_019, 2], 127),
        ([2, 1_910, 2], 120),
        ([5, 892, 1], 128),
        ([4, 16_384, 16], 128),
        ([2, 33_228, 11], 213),
        ([3, 4_096, 1], 256),
        ([3, 4_097, 1], 241),
        ([6, 32_768, 16], 194),
        ([5, 65_025, 16], 255),
        ([2, 65_280, 16], 256),
        ([3, 65_281, 16], 256),
        ([4, 65_535, 16], 256),
    ]);
    for players in 2..=6 {
        for value_width in [1, 16] {
            asked.insert([players, 1, value_width], 1);
            asked.insert([players, 65_536, value_width], 256);
        }
    }
    let met = accepted();
    for (numbers, width) in asked {
        assert_eq!(met.get(&numbers), Some(&width), "{numbers:?}");
    }
}

/// 1, 2 and 4, each alone for numbers at the ends of the range and for those that are in range modulo
/// 2^8, 2^16 or 2^31, and every choice of them below the ranges and above.
#[test]
fn stored_refusals_are_those_asked_for() {
    let met: BTreeSet<Numbers> = stored().iter().map(|(numbers, _)| *numbers).collect();
    let alone = |place: usize, number: u32| {
        let mut fits = [false; 3];
        fits[place] = true;
        let mut met = met.iter();
        met.any(|numbers| numbers[place] == number && faults(*numbers) == fits)
    };
    let asked: [&[u32]; 3] = [
        &[0, 1, 7, 256 + 2, 65_536 + 6, (1 << 31) + 3, u32::MAX],
        &[0, 65_537, 65_536 + 72, 1 << 31, (1 << 31) + 72, u32::MAX],
        &[
            0,
            17,
            256 + 1,
            65_536 + 1,
            1 << 31,
            (1 << 31) + 16,
            u32::MAX,
        ],
    ];
    for (place, numbers) in asked.into_iter().enumerate() {
        for &number in numbers {
            assert!(alone(place, number), "{place} {number}");
        }
    }
    for wrong in [[1, 0, 0], [7, 65_537, 17]] {
        for choice in 1..8 {
            let chosen = [0, 1, 2].map(|place| choice >> place & 1 == 1);
            let is_met = met.iter().any(|numbers| {
                let mut places = (0..3).filter(|&place| chosen[place]);
                faults(*numbers) == chosen && places.all(|place| numbers[place] == wrong[place])
            });
            assert!(is_met, "{wrong:?} {chosen:?}");
        }
    }
}

/// A search that is wrong in one thing.
type Search = fn(Numbers) -> Option<u32>;

/// The first width of the least measure.
fn first_least(positions: u32, measure: impl Fn(u32) -> u32) -> Option<u32> {
    widths(positions, 256).min_by_key(|&width| measure(width))
}

fn shortest(numbers: Numbers) -> Option<u32> {
    first_least(numbers[1], |width| length(numbers, width))
}

/// The first width after which the next has no shorter key.
fn stops_climbing(numbers: Numbers, widths: impl Iterator<Item = u32>) -> Option<u32> {
    let mut widths = widths.peekable();
    let mut width = widths.next()?;
    while let Some(next) = widths.next_if(|&next| length(numbers, next) < length(numbers, width)) {
        width = next;
    }
    Some(width)
}

const WRONG: [(&str, Search); 22] = [
    ("the largest of a tie", |numbers| {
        let downwards = widths(numbers[1], 256).rev();
        downwards.min_by_key(|&width| length(numbers, width))
    }),
    ("no header", |numbers| {
        first_least(numbers[1], |width| body(numbers, width))
    }),
    ("two groups from 127 on", |numbers| {
        first_least(numbers[1], |width| {
            body(numbers, width) + u32::from(width >= 127)
        })
    }),
    ("two groups from 129 on", |numbers| {
        first_least(numbers[1], |width| {
            body(numbers, width) + u32::from(width >= 129)
        })
    }),
    ("from 2 on", |numbers| {
        let widths = widths(numbers[1], 256).filter(|&width| width >= 2);
        widths.min_by_key(|&width| length(numbers, width))
    }),
    ("up to 255", |numbers| {
        let widths = widths(numbers[1], 256).filter(|&width| width <= 255);
        widths.min_by_key(|&width| length(numbers, width))
    }),
    ("up to 257", |numbers| {
        let widths = widths(numbers[1], 256).chain([257]);
        widths.min_by_key(|&width| length(numbers, width))
    }),
    ("at most 255 grid rows", |numbers| {
        widths(numbers[1], 255).min_by_key(|&width| length(numbers, width))
    }),
    ("upwards while keys get shorter", |numbers| {
        stops_climbing(numbers, widths(numbers[1], 256))
    }),
    ("downwards while keys get shorter", |numbers| {
        stops_climbing(numbers, widths(numbers[1], 256).rev())
    }),
    ("grid rows rounded down", |numbers| {
        let [players, positions, value_width] = numbers;
        let whole = |width| [players, positions / width * width, value_width];
        first_least(positions, |width| length(whole(width), width))
    }),
    ("no marks", |numbers| {
        let marks = |width| grid_rows(numbers[1], width) * columns(numbers[0]).div_ceil(8);
        first_least(numbers[1], |width| length(numbers, width) - marks(width))
    }),
    ("one byte of marks", |numbers| {
        let others = |width| grid_rows(numbers[1], width) * (columns(numbers[0]).div_ceil(8) - 1);
        first_least(numbers[1], |width| length(numbers, width) - others(width))
    }),
    ("K modulo 2^16", |numbers| {
        first_least(numbers[1], |width| length(numbers, width) % 65_536)
    }),
    ("N modulo 2^16", |[players, positions, value_width]| {
        shortest([players, positions % 65_536, value_width])
    }),
    ("w is 1", |[players, positions, _]| {
        shortest([players, positions, 1])
    }),
    ("w is 16", |[players, positions, _]| {
        shortest([players, positions, 16])
    }),
    ("p is 2", |[_, positions, value_width]| {
        shortest([2, positions, value_width])
    }),
    ("p is 3", |[_, positions, value_width]| {
        shortest([3, positions, value_width])
    }),
    ("p is 4", |[_, positions, value_width]| {
        shortest([4, positions, value_width])
    }),
    ("p is 6", |[_, positions, value_width]| {
        shortest([6, positions, value_width])
    }),
    ("document 01's width", |[players, positions, _]| {
        let area = positions * columns(players);
        (1..=256).find(|&width| width * width >= area || width == 256)
    }),
];

/// By each wrong search some stored width would be another, and by the right one none.
#[test]
fn stored_widths_tell_wrong_searches() {
    let met = accepted();
    let told = |search: Search| {
        let mut widths = met.iter();
        widths.any(|(numbers, width)| search(*numbers) != Some(*width))
    };
    assert!(!told(shortest));
    for (name, search) in WRONG {
        assert!(told(search), "{name}");
    }
}
