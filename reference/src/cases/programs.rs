//! The cases of the two programs, for `crates/test_programs`: files with what a program reads
//! and what it writes, and a list that says which belong together. A file may stand in several
//! cases: keys that are dealt in one are joined in the next. Each case that is made to be
//! refused names the documents' number, and making it fails when this implementation answers
//! another. A refused input has the later faults too where it can, so that the order is seen.

use super::{board, deal_numbers, in_groups, program_input};
use crate::draw::{Drawn, Generator};
use crate::programs::{dealing_program, joining_program, refused};
use std::collections::BTreeMap;

/// p, N, μ and w.
type Numbers = (u32, u32, u32, u32);

/// The list's file: a line for each case, with a program, the file that it reads, how many bytes
/// it reads and the file that it writes, one space between them. Where it reads more bytes than
/// the file has, they are zeros behind it.
pub const LIST: &str = "cases";

/// The generator's start, fixed for good: the files are the same each time.
const START: u64 = 0x5072_6F67_7261_6D73;

/// The boards (p, N, μ, w) of the accepted cases, each with the piece's position: every p; the
/// spring board at the width that Choose width gives; the largest table, with the piece on its
/// last square; four keys of 65,536 bytes together.
const BOARDS: [(&str, Numbers, usize); 6] = [
    ("spring", (4, 72, 36, 1), 41),
    ("three", (3, 7, 3, 16), 5),
    ("five", (5, 3, 2, 2), 0),
    ("six", (6, 72, 36, 1), 17),
    ("largest", (2, 65_536, 256, 1), 65_535),
    ("limit", (4, 606, 5, 16), 300),
];

/// Five numbers of which one is broken, the others out of their range: 10.
const BROKEN_HEADERS: [(&str, &[u8]); 2] = [
    ("four-groups", &[7, 0, 0x80, 0x80, 0x80, 0x01, 0, 0]),
    ("not-shortest", &[7, 0, 0, 0, 0x84, 0x00]),
];

/// Boards that 1 to 5 refuse, each with all the faults that come after its own.
const WRONG_BOARDS: [(u32, &str, Numbers); 9] = [
    (1, "one-player", (1, 0, 0, 0)),
    (1, "seven-players", (7, 0, 0, 0)),
    (2, "no-positions", (2, 0, 0, 0)),
    (2, "positions-65537", (2, 65_537, 0, 0)),
    (3, "width-0", (2, 65_536, 0, 0)),
    (3, "width-257", (2, 65_536, 257, 0)),
    (4, "value-0", (2, 65_536, 1, 0)),
    (4, "value-17", (2, 65_536, 1, 17)),
    (5, "grid-rows-257", (2, 257, 1, 16)),
];

/// Where the marks of both grid rows stand in a key of the printed deal.
const MARKS: [usize; 2] = [5, 38];

/// The other files at a limit, each with what refuses it with one byte more.
const ONE_MORE: [(Program, u32, &str); 13] = [
    (Deal, 7, "largest.dealing"),
    (Join, 12, "largest.keys"),
    (Deal, 7, "limit.dealing"),
    (Deal, 10, "above-limit"),
    (Join, 10, "above-limit"),
    (Deal, 7, "input-65537.dealing"),
    (Join, 4, "input-65537.dealing"),
    (Deal, 7, "output-65538.dealing"),
    (Deal, 7, "output-65538-arrays-mixed.dealing"),
    (Join, 12, "input-65538.keys"),
    (Deal, 2, "input-65538.keys"),
    (Join, 12, "table-65538.keys"),
    (Join, 12, "table-65538-no-marks.keys"),
];

/// Files of 65,536 bytes, each with what refuses it with any more. Cut there, the keys are joined
/// and the dealing is refused by 9 alone, since none of that length is accepted.
const WHOLE: [(Program, u32, &str); 2] =
    [(Join, 12, "limit.keys"), (Deal, 7, "input-65536.dealing")];

/// Lengths above the limit.
const ABOVE: [usize; 4] = [65_537, 65_538, 131_072, 200_000];

/// All files by their names.
pub fn files() -> BTreeMap<String, Vec<u8>> {
    let mut maker = Maker {
        list: String::new(),
        files: BTreeMap::new(),
        generator: Generator::new(START),
    };
    maker.accepted();
    maker.printed();
    maker.limits();
    maker.longer();
    let list = maker.list.clone().into_bytes();
    maker.file(LIST, list);
    maker.files
}

#[derive(Clone, Copy, PartialEq, Eq)]
enum Program {
    Deal,
    Join,
}
use Program::{Deal, Join};

/// Collects files and cases.
struct Maker {
    list: String,
    files: BTreeMap<String, Vec<u8>>,
    generator: Generator,
}

impl Maker {
    fn file(&mut self, name: &str, bytes: Vec<u8>) {
        if let Some(other) = self.files.insert(name.to_string(), bytes.clone()) {
            assert_eq!(other, bytes, "two files of the name {name}");
        }
    }

    /// A case: the program reads one file, filled up with zeros to this length, and what it
    /// writes is the other.
    fn filled(&mut self, program: Program, input: &str, length: usize, output: &str) {
        let mut read = self.files[input].clone();
        assert!(read.len() <= length, "{input} is not cut");
        read.resize(length, 0);
        let (word, written) = match program {
            Deal => ("deal", dealing_program(&read)),
            Join => ("join", joining_program(&read)),
        };
        self.file(output, written);
        let line = format!("{word} {input} {length} {output}\n");
        self.list.push_str(&line);
    }

    /// A case of a file as it is.
    fn case(&mut self, program: Program, input: &str, output: &str) {
        self.filled(program, input, self.files[input].len(), output);
    }

    /// A case of a file that is refused with this number, with so many zeros behind it.
    fn refused_with(&mut self, program: Program, number: u32, input: &str, zeros: usize) {
        let output = format!("refused-{number}");
        self.file(&output, refused(number));
        self.filled(program, input, self.files[input].len() + zeros, &output);
    }

    fn refused(&mut self, program: Program, number: u32, input: &str) {
        self.refused_with(program, number, input, 0);
    }

    /// The same with a file of its own.
    fn fault(&mut self, program: Program, number: u32, name: &str, bytes: Vec<u8>) {
        let kind = if program == Deal { "dealing" } else { "keys" };
        let input = format!("{name}.{kind}");
        assert!(!self.files.contains_key(&input), "a second {input}");
        self.file(&input, bytes);
        self.refused(program, number, &input);
    }

    fn drawn(&mut self, numbers: Numbers, point: usize) -> Drawn {
        Drawn::at(board(numbers), point, &mut self.generator)
    }

    /// Dealings that are accepted, and their keys, which join.
    fn accepted(&mut self) {
        for (name, numbers, point) in BOARDS {
            let drawn = self.drawn(numbers, point);
            let [dealing, keys, table] =
                ["dealing", "keys", "table"].map(|kind| format!("{name}.{kind}"));
            self.file(&dealing, dealing_of(&drawn));
            self.case(Deal, &dealing, &keys);
            self.case(Join, &keys, &table);
        }
    }

    /// The faults of document 01's printed deal and of its keys.
    fn printed(&mut self) {
        let drawn = Drawn {
            value: vec![0xA5],
            arrays: vec![0, 3, 1, 2],
            ..self.drawn((2, 6, 4, 1), 4)
        };
        self.file("empty", Vec::new());
        self.refused(Deal, 10, "empty");
        self.refused(Join, 10, "empty");
        self.dealings(&dealing_of(&drawn));
        let [first, second] = &drawn.keys()[..] else {
            panic!("two players have two keys");
        };
        self.first_keys(first, second);
        self.lengths(&[&first[..], second].concat());
        self.second_keys(first, second);
    }

    /// The dealing program's numbers, in its order.
    fn dealings(&mut self, right: &[u8]) {
        let (numbers, lent) = right.split_at(5);
        for (name, header) in BROKEN_HEADERS {
            self.fault(Deal, 10, name, [header, lent].concat());
        }
        self.fault(Deal, 10, "cut-short", vec![2, 6, 4, 1, 0x84]);
        for (refusal, name, (p, n, m, w)) in WRONG_BOARDS {
            let header = in_groups(&[p, n, m, w, 65_536]);
            self.fault(Deal, refusal, name, [&header, lent].concat());
        }
        self.fault(Deal, 6, "point-is-positions", in_groups(&[2, 6, 4, 1, 6]));
        // 7 comes before 19: the first array is wrong too.
        let mut longer = [right, &[0]].concat();
        longer[6] = 1;
        let shorter = longer[..right.len() - 1].to_vec();
        self.fault(Deal, 7, "byte-missing", shorter);
        self.fault(Deal, 7, "byte-too-many", longer);
        for (refusal, name, arrays) in [
            (18, "bit-above-players", [0x0C, 3, 1, 2]),
            (18, "all-bits", [0xFF; 4]),
            (19, "odd-array-elsewhere", [1, 2, 1, 2]),
            (19, "even-array-at-point", [0, 3, 3, 0]),
            (20, "column-twice", [0, 3, 1, 1]),
            // The first fault by its place, whatever the numbers of the others.
            (19, "parity-before-bit", [0, 1, 4, 2]),
            (20, "twice-before-bit", [3, 3, 5, 2]),
            (20, "twice-before-parity", [0, 0, 0, 3]),
        ] {
            let dealing = [numbers, &right[5..6], &arrays, &right[10..]].concat();
            self.fault(Deal, refusal, name, dealing);
        }
    }

    /// The joining program's numbers for the first key's header, in its order.
    fn first_keys(&mut self, first: &[u8], second: &[u8]) {
        let rest = [&first[5..], second].concat();
        for (name, header) in BROKEN_HEADERS {
            self.fault(Join, 10, name, [header, &rest].concat());
        }
        self.fault(Join, 10, "cut-short", first[..4].to_vec());
        for (refusal, name, (p, n, m, w)) in WRONG_BOARDS {
            let header = in_groups(&[p, 9, n, m, w]);
            self.fault(Join, refusal, name, [&header, &rest[..]].concat());
        }
        // 11 comes before 12: nothing stands behind the header.
        self.fault(Join, 11, "player-is-players", vec![2, 2, 6, 4, 1]);
    }

    /// 12 on the whole input; then the first key's 15 and 13.
    fn lengths(&mut self, keys: &[u8]) {
        let changed = |changes: &[(usize, u8)]| {
            let mut changed = keys.to_vec();
            for &(place, byte) in changes {
                changed[place] = byte;
            }
            changed
        };
        // 12 comes before 15, and 15 before 13: player 1's key stands first, with no marks.
        let wrong = changed(&[(1, 1), (MARKS[0], 0)]);
        self.fault(Join, 12, "byte-missing", wrong[..wrong.len() - 1].to_vec());
        self.fault(Join, 12, "byte-too-many", [&wrong[..], &[0]].concat());
        self.fault(Join, 12, "one-key", wrong[..keys.len() / 2].to_vec());
        self.fault(Join, 15, "first-of-player-1", wrong);
        // The first key's 13 comes before the second's 10.
        let broken = (keys.len() / 2, 0x80);
        for (name, place, marks) in [
            ("no-marks", MARKS[0], 0),
            ("all-marks", MARKS[1], 3),
            ("spare-bit", MARKS[1], keys[MARKS[1]] | 4),
        ] {
            self.fault(Join, 13, name, changed(&[(place, marks), broken]));
        }
    }

    /// The second key's own numbers, in their order. It has no marks, so 13 fits too.
    fn second_keys(&mut self, first: &[u8], second: &[u8]) {
        let mut rest = second[5..].to_vec();
        rest[0] = 0;
        // A key of K bytes with another header.
        let with = |header: &[u8]| {
            let key = [header, &rest[..]].concat();
            [first, &key[..first.len()]].concat()
        };
        for (name, header) in BROKEN_HEADERS {
            self.fault(Join, 10, &format!("second-{name}"), with(header));
        }
        for (refusal, name, (p, n, m, w)) in WRONG_BOARDS {
            let header = in_groups(&[p, 9, n, m, w]);
            self.fault(Join, refusal, &format!("second-{name}"), with(&header));
        }
        for (refusal, name, header) in [
            (11, "second-player-is-players", [2, 2, 5, 4, 1]),
            (15, "second-other-players", [3, 1, 6, 4, 1]),
            (15, "second-other-positions", [2, 1, 5, 4, 1]),
            (15, "second-other-width", [2, 1, 6, 5, 1]),
            (15, "second-other-value", [2, 1, 6, 4, 2]),
            (15, "second-of-player-0", [2, 0, 6, 4, 1]),
            (13, "second-no-marks", [2, 1, 6, 4, 1]),
        ] {
            self.fault(Join, refusal, name, with(&header));
        }
    }

    /// The limits of 65,536 bytes, each at its place in the order.
    fn limits(&mut self) {
        // A broken number in an input that is too long is 10.
        self.file("above-limit", vec![0x80; 65_537]);
        self.refused(Deal, 10, "above-limit");
        self.refused(Join, 10, "above-limit");

        // 65,536 bytes are not too many for the dealing program, whatever it deals.
        let drawn = self.drawn((4, 989, 4, 2), 127);
        let input = dealing_of(&drawn);
        assert_eq!(input.len(), 65_536);
        self.fault(Deal, 9, "input-65536", input);
        // The next point takes two groups and stands in another grid row: they are one more, with
        // two arrays wrong, and 7 comes before 19.
        let input = dealing_of(&Drawn {
            point: 128,
            ..drawn
        });
        assert_eq!(input.len(), 65_537);
        self.fault(Deal, 7, "input-65537", input);
        // Read as a key its value width is the point: the header's own number before 12.
        self.refused(Join, 4, "input-65537.dealing");

        // Keys of two bytes more than the limit. 20 comes before 9.
        let mut drawn = self.drawn((6, 1_569, 196, 1), 1_000);
        let mut keys = drawn.keys();
        self.fault(Deal, 9, "output-65538", dealing_of(&drawn));
        drawn.arrays.swap(0, 32);
        self.fault(Deal, 20, "output-65538-arrays-mixed", dealing_of(&drawn));
        // Joined they are 12, before the last key's 13.
        let header = in_groups(&[6, 5, 1_569, 196, 1]).len();
        keys[5][header..header + 4].fill(0);
        let keys = keys.concat();
        assert_eq!(keys.len(), 65_538);
        self.fault(Join, 12, "input-65538", keys);
        // Read as a dealing they have no positions: 2 before 7.
        self.refused(Deal, 2, "input-65538.keys");

        // A table of 65,538 bytes. The last key's 13 comes before 9.
        let mut keys = self.drawn((2, 32_769, 256, 2), 32_768).keys();
        self.fault(Join, 9, "table-65538", keys.concat());
        let header = in_groups(&[2, 1, 32_769, 256, 2]).len();
        keys[1][header] = 0;
        self.fault(Join, 13, "table-65538-no-marks", keys.concat());
    }

    /// The files at a limit with more behind them. A program that reads no more than 65,536 bytes
    /// answers some of these as if they ended there.
    fn longer(&mut self) {
        for (program, number, input) in ONE_MORE {
            self.refused_with(program, number, input, 1);
        }
        for (program, number, input) in WHOLE {
            for length in ABOVE {
                let zeros = length - self.files[input].len();
                self.refused_with(program, number, input, zeros);
            }
        }
    }
}

/// The dealing program's input.
fn dealing_of(drawn: &Drawn) -> Vec<u8> {
    program_input(&deal_numbers(drawn), drawn)
}
