//! The stored cases of the two programs are those that are made, every answer is met, and they tell
//! a program that reads too little.

use reference::cases::programs::{files, LIST};
use reference::programs::{dealing_program, joining_program, MOST_BYTES};
use std::collections::{BTreeMap, BTreeSet};
use std::fs;
use std::path::Path;

/// The stored files, from this folder.
const STORED: &str = "../crates/test_programs/data";

/// Every number that each program can give, 0 for acceptance.
const ANSWERS: [(&str, &[u32]); 2] = [
    ("deal", &[0, 1, 2, 3, 4, 5, 6, 7, 9, 10, 18, 19, 20]),
    ("join", &[0, 1, 2, 3, 4, 5, 9, 10, 11, 12, 13, 15]),
];

/// A line of the list: the program, the file that it reads, how many bytes, the file that it writes.
fn case(line: &str) -> (&str, &str, usize, &str) {
    let words: Vec<&str> = line.split(' ').collect();
    let [program, input, length, output] = words[..] else {
        panic!("a line of four words: {line}");
    };
    (program, input, length.parse().unwrap(), output)
}

#[test]
fn the_stored_files_are_those_made() {
    let folder = Path::new(env!("CARGO_MANIFEST_DIR")).join(STORED);
    let stored: BTreeMap<String, Vec<u8>> = fs::read_dir(folder)
        .expect("the folder of the cases")
        .map(|entry| {
            let path = entry.unwrap().path();
            let name = path.file_name().unwrap().to_str().unwrap();
            (name.to_string(), fs::read(&path).unwrap())
        })
        .collect();
    let made = files();
    let names = |files: &BTreeMap<String, _>| files.keys().cloned().collect::<Vec<_>>();
    assert_eq!(names(&stored), names(&made));
    for (name, bytes) in &made {
        assert!(stored[name] == *bytes, "{name} is not as it is made");
    }
}

#[test]
fn every_answer_is_met() {
    let list = String::from_utf8(files().remove(LIST).unwrap()).unwrap();
    let mut met: BTreeMap<&str, BTreeSet<u32>> = BTreeMap::new();
    for line in list.lines() {
        let (program, _, _, output) = case(line);
        let refusal = output.strip_prefix("refused-");
        let number = refusal.map_or(0, |number| number.parse().unwrap());
        met.entry(program).or_default().insert(number);
    }
    let all = ANSWERS.map(|(program, numbers)| (program, numbers.iter().copied().collect()));
    assert_eq!(met, BTreeMap::from(all));
}

/// A program that reads no more than the limit answers four cases of each otherwise, all of an
/// input that goes on behind it; with one byte more it answers every case as with the whole.
#[test]
fn one_byte_above_the_limit_is_needed_and_enough() {
    let files = files();
    let list = String::from_utf8(files[LIST].clone()).unwrap();
    let mut otherwise: BTreeMap<&str, usize> = BTreeMap::new();
    for line in list.lines() {
        let (program, input, length, output) = case(line);
        let work = match program {
            "deal" => dealing_program,
            _ => joining_program,
        };
        let mut whole = files[input].clone();
        whole.resize(length, 0);
        let reading = |most: usize| work(&whole[..length.min(most)]);
        assert_eq!(reading(MOST_BYTES + 1), files[output], "{line}");
        if reading(MOST_BYTES) != files[output] {
            *otherwise.entry(program).or_default() += 1;
        }
    }
    assert_eq!(otherwise, BTreeMap::from([("deal", 4), ("join", 4)]));
}
