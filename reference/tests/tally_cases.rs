//! The comparison's data on tallies: right, and enough. Each answer is worked out here once more, and
//! by implementations that are wrong in one thing, each of which some stored case tells from the right
//! one.

use reference::board::Board;
use reference::cases::of_tallies;
use reference::data::{
    read_file, write_file, Case, JOIN_SHARES, TALLY_ADD, TALLY_LOOK_UP, TALLY_MAKE, TALLY_RUN,
    TALLY_TOTAL,
};
use reference::join::join_keys;
use reference::key::{check_key, Header};
use reference::open::open_all;
use std::collections::{BTreeMap, BTreeSet};
use std::fs;

/// The operations on one tally.
const OPERATIONS: [u8; 4] = [TALLY_MAKE, TALLY_ADD, TALLY_LOOK_UP, TALLY_TOTAL];

/// Every number that each operation of the file can give, 0 for acceptance.
const ANSWERS: [(u8, &[u32]); 6] = [
    (JOIN_SHARES, &[0]),
    (TALLY_MAKE, &[0, 1, 2, 4, 9, 11]),
    (TALLY_ADD, &[0, 1, 2, 3, 4, 5, 9, 10, 11, 12, 13, 23]),
    (TALLY_LOOK_UP, &[0, 1, 2, 4, 9, 11, 14]),
    (TALLY_TOTAL, &[0, 1, 2, 4, 9, 11]),
    (TALLY_RUN, &[0, 1, 2, 4, 9, 11]),
];

/// The file's fingerprint, FNV-1a on 64 bits, fixed so that every machine makes the same bytes.
const FINGERPRINT: u64 = 0x20C9_9AC4_F88A_B808;

#[test]
fn the_data_is_enough_and_the_same_each_time() {
    let cases = of_tallies();
    let file = write_file(&cases);
    assert_eq!(write_file(&of_tallies()), file);
    assert_eq!(cases.len(), 1_543);
    assert_eq!(file.len(), 356_543);
    let fingerprint = file.iter().fold(0xCBF2_9CE4_8422_2325, |sum: u64, &byte| {
        (sum ^ u64::from(byte)).wrapping_mul(0x100_0000_01B3)
    });
    assert_eq!(fingerprint, FINGERPRINT);
    // Every answer that an operation can give, and no other.
    let mut met: BTreeMap<u8, BTreeSet<u32>> = BTreeMap::new();
    for case in &cases {
        let numbers = met.entry(case.call.operation).or_default();
        numbers.insert(case.answer.refusal);
    }
    let asked = ANSWERS.map(|(operation, numbers)| (operation, numbers.iter().copied().collect()));
    assert_eq!(met, BTreeMap::from(asked));
    assert!(read_file(&file).is_some_and(|read| read == cases));
}

#[test]
fn the_committed_file_is_what_is_made() {
    let path = concat!(env!("CARGO_MANIFEST_DIR"), "/tallies.bin");
    let committed = fs::read(path).expect("the committed file");
    assert!(
        committed == write_file(&of_tallies()),
        "run reference/make-data"
    );
    assert!(include_str!("../FORMAT.md").contains("1,543 cases in 356,543 bytes"));
}

/// Each answer is the call's by this implementation.
#[test]
fn the_answers_are_those_of_the_calls() {
    for case in of_tallies() {
        assert_eq!(case.call.answer(), case.answer);
    }
}

fn tally_cases() -> Vec<Case> {
    let cases = of_tallies().into_iter();
    cases
        .filter(|case| (TALLY_MAKE..=TALLY_RUN).contains(&case.call.operation))
        .collect()
}

/// What is asked for and was not met.
fn missing<T: Ord + Clone>(asked: impl IntoIterator<Item = T>, met: &BTreeSet<T>) -> Vec<T> {
    let asked: BTreeSet<T> = asked.into_iter().collect();
    asked.difference(met).cloned().collect()
}

/// Check key's number, or the header and the full table.
type Opened = Result<(Header, Vec<u8>), u32>;

fn opened(key: &[u8]) -> Opened {
    let header = check_key(key)?;
    let mut table = vec![0; (header.positions * header.value_width) as usize];
    open_all(key, &mut table)?;
    Ok((header, table))
}

/// The keys of all cases, opened once.
fn opened_keys(cases: &[Case]) -> BTreeMap<Vec<u8>, Opened> {
    let mut keys = BTreeMap::new();
    for case in cases {
        for key in keys_of(case) {
            keys.entry(key.to_vec()).or_insert_with(|| opened(key));
        }
    }
    keys
}

/// The keys that a case adds.
fn keys_of(case: &Case) -> Vec<&[u8]> {
    match case.call.operation {
        TALLY_ADD => vec![&case.call.inputs[0]],
        TALLY_RUN => case.call.run_keys(),
        _ => Vec::new(),
    }
}

/// The numbers that come out, and all of the lent output after the call.
type Done = (Result<[u32; 5], u32>, Vec<u8>);

/// The stored answer of a case.
fn stored(case: &Case) -> Done {
    let mut output = case.answer.bytes.clone();
    output.resize(case.call.lent, case.call.fill);
    match case.answer.refusal {
        0 => (Ok(case.answer.results), output),
        number => {
            assert_eq!(case.answer.results, [0; 5]);
            (Err(number), output)
        }
    }
}

/// An implementation that is wrong in one thing, by its name, or right: the name is empty.
struct Implementation<'a> {
    wrong: &'a str,
    case: &'a Case,
    keys: &'a BTreeMap<Vec<u8>, Opened>,
}

impl Implementation<'_> {
    fn is(&self, wrong: &str) -> bool {
        self.wrong == wrong
    }

    /// p, player, N, w and one more number.
    fn numbers(&self) -> [u64; 5] {
        self.case.call.numbers.map(u64::from)
    }

    /// The bytes of the table that are used: N × w, or all where a wrong implementation goes on with a
    /// table that has fewer.
    fn exact(&self, table: &[u8]) -> usize {
        let [_, _, positions, width, _] = self.numbers();
        positions.saturating_mul(width).min(table.len() as u64) as usize
    }

    fn width(&self) -> usize {
        self.numbers()[3] as usize
    }

    /// 1, 2, 4, 11 and 9 of the table.
    fn making(&self, table: usize) -> Result<(), u32> {
        let [players, player, positions, width, _] = self.numbers();
        let modulo = |number: u64, bits: u32, wrong: &str| match self.is(wrong) {
            true => number % (1 << bits),
            false => number,
        };
        let in_range = |number: u64, least: u64, most: u64, most_refused: &str| {
            (least..=most - u64::from(self.is(most_refused))).contains(&number)
        };
        let players_read = modulo(players, 8, "p modulo 2^8");
        let player_read = modulo(player, 8, "player modulo 2^8");
        let positions_read = modulo(positions, 16, "N modulo 2^16");
        let width_read = modulo(width, 8, "w modulo 2^8");
        let no_player = match self.is("player p") {
            true => player_read > players,
            false => player_read >= players,
        };
        let product = u128::from(positions) * u128::from(width);
        let asked = match self.wrong {
            "N × w modulo 2^16" => product % 65_536,
            "N × w modulo 2^8" => product % 256,
            "table of N bytes" => u128::from(positions),
            _ => product,
        };
        let short = match self.is("exact tables") {
            true => table as u128 != asked,
            false => (table as u128) < asked,
        };
        let mut faults = [
            (1, !in_range(players_read, 2, 6, "no p 6")),
            (2, !in_range(positions_read, 1, 65_536, "no N 65,536")),
            (4, !in_range(width_read, 1, 16, "no w 16")),
            (11, no_player),
            (9, short),
        ];
        let orders = ["2 before 1", "4 before 2", "11 before 4", "9 before 11"];
        if let Some(place) = orders.iter().position(|order| self.is(order)) {
            faults.swap(place, place + 1);
        }
        let left_out = |number: u32| self.wrong == format!("no {number}");
        let mut given = faults.iter().filter(|(number, _)| !left_out(*number));
        given
            .find(|(_, fits)| *fits)
            .map_or(Ok(()), |(number, _)| Err(*number))
    }

    fn make(&self, table: &mut [u8]) -> Result<(), u32> {
        self.making(table.len())?;
        let (exact, width) = (self.exact(table), self.width());
        let cleared = match self.wrong {
            "an entry less" => exact - width,
            "a byte less" => exact - 1,
            "a byte more" => exact + 1,
            "an entry more" => exact + width,
            "all" => table.len(),
            "nothing" => 0,
            _ => exact,
        };
        let cleared = cleared.min(table.len());
        table[..cleared].fill(0);
        Ok(())
    }

    /// 23, by the header alone.
    fn differs(&self, header: &Header) -> bool {
        let [players, player, positions, width, _] = self.numbers();
        let [own, own_player] = [header.players, header.player].map(u64::from);
        let [own_positions, own_width] = [header.positions, header.value_width].map(u64::from);
        if self.is("23 by N × w") {
            let product = own_positions * own_width;
            return own != players || own_player != player || product != positions * width;
        }
        let differing = [
            (own != players, "p taken"),
            (own_player != player, "player taken"),
            (own_positions != positions, "N taken"),
            (own_positions % 256 != positions % 256, "N modulo 2^8 taken"),
            (own_width != width, "w taken"),
        ];
        let modulo = self.is("N modulo 2^8 taken");
        let mut differing = differing.into_iter().filter(|(_, wrong)| match *wrong {
            "N taken" => !modulo && !self.is(wrong),
            "N modulo 2^8 taken" => modulo,
            _ => !self.is(wrong),
        });
        differing.any(|(differs, _)| differs)
            || self.is("μ not taken") && header.grid_width != header.positions
    }

    fn add(&self, key: &[u8], table: &mut [u8]) -> Result<(), u32> {
        let making = self.making(table.len());
        let table_last = self.is("table last") && making == Err(9);
        if !self.is("key before tally") && !table_last {
            making?;
        }
        if self.is("23 before Check key") {
            let header = Header::read(key).ok();
            if header.is_some_and(|header| self.differs(&header)) {
                return Err(23);
            }
        }
        let (header, full) = self.keys[key].as_ref().map_err(|number| *number)?;
        if !self.is("23 before Check key") && self.differs(header) {
            return Err(23);
        }
        making?;
        let (exact, width) = (self.exact(table), self.width());
        let added = match self.wrong {
            "first entry left out" => width..exact,
            "last entry left out" => 0..exact - width,
            "last byte left out" => 0..exact - 1,
            _ => 0..exact,
        };
        let shares = full.iter().skip(added.start);
        for (byte, share) in table[added].iter_mut().zip(shares) {
            *byte = match self.wrong {
                "written" => *share,
                "ORed" => *byte | share,
                "summed" => byte.wrapping_add(*share),
                _ => *byte ^ share,
            };
        }
        if self.is("bytes past cleared") {
            table[exact..].fill(0);
        }
        Ok(())
    }

    fn look_up(&self, table: &[u8], output: &mut [u8]) -> Result<(), u32> {
        let [_, _, positions, _, position] = self.numbers();
        let position = match self.wrong {
            "position modulo 2^8" => position % 256,
            "position modulo 2^16" => position % 65_536,
            _ => position,
        };
        let past = match self.wrong {
            "N looked up" => position > positions,
            "N looked up if there" => (position + 1) * self.width() as u64 > table.len() as u64,
            _ => position >= positions,
        };
        if self.is("14 before the table") && past && self.making(usize::MAX).is_ok() {
            return Err(14);
        }
        self.making(table.len())?;
        let width = self.width();
        let short = self.short(output);
        if self.is("output before 14") && short {
            return Err(9);
        }
        if past {
            return Err(if self.is("9 at N") { 9 } else { 14 });
        }
        if short {
            return Err(9);
        }
        let start = match self.wrong {
            "one byte an entry" => position as usize,
            "the entry after" => (position as usize + 1) * width,
            "from the end" => table.len() - (position as usize + 1) * width,
            _ => position as usize * width,
        };
        let mut bytes: Vec<u8> = table.iter().skip(start).take(width).copied().collect();
        bytes.resize(width, 0);
        self.write(&bytes, output);
        Ok(())
    }

    /// 9 of the output.
    fn short(&self, output: &[u8]) -> bool {
        match self.is("exact outputs") {
            true => output.len() != self.width(),
            false => output.len() < self.width(),
        }
    }

    /// Writes an entry.
    fn write(&self, bytes: &[u8], output: &mut [u8]) {
        output[..bytes.len()].copy_from_slice(bytes);
        if self.is("output's rest cleared") {
            output[bytes.len()..].fill(0);
        }
    }

    fn total(&self, table: &[u8], output: &mut [u8]) -> Result<(), u32> {
        self.making(table.len())?;
        if self.short(output) {
            return Err(9);
        }
        let (exact, width) = (self.exact(table), self.width());
        let counted = match self.wrong {
            "last entry left out" => &table[..exact - width],
            "first entry left out" => &table[width..exact],
            "bytes past counted" => table,
            _ => &table[..exact],
        };
        let mut total = vec![0u8; width];
        for (place, byte) in counted.iter().enumerate() {
            let place = match self.is("one byte an entry") {
                true => 0,
                false => place % width,
            };
            total[place] = match self.wrong {
                "summed" => total[place].wrapping_add(*byte),
                "ORed" => total[place] | byte,
                _ => total[place] ^ byte,
            };
        }
        self.write(&total, output);
        Ok(())
    }

    fn run(&self, table: &mut [u8]) -> Result<[u32; 5], u32> {
        self.make(table)?;
        let (mut added, mut sum) = (0, 0);
        let mut taken = BTreeSet::new();
        for (place, key) in (1..).zip(self.case.call.run_keys()) {
            let again = !taken.insert(key);
            if self.is("once") && again {
                added += 1;
                continue;
            }
            match self.add(key, table) {
                Ok(()) => added += 1,
                Err(_) if self.is("ends at a refusal") => break,
                Err(number) => sum += number * place,
            }
        }
        Ok([added, sum, 0, 0, 0])
    }

    fn done(&self) -> Done {
        let call = &self.case.call;
        let mut output = vec![call.fill; call.lent];
        let input = &call.inputs[0];
        let none = |()| [0; 5];
        let result = match call.operation {
            TALLY_MAKE => self.make(&mut output).map(none),
            TALLY_ADD => {
                output[..call.inputs[1].len()].copy_from_slice(&call.inputs[1]);
                self.add(input, &mut output).map(none)
            }
            TALLY_LOOK_UP => self.look_up(input, &mut output).map(none),
            TALLY_TOTAL => self.total(input, &mut output).map(none),
            _ => self.run(&mut output),
        };
        (result, output)
    }
}

/// Wrong in what every operation asks first.
const WRONG_TALLIES: [&str; 20] = [
    "2 before 1",
    "4 before 2",
    "11 before 4",
    "9 before 11",
    "p modulo 2^8",
    "player modulo 2^8",
    "N modulo 2^16",
    "w modulo 2^8",
    "player p",
    "no p 6",
    "no w 16",
    "no 1",
    "no 2",
    "no 4",
    "no 11",
    "no 9",
    "N × w modulo 2^16",
    "N × w modulo 2^8",
    "table of N bytes",
    "exact tables",
];

/// Wrong in an operation's own work.
const WRONG: [(u8, &[&str]); 5] = [
    (
        TALLY_MAKE,
        &[
            "no N 65,536",
            "an entry less",
            "a byte less",
            "a byte more",
            "an entry more",
            "all",
            "nothing",
        ],
    ),
    (
        TALLY_ADD,
        &[
            "p taken",
            "player taken",
            "N taken",
            "N modulo 2^8 taken",
            "w taken",
            "23 by N × w",
            "μ not taken",
            "23 before Check key",
            "key before tally",
            "table last",
            "first entry left out",
            "last entry left out",
            "last byte left out",
            "written",
            "ORed",
            "summed",
            "bytes past cleared",
        ],
    ),
    (
        TALLY_LOOK_UP,
        &[
            "no N 65,536",
            "position modulo 2^8",
            "position modulo 2^16",
            "N looked up",
            "N looked up if there",
            "14 before the table",
            "output before 14",
            "9 at N",
            "one byte an entry",
            "the entry after",
            "from the end",
            "exact outputs",
            "output's rest cleared",
        ],
    ),
    (
        TALLY_TOTAL,
        &[
            "no N 65,536",
            "last entry left out",
            "first entry left out",
            "bytes past counted",
            "one byte an entry",
            "summed",
            "ORed",
            "exact outputs",
            "output's rest cleared",
        ],
    ),
    (
        TALLY_RUN,
        &[
            "no 1",
            "no 2",
            "no 4",
            "no 11",
            "no N 65,536",
            "nothing",
            "an entry less",
            "all",
            "once",
            "ends at a refusal",
            "written",
            "ORed",
            "last entry left out",
            "player taken",
            "N taken",
            "w taken",
            "μ not taken",
        ],
    ),
];

/// Every stored answer is the right one, whole outputs included; and each wrong implementation has another
/// for some case of its operation.
#[test]
fn stored_answers_tell_wrong_implementations() {
    let cases = tally_cases();
    let keys = opened_keys(&cases);
    let told = |wrong: &str, case: &Case| {
        let implementation = Implementation {
            wrong,
            case,
            keys: &keys,
        };
        implementation.done() != stored(case)
    };
    let right = cases.iter().find(|case| told("", case));
    assert_eq!(right, None);
    let of_all = OPERATIONS.map(|operation| (operation, &WRONG_TALLIES[..]));
    for (operation, wrong) in of_all.into_iter().chain(WRONG) {
        for wrong in wrong {
            let mut own = cases.iter().filter(|case| case.call.operation == operation);
            assert!(own.any(|case| told(wrong, case)), "{operation} {wrong}");
        }
    }
}

/// Which of 1, 2, 4, 11 and 9 of the table fit a case, whatever comes first.
fn making_faults(case: &Case) -> [bool; 5] {
    let [players, player, positions, width, _] = case.call.numbers.map(u64::from);
    let table = match case.call.operation {
        TALLY_LOOK_UP | TALLY_TOTAL => case.call.inputs[0].len(),
        _ => case.call.lent,
    };
    [
        !(2..=6).contains(&players),
        !(1..=65_536).contains(&positions),
        !(1..=16).contains(&width),
        player >= players,
        (table as u128) < u128::from(positions) * u128::from(width),
    ]
}

/// Whether what a case asks after these is right: the key, the position and the output.
fn rest_is_right(case: &Case) -> bool {
    let call = &case.call;
    match call.operation {
        TALLY_ADD => check_key(&call.inputs[0]).is_ok(),
        TALLY_LOOK_UP => call.numbers[4] == 0 && call.lent >= 16,
        TALLY_TOTAL => call.lent >= 16,
        _ => true,
    }
}

/// Every choice of 1, 2, 4, 11 and 9 in every operation, with all that comes after right, and with it
/// wrong as well.
#[test]
fn every_choice_of_faults_is_met() {
    let mut met = BTreeSet::new();
    for case in tally_cases() {
        let operation = case.call.operation;
        met.insert((operation, making_faults(&case), rest_is_right(&case)));
    }
    let choices = (1..32).map(|choice| [16, 8, 4, 2, 1].map(|bit| choice & bit != 0));
    let mut asked = Vec::new();
    for choice in choices {
        asked.push((TALLY_MAKE, choice, true));
        for operation in [TALLY_ADD, TALLY_LOOK_UP, TALLY_TOTAL] {
            asked.extend([false, true].map(|right| (operation, choice, right)));
        }
    }
    // N or w above its range is 9 as well on the tables of the runs.
    for faults in [[1, 1], [2, 9], [4, 9], [11, 11], [9, 9]] {
        let choice = [1, 2, 4, 11, 9].map(|number| faults.contains(&number));
        asked.push((TALLY_RUN, choice, true));
    }
    assert_eq!(missing(asked, &met), []);
}

/// Numbers at the ends of their ranges, right modulo 2^8, 2^16 or 2^31, and the largest, where all before
/// them is right.
#[test]
fn numbers_out_of_range_are_refused() {
    let mut met = BTreeSet::new();
    for case in tally_cases() {
        let [players, player, positions, width, _] = case.call.numbers;
        let wrong = match case.answer.refusal {
            1 => players,
            2 => positions,
            4 => width,
            11 => player,
            _ => continue,
        };
        met.insert((case.call.operation, case.answer.refusal, wrong));
    }
    let (byte, short, sign) = (1 << 8, 1 << 16, 1 << 31);
    for operation in OPERATIONS {
        for (number, wrong) in [
            (1, [0, 1, 7, byte + 3, short + 3, sign + 3, u32::MAX]),
            (2, [0, 65_537, 65_538, short + 2, sign, sign + 2, u32::MAX]),
            (4, [0, 17, 18, byte + 2, short + 2, sign + 2, u32::MAX]),
            (11, [3, 4, 255, byte + 1, short + 1, sign + 1, u32::MAX]),
        ] {
            let asked = wrong.map(|wrong| (operation, number, wrong));
            assert_eq!(missing(asked, &met), []);
        }
    }
}

/// Every p and player, N and w in each operation; tables that are exact, a byte longer and an entry longer;
/// outputs that are exact, longer, a byte short and none.
#[test]
fn tallies_have_every_shape() {
    let mut met = BTreeSet::new();
    for case in tally_cases() {
        let [players, player, positions, width, position] = case.call.numbers;
        let operation = case.call.operation;
        let reads = [TALLY_LOOK_UP, TALLY_TOTAL].contains(&operation);
        if case.answer.refusal == 9 && reads && making_faults(&case) == [false; 5] {
            let short = width as usize - case.call.lent;
            met.insert(format!("{operation}, w {width}, output short by {short}"));
            continue;
        }
        if case.answer.refusal != 0 {
            continue;
        }
        let table = if reads {
            case.call.inputs[0].len()
        } else {
            case.call.lent
        };
        let past = match table - (positions * width) as usize {
            0 => "nothing",
            1 => "a byte",
            past if past == width as usize => "an entry",
            _ => "more",
        };
        met.extend([
            format!("{operation}, p {players}, player {player}"),
            format!("{operation}, N {positions}"),
            format!("{operation}, w {width}"),
            format!("{operation}, N {positions}, w {width}"),
            format!("{operation}, {past} past"),
        ]);
        if reads {
            let longer = case.call.lent > width as usize;
            met.insert(format!("{operation}, longer output {longer}"));
        }
        if operation == TALLY_LOOK_UP {
            let ends = [(0, "first"), (positions - 1, "last")];
            let ends = ends.into_iter().filter(|(end, _)| *end == position);
            met.extend(ends.map(|(_, end)| format!("N {positions}, w {width}, {end}")));
        }
        if operation == TALLY_ADD {
            let stood = case.call.inputs[1].len();
            met.insert(format!("more lent {}", case.call.lent > stood));
        }
    }
    let mut asked = vec![
        format!("{TALLY_RUN}, N 65536, w 1"),
        "more lent false".to_string(),
        "more lent true".to_string(),
    ];
    for operation in OPERATIONS {
        for players in 2..=6 {
            for player in 0..players {
                asked.push(format!("{operation}, p {players}, player {player}"));
            }
        }
        for positions in [1, 2, 3, 72, 255, 256, 257] {
            asked.push(format!("{operation}, N {positions}"));
        }
        for width in [1, 2, 5, 16] {
            asked.push(format!("{operation}, w {width}"));
        }
        for past in ["nothing", "a byte", "an entry", "more"] {
            asked.push(format!("{operation}, {past} past"));
        }
    }
    for operation in [TALLY_LOOK_UP, TALLY_TOTAL] {
        for longer in [false, true] {
            asked.push(format!("{operation}, longer output {longer}"));
        }
        for (width, short) in [(1, 1), (2, 1), (2, 2), (5, 1), (16, 1), (16, 16)] {
            asked.push(format!("{operation}, w {width}, output short by {short}"));
        }
    }
    for positions in [1, 2, 3] {
        for width in [1, 2, 16] {
            for end in ["first", "last"] {
                asked.push(format!("N {positions}, w {width}, {end}"));
            }
        }
    }
    assert_eq!(missing(asked, &met), Vec::<String>::new());
}

/// 14 with an output, with one a byte short and with none, at N and beyond, on tables that have bytes there;
/// and 9 of the table before it.
#[test]
fn positions_are_refused_between_tables_and_outputs() {
    let mut met = BTreeSet::new();
    for case in tally_cases() {
        let [_, _, positions, width, position] = case.call.numbers;
        if case.call.operation != TALLY_LOOK_UP || position < positions {
            continue;
        }
        let table = case.call.inputs[0].len() as u64;
        let is_there = (u64::from(position) + 1) * u64::from(width) <= table;
        let lent = case.call.lent.min(width as usize);
        let short = width as usize - lent;
        met.insert((
            case.answer.refusal,
            position.wrapping_sub(positions),
            short,
            is_there,
        ));
        met.insert((case.answer.refusal, position, short, is_there));
    }
    let mut asked = Vec::new();
    for short in [0, 1, 2, 16] {
        asked.push((14, 0, short, true));
        asked.push((14, 1, short, true));
        asked.extend([256, 65_536, 1 << 28, 1 << 31, u32::MAX].map(|at| (14, at, short, false)));
    }
    asked.extend([(9, 0, 0, false), (9, 0, 5, false)]);
    assert_eq!(missing(asked, &met), []);
}

/// Which of p, player, N and w of a key are another than the tally's.
fn differing(case: &Case) -> Option<[bool; 4]> {
    let header = Header::read(&case.call.inputs[0]).ok()?;
    let [players, player, positions, width, _] = case.call.numbers;
    Some([
        header.players != players,
        header.player != player,
        header.positions != positions,
        header.value_width != width,
    ])
}

/// 23 for each of p, player, N and w alone, for every p, and before it 9; for N and w with the same product,
/// and for keys of the same length; with the key's table longer and shorter. Another μ is taken.
#[test]
fn keys_of_other_tallies_are_refused() {
    let mut met = BTreeSet::new();
    let mut widths: BTreeMap<[u32; 4], BTreeSet<u32>> = BTreeMap::new();
    for case in tally_cases() {
        let Ok(header) = check_key(&case.call.inputs[0]) else {
            continue;
        };
        if case.call.operation != TALLY_ADD {
            continue;
        }
        let [players, player, positions, width, _] = case.call.numbers;
        let number = case.answer.refusal;
        let differing = differing(&case).expect("an accepted key");
        let product = |positions, width| u64::from(positions) * u64::from(width);
        let own = product(header.positions, header.value_width);
        met.insert((players, number, differing, "any"));
        met.insert(match own.cmp(&product(positions, width)) {
            std::cmp::Ordering::Less => (0, number, differing, "shorter"),
            std::cmp::Ordering::Equal => (0, number, differing, "as long"),
            std::cmp::Ordering::Greater => (0, number, differing, "longer"),
        });
        if number == 0 {
            let numbers = [players, player, positions, width];
            widths.entry(numbers).or_default().insert(header.grid_width);
        }
    }
    let alone = [0, 1, 2, 3].map(|place| [0, 1, 2, 3].map(|other| other == place));
    let mut asked = Vec::new();
    for players in 2..=6 {
        for differing in alone {
            asked.push((players, 23, differing, "any"));
        }
        asked.push((players, 23, [false, false, true, true], "any"));
        asked.push((players, 23, [true; 4], "any"));
        let taken = widths.iter().filter(|(numbers, _)| numbers[0] == players);
        assert!(taken.into_iter().any(|(_, widths)| widths.len() > 1));
    }
    for differing in [alone[2], alone[3]] {
        asked.extend(["shorter", "longer"].map(|table| (0, 23, differing, table)));
        asked.push((2, 9, differing, "any"));
    }
    asked.push((0, 23, [false, false, true, true], "as long"));
    assert_eq!(missing(asked, &met), []);
}

/// Check key's numbers: alone; where p, player, N or w of the key, if it has them, are another's; and not
/// given where 11 of the tally or 9 of the table fits.
#[test]
fn keys_are_refused_between_tallies_and_23() {
    let mut met = BTreeSet::new();
    for case in tally_cases() {
        if case.call.operation != TALLY_ADD {
            continue;
        }
        let Err(number) = check_key(&case.call.inputs[0]) else {
            continue;
        };
        let differs = differing(&case).is_some_and(|differing| differing.contains(&true));
        met.insert((number, case.answer.refusal, differs));
    }
    let mut asked = vec![(10, 10, false), (10, 11, false), (10, 9, false)];
    for number in [12, 13] {
        asked.extend([(number, number, false), (number, number, true)]);
        asked.extend([(number, 11, true), (number, 9, false)]);
    }
    // These keys have another number than any tally, but for 3 and 5, which are of μ.
    for number in [1, 2, 3, 4, 5, 11] {
        asked.extend([(number, number, true), (number, 11, true)]);
    }
    asked.push((3, 3, false));
    assert_eq!(missing(asked, &met), []);
}

/// One player's part of an evening: the keys in the order in which they are added, and the positions that
/// are looked up.
struct Part {
    keys: Vec<Vec<u8>>,
    positions: Vec<usize>,
}

/// Reads a player's part from a run on: how many cases it has, and what.
fn part(cases: &[Case]) -> Option<(usize, Part)> {
    let run = cases.first()?;
    let own = |case: &&Case| {
        case.call.inputs[0] == run.answer.bytes && case.call.numbers[..4] == run.call.numbers[..4]
    };
    let looked_up = cases[1..].iter().take_while(own);
    let looked_up: Vec<&Case> = looked_up.collect();
    let (last, entries) = looked_up.split_last()?;
    let is_part = run.call.operation == TALLY_RUN
        && last.call.operation == TALLY_TOTAL
        && entries
            .iter()
            .all(|case| case.call.operation == TALLY_LOOK_UP);
    let positions = entries.iter().map(|case| case.call.numbers[4] as usize);
    let part = Part {
        keys: keys_of(run).into_iter().map(<[u8]>::to_vec).collect(),
        positions: positions.collect(),
    };
    is_part.then_some((1 + looked_up.len(), part))
}

/// The words of a key, which all keys of its dealing have.
fn words(key: &[u8]) -> &[u8] {
    let header = check_key(key).expect("an accepted key");
    let board = Board::new(
        header.players,
        header.positions,
        header.grid_width,
        header.value_width,
    );
    let board = board.expect("a board in range");
    &key[key.len() - board.columns() * board.row_bytes()..]
}

/// The joined table of each hunt of an evening, by the words of its keys.
fn hunts(parts: &[Part]) -> Vec<Vec<u8>> {
    let mut tables = Vec::new();
    for first in &parts[0].keys {
        let of_hunt = |part: &Part| {
            let mut keys = part.keys.iter().filter(|key| words(key) == words(first));
            keys.next().expect("each player's key of the hunt").clone()
        };
        let keys: Vec<Vec<u8>> = parts.iter().map(of_hunt).collect();
        let header = check_key(first).expect("an accepted key");
        let mut table = vec![0xEE; (header.positions * header.value_width) as usize];
        assert_eq!(join_keys(&keys.concat(), &mut table), Ok(()));
        tables.push(table);
    }
    tables
}

/// For every p an evening: every player's keys of the same hunts, not all in one order and with more than one
/// μ, two hunts on one square and one of value zero; the joined entries and totals are the XOR of what is
/// hidden.
#[test]
fn evenings_join_to_what_is_hidden() {
    let cases = of_tallies();
    let mut met = BTreeSet::new();
    for (start, first) in cases.iter().enumerate() {
        if first.call.operation != TALLY_RUN || first.call.numbers[1] != 0 {
            continue;
        }
        let [players, _, positions, width, count] =
            first.call.numbers.map(|number| number as usize);
        let (mut at, mut parts) = (start, Vec::new());
        while let Some((length, part)) = part(&cases[at..]) {
            at += length;
            parts.push(part);
        }
        if parts.len() != players {
            continue;
        }
        let hunts = hunts(&parts);
        assert_eq!(hunts.len(), count);
        let hidden = |place: usize| hunts.iter().fold(0, |sum, table| sum ^ table[place]);
        let whole: Vec<u8> = (0..positions * width).map(hidden).collect();
        let total = |byte: usize| whole.iter().skip(byte).step_by(width).fold(0, |a, b| a ^ b);
        let total: Vec<u8> = (0..width).map(total).collect();
        let looked_up = parts[0].positions.iter();
        let mut expected: Vec<&[u8]> = looked_up
            .map(|position| &whole[position * width..][..width])
            .collect();
        expected.push(&total);
        for (joined, expected) in cases[at..].iter().zip(&expected) {
            assert_eq!(joined.call.operation, JOIN_SHARES);
            assert_eq!(joined.answer.bytes, *expected);
        }
        let points = hunts
            .iter()
            .map(|table| table.iter().position(|&byte| byte != 0));
        let points: Vec<Option<usize>> = points.collect();
        let squares: BTreeSet<usize> = points.iter().flatten().map(|at| at / width).collect();
        let covered = squares
            .iter()
            .all(|square| parts[0].positions.contains(square));
        assert!(covered && points.contains(&None));
        assert!(squares.len() < points.iter().flatten().count());
        let order = |part: &Part| -> Vec<Vec<u8>> {
            part.keys.iter().map(|key| words(key).to_vec()).collect()
        };
        let orders: BTreeSet<Vec<Vec<u8>>> = parts.iter().map(order).collect();
        assert!(orders.len() > 1);
        let widths = parts[0]
            .keys
            .iter()
            .map(|key| check_key(key).expect("a key").grid_width);
        assert!(widths.collect::<BTreeSet<_>>().len() > 1);
        let elsewhere = parts[0].positions.len() > squares.len();
        met.insert((players, width, elsewhere));
    }
    let asked = [
        (2, 1, false),
        (2, 16, true),
        (3, 5, true),
        (4, 1, true),
        (5, 2, true),
        (6, 1, true),
    ];
    assert_eq!(missing(asked, &met), []);
}

/// For every p runs in which a key is added twice side by side, three times and with another in between; runs
/// with refused keys before, between and after; with refused keys alone, and with none.
#[test]
fn runs_have_keys_again_and_refused_keys() {
    let mut met = BTreeSet::new();
    for case in tally_cases() {
        if case.call.operation != TALLY_RUN || case.answer.refusal != 0 {
            continue;
        }
        let keys = keys_of(&case);
        let players = case.call.numbers[0];
        let zeros = case.answer.bytes.iter().all(|&byte| byte == 0);
        let [added, sum, rest @ ..] = case.answer.results;
        assert_eq!(rest, [0; 3]);
        assert_eq!(sum == 0, added as usize == keys.len());
        let kind = match keys[..] {
            [] => "no keys",
            [one, again] if one == again => "twice",
            [one, again, third] if one == again && one == third => "three times",
            [one, other, again] if one == again && one != other => "between",
            _ if added == 0 => "refused",
            _ if sum != 0 => "some refused",
            _ => "others",
        };
        met.insert((players, kind, zeros));
    }
    for players in 2..=6 {
        let asked = [
            (players, "no keys", true),
            (players, "twice", true),
            (players, "three times", false),
            (players, "between", false),
            (players, "refused", true),
            (players, "some refused", false),
        ];
        assert_eq!(missing(asked, &met), []);
    }
}
