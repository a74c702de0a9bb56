//! Document 01, "Marked deals", line by line, with document 02's widths, and the numbers of "Bytes of
//! a key".

use reference::deal::{array_fault, last_word, mark_bytes};
use reference::key::key_length;
use reference::numbers::{groups, Reader};
use reference::open::share_at_cell;
use reference::sensors::sensor_position;
use reference::width::choose_width;

const EVEN: u32 = 0;
const ODD: u32 = 1;

#[test]
fn even_and_odd_arrays_of_three_players() {
    assert_eq!(array_fault(3, EVEN, &[0, 3, 5, 6]), None);
    assert_eq!(array_fault(3, ODD, &[0, 3, 5, 6]), Some((19, 0)));
    assert_eq!(array_fault(3, ODD, &[1, 2, 4, 7]), None);
    assert_eq!(array_fault(3, EVEN, &[1, 2, 4, 7]), Some((19, 0)));
    for (number, neither) in [(20, [0, 3, 5, 5]), (19, [0, 3, 5, 7]), (18, [0, 3, 5, 8])] {
        assert_eq!(array_fault(3, EVEN, &neither), Some((number, 3)));
        assert_eq!(array_fault(3, ODD, &neither), Some((19, 0)));
    }
}

#[test]
fn mark_bytes_of_three_players() {
    let array = [0, 3, 5, 6];
    assert_eq!(mark_bytes(0, &array), [0x06]);
    assert_eq!(mark_bytes(1, &array), [0x0A]);
    assert_eq!(mark_bytes(2, &array), [0x0C]);
}

/// p = 2, N = 2, μ = 2, w = 1, point 1, value 0xA5, array 1, 2, with rows that are given.
#[test]
fn last_word_and_shares_of_given_rows() {
    let array = [1, 2];
    let rows = [vec![0x11, 0x22], vec![0x33, 0x44]];
    let lent: &[u8] = &[0x01, 0x02];
    let last = last_word(&rows, &[lent], 1, &[0xA5]);
    assert_eq!(last, [0x23, 0xC1]);
    let words = [lent, &last];
    for (player, shares) in [(0, [0x10, 0x20]), (1, [0x10, 0x85])] {
        let marked: Vec<(&[u8], Vec<u8>)> = (0..2)
            .filter(|&column| array[column] >> player & 1 == 1)
            .map(|column| (words[column], rows[column].clone()))
            .collect();
        for (cell, share) in shares.into_iter().enumerate() {
            assert_eq!(share_at_cell(&marked, cell, 1), [share]);
        }
    }
}

/// "with w 1 the † widths become 32, 36 and 256".
#[test]
fn widths() {
    assert_eq!(choose_width(2, 64, 1), Ok(32));
    assert_eq!(choose_width(4, 72, 1), Ok(36));
    assert_eq!(choose_width(6, 65_536, 1), Ok(256));
}

#[test]
fn key_lengths() {
    assert_eq!(key_length(4, 72, 24, 1), Ok(584));
    // "that is 36 with 551 bytes, where 24 gave 584".
    assert_eq!(key_length(4, 72, 36, 1), Ok(551));
    // The printed deal: two keys in 158 bytes.
    assert_eq!(key_length(2, 6, 4, 1), Ok(79));
    // The shortest key and the longest.
    assert_eq!(key_length(2, 1, 1, 1), Ok(40));
    assert_eq!(key_length(6, 65_536, 256, 16), Ok(263_176));
}

#[test]
fn grid_rows_stop_at_256() {
    // 256 grid rows of one mark byte and one seed, two words of 256 bytes, a header of eight.
    assert_eq!(key_length(2, 65_536, 256, 1), Ok(8 + 256 * 33 + 512));
    assert_eq!(key_length(2, 65_536, 255, 1), Err(5));
}

#[test]
fn sensors() {
    assert_eq!(sensor_position(8), Ok(15));
    assert_eq!(sensor_position(71), Ok(71));
    assert_eq!(sensor_position(72), Err(17));
}

/// "with line l = s div 8 and c = s mod 8, position 8 × l + c on even lines, 8 × l + 7 − c on
/// odd ones".
#[test]
fn every_sensor_lies_on_its_line() {
    for sensor in 0..72 {
        let (line, c) = (sensor / 8, sensor % 8);
        let along = if line % 2 == 0 { c } else { 7 - c };
        assert_eq!(sensor_position(sensor), Ok(8 * line + along));
    }
}

/// "72 is 0x48, 128 is 0x80 0x01, 65,536 is 0x80 0x80 0x04."
#[test]
fn header_numbers() {
    assert_eq!(groups(72), [0x48]);
    assert_eq!(groups(128), [0x80, 0x01]);
    assert_eq!(groups(65_536), [0x80, 0x80, 0x04]);
}

fn read(bytes: &[u8]) -> Result<(u32, usize), u32> {
    let (number, reader) = Reader::new(bytes).number()?;
    Ok((number, bytes.len() - reader.rest().len()))
}

#[test]
fn every_number_is_read_as_written() {
    for number in 0..1 << 21 {
        let mut bytes = groups(number);
        let length = bytes.len();
        bytes.extend([0xAA, 0xBB]);
        assert_eq!(read(&bytes), Ok((number, length)));
        for cut in 0..length {
            assert_eq!(read(&bytes[..cut]), Err(10));
        }
    }
}

/// Whatever is read is written in the same bytes; all else is 10.
#[test]
fn no_other_bytes_are_read() {
    for first in [0x00, 0x01, 0x7F, 0x80, 0x81, 0xC0, 0xFF] {
        for second in 0..=255 {
            for third in 0..=255 {
                let bytes = [first, second, third, 0x01];
                match read(&bytes) {
                    Ok((number, length)) => assert_eq!(bytes[..length], groups(number)),
                    Err(number) => {
                        assert_eq!(number, 10);
                        let two_groups = second == 0;
                        let three_groups = second & 0x80 != 0 && (third == 0 || third & 0x80 != 0);
                        assert!(first & 0x80 != 0 && (two_groups || three_groups));
                    }
                }
            }
        }
    }
}
