//! Header numbers: groups of seven bits, lowest group first.

use crate::refusal;

/// "at most three groups".
const MOST_GROUPS: usize = 3;

/// "The header reader gives back a number and itself moved on."
pub struct Reader<'a> {
    bytes: &'a [u8],
}

impl<'a> Reader<'a> {
    pub fn new(bytes: &'a [u8]) -> Reader<'a> {
        Reader { bytes }
    }

    /// The next number, and the reader moved on; 10 when the number is "cut short, over three
    /// groups or not shortest".
    pub fn number(self) -> Result<(u32, Reader<'a>), u32> {
        let mut number = 0;
        for group in 0..MOST_GROUPS {
            // Cut short: another group should follow, and there is none.
            let Some(&byte) = self.bytes.get(group) else {
                return Err(refusal::HEADER_NUMBER);
            };
            // "groups of seven bits, lowest group first"
            number |= u32::from(byte & 0x7F) << (7 * group);
            // "bit 7 set when another group follows"
            if byte & 0x80 == 0 {
                // "shortest form only": a last group of zero bits could have been left out,
                // unless it is the only one.
                if group > 0 && byte == 0 {
                    return Err(refusal::HEADER_NUMBER);
                }
                let rest = &self.bytes[group + 1..];
                return Ok((number, Reader { bytes: rest }));
            }
        }
        // The third group says that a fourth follows.
        Err(refusal::HEADER_NUMBER)
    }

    /// Five numbers in a row: both headers of document 01 have five.
    pub fn five_numbers(self) -> Result<([u32; 5], Reader<'a>), u32> {
        let mut numbers = [0; 5];
        let mut reader = self;
        for number in &mut numbers {
            (*number, reader) = reader.number()?;
        }
        Ok((numbers, reader))
    }

    /// What stands after the numbers read.
    pub fn rest(self) -> &'a [u8] {
        self.bytes
    }
}

/// The groups of a number below 2^21, in their shortest form.
pub fn groups(number: u32) -> Vec<u8> {
    assert!(number < 1 << (7 * MOST_GROUPS));
    let mut bytes = Vec::new();
    let mut left = number;
    loop {
        let group = (left & 0x7F) as u8;
        left >>= 7;
        if left == 0 {
            bytes.push(group);
            return bytes;
        }
        bytes.push(group | 0x80);
    }
}
