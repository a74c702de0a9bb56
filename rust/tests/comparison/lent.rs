//! Bytes lent to a call, with a guard on both sides, so that a byte changed in or beside them is seen.

use reference::draw::Generator;
use std::hint::black_box;

/// The least bytes of a guard. The front one is up to 15 longer: lent bytes begin at every alignment.
const GUARD: usize = 32;

pub struct Lent {
    bytes: Vec<u8>,
    before: Vec<u8>,
    start: usize,
    length: usize,
    /// An empty slice of its own, whose pointer leads to no byte at all.
    nowhere: bool,
}

impl Lent {
    /// An output, which holds bytes of every kind.
    pub fn output(length: usize, generator: &mut Generator) -> Lent {
        let start = GUARD + generator.below(16);
        let first = generator.number() as usize;
        let bytes: Vec<u8> = (0..start + length + GUARD).map(|place| (first + 101 * place) as u8).collect();
        let nowhere = length == 0 && generator.below(2) == 0;
        Lent { before: bytes.clone(), bytes, start, length, nowhere }
    }

    /// An input.
    pub fn input(input: &[u8], generator: &mut Generator) -> Lent {
        let mut lent = Lent::output(input.len(), generator);
        lent.bytes[lent.start..][..lent.length].copy_from_slice(input);
        lent.before.clone_from(&lent.bytes);
        lent
    }

    pub fn bytes(&self) -> &[u8] {
        if self.nowhere {
            return &[];
        }
        &self.bytes[self.start..][..self.length]
    }

    pub fn bytes_mut(&mut self) -> &mut [u8] {
        if self.nowhere {
            return &mut [];
        }
        &mut self.bytes[self.start..][..self.length]
    }

    /// Whether every byte is as it was, but for the first `written` that were lent.
    pub fn kept_past(&self, written: usize) -> bool {
        let (bytes, before) = (black_box(&self.bytes), &self.before);
        let past = self.start + written;
        bytes[..self.start] == before[..self.start] && bytes[past..] == before[past..]
    }
}
