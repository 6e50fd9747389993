//! A hasher of the numbers of steps, which takes few nanoseconds.

use std::hash::{BuildHasherDefault, Hasher};

/// What builds it.
pub(crate) type Mixing = BuildHasherDefault<Mixer>;

// An odd number near 2^64 over the golden ratio: its products spread over all bits.
const SPREAD: u64 = 0x9E37_79B9_7F4A_7C15;

/// A state of 64 bits, into which numbers are multiplied.
#[derive(Default)]
pub(crate) struct Mixer {
    state: u64,
}

impl Mixer {
    #[inline]
    fn mix(&mut self, bits: u64) {
        let product = u128::from(self.state ^ bits).wrapping_mul(u128::from(SPREAD));
        self.state = (product as u64) ^ (product >> 64) as u64;
    }
}

impl Hasher for Mixer {
    fn write(&mut self, bytes: &[u8]) {
        bytes.iter().for_each(|byte| self.mix(u64::from(*byte)));
    }

    #[inline]
    fn write_usize(&mut self, number: usize) {
        self.mix(number as u64);
    }

    #[inline]
    fn finish(&self) -> u64 {
        self.state
    }
}
