//! A buffer with bytes before and after the part that is lent.

use std::ops::{Deref, DerefMut};

use crate::testing::random::Random;

/// The least number of bytes before and after the longest part.
const GUARD: usize = 24;

/// The bytes of a buffer, with those around the part that is lent. It reads as
/// that part; all its bytes are compared.
#[derive(Clone, Debug, PartialEq, Eq)]
pub struct Guarded {
    bytes: Vec<u8>,
    start: usize,
    length: usize,
}

impl Guarded {
    /// Any bytes, the part at any place and of the given length, and room for a
    /// part that is too long.
    pub fn drawn(random: &mut Random, length: usize) -> Guarded {
        let start = GUARD + random.below(64);
        let room = length + length.min(300) + 2;
        Guarded {
            bytes: random.bytes(start + room + GUARD),
            start,
            length,
        }
    }

    /// The length of the longest part.
    pub fn room(&self) -> usize {
        self.bytes.len() - self.start - GUARD
    }

    /// Lends a part of another length from now on.
    ///
    /// # Panics
    ///
    /// If there is no room for it.
    pub fn set_length(&mut self, length: usize) {
        assert!(length <= self.room(), "no room for {length} bytes");
        self.length = length;
    }

    /// So many bytes from a place of the longest part on, whatever is lent.
    ///
    /// # Panics
    ///
    /// If there are not so many.
    pub fn at(&self, place: usize, length: usize) -> &[u8] {
        &self.bytes[self.start..][place..place + length]
    }

    /// Where two buffers that differ do so first, counted from the start of the
    /// part that is lent, and the two bytes.
    pub fn difference(&self, other: &Guarded) -> String {
        let mut pairs = self.bytes.iter().zip(&other.bytes);
        let place = pairs.position(|(one, two)| one != two).unwrap_or_default();
        let (one, two) = (self.bytes[place], other.bytes[place]);
        let place = place as isize - self.start as isize;
        format!("at {place}: {one:02x} and {two:02x}")
    }
}

impl Deref for Guarded {
    type Target = [u8];

    fn deref(&self) -> &[u8] {
        &self.bytes[self.start..][..self.length]
    }
}

impl DerefMut for Guarded {
    fn deref_mut(&mut self) -> &mut [u8] {
        &mut self.bytes[self.start..][..self.length]
    }
}
