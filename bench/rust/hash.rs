//! A fast hash of bytes, eight at a time, and the map that it serves.

use crate::Bytes;
use std::collections::HashMap;
use std::hash::{BuildHasherDefault, Hasher};

#[derive(Default, Clone, Copy)]
pub struct WordHash(u64);

impl WordHash {
    #[inline]
    fn add(&mut self, word: u64) {
        self.0 = (self.0.rotate_left(5) ^ word).wrapping_mul(0x517c_c1b7_2722_0a95);
    }
}

impl Hasher for WordHash {
    #[inline]
    fn write(&mut self, mut bytes: &[u8]) {
        while bytes.len() >= 8 {
            self.add(u64::from_le_bytes(bytes[..8].try_into().unwrap()));
            bytes = &bytes[8..];
        }
        let mut rest = 0u64;
        for (at, byte) in bytes.iter().enumerate() {
            rest |= (*byte as u64) << (8 * at);
        }
        self.add(rest ^ ((bytes.len() as u64) << 56));
    }
    #[inline]
    fn write_usize(&mut self, number: usize) {
        self.add(number as u64)
    }
    #[inline]
    fn finish(&self) -> u64 {
        self.0 ^ (self.0 >> 29)
    }
}

/// A number for each key.
pub type Map = HashMap<Bytes, u32, BuildHasherDefault<WordHash>>;
