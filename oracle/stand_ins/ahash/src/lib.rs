//! Stands in for the crate ahash: a hasher of the same kind, by folded multiplications from fixed keys.
//! No answer depends on its values, since every choice among the solutions of a map has a rule for ties.

use std::hash::Hasher;

const MULTIPLE: u64 = 6364136223846793005;

pub struct AHasher {
    buffer: u64,
}

impl AHasher {
    fn update(&mut self, value: u64) {
        self.buffer = fold(self.buffer ^ value, MULTIPLE);
    }
}

impl Default for AHasher {
    fn default() -> Self {
        Self {
            buffer: 0x243f_6a88_85a3_08d3,
        }
    }
}

impl Hasher for AHasher {
    fn write(&mut self, bytes: &[u8]) {
        let (words, rest) = bytes.as_chunks::<8>();

        for word in words {
            self.update(u64::from_le_bytes(*word));
        }

        for &byte in rest {
            self.update(byte as u64);
        }
    }

    fn write_usize(&mut self, value: usize) {
        self.update(value as u64)
    }

    fn finish(&self) -> u64 {
        fold(self.buffer, 0x1319_8a2e_0370_7344).rotate_left((self.buffer & 63) as u32)
    }
}

fn fold(one: u64, other: u64) -> u64 {
    let product = one as u128 * other as u128;

    product as u64 ^ (product >> 64) as u64
}
