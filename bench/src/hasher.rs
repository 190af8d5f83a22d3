//! The hasher of all maps, Rattle's `FoldHasher`. A key has the hash that it has in `papaya-bench`.
use std::hash::{BuildHasherDefault, Hasher};

const MULTIPLIER: u64 = 0x9e37_79b9_7f4a_7c15;

/// The builder that a map is made with.
pub type Folding = BuildHasherDefault<FoldHasher>;

/// Multiplies to 128 bits, and joins the halves by exclusive or. Its seed is fixed.
#[derive(Clone, Copy)]
pub struct FoldHasher(u64);

impl Default for FoldHasher {
    fn default() -> FoldHasher {
        FoldHasher(0x243f_6a88_85a3_08d3)
    }
}

impl Hasher for FoldHasher {
    #[inline(always)]
    fn finish(&self) -> u64 {
        self.0
    }

    #[inline(always)]
    fn write_u64(&mut self, number: u64) {
        // 16 is twice the length in bytes.
        self.0 = folded(self.0 ^ number, MULTIPLIER ^ 16);
    }

    fn write(&mut self, bytes: &[u8]) {
        let len = bytes.len();
        if len <= 8 {
            self.0 = folded(self.0 ^ read_short(bytes), MULTIPLIER ^ (2 * len as u64));
            return;
        }
        let mut state = self.0.wrapping_add(len as u64);
        let mut at = 0;
        while len - at > 16 {
            state = folded(
                read_u64(bytes, at) ^ state,
                read_u64(bytes, at + 8) ^ MULTIPLIER,
            );
            at += 16;
        }
        self.0 = folded(
            read_u64(bytes, len.saturating_sub(16)) ^ state,
            read_u64(bytes, len - 8) ^ MULTIPLIER,
        );
    }
}

#[inline(always)]
fn folded(a: u64, b: u64) -> u64 {
    let product = u128::from(a) * u128::from(b);
    product as u64 ^ (product >> 64) as u64
}

#[inline(always)]
fn read_u32(bytes: &[u8], at: usize) -> u64 {
    let part = [bytes[at], bytes[at + 1], bytes[at + 2], bytes[at + 3]];
    u64::from(u32::from_le_bytes(part))
}

#[inline(always)]
fn read_u64(bytes: &[u8], at: usize) -> u64 {
    read_u32(bytes, at) | read_u32(bytes, at + 4) << 32
}

/// Returns up to 8 bytes as one number, by reads that may overlap.
fn read_short(bytes: &[u8]) -> u64 {
    match bytes.len() {
        0 => 0,
        1..=3 => {
            let [first, middle, last] = [0, bytes.len() / 2, bytes.len() - 1].map(|at| bytes[at]);
            u64::from(first) | u64::from(middle) << 8 | u64::from(last) << 16
        }
        len => read_u32(bytes, 0) | read_u32(bytes, len - 4) << 32,
    }
}
