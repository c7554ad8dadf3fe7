//! Tables and blocks from a seed, by the formula that crates/test_samples has for kind 0.

use crate::answers::TABLE;

/// The seeds of the two tables.
const TABLE_F32: u64 = 1_000_000;
const TABLE_Q15: u64 = 2_000_000;

const WORD: u64 = 1 << 32;

/// 32 bits that look random.
pub fn mixed(n: u64) -> u64 {
    let a = n % WORD * 2654435761 % WORD;
    let b = (a + a / 32768) % WORD;
    let c = b * 2246822519 % WORD;
    (c + c / 8192) % WORD
}

/// An f32's pattern: one in eight of any bits, the others from 2^-8 to 1 in size.
fn pattern(w: u64) -> u64 {
    let v = mixed(w);
    if w % 8 == 0 {
        return v;
    }
    v >> 31 << 31 | (119 + v % 8) << 23 | v / 8 % (1 << 23)
}

pub fn block_f32(seed: u64, n: usize) -> Vec<f32> {
    (0..n as u64)
        .map(|i| f32::from_bits(pattern(mixed(seed % WORD + i)) as u32))
        .collect()
}

pub fn block_q15(seed: u64, n: usize) -> Vec<i16> {
    (0..n as u64)
        .map(|i| mixed(seed % WORD + i) as i16)
        .collect()
}

pub fn table_f32() -> Vec<f32> {
    block_f32(TABLE_F32, TABLE)
}

pub fn table_q15() -> Vec<i16> {
    block_q15(TABLE_Q15, TABLE)
}
