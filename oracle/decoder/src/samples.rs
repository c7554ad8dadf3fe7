//! Tables and samples from a word, by the rules that crates/test_samples has too: above 32 bits the kind,
//! below them the seed or the value.

use sdrk_core::num::q15_from_f64;
use sdrk_core::types::Q15;
use stereo_oracle::samples::mixed;

use crate::answers::Format;

/// A triangle in the place of a cosine.
pub const TRIANGLE: u64 = 1 << 32;
/// One value, which the low bits hold.
pub const ONE: u64 = 2 << 32;
/// Sizes from 2^-8 to 1, which make no NaN.
pub const CALM: u64 = 3 << 32;
/// Any bits, in f32 one time in eight.
pub const ANY: u64 = 0;
/// A sine at the decoder's own phase, of the size that the low bits hold.
pub const SINE: u64 = 4 << 32;

fn drawn(spec: u64, i: usize) -> u64 {
    mixed((spec & 0xFFFF_FFFF) + i as u64)
}

fn triangle(i: usize) -> f64 {
    let k = i % 4096;
    let x = k as f64 / 1024.0;
    if k < 2048 { 1.0 - x } else { x - 3.0 }
}

fn bounded(v: u64) -> u32 {
    (v >> 31 << 31 | (119 + v % 8) << 23 | v / 8 % (1 << 23)) as u32
}

pub trait Made: Format {
    fn sample(spec: u64, i: usize) -> Self::Sample;
    /// The sample that the low bits of a word hold.
    fn low(word: u64) -> Self::Sample;
}

impl Made for f32 {
    fn sample(spec: u64, i: usize) -> f32 {
        match spec >> 32 << 32 {
            TRIANGLE => triangle(i) as f32,
            ONE => Self::low(spec),
            CALM => f32::from_bits(bounded(drawn(spec, i))),
            _ => {
                let w = drawn(spec, i);
                let v = mixed(w);
                f32::from_bits(if w % 8 == 0 { v as u32 } else { bounded(v) })
            }
        }
    }

    fn low(word: u64) -> f32 {
        f32::from_bits(word as u32)
    }
}

impl Made for Q15 {
    fn sample(spec: u64, i: usize) -> i16 {
        match spec >> 32 << 32 {
            TRIANGLE => q15_from_f64(triangle(i)).0,
            ONE => Self::low(spec),
            _ => drawn(spec, i) as i16,
        }
    }

    fn low(word: u64) -> i16 {
        word as i16
    }
}

pub fn filled<F: Made>(spec: u64, n: usize) -> Vec<F::Sample> {
    (0..n).map(|i| F::sample(spec, i)).collect()
}
