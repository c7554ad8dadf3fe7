//! Each function's answer, over words of 64 bits.
//!
//! A word holds a value's raw bits: an i16 or an i64 with its sign extended, a u32 or an f32's
//! pattern with zeros above it, an f64's pattern, 1 or 0 for a bool. A NaN answer is one fixed
//! word of its format.

use sdrk_core::num;
use sdrk_core::types::Q15;

/// What a word holds.
#[derive(Clone, Copy, PartialEq, Eq)]
pub enum Kind {
    /// No argument: the word is 0.
    Nothing,
    I16,
    U32,
    I64,
    F32,
    F64,
}

pub struct Function {
    pub name: &'static str,
    pub a: Kind,
    pub b: Kind,
    pub answer: fn(u64, u64) -> u64,
}

/// The word of every NaN answer of an f32.
pub const NAN_F32: u64 = 0x7FC0_0000;

/// The word of every NaN answer of an f64.
pub const NAN_F64: u64 = 0x7FF8_0000_0000_0000;

/// The word of a refusal is this plus its number, above every i16.
pub const REFUSAL: u64 = 32768;

pub fn word_i16(x: i16) -> u64 {
    x as i64 as u64
}

pub fn word_f32(x: f32) -> u64 {
    if x.is_nan() {
        NAN_F32
    } else {
        x.to_bits() as u64
    }
}

pub fn word_f64(x: f64) -> u64 {
    if x.is_nan() { NAN_F64 } else { x.to_bits() }
}

fn q15(w: u64) -> Q15 {
    Q15(w as i16)
}

pub fn f32_of(w: u64) -> f32 {
    f32::from_bits(w as u32)
}

pub fn f64_of(w: u64) -> f64 {
    f64::from_bits(w)
}

fn q14_word(answer: Option<i16>) -> u64 {
    answer.map_or(REFUSAL + 18, word_i16)
}

use Kind::{F32, F64, I16, I64, Nothing, U32};

const fn one(name: &'static str, a: Kind, answer: fn(u64, u64) -> u64) -> Function {
    two(name, a, Nothing, answer)
}

const fn two(name: &'static str, a: Kind, b: Kind, answer: fn(u64, u64) -> u64) -> Function {
    Function { name, a, b, answer }
}

/// The functions in the list's order. Where the original has the function, it answers; else the
/// operation of Rust or std that the original uses there.
pub const FUNCTIONS: &[Function] = &[
    one("sat16", I64, |a, _| word_i16(num::sat16(a as i64))),
    two("round_shift", I64, U32, |a, b| {
        num::round_shift(a as i64, b as u32) as u64
    }),
    two("q15_product", I16, I16, |a, b| {
        (a as i16 as i64 * b as i16 as i64) as u64
    }),
    two("q15_mul", I16, I16, |a, b| {
        word_i16(num::q15_mul(q15(a), q15(b)).0)
    }),
    two("q15_add_sat", I16, I16, |a, b| {
        word_i16(num::q15_add_sat(q15(a), q15(b)).0)
    }),
    two("q15_sub_sat", I16, I16, |a, b| {
        word_i16(num::q15_sub_sat(q15(a), q15(b)).0)
    }),
    one("low32", I64, |a, _| a as i64 as u32 as u64),
    one("phase_twice", U32, |a, _| (a as u32).wrapping_mul(2) as u64),
    one("phase_thrice", U32, |a, _| {
        (a as u32).wrapping_mul(3) as u64
    }),
    one("floor_f64", F64, |a, _| word_f64(libm::floor(f64_of(a)))),
    one("half_even_f64", F64, |a, _| word_f64(libm::rint(f64_of(a)))),
    one("f64_to_f32", F64, |a, _| word_f32(f64_of(a) as f32)),
    one("i64_to_f64", I64, |a, _| word_f64(a as i64 as f64)),
    one("f64_to_i64", F64, |a, _| f64_of(a) as i64 as u64),
    one("f32_to_f64", F32, |a, _| word_f64(f32_of(a) as f64)),
    one("is_finite_f32", F32, |a, _| f32_of(a).is_finite() as u64),
    one("is_finite_f64", F64, |a, _| f64_of(a).is_finite() as u64),
    one("flush_denormal", F32, |a, _| {
        word_f32(num::flush_denormal(f32_of(a)))
    }),
    two("floor_scaled", F64, F64, |a, b| {
        libm::floor(f64_of(a) * f64_of(b) + 0.5) as i64 as u64
    }),
    one("q15_from_f64", F64, |a, _| {
        word_i16(num::q15_from_f64(f64_of(a)).0)
    }),
    one("q14_from_f64", F64, |a, _| {
        q14_word(num::q14_from_f64(f64_of(a)))
    }),
];
