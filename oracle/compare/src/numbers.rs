//! The answers of crates/c_numbers, over words as in `numbers_oracle::answers`.

use numbers_oracle::answers::{REFUSAL, f32_of, f64_of, word_f32, word_f64, word_i16};
use pescrondilu_sys::numbers::*;

/// A refusal's value has to be 0: any other shows in the word.
fn q14_word(q: CodedQ14) -> u64 {
    match q.code {
        0 => word_i16(q.value),
        code => (REFUSAL + code as u64 - 100) | word_i16(q.value) << 32,
    }
}

/// Our function of a name.
pub fn function(name: &str) -> Option<fn(u64, u64) -> u64> {
    Some(match name {
        "sat16" => |a, _| word_i16(pescrondilu_sat16(a as i64)),
        "round_shift" => |a, b| pescrondilu_round_shift(a as i64, b as u32) as u64,
        "q15_product" => |a, b| pescrondilu_q15_product(a as i16, b as i16) as u64,
        "q15_mul" => |a, b| word_i16(pescrondilu_q15_mul(a as i16, b as i16)),
        "q15_add_sat" => |a, b| word_i16(pescrondilu_q15_add_sat(a as i16, b as i16)),
        "q15_sub_sat" => |a, b| word_i16(pescrondilu_q15_sub_sat(a as i16, b as i16)),
        "low32" => |a, _| pescrondilu_low32(a as i64) as u64,
        "phase_twice" => |a, _| pescrondilu_phase_twice(a as u32) as u64,
        "phase_thrice" => |a, _| pescrondilu_phase_thrice(a as u32) as u64,
        "floor_f64" => |a, _| word_f64(pescrondilu_floor_f64(f64_of(a))),
        "half_even_f64" => |a, _| word_f64(pescrondilu_half_even_f64(f64_of(a))),
        "f64_to_f32" => |a, _| word_f32(pescrondilu_f64_to_f32(f64_of(a))),
        "i64_to_f64" => |a, _| word_f64(pescrondilu_i64_to_f64(a as i64)),
        "f64_to_i64" => |a, _| pescrondilu_f64_to_i64(f64_of(a)) as u64,
        "f32_to_f64" => |a, _| word_f64(pescrondilu_f32_to_f64(f32_of(a))),
        "is_finite_f32" => |a, _| pescrondilu_is_finite_f32(f32_of(a)) as u64,
        "is_finite_f64" => |a, _| pescrondilu_is_finite_f64(f64_of(a)) as u64,
        "flush_denormal" => |a, _| word_f32(pescrondilu_flush_denormal(f32_of(a))),
        "floor_scaled" => |a, b| pescrondilu_floor_scaled(f64_of(a), f64_of(b)) as u64,
        "q15_from_f64" => |a, _| word_i16(pescrondilu_q15_from_f64(f64_of(a))),
        "q14_from_f64" => |a, _| q14_word(pescrondilu_q14_from_f64(f64_of(a))),
        _ => return None,
    })
}
