//! crates/c_numbers.

#[repr(C)]
#[derive(Clone, Copy, Debug, PartialEq)]
pub struct Pair {
    pub c: f32,
    pub s: f32,
}

layout!(Pair, 8, c 0, s 4);

#[repr(C)]
#[derive(Clone, Copy, Debug, PartialEq, Eq)]
pub struct CodedQ14 {
    pub code: u32,
    pub value: i16,
}

layout!(CodedQ14, 8, code 0, value 4);

/// The fast correction, and whether the quick way served.
#[repr(C)]
#[derive(Clone, Copy, Debug, PartialEq, Eq)]
pub struct Corrected {
    pub step: u32,
    pub quick: bool,
}

layout!(Corrected, 8, step 0, quick 4);

unsafe extern "C" {
    pub safe fn pescrondilu_sat16(x: i64) -> i16;
    pub safe fn pescrondilu_round_shift(x: i64, s: u32) -> i64;
    pub safe fn pescrondilu_q15_product(a: i16, b: i16) -> i64;
    pub safe fn pescrondilu_q15_mul(a: i16, b: i16) -> i16;
    pub safe fn pescrondilu_q15_add_sat(a: i16, b: i16) -> i16;
    pub safe fn pescrondilu_q15_sub_sat(a: i16, b: i16) -> i16;
    pub safe fn pescrondilu_low32(x: i64) -> u32;
    pub safe fn pescrondilu_phase_twice(p: u32) -> u32;
    pub safe fn pescrondilu_phase_thrice(p: u32) -> u32;
    pub safe fn pescrondilu_floor_f64(x: f64) -> f64;
    pub safe fn pescrondilu_half_even_f64(x: f64) -> f64;
    pub safe fn pescrondilu_f64_to_f32(x: f64) -> f32;
    pub safe fn pescrondilu_i64_to_f64(n: i64) -> f64;
    pub safe fn pescrondilu_f64_to_i64(x: f64) -> i64;
    pub safe fn pescrondilu_f32_to_f64(x: f32) -> f64;
    pub safe fn pescrondilu_is_finite_f32(x: f32) -> bool;
    pub safe fn pescrondilu_is_finite_f64(x: f64) -> bool;
    pub safe fn pescrondilu_flush_denormal(x: f32) -> f32;
    pub safe fn pescrondilu_floor_scaled(x: f64, scale: f64) -> i64;
    pub safe fn pescrondilu_q15_from_f64(x: f64) -> i16;
    pub safe fn pescrondilu_q14_from_f64(x: f64) -> CodedQ14;
    pub safe fn pescrondilu_correction_plain(f: f32) -> u32;
    pub safe fn pescrondilu_correction_fast(f: f32) -> Corrected;
    pub safe fn pescrondilu_quick_serves(v: f64) -> bool;
    pub fn pescrondilu_cos_f32(table: *const f32, n: usize, p: u32) -> f32;
    pub fn pescrondilu_interp_f32_pair(table: *const f32, n: usize, p: u32) -> Pair;
    pub fn pescrondilu_cos_q15(table: *const i16, n: usize, p: u32) -> i16;
    pub fn pescrondilu_interp_q15(table: *const i16, n: usize, p: u32) -> i32;
}

// SAFETY, for each call below: the pointer and the length are those of one slice.

#[inline]
pub fn cos_f32(table: &[f32], p: u32) -> f32 {
    unsafe { pescrondilu_cos_f32(table.as_ptr(), table.len(), p) }
}

#[inline]
pub fn interp_f32_pair(table: &[f32], p: u32) -> Pair {
    unsafe { pescrondilu_interp_f32_pair(table.as_ptr(), table.len(), p) }
}

#[inline]
pub fn cos_q15(table: &[i16], p: u32) -> i16 {
    unsafe { pescrondilu_cos_q15(table.as_ptr(), table.len(), p) }
}

#[inline]
pub fn interp_q15(table: &[i16], p: u32) -> i32 {
    unsafe { pescrondilu_interp_q15(table.as_ptr(), table.len(), p) }
}
