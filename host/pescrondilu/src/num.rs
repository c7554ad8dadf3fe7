//! The number helpers that the core has under sdrk's names.

use pescrondilu_sys::numbers as sys;

use crate::types::Q15;

/// Limits to -32768..=32767.
///
/// ```
/// assert_eq!(pescrondilu::num::sat16(-40_000), -32768);
/// ```
#[inline]
pub fn sat16(x: i64) -> i16 {
    sys::pescrondilu_sat16(x)
}

/// Divides by 2^s and rounds to the nearest, a half upwards. 63 or more leaves the sign: -1 or 0.
///
/// ```
/// use pescrondilu::num::round_shift;
///
/// assert_eq!([round_shift(5, 1), round_shift(-5, 1)], [3, -2]);
/// assert_eq!([round_shift(7, 0), round_shift(-7, 63)], [7, -1]);
/// ```
#[inline]
pub fn round_shift(x: i64, s: u32) -> i64 {
    sys::pescrondilu_round_shift(x, s)
}

/// The product, rounded and limited.
///
/// ```
/// use pescrondilu::{Q15, num::q15_mul};
///
/// assert_eq!(q15_mul(Q15(16384), Q15(-16384)), Q15(-8192));
/// ```
#[inline]
pub fn q15_mul(a: Q15, b: Q15) -> Q15 {
    Q15(sys::pescrondilu_q15_mul(a.0, b.0))
}

/// The sum, limited.
///
/// ```
/// use pescrondilu::{Q15, num::q15_add_sat};
///
/// assert_eq!(q15_add_sat(Q15(30_000), Q15(10_000)), Q15::MAX);
/// ```
#[inline]
pub fn q15_add_sat(a: Q15, b: Q15) -> Q15 {
    Q15(sys::pescrondilu_q15_add_sat(a.0, b.0))
}

/// The difference, limited.
///
/// ```
/// use pescrondilu::{Q15, num::q15_sub_sat};
///
/// assert_eq!(q15_sub_sat(Q15(-30_000), Q15(10_000)), Q15::MIN);
/// ```
#[inline]
pub fn q15_sub_sat(a: Q15, b: Q15) -> Q15 {
    Q15(sys::pescrondilu_q15_sub_sat(a.0, b.0))
}

/// The nearest Q15, a half upwards, limited; 0 for a NaN.
///
/// ```
/// use pescrondilu::{Q15, num::q15_from_f64};
///
/// assert_eq!([q15_from_f64(-0.5), q15_from_f64(2.0)], [Q15(-16384), Q15::MAX]);
/// assert_eq!(q15_from_f64(f64::NAN), Q15(0));
/// ```
#[inline]
pub fn q15_from_f64(x: f64) -> Q15 {
    Q15(sys::pescrondilu_q15_from_f64(x))
}

/// As [`q15_from_f64`]; every f32 is an f64.
///
/// ```
/// use pescrondilu::{Q15, num::q15_from_f32};
///
/// assert_eq!(q15_from_f32(0.25), Q15(8192));
/// ```
#[inline]
pub fn q15_from_f32(x: f32) -> Q15 {
    q15_from_f64(f64::from(x))
}

/// The nearest value with 14 places, a half upwards; none where it does not fit (cause 18).
///
/// ```
/// use pescrondilu::num::q14_from_f64;
///
/// assert_eq!([q14_from_f64(1.5), q14_from_f64(2.0)], [Some(24576), None]);
/// ```
#[inline]
pub fn q14_from_f64(x: f64) -> Option<i16> {
    let answer = sys::pescrondilu_q14_from_f64(x);
    (answer.code == 0).then_some(answer.value)
}

/// 0 for a value below 1e-30 in magnitude; a NaN stays.
///
/// ```
/// use pescrondilu::num::flush_denormal;
///
/// assert_eq!([flush_denormal(-1e-31), flush_denormal(1e-29)], [0.0, 1e-29]);
/// ```
#[inline]
pub fn flush_denormal(x: f32) -> f32 {
    sys::pescrondilu_flush_denormal(x)
}
