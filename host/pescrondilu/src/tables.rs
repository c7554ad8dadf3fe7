//! The cosine tables that this crate lends to the core.
//!
//! A table has 4097 entries: entry i is cos(2 pi i / 4096), and the last entry is the first one
//! again, so that each entry has a right neighbour. The core takes any table; the calls that end in
//! `_with` lend one of yours.
//!
//! A table is made when it is first asked for. Where no block may wait for that, ask for it at the
//! start of the program.

use core::f64::consts::TAU;
use std::sync::OnceLock;

use crate::num;
use crate::types::RealSample;

/// Entries of a table.
pub const LENGTH: usize = 4097;

/// Entries of a turn.
const TURN: usize = LENGTH - 1;
const QUARTER: usize = TURN / 4;

/// The table of f32, each entry rounded once. 1, 0, -1 and 0 at the quarters are exact.
///
/// ```
/// use pescrondilu::tables;
///
/// let table = tables::cos_f32();
/// assert_eq!(table.len(), tables::LENGTH);
/// assert_eq!([table[0], table[1024], table[2048], table[3072]], [1.0, 0.0, -1.0, 0.0]);
/// assert_eq!(table[4096], table[0]);
/// ```
pub fn cos_f32() -> &'static [f32] {
    static TABLE: OnceLock<Box<[f32]>> = OnceLock::new();
    TABLE.get_or_init(|| made(|x| x as f32))
}

/// The table of Q15 as integers, each entry by [`num::q15_from_f64`]: 32767 stands for 1.
///
/// ```
/// use pescrondilu::tables;
///
/// let table = tables::cos_q15();
/// assert_eq!(table.len(), tables::LENGTH);
/// assert_eq!([table[0], table[1024], table[2048], table[3072]], [32767, 0, -32768, 0]);
/// ```
pub fn cos_q15() -> &'static [i16] {
    static TABLE: OnceLock<Box<[i16]>> = OnceLock::new();
    TABLE.get_or_init(|| made(|x| num::q15_from_f64(x).0))
}

/// The table of the format `T`, for calls that take a lent one.
///
/// ```
/// use pescrondilu::{Q15, tables};
///
/// assert_eq!(tables::cos::<f32>(), tables::cos_f32());
/// assert_eq!(tables::cos::<Q15>()[0], Q15(32767));
/// ```
pub fn cos<T: RealSample>() -> &'static [T] {
    T::table()
}

fn made<V>(rounded: impl Fn(f64) -> V) -> Box<[V]> {
    (0..LENGTH).map(|i| rounded(cosine(i))).collect()
}

/// cos(2 pi i / 4096), folded into the first quarter so that the table has the cosine's symmetries.
fn cosine(i: usize) -> f64 {
    let k = i.min(TURN - i);
    if k <= QUARTER {
        in_quarter(k)
    } else {
        -in_quarter(TURN / 2 - k)
    }
}

/// The cosine in the first quarter. Its end is 0, which no f64 near pi / 2 gives.
fn in_quarter(k: usize) -> f64 {
    if k == QUARTER {
        0.0
    } else {
        (k as f64 / TURN as f64 * TAU).cos()
    }
}
