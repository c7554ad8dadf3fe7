//! crates/c_decoder, crates/c_decoder_q15, crates/c_matrix and crates/c_merged. A struct that both
//! formats have is one here, over the format's number V; S is the format's sample. W is how many
//! corrections took the wide way, a usize in what a fast f32 call replies, and `()` elsewhere, where
//! nothing counts them.

use std::fmt::Debug;

use crate::Code;

/// A decoder's record. A switch is off at 0 and on at anything else.
#[repr(C)]
#[derive(Clone, Copy, Debug, PartialEq)]
pub struct Decoder<V> {
    pub kp: V,
    pub ki: V,
    pub imax: V,
    pub beta: V,
    pub on: V,
    pub off: V,
    pub integ: V,
    pub level: V,
    pub step0: u32,
    pub phase: u32,
    pub stereo: u32,
    pub enabled: u32,
}

layout!(
    Decoder<f32>, 48,
    kp 0, ki 4, imax 8, beta 12, on 16, off 20, integ 24, level 28,
    step0 32, phase 36, stereo 40, enabled 44
);
layout!(
    Decoder<i64>, 80,
    kp 0, ki 8, imax 16, beta 24, on 32, off 40, integ 48, level 56,
    step0 64, phase 68, stereo 72, enabled 76
);

#[repr(C)]
#[derive(Clone, Copy, Debug, PartialEq)]
pub struct Coded<V> {
    pub code: u32,
    pub decoder: Decoder<V>,
}

layout!(Coded<f32>, 52, code 0, decoder 4);
layout!(Coded<i64>, 88, code 0, decoder 8);

/// What a block answers, how many of its corrections took the wide way, and the decoder after it.
/// Where nothing counts them, `wide` takes no room, and C has no such field.
#[repr(C)]
#[derive(Clone, Copy, Debug, PartialEq)]
pub struct Reply<V, W> {
    pub answer: Code,
    pub wide: W,
    pub decoder: Decoder<V>,
}

layout!(Reply<f32, usize>, 80, answer 0, wide 24, decoder 32);
layout!(Reply<f32, ()>, 72, answer 0, decoder 24);
layout!(Reply<i64, ()>, 104, answer 0, decoder 24);

/// How many corrections took the wide way: a usize, or `()` where nothing counts them.
pub trait Count: Copy + Debug + PartialEq {
    /// As C has it: 0 where there is none.
    fn number(self) -> usize;
}

impl Count for usize {
    fn number(self) -> usize {
        self
    }
}

impl Count for () {
    fn number(self) -> usize {
        0
    }
}

#[repr(C)]
#[derive(Clone, Copy, Debug, PartialEq)]
pub struct Readout {
    pub integrator: f64,
    pub integrator_limit: f64,
    pub lock_level: f64,
    pub phase: u32,
    pub stereo: u32,
    pub enabled: u32,
}

layout!(
    Readout, 40,
    integrator 0, integrator_limit 8, lock_level 16, phase 24, stereo 28, enabled 32
);

/// What a scan of an f32 pilot tells. The switch is 0 or 1.
#[repr(C)]
#[derive(Clone, Copy, Debug, PartialEq, Eq)]
pub struct Scanned {
    pub finite: u32,
    pub read: usize,
}

layout!(Scanned, 16, finite 0, read 8);

type New<V> = extern "C" fn(f64, f64, f64, f64, f64) -> Coded<V>;
type Set<V> = extern "C" fn(Decoder<V>) -> Decoder<V>;
type Read<V> = extern "C" fn(Decoder<V>) -> Readout;
/// A block of either way, or a merged one.
pub type Block<V, S, W> = unsafe extern "C" fn(
    Decoder<V>,
    *const S,
    usize,
    *const S,
    usize,
    *const S,
    usize,
    *mut S,
    usize,
    *mut S,
    usize,
) -> Reply<V, W>;
type Matrix<S> =
    unsafe extern "C" fn(*const S, usize, *const S, usize, *mut S, usize, *mut S, usize) -> Code;

/// A format by its sample: its number, its count and its functions.
pub trait Sample: Copy {
    type Value: Copy;
    /// What a fast call counts: in f32 the wide corrections, in Q15, which has no wide way, nothing.
    type Wide: Count;
    const NEW: New<Self::Value>;
    const ENABLE: Set<Self::Value>;
    const DISABLE: Set<Self::Value>;
    const RESET: Set<Self::Value>;
    const READ: Read<Self::Value>;
    const BLOCK: Block<Self::Value, Self, Self::Wide>;
    const PLAIN_BLOCK: Block<Self::Value, Self, ()>;
    const MERGED_BLOCK: Block<Self::Value, Self, Self::Wide>;
    const MATRIX: Matrix<Self>;
}

macro_rules! format {
    (
        $value:ty, $sample:ty, $wide:ty, $new:ident, $enable:ident, $disable:ident, $reset:ident,
        $read:ident, $block:ident, $plain_block:ident, $merged_block:ident, $matrix:ident
    ) => {
        unsafe extern "C" {
            pub safe fn $new(
                pilot: f64,
                natural: f64,
                level: f64,
                beta: f64,
                rate: f64,
            ) -> Coded<$value>;
            pub safe fn $enable(d: Decoder<$value>) -> Decoder<$value>;
            pub safe fn $disable(d: Decoder<$value>) -> Decoder<$value>;
            pub safe fn $reset(d: Decoder<$value>) -> Decoder<$value>;
            pub safe fn $read(d: Decoder<$value>) -> Readout;
            pub fn $block(
                d: Decoder<$value>,
                table: *const $sample,
                table_n: usize,
                mpx: *const $sample,
                mpx_n: usize,
                pilot: *const $sample,
                pilot_n: usize,
                sum: *mut $sample,
                sum_n: usize,
                difference: *mut $sample,
                difference_n: usize,
            ) -> Reply<$value, $wide>;
            pub fn $plain_block(
                d: Decoder<$value>,
                table: *const $sample,
                table_n: usize,
                mpx: *const $sample,
                mpx_n: usize,
                pilot: *const $sample,
                pilot_n: usize,
                sum: *mut $sample,
                sum_n: usize,
                difference: *mut $sample,
                difference_n: usize,
            ) -> Reply<$value, ()>;
            pub fn $merged_block(
                d: Decoder<$value>,
                table: *const $sample,
                table_n: usize,
                mpx: *const $sample,
                mpx_n: usize,
                pilot: *const $sample,
                pilot_n: usize,
                left: *mut $sample,
                left_n: usize,
                right: *mut $sample,
                right_n: usize,
            ) -> Reply<$value, $wide>;
            pub fn $matrix(
                sum: *const $sample,
                sum_n: usize,
                difference: *const $sample,
                difference_n: usize,
                left: *mut $sample,
                left_n: usize,
                right: *mut $sample,
                right_n: usize,
            ) -> Code;
        }

        impl Sample for $sample {
            type Value = $value;
            type Wide = $wide;
            const NEW: New<$value> = $new;
            const ENABLE: Set<$value> = $enable;
            const DISABLE: Set<$value> = $disable;
            const RESET: Set<$value> = $reset;
            const READ: Read<$value> = $read;
            const BLOCK: Block<$value, $sample, $wide> = $block;
            const PLAIN_BLOCK: Block<$value, $sample, ()> = $plain_block;
            const MERGED_BLOCK: Block<$value, $sample, $wide> = $merged_block;
            const MATRIX: Matrix<$sample> = $matrix;
        }
    };
}

format!(
    f32,
    f32,
    usize,
    pescrondilu_f32_new,
    pescrondilu_f32_enable,
    pescrondilu_f32_disable,
    pescrondilu_f32_reset,
    pescrondilu_f32_read,
    pescrondilu_f32_block,
    pescrondilu_f32_plain_block,
    pescrondilu_f32_merged_block,
    pescrondilu_matrix_f32
);
format!(
    i64,
    i16,
    (),
    pescrondilu_q15_new,
    pescrondilu_q15_enable,
    pescrondilu_q15_disable,
    pescrondilu_q15_reset,
    pescrondilu_q15_read,
    pescrondilu_q15_block,
    pescrondilu_q15_plain_block,
    pescrondilu_q15_merged_block,
    pescrondilu_matrix_q15
);

unsafe extern "C" {
    pub fn pescrondilu_f32_scan(pilot: *const f32, pilot_n: usize) -> Scanned;
}

// SAFETY, for each call below: a pointer and a length are those of one slice, and no output
// overlaps another argument.

/// A block of either way, or a merged one, with its slices.
#[inline]
fn call<S: Sample, W>(
    block: Block<S::Value, S, W>,
    d: Decoder<S::Value>,
    [table, mpx, pilot]: [&[S]; 3],
    [first, second]: [&mut [S]; 2],
) -> Reply<S::Value, W> {
    unsafe {
        block(
            d,
            table.as_ptr(),
            table.len(),
            mpx.as_ptr(),
            mpx.len(),
            pilot.as_ptr(),
            pilot.len(),
            first.as_mut_ptr(),
            first.len(),
            second.as_mut_ptr(),
            second.len(),
        )
    }
}

/// A block, the fast way.
#[inline]
pub fn block<S: Sample>(
    d: Decoder<S::Value>,
    table: &[S],
    mpx: &[S],
    pilot: &[S],
    sum: &mut [S],
    difference: &mut [S],
) -> Reply<S::Value, S::Wide> {
    call(S::BLOCK, d, [table, mpx, pilot], [sum, difference])
}

/// A block, the plain way.
#[inline]
pub fn plain_block<S: Sample>(
    d: Decoder<S::Value>,
    table: &[S],
    mpx: &[S],
    pilot: &[S],
    sum: &mut [S],
    difference: &mut [S],
) -> Reply<S::Value, ()> {
    call(S::PLAIN_BLOCK, d, [table, mpx, pilot], [sum, difference])
}

/// Left and right, from the block's sum and difference.
#[inline]
pub fn merged_block<S: Sample>(
    d: Decoder<S::Value>,
    table: &[S],
    mpx: &[S],
    pilot: &[S],
    left: &mut [S],
    right: &mut [S],
) -> Reply<S::Value, S::Wide> {
    call(S::MERGED_BLOCK, d, [table, mpx, pilot], [left, right])
}

#[inline]
pub fn scan(pilot: &[f32]) -> Scanned {
    unsafe { pescrondilu_f32_scan(pilot.as_ptr(), pilot.len()) }
}

#[inline]
pub fn matrix<S: Sample>(sum: &[S], difference: &[S], left: &mut [S], right: &mut [S]) -> Code {
    unsafe {
        S::MATRIX(
            sum.as_ptr(),
            sum.len(),
            difference.as_ptr(),
            difference.len(),
            left.as_mut_ptr(),
            left.len(),
            right.as_mut_ptr(),
            right.len(),
        )
    }
}
