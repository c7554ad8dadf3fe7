//! crates/c_summary and crates/c_summary_q15: a summary beside the pairs. A struct that both formats
//! have is one here, over the format's sample S, the decoder's number V and the count of wide
//! corrections W.

use crate::Code;
use crate::decoder::{Decoder, Sample};

/// A summary's record: the period, what is held of an unfinished one, and the decision of the
/// sample before. The switch is off at 0 and on at anything else.
#[repr(C)]
#[derive(Clone, Copy, Debug, PartialEq)]
pub struct Summary<S> {
    pub period: u32,
    pub stereo: u32,
    pub mono: u32,
    pub changes: u32,
    pub magnitude: S,
    pub before: u32,
}

layout!(Summary<f32>, 24, period 0, stereo 4, mono 8, changes 12, magnitude 16, before 20);
layout!(Summary<i16>, 24, period 0, stereo 4, mono 8, changes 12, magnitude 16, before 20);

/// What a block answers, how many of its corrections took the wide way, and the decoder and the
/// summary after it.
#[repr(C)]
#[derive(Clone, Copy, Debug, PartialEq)]
pub struct SummaryReply<V, S, W> {
    pub answer: Code,
    pub wide: W,
    pub decoder: Decoder<V>,
    pub summary: Summary<S>,
}

layout!(SummaryReply<f32, f32, usize>, 104, answer 0, wide 24, decoder 32, summary 80);
layout!(SummaryReply<i64, i16, ()>, 128, answer 0, decoder 24, summary 104);

type New<S> = extern "C" fn(u32) -> Summary<S>;
type Block<V, S, W> = unsafe extern "C" fn(
    Decoder<V>,
    Summary<S>,
    *const S,
    usize,
    *const S,
    usize,
    *const S,
    usize,
    *mut S,
    usize,
    *mut S,
    usize,
    *mut u32,
    usize,
    *mut u32,
    usize,
    *mut u32,
    usize,
    *mut S,
    usize,
) -> SummaryReply<V, S, W>;

/// A format's summary functions.
pub trait Summed: Sample {
    const SUMMARY_NEW: New<Self>;
    const SUMMARY_BLOCK: Block<Self::Value, Self, Self::Wide>;
}

macro_rules! format {
    ($value:ty, $sample:ty, $wide:ty, $new:ident, $block:ident) => {
        unsafe extern "C" {
            pub safe fn $new(period: u32) -> Summary<$sample>;
            pub fn $block(
                d: Decoder<$value>,
                s: Summary<$sample>,
                table: *const $sample,
                table_n: usize,
                mpx: *const $sample,
                mpx_n: usize,
                pilot: *const $sample,
                pilot_n: usize,
                sum: *mut $sample,
                sum_n: usize,
                difference: *mut $sample,
                difference_n: usize,
                stereo: *mut u32,
                stereo_n: usize,
                mono: *mut u32,
                mono_n: usize,
                changes: *mut u32,
                changes_n: usize,
                magnitude: *mut $sample,
                magnitude_n: usize,
            ) -> SummaryReply<$value, $sample, $wide>;
        }

        impl Summed for $sample {
            const SUMMARY_NEW: New<$sample> = $new;
            const SUMMARY_BLOCK: Block<$value, $sample, $wide> = $block;
        }
    };
}

format!(
    f32,
    f32, usize, pescrondilu_f32_summary_new, pescrondilu_f32_summary_block
);
format!(
    i64,
    i16,
    (),
    pescrondilu_q15_summary_new,
    pescrondilu_q15_summary_block
);

/// A block with its summaries. The last four outputs have as many places as periods end in it.
#[inline]
#[allow(clippy::too_many_arguments)]
pub fn summary_block<S: Summed>(
    d: Decoder<S::Value>,
    s: Summary<S>,
    table: &[S],
    mpx: &[S],
    pilot: &[S],
    sum: &mut [S],
    difference: &mut [S],
    stereo: &mut [u32],
    mono: &mut [u32],
    changes: &mut [u32],
    magnitude: &mut [S],
) -> SummaryReply<S::Value, S, S::Wide> {
    // SAFETY: a pointer and a length are those of one slice, and no output overlaps another
    // argument.
    unsafe {
        S::SUMMARY_BLOCK(
            d,
            s,
            table.as_ptr(),
            table.len(),
            mpx.as_ptr(),
            mpx.len(),
            pilot.as_ptr(),
            pilot.len(),
            sum.as_mut_ptr(),
            sum.len(),
            difference.as_mut_ptr(),
            difference.len(),
            stereo.as_mut_ptr(),
            stereo.len(),
            mono.as_mut_ptr(),
            mono.len(),
            changes.as_mut_ptr(),
            changes.len(),
            magnitude.as_mut_ptr(),
            magnitude.len(),
        )
    }
}
