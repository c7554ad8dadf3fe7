//! crates/c_rack, crates/c_rack_slices, and the same in Q15 (crates/c_rack_q15,
//! crates/c_rack_slices_q15): a round of a rack. A struct that both formats have is one here, over
//! the format's number V or its sample S, and its count of wide corrections W.

use crate::Code;
use crate::decoder::{Decoder, Sample};

/// The most decoders of a rack.
pub const PLACES: usize = 8;

/// How long a decoder's part of each of the four flat slices is.
#[repr(C)]
#[derive(Clone, Copy, Debug, Default, PartialEq, Eq)]
pub struct Waiting {
    pub mpx: usize,
    pub pilot: usize,
    pub sum: usize,
    pub difference: usize,
}

layout!(Waiting, 32, mpx 0, pilot 8, sum 16, difference 24);

impl Waiting {
    /// So many samples, with room for their sum and difference.
    pub const fn samples(n: usize) -> Waiting {
        Waiting {
            mpx: n,
            pilot: n,
            sum: n,
            difference: n,
        }
    }
}

/// What waits for each decoder; the places past the number are not read.
#[repr(C)]
#[derive(Clone, Copy, Debug, Default, PartialEq, Eq)]
pub struct RackWaiting {
    pub decoders: [Waiting; PLACES],
}

layout!(RackWaiting, 256, decoders 0);

/// The decoders, of which the first `number` are in use.
#[repr(C)]
#[derive(Clone, Copy, Debug, PartialEq)]
pub struct Rack<V> {
    pub decoders: [Decoder<V>; PLACES],
    pub number: usize,
}

layout!(Rack<f32>, 392, decoders 0, number 384);
layout!(Rack<i64>, 648, decoders 0, number 640);

/// What a round answers, how many samples each decoder took, how many of its corrections took the
/// wide way, and the rack after it.
#[repr(C)]
#[derive(Clone, Copy, Debug, PartialEq)]
pub struct Round<V, W> {
    pub answer: Code,
    pub taken: [usize; PLACES],
    pub wide: [W; PLACES],
    pub rack: Rack<V>,
}

layout!(Round<f32, usize>, 544, answer 0, taken 24, wide 88, rack 152);
layout!(Round<i64, ()>, 736, answer 0, taken 24, rack 88);

/// An input of a list.
#[repr(C)]
#[derive(Clone, Copy, Debug, PartialEq, Eq)]
pub struct Input<S> {
    pub samples: *const S,
    pub n: usize,
}

layout!(Input<f32>, 16, samples 0, n 8);
layout!(Input<i16>, 16, samples 0, n 8);

impl<S> From<&[S]> for Input<S> {
    fn from(slice: &[S]) -> Self {
        Input {
            samples: slice.as_ptr(),
            n: slice.len(),
        }
    }
}

/// An output of a list.
#[repr(C)]
#[derive(Clone, Copy, Debug, PartialEq, Eq)]
pub struct Output<S> {
    pub samples: *mut S,
    pub n: usize,
}

layout!(Output<f32>, 16, samples 0, n 8);
layout!(Output<i16>, 16, samples 0, n 8);

impl<S> From<&mut [S]> for Output<S> {
    fn from(slice: &mut [S]) -> Self {
        Output {
            samples: slice.as_mut_ptr(),
            n: slice.len(),
        }
    }
}

type RoundCall<V, S, W> = unsafe extern "C" fn(
    Rack<V>,
    u32,
    RackWaiting,
    *const S,
    usize,
    *const S,
    usize,
    *const S,
    usize,
    *mut S,
    usize,
    *mut S,
    usize,
) -> Round<V, W>;
type SlicesCall<V, S, W> = unsafe extern "C" fn(
    Rack<V>,
    u32,
    *const S,
    usize,
    *const Input<S>,
    usize,
    *const Input<S>,
    usize,
    *mut Output<S>,
    usize,
    *mut Output<S>,
    usize,
) -> Round<V, W>;

/// A format's rounds.
pub trait Racked: Sample {
    const RACK_ROUND: RoundCall<Self::Value, Self, Self::Wide>;
    const RACK_ROUND_SLICES: SlicesCall<Self::Value, Self, Self::Wide>;
}

macro_rules! format {
    ($value:ty, $sample:ty, $wide:ty, $round:ident, $slices:ident) => {
        unsafe extern "C" {
            pub fn $round(
                rack: Rack<$value>,
                allowance: u32,
                waiting: RackWaiting,
                table: *const $sample,
                table_n: usize,
                mpx: *const $sample,
                mpx_n: usize,
                pilot: *const $sample,
                pilot_n: usize,
                sum: *mut $sample,
                sum_n: usize,
                difference: *mut $sample,
                difference_n: usize,
            ) -> Round<$value, $wide>;
            pub fn $slices(
                rack: Rack<$value>,
                allowance: u32,
                table: *const $sample,
                table_n: usize,
                mpx: *const Input<$sample>,
                mpx_n: usize,
                pilot: *const Input<$sample>,
                pilot_n: usize,
                sum: *mut Output<$sample>,
                sum_n: usize,
                difference: *mut Output<$sample>,
                difference_n: usize,
            ) -> Round<$value, $wide>;
        }

        impl Racked for $sample {
            const RACK_ROUND: RoundCall<$value, $sample, $wide> = $round;
            const RACK_ROUND_SLICES: SlicesCall<$value, $sample, $wide> = $slices;
        }
    };
}

format!(
    f32,
    f32, usize, pescrondilu_f32_rack_round, pescrondilu_f32_rack_round_slices
);
format!(
    i64,
    i16,
    (),
    pescrondilu_q15_rack_round,
    pescrondilu_q15_rack_round_slices
);

/// A round. Decoder k's part of each slice begins where that of the one before ends.
#[inline]
#[allow(clippy::too_many_arguments)]
pub fn rack_round<S: Racked>(
    rack: Rack<S::Value>,
    allowance: u32,
    waiting: RackWaiting,
    table: &[S],
    mpx: &[S],
    pilot: &[S],
    sum: &mut [S],
    difference: &mut [S],
) -> Round<S::Value, S::Wide> {
    // SAFETY: a pointer and a length are those of one slice, and no output overlaps another
    // argument.
    unsafe {
        S::RACK_ROUND(
            rack,
            allowance,
            waiting,
            table.as_ptr(),
            table.len(),
            mpx.as_ptr(),
            mpx.len(),
            pilot.as_ptr(),
            pilot.len(),
            sum.as_mut_ptr(),
            sum.len(),
            difference.as_mut_ptr(),
            difference.len(),
        )
    }
}

/// The slices of a list that a rack can have, and how many these are. The core reads no more, since
/// a rack has no decoder for them.
fn cut<T: Copy>(list: impl ExactSizeIterator<Item = T>, empty: T) -> ([T; PLACES], usize) {
    let n = list.len().min(PLACES);
    let mut slices = [empty; PLACES];
    for (slice, given) in slices.iter_mut().zip(list) {
        *slice = given;
    }
    (slices, n)
}

fn inputs<S: Copy>(list: &[&[S]]) -> ([Input<S>; PLACES], usize) {
    cut(list.iter().map(|x| Input::from(*x)), Input::from(&[][..]))
}

fn outputs<S: Copy>(list: &mut [&mut [S]]) -> ([Output<S>; PLACES], usize) {
    let list = list.iter_mut().map(|x| Output::from(&mut **x));
    cut(list, Output::from(&mut [][..]))
}

/// A round over slices of each decoder's own: decoder k's are the k-th of each list. One that is not
/// there counts as empty.
#[inline]
pub fn rack_round_slices<S: Racked>(
    rack: Rack<S::Value>,
    allowance: u32,
    table: &[S],
    mpx: &[&[S]],
    pilot: &[&[S]],
    sum: &mut [&mut [S]],
    difference: &mut [&mut [S]],
) -> Round<S::Value, S::Wide> {
    let ((mpx, mpx_n), (pilot, pilot_n)) = (inputs(mpx), inputs(pilot));
    let ((mut sum, sum_n), (mut difference, difference_n)) = (outputs(sum), outputs(difference));
    // SAFETY: a pointer and a length are those of one slice, in the lists too, and no output
    // overlaps another argument.
    unsafe {
        S::RACK_ROUND_SLICES(
            rack,
            allowance,
            table.as_ptr(),
            table.len(),
            mpx.as_ptr(),
            mpx_n,
            pilot.as_ptr(),
            pilot_n,
            sum.as_mut_ptr(),
            sum_n,
            difference.as_mut_ptr(),
            difference_n,
        )
    }
}
