//! How long our decoder's blocks take beside the original's: the fast one beside `Fallback`, the
//! plain one beside `Reference`, the merged one beside `Fallback`'s block and then its matrix, the
//! one with its summaries beside `Fallback`'s block, a round of a rack beside `Fallback`'s blocks.

#[cfg(before)]
pub mod before;
pub mod rack;
pub mod summary;

use std::hint::black_box;

use pescrondilu_sys::decoder::{self, Count as _, Decoder};
use pescrondilu_sys::rack::Racked;
use pescrondilu_sys::summary::Summed;
use sdrk_core::error::Error;
use sdrk_core::kernels::stereo::{StereoMatrix, StereoPll, StereoPllState, hand};
use sdrk_core::probe::{self, Fields};
use sdrk_core::tables::{COS_F32, COS_Q15};
use sdrk_core::timing::Rate;
use sdrk_core::types::{C32, CQ15, Q15, RealSample};
use sdrk_core::{Fallback, Reference};

use crate::{ACCEPTED, Staggered, ratio, wave, wave_q15};

/// Which of our two blocks, and of the original's.
#[derive(Clone, Copy)]
enum Way {
    Plain,
    Fast,
}

/// What the pilot is.
#[derive(Clone, Copy, PartialEq)]
enum Pilot {
    Clean,
    OneNan,
    LastNan,
    Disabled,
}

/// The pilots that are timed.
const F32: [(Pilot, &str); 4] = [
    (Pilot::Clean, "clean"),
    (Pilot::OneNan, "one NaN"),
    (Pilot::LastNan, "last NaN"),
    (Pilot::Disabled, "disabled"),
];
const Q15_PILOTS: [(Pilot, &str); 2] = [F32[0], F32[3]];

/// What the timing needs of a format.
trait Timed: RealSample {
    type Value: Copy + PartialEq + std::fmt::Debug;
    type Raw: Summed<Value = Self::Value>
        + Racked<Value = Self::Value>
        + PartialEq
        + std::fmt::Debug
        + 'static;
    fn original(
        way: Way,
        state: &mut StereoPllState<Self>,
        mpx: &[Self],
        pilot: &[Self],
        output: &mut [Self::Complex],
    ) -> Result<(), Error>;
    fn matrix(input: &[Self::Complex], output: &mut [Self::Complex]) -> Result<(), Error>;
    fn fields(state: &StereoPllState<Self>) -> Fields<Self::Value>;
    /// The decoder with levels so low that every level is stereo.
    fn in_stereo(state: &StereoPllState<Self>) -> StereoPllState<Self>;
    fn table() -> &'static [Self::Raw];
    fn mpx(i: usize) -> Self;
    /// A pilot at phase p that locks: a part of the table's sine.
    fn pilot(p: u32) -> Self;
    fn nan() -> Self;
    fn raw(self) -> Self::Raw;
    fn parts(c: Self::Complex) -> (Self::Raw, Self::Raw);
    fn zero() -> Self::Complex;
}

const QUARTER: u32 = 1 << 30;

impl Timed for f32 {
    type Value = f32;
    type Raw = f32;

    fn original(
        way: Way,
        state: &mut StereoPllState<f32>,
        mpx: &[f32],
        pilot: &[f32],
        output: &mut [C32],
    ) -> Result<(), Error> {
        match way {
            Way::Plain => Reference.stereo_pll(state, mpx, pilot, output),
            Way::Fast => Fallback.stereo_pll(state, mpx, pilot, output),
        }
    }

    fn matrix(input: &[C32], output: &mut [C32]) -> Result<(), Error> {
        Fallback.stereo_matrix(input, output)
    }

    fn fields(state: &StereoPllState<f32>) -> Fields<f32> {
        probe::fields_f32(state)
    }

    fn in_stereo(state: &StereoPllState<f32>) -> StereoPllState<f32> {
        let f = probe::fields_f32(state);
        hand::state_f32(Fields {
            on: -1.0,
            off: -1.0,
            ..f
        })
    }

    fn table() -> &'static [f32] {
        &COS_F32
    }

    fn mpx(i: usize) -> f32 {
        wave(i)
    }

    fn pilot(p: u32) -> f32 {
        0.1 * probe::interp_f32(p.wrapping_sub(QUARTER)).expect("the table has 4097 entries")
    }

    fn nan() -> f32 {
        f32::NAN
    }

    fn raw(self) -> f32 {
        self
    }

    fn parts(c: C32) -> (f32, f32) {
        (c.re, c.im)
    }

    fn zero() -> C32 {
        C32::new(0.0, 0.0)
    }
}

impl Timed for Q15 {
    type Value = i64;
    type Raw = i16;

    fn original(
        way: Way,
        state: &mut StereoPllState<Q15>,
        mpx: &[Q15],
        pilot: &[Q15],
        output: &mut [CQ15],
    ) -> Result<(), Error> {
        match way {
            Way::Plain => Reference.stereo_pll(state, mpx, pilot, output),
            Way::Fast => Fallback.stereo_pll(state, mpx, pilot, output),
        }
    }

    fn matrix(input: &[CQ15], output: &mut [CQ15]) -> Result<(), Error> {
        Fallback.stereo_matrix(input, output)
    }

    fn fields(state: &StereoPllState<Q15>) -> Fields<i64> {
        probe::fields_q15(state)
    }

    fn in_stereo(state: &StereoPllState<Q15>) -> StereoPllState<Q15> {
        let f = probe::fields_q15(state);
        hand::state_q15(Fields {
            on: -(1 << 62),
            off: -(1 << 62),
            ..f
        })
    }

    fn table() -> &'static [i16] {
        &COS_Q15
    }

    fn mpx(i: usize) -> Q15 {
        Q15(wave_q15(i))
    }

    fn pilot(p: u32) -> Q15 {
        let s = probe::interp_q15(p.wrapping_sub(QUARTER)).expect("the table has 4097 entries");
        Q15((s / 3) as i16)
    }

    /// Q15 has no NaN.
    fn nan() -> Q15 {
        Q15(0)
    }

    fn raw(self) -> i16 {
        self.0
    }

    fn parts(c: CQ15) -> (i16, i16) {
        (c.re.0, c.im.0)
    }

    fn zero() -> CQ15 {
        CQ15 {
            re: Q15(0),
            im: Q15(0),
        }
    }
}

/// Six turns of it are 64 samples at the rate of 192000, so that a block fits its successor.
const PILOT_HZ: f64 = 18000.0;

/// The original's decoder and ours, with the same numbers.
fn decoders<F: Timed>(pilot: Pilot) -> (StereoPllState<F>, Decoder<F::Value>) {
    let made = StereoPllState::<F>::new(PILOT_HZ, 20.0, 0.1, Rate(192000.0));
    let mut state = F::in_stereo(&made.expect("accepted"));
    state.set_enabled(pilot != Pilot::Disabled);
    let f = F::fields(&state);
    let ours = Decoder {
        kp: f.kp,
        ki: f.ki,
        imax: f.imax,
        beta: f.beta,
        on: f.on,
        off: f.off,
        integ: f.integ,
        level: f.level,
        step0: f.step0,
        phase: f.phase,
        stereo: f.stereo as u32,
        enabled: f.enabled as u32,
    };
    (state, ours)
}

/// What both sides get: the multiplex and the pilot, ours and the original's.
struct Inputs<F: Timed> {
    mpx: Staggered<F::Raw>,
    pilot: Staggered<F::Raw>,
    their_mpx: Staggered<F>,
    their_pilot: Staggered<F>,
}

fn inputs<F: Timed>(pilot: Pilot, step0: u32, n: usize) -> Inputs<F> {
    let at = |i: usize| match pilot {
        Pilot::OneNan if i == n / 2 => F::nan(),
        Pilot::LastNan if i == n - 1 => F::nan(),
        _ => F::pilot(step0.wrapping_mul(i as u32)),
    };
    Inputs {
        mpx: Staggered::new(0, n, |i| F::mpx(i).raw()),
        pilot: Staggered::new(1, n, |i| at(i).raw()),
        their_mpx: Staggered::new(4, n, F::mpx),
        their_pilot: Staggered::new(5, n, at),
    }
}

/// At the end the states have to be equal, and in stereo.
fn same_state<F: Timed>(ours: &Decoder<F::Value>, state: &StereoPllState<F>) {
    let f = F::fields(state);
    assert_eq!((ours.step0, ours.phase), (f.step0, f.phase));
    let switches = (f.stereo as u32, f.enabled as u32);
    assert_eq!((ours.stereo, ours.enabled), switches);
    assert_eq!((ours.integ, ours.level), (f.integ, f.level));
    assert!(f.stereo, "the decision is stereo while the time is taken");
}

/// And so have the outputs.
fn same_outputs<F: Timed>(first: &[F::Raw], second: &[F::Raw], theirs: &[F::Complex]) {
    let ours = first.iter().zip(second).map(|(a, b)| (*a, *b));
    assert!(ours.eq(theirs.iter().map(|c| F::parts(*c))));
}

fn block<F: Timed>(way: Way, pilot: Pilot, n: usize) -> f64 {
    let (mut state, mut ours) = decoders::<F>(pilot);
    let with = inputs::<F>(pilot, ours.step0, n);
    let table = black_box(F::table());
    let mut sum = Staggered::new(2, n, |i| F::mpx(i).raw());
    let mut difference = Staggered::new(3, n, |i| F::mpx(i).raw());
    let mut output = Staggered::new(6, n, |_| F::zero());
    let mut wide = 0;
    let answer = ratio(
        n,
        || {
            let (x, p) = (black_box(with.mpx.get()), black_box(with.pilot.get()));
            let (s, d) = (sum.get_mut(), difference.get_mut());
            let answer = match way {
                Way::Plain => {
                    let reply = decoder::plain_block(ours, table, x, p, s, d);
                    ours = reply.decoder;
                    reply.answer
                }
                Way::Fast => {
                    let reply = decoder::block(ours, table, x, p, s, d);
                    ours = reply.decoder;
                    wide += reply.wide.number();
                    reply.answer
                }
            };
            assert_eq!(black_box(answer), ACCEPTED);
        },
        || {
            let (x, p) = (with.their_mpx.get(), with.their_pilot.get());
            let (x, p) = (black_box(x), black_box(p));
            let done = F::original(way, &mut state, x, p, output.get_mut());
            assert!(black_box(done).is_ok());
        },
    );
    assert_eq!(wide, 0, "the quick path is timed");
    same_state(&ours, &state);
    same_outputs::<F>(sum.get(), difference.get(), output.get());
    answer
}

fn merged<F: Timed>(pilot: Pilot, n: usize) -> f64 {
    let (mut state, mut ours) = decoders::<F>(pilot);
    let with = inputs::<F>(pilot, ours.step0, n);
    let table = black_box(F::table());
    let mut left = Staggered::new(2, n, |i| F::mpx(i).raw());
    let mut right = Staggered::new(3, n, |i| F::mpx(i).raw());
    let mut decoded = Staggered::new(6, n, |_| F::zero());
    let mut output = Staggered::new(7, n, |_| F::zero());
    let mut wide = 0;
    let answer = ratio(
        n,
        || {
            let (x, p) = (black_box(with.mpx.get()), black_box(with.pilot.get()));
            let (l, r) = (left.get_mut(), right.get_mut());
            let reply = decoder::merged_block(ours, table, x, p, l, r);
            ours = reply.decoder;
            wide += reply.wide.number();
            assert_eq!(black_box(reply.answer), ACCEPTED);
        },
        || {
            let (x, p) = (with.their_mpx.get(), with.their_pilot.get());
            let (x, p) = (black_box(x), black_box(p));
            let done = F::original(Way::Fast, &mut state, x, p, decoded.get_mut());
            assert!(black_box(done).is_ok());
            let done = F::matrix(black_box(decoded.get()), output.get_mut());
            assert!(black_box(done).is_ok());
        },
    );
    assert_eq!(wide, 0, "the quick path is timed");
    same_state(&ours, &state);
    same_outputs::<F>(left.get(), right.get(), output.get());
    answer
}

fn format<F: Timed>(n: usize, name: &str, pilots: &[(Pilot, &str)]) {
    for (way, with) in [(Way::Fast, "fast"), (Way::Plain, "plain")] {
        for (pilot, what) in pilots {
            let r = block::<F>(way, *pilot, n);
            println!("{with}_{name}, {what:9} {n:5} {r:.3}");
        }
    }
    for (pilot, what) in pilots {
        let r = merged::<F>(*pilot, n);
        println!("merged_{name}, {what:9} {n:5} {r:.3}");
    }
}

pub fn run() {
    for n in [64, 4096] {
        format::<f32>(n, "f32", &F32);
        format::<Q15>(n, "q15", &Q15_PILOTS);
    }
}
