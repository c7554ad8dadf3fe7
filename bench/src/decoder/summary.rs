//! Our block with its summaries beside `Fallback`'s block alone, which keeps none.

use std::hint::black_box;

use pescrondilu_sys::decoder::Count as _;
use pescrondilu_sys::summary::{Summary, Summed, summary_block};
use sdrk_core::types::Q15;

use super::{F32, Pilot, Q15_PILOTS, Timed, Way, decoders, inputs, same_outputs, same_state};
use crate::{ACCEPTED, RUNS, SAMPLES, Staggered, ratio};

/// The pilots that are timed.
const F32_PILOTS: [(Pilot, &str); 3] = [F32[0], F32[1], F32[3]];

/// A second at the usual rate, and a period that ends in each of our blocks.
const PERIODS: [u32; 2] = [192_000, 64];

fn held<S>(s: &Summary<S>) -> usize {
    s.stereo as usize + s.mono as usize
}

fn block<F: Timed>(pilot: Pilot, period: u32, n: usize) -> f64 {
    let (mut state, mut ours) = decoders::<F>(pilot);
    let with = inputs::<F>(pilot, ours.step0, n);
    let table = black_box(F::table());
    let mut sum = Staggered::new(2, n, |i| F::mpx(i).raw());
    let mut difference = Staggered::new(3, n, |i| F::mpx(i).raw());
    let mut output = Staggered::new(6, n, |_| F::zero());
    let mut summary = F::Raw::SUMMARY_NEW(period);
    let every = period as usize;
    // a block may end one period more than it has whole ones
    let places = n / every + 1;
    let counts = |place| Staggered::new(place, places, |_| 0u32);
    let (mut stereo, mut mono, mut changes) = (counts(7), counts(8), counts(9));
    let mut magnitude = Staggered::new(10, places, |i| F::mpx(i).raw());
    let mut wide = 0;
    let answer = ratio(
        n,
        || {
            let (x, p) = (black_box(with.mpx.get()), black_box(with.pilot.get()));
            let (s, d) = (sum.get_mut(), difference.get_mut());
            // as a program has to work it out
            let ends = (held(&summary) + n) / every;
            let (a, b) = (&mut stereo.get_mut()[..ends], &mut mono.get_mut()[..ends]);
            let (c, e) = (
                &mut changes.get_mut()[..ends],
                &mut magnitude.get_mut()[..ends],
            );
            let reply = summary_block(ours, summary, table, x, p, s, d, a, b, c, e);
            (ours, summary) = (reply.decoder, reply.summary);
            wide += reply.wide.number();
            assert_eq!(black_box(reply.answer), ACCEPTED);
        },
        || {
            let (x, p) = (with.their_mpx.get(), with.their_pilot.get());
            let (x, p) = (black_box(x), black_box(p));
            let done = F::original(Way::Fast, &mut state, x, p, output.get_mut());
            assert!(black_box(done).is_ok());
        },
    );
    assert_eq!(wide, 0, "the quick path is timed");
    same_state(&ours, &state);
    same_outputs::<F>(sum.get(), difference.get(), output.get());
    let samples = RUNS * (SAMPLES / n) * n;
    assert_eq!(held(&summary), samples % every);
    assert_eq!(summary.before, 1);
    answer
}

fn format<F: Timed>(n: usize, name: &str, pilots: &[(Pilot, &str)]) {
    for period in PERIODS {
        for (pilot, what) in pilots {
            let r = block::<F>(*pilot, period, n);
            println!("summary_{name} of {period:6}, {what:9} {n:5} {r:.3}");
        }
    }
}

pub fn run() {
    for n in [64, 4096] {
        format::<f32>(n, "f32", &F32_PILOTS);
        format::<Q15>(n, "q15", &Q15_PILOTS);
    }
}
