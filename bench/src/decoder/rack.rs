//! A round of a full rack, flat and over slices, beside eight blocks of `Fallback`, one after the
//! other.

use std::hint::black_box;

use pescrondilu_sys::decoder::Count as _;
use pescrondilu_sys::rack::{PLACES, Rack, RackWaiting, Waiting, rack_round, rack_round_slices};
use sdrk_core::types::Q15;

use super::{Pilot, Timed, Way, decoders, inputs, same_outputs, same_state};
use crate::{ACCEPTED, Staggered, ratio};

/// Which of a format's two rounds.
#[derive(Clone, Copy)]
enum Which {
    Flat,
    Slices,
}

/// The parts of a flat slice, one a decoder.
fn parts<S>(flat: &[S]) -> [&[S]; PLACES] {
    let mut parts = flat.chunks_exact(flat.len() / PLACES);
    [(); PLACES].map(|()| parts.next().expect("eight parts"))
}

fn parts_mut<S>(flat: &mut [S]) -> [&mut [S]; PLACES] {
    let mut parts = flat.chunks_exact_mut(flat.len() / PLACES);
    [(); PLACES].map(|()| parts.next().expect("eight parts"))
}

/// Each decoder has n samples waiting, and the allowance is enough for all.
fn round<F: Timed>(which: Which, n: usize) -> f64 {
    let (state, record) = decoders::<F>(Pilot::Clean);
    let mut states = [state; PLACES];
    let mut rack = Rack {
        decoders: [record; PLACES],
        number: PLACES,
    };
    let each = Waiting {
        mpx: n,
        pilot: n,
        sum: n,
        difference: n,
    };
    let waiting = RackWaiting {
        decoders: [each; PLACES],
    };
    let all = PLACES * n;
    // a part's pilot fits the next part too
    let with = inputs::<F>(Pilot::Clean, record.step0, all);
    let table = black_box(F::table());
    let mut sum = Staggered::new(2, all, |i| F::mpx(i).raw());
    let mut difference = Staggered::new(3, all, |i| F::mpx(i).raw());
    let mut output = Staggered::new(6, all, |_| F::zero());
    let answer = ratio(
        all,
        || {
            let (x, p) = (black_box(with.mpx.get()), black_box(with.pilot.get()));
            let (s, d) = (sum.get_mut(), difference.get_mut());
            let round = match which {
                Which::Flat => rack_round(rack, all as u32, waiting, table, x, p, s, d),
                Which::Slices => {
                    let (x, p) = (parts(x), parts(p));
                    let (mut s, mut d) = (parts_mut(s), parts_mut(d));
                    rack_round_slices(rack, all as u32, table, &x, &p, &mut s, &mut d)
                }
            };
            rack = round.rack;
            assert_eq!(black_box(round.answer), ACCEPTED);
            assert_eq!(round.taken, [n; PLACES]);
            assert!(round.wide.iter().all(|wide| wide.number() == 0));
        },
        || {
            let (x, p) = (with.their_mpx.get(), with.their_pilot.get());
            let inputs = x.chunks_exact(n).zip(p.chunks_exact(n));
            let outputs = output.get_mut().chunks_exact_mut(n);
            for ((state, (x, p)), o) in states.iter_mut().zip(inputs).zip(outputs) {
                let done = F::original(Way::Fast, state, black_box(x), black_box(p), o);
                assert!(black_box(done).is_ok());
            }
        },
    );
    for (ours, state) in rack.decoders.iter().zip(&states) {
        same_state(ours, state);
    }
    same_outputs::<F>(sum.get(), difference.get(), output.get());
    answer
}

pub fn run() {
    for n in [64, 4096] {
        for (which, name) in [(Which::Flat, "rack"), (Which::Slices, "rack_slices")] {
            println!("{name}_f32, clean     {n:5} {:.3}", round::<f32>(which, n));
            println!("{name}_q15, clean     {n:5} {:.3}", round::<Q15>(which, n));
        }
    }
}
