//! Our fast block beside that of an earlier library, which build.rs links. Both have to lay out
//! the decoder's record alike. The earlier block replies without a count, as blocks did before
//! request 7; a later library needs its own reply here.

use std::hint::black_box;

use pescrondilu_sys::decoder::{self, Decoder, Reply};
use sdrk_core::types::Q15;

use super::{Pilot, Timed, decoders, inputs};
use crate::{ACCEPTED, Staggered, ratio};

macro_rules! earlier {
    ($format:ty, $name:ident, $value:ty, $sample:ty) => {
        unsafe extern "C" {
            fn $name(
                d: Decoder<$value>,
                table: *const $sample,
                table_n: usize,
                mpx: *const $sample,
                mpx_n: usize,
                pilot: *const $sample,
                pilot_n: usize,
                sum: *mut $sample,
                sum_n: usize,
                difference: *mut $sample,
                difference_n: usize,
            ) -> Reply<$value, ()>;
        }

        impl Earlier for $format {
            fn block(
                d: Decoder<$value>,
                table: &[$sample],
                mpx: &[$sample],
                pilot: &[$sample],
                sum: &mut [$sample],
                difference: &mut [$sample],
            ) -> Reply<$value, ()> {
                // SAFETY: each pointer and length are those of one slice.
                unsafe {
                    $name(
                        d,
                        table.as_ptr(),
                        table.len(),
                        mpx.as_ptr(),
                        mpx.len(),
                        pilot.as_ptr(),
                        pilot.len(),
                        sum.as_mut_ptr(),
                        sum.len(),
                        difference.as_mut_ptr(),
                        difference.len(),
                    )
                }
            }
        }
    };
}

/// The earlier fast block of a format.
trait Earlier: Timed {
    fn block(
        d: Decoder<Self::Value>,
        table: &[Self::Raw],
        mpx: &[Self::Raw],
        pilot: &[Self::Raw],
        sum: &mut [Self::Raw],
        difference: &mut [Self::Raw],
    ) -> Reply<Self::Value, ()>;
}

earlier!(f32, before_f32_block, f32, f32);
earlier!(Q15, before_q15_block, i64, i16);

fn block<F: Earlier>(pilot: Pilot, n: usize) -> f64 {
    let (_, mut now) = decoders::<F>(pilot);
    let mut before = now;
    let with = inputs::<F>(pilot, now.step0, n);
    let table = black_box(F::table());
    let outputs = |place| Staggered::new(place, n, |i| F::mpx(i).raw());
    let (mut sum, mut difference) = (outputs(2), outputs(3));
    let (mut sum_before, mut difference_before) = (outputs(4), outputs(5));
    let answer = ratio(
        n,
        || {
            let (x, p) = (black_box(with.mpx.get()), black_box(with.pilot.get()));
            let (s, d) = (sum.get_mut(), difference.get_mut());
            let reply = decoder::block(now, table, x, p, s, d);
            now = reply.decoder;
            assert_eq!(black_box(reply.answer), ACCEPTED);
        },
        || {
            let (x, p) = (black_box(with.mpx.get()), black_box(with.pilot.get()));
            let (s, d) = (sum_before.get_mut(), difference_before.get_mut());
            let reply = F::block(before, table, x, p, s, d);
            before = reply.decoder;
            assert_eq!(black_box(reply.answer), ACCEPTED);
        },
    );
    assert_eq!(now, before);
    assert_eq!(sum.get(), sum_before.get());
    assert_eq!(difference.get(), difference_before.get());
    answer
}

fn format<F: Earlier>(n: usize, name: &str, pilots: &[(Pilot, &str)]) {
    for (pilot, what) in pilots {
        let r = block::<F>(*pilot, n);
        println!("fast_{name} over the earlier one, {what:9} {n:5} {r:.3}");
    }
}

pub fn run() {
    for n in [64, 65, 4096] {
        format::<f32>(n, "f32", &super::F32);
        format::<Q15>(n, "q15", &super::Q15_PILOTS);
    }
}
