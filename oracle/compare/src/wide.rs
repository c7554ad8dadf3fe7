//! How many phase corrections take the wide way. The original keeps no count, so a model counts: f of
//! each sample is worked out from the original's own record before and after it.

use decoder_oracle::answers::{self, Block, Format};
use decoder_oracle::inputs::{self, Drawn, not_finite};
use sdrk_core::kernels::stereo::StereoPllState;
use sdrk_core::probe::{self, Fields};
use sdrk_core::tables::COS_F32;
use stereo_oracle::answers::{Side, correction_plain};
use stereo_oracle::inputs::{Inputs, one};

/// 2^19: as f it makes a v of 2^51 and a half. The quick way serves up to it, and from its negative
/// on, which makes a v of -2^51 and a half.
pub const EDGE: f32 = 524288.0;

/// 2^51.
pub const MOST: f64 = 2251799813685248.0;

/// Document 01's v.
pub fn v_of(f: f32) -> f64 {
    f as f64 * 4294967296.0 + 0.5
}

/// Document 02, request 7: |v| is not below 2^51. A NaN is not below.
pub fn is_wide(f: f32) -> bool {
    let v = v_of(f);
    let wide = v.is_nan() || v.abs() >= MOST;
    // the same by the pattern of f alone
    let size = f.to_bits() & 0x7FFF_FFFF;
    assert_eq!(wide, size >= EDGE.to_bits() && f != -EDGE);
    wide
}

/// Values of f that are counted by themselves: the last one of the quick way, the first beyond it, the
/// same at the lower end, the infinite ones, NaN.
pub const PLACES: [&str; 6] = [
    "just below 2^19",
    "2^19",
    "-2^19",
    "just below -2^19",
    "infinite",
    "NaN",
];

fn place(f: f32) -> Option<usize> {
    let edges = [EDGE.next_down(), EDGE, -EDGE, (-EDGE).next_down()];
    match edges.iter().position(|edge| f == *edge) {
        None if f.is_infinite() => Some(4),
        None if f.is_nan() => Some(5),
        edge => edge,
    }
}

/// The wide corrections of a block, and how often f was at each of the places.
#[derive(Clone, Copy, Debug, Default, PartialEq)]
pub struct Counts {
    pub wide: usize,
    pub at: [u64; 6],
}

/// f of the next sample, which the original takes: kp times the error, plus the integrator after the
/// sample. The step of the original's phase has to be the correction by this f.
fn next_f(side: Side, state: &mut StereoPllState<f32>, table: &[f32], x: f32, p: f32) -> f32 {
    let before = f32::fields(state);
    let (answer, _) = f32::run(side, state, table, &[x], &[p], 1);
    assert_eq!(answer, Ok(()));
    let after = f32::fields(state);
    let c = COS_F32.with(table, || probe::interp_f32(before.phase));
    let c = c.expect("the table has 4097 entries");
    let e = if p.is_finite() { p * c } else { 0.0 };
    let f = before.kp * e + after.integ;
    let step = before.step0.wrapping_add(correction_plain(f));
    assert_eq!(after.phase, before.phase.wrapping_add(step));
    f
}

/// What an accepted block counts, sample by sample.
pub fn counts(state: &StereoPllState<f32>, table: &[f32], mpx: &[f32], pilot: &[f32]) -> Counts {
    let mut state = *state;
    let side = answers::side::<f32>(&f32::fields(&state));
    let mut counts = Counts::default();
    for (x, p) in mpx.iter().zip(pilot) {
        let f = next_f(side, &mut state, table, *x, *p);
        counts.wide += is_wide(f) as usize;
        if let Some(k) = place(f) {
            counts.at[k] += 1;
        }
    }
    counts
}

// ---- decoders and samples that reach the edges

fn near(r: &mut Inputs, x: f32) -> f32 {
    f32::from_bits(x.to_bits().wrapping_add(r.below(5) as u32).wrapping_sub(2))
}

/// At either edge or one of its neighbours.
fn edge(r: &mut Inputs) -> f32 {
    let x = one(r, &[EDGE, -EDGE]);
    near(r, x)
}

/// A decoder that leaves the quick path, or comes near to it.
pub fn decoder(r: &mut Inputs) -> Fields<f32> {
    let any = f32::any_fields(r);
    // neither gain nor integrator, and a level that is any
    let still = Fields {
        kp: 0.0,
        ki: 0.0,
        imax: f32::INFINITY,
        integ: 0.0,
        on: 1.0,
        off: -1.0,
        ..any
    };
    match r.below(8) {
        // f is the pilot, with a table of ones
        0 | 1 => Fields { kp: 1.0, ..still },
        // f is at an edge where the pilot is 1 or -1
        2 => Fields {
            kp: edge(r),
            ..still
        },
        // f is the integrator
        3 => Fields {
            integ: edge(r),
            ..still
        },
        // the integrator goes over an edge, or is limited beside it
        4 => Fields {
            ki: one(r, &[0.03125, 0.0625, 1.0, 1000.0]),
            integ: edge(r) + (r.below(9) as f32 - 4.0),
            imax: one(r, &[f32::INFINITY, EDGE, EDGE.next_down(), 1e30]),
            ..still
        },
        // the sum of both parts is rounded to an edge
        5 => Fields {
            kp: edge(r),
            integ: (r.below(33) as f32 - 16.0) / 128.0,
            ..still
        },
        // infinite or NaN
        6 => {
            let odd = not_finite(r);
            match r.below(4) {
                0 => Fields { kp: odd, ..still },
                1 => Fields {
                    integ: odd,
                    ..still
                },
                2 => Fields { ki: odd, ..still },
                _ => Fields { level: odd, ..any },
            }
        }
        _ => any,
    }
}

/// Often all ones, or all minus ones.
pub fn table(r: &mut Inputs, n: usize) -> Vec<f32> {
    match r.below(4) {
        0 | 1 => vec![1.0; n],
        2 => vec![-1.0; n],
        _ => f32::table(r, n),
    }
}

/// Samples at the edges, at 1, and any; or such as other sessions have.
pub fn pilot(r: &mut Inputs, n: usize, f: &Fields<f32>) -> Vec<f32> {
    if r.below(4) == 0 {
        return f32::pilot(r, n, f);
    }
    // in some blocks all samples are finite, so that the clean loop is taken
    let kinds = 7 + r.below(2);
    (0..n)
        .map(|_| match r.below(kinds) {
            0..=2 => edge(r),
            3 | 4 => {
                let x = one(r, &[1.0, -1.0]);
                near(r, x)
            }
            5 => 0.0,
            6 => r.ordinary_f32() * one(r, &[1.0, EDGE, 1e30]),
            _ => not_finite(r),
        })
        .collect()
}

/// A block as other sessions have it, with this table and this pilot.
pub fn block(r: &mut Inputs, f: &Fields<f32>) -> Block<f32> {
    let mut b = inputs::block::<f32>(r, f);
    b.table = table(r, b.table.len());
    b.pilot = pilot(r, b.pilot.len(), f);
    b
}
