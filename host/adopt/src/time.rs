//! What a call costs: `Fallback`, the backend `Proved` inside sdrk-core, the crate by slices and
//! the crate by pairs, in nanoseconds and as a ratio to `Fallback`.
//!
//! The four take turns in one process and each begins some rounds, so that what else the machine
//! does falls on all of them. A round is one pass over 4096 samples in blocks of n; the median of
//! the rounds counts. The pilot fits itself from pass to pass, so that the loop stays locked.

use std::hint::black_box;
use std::ops::{Deref, DerefMut};
use std::process::ExitCode;
use std::time::Instant;

use pescrondilu::kernels::stereo::{self as ours, StereoPll as _};
use pescrondilu::{C32, Proved, Q15};
use sdrk_core::kernels::stereo::{
    self as original, StereoEncode as _, StereoMatrix as _, StereoPll as _,
};
use sdrk_core::timing::Rate as TheirRate;

use crate::format::{Format, pairs, their_pairs, theirs};

const SAMPLES: usize = 4096;
const ROUNDS: usize = 400;
/// Rounds before the time is taken.
const WARM: usize = 40;

/// Six turns of it are 64 samples at this rate, so that a pass fits its successor.
const PILOT_HZ: f64 = 18_000.0;
const RATE: f64 = 192_000.0;

/// Samples that begin at a place of their own in a page, so that reads do not wait for writes to
/// the same place of another page.
struct Apart<T> {
    room: Vec<T>,
    from: usize,
}

fn apart<T: Copy>(place: usize, samples: &[T]) -> Apart<T> {
    let from = place * 208 / size_of::<T>();
    let mut room = samples[..from].to_vec();
    room.extend_from_slice(samples);
    Apart { room, from }
}

impl<T> Deref for Apart<T> {
    type Target = [T];
    fn deref(&self) -> &[T] {
        &self.room[self.from..]
    }
}

impl<T> DerefMut for Apart<T> {
    fn deref_mut(&mut self) -> &mut [T] {
        &mut self.room[self.from..]
    }
}

/// A way to work one pass over the samples in blocks of n.
type Pass<'a> = (&'static str, Box<dyn FnMut(usize) + 'a>);

fn median(mut times: Vec<f64>) -> f64 {
    times.sort_unstable_by(f64::total_cmp);
    times[times.len() / 2]
}

/// Nanoseconds of a call, for each way.
fn nanoseconds(n: usize, ways: &mut [Pass]) -> Vec<f64> {
    let calls = (SAMPLES / n) as f64;
    let mut times = vec![Vec::new(); ways.len()];
    for round in 0..WARM + ROUNDS {
        for k in 0..ways.len() {
            let k = (k + round) % ways.len();
            let start = Instant::now();
            ways[k].1(n);
            let time = start.elapsed().as_secs_f64();
            if round >= WARM {
                times[k].push(time * 1e9 / calls);
            }
        }
    }
    times.into_iter().map(median).collect()
}

fn table(what: &str, mut ways: Vec<Pass>) {
    let names: Vec<_> = ways.iter().map(|(name, _)| *name).collect();
    println!("| {what} | {} |", names.join(" | "));
    println!("|---|{}", "---|".repeat(names.len()));
    for n in [1, 64, 4096] {
        let times = nanoseconds(n, &mut ways);
        let cell = |t: &f64| format!("{t:.0} ({:.2})", t / times[0]);
        let cells: Vec<_> = times.iter().map(cell).collect();
        println!("| {n} | {} |", cells.join(" | "));
    }
    println!();
}

/// The places at which blocks of n begin.
fn blocks(n: usize) -> impl Iterator<Item = std::ops::Range<usize>> {
    (0..SAMPLES).step_by(n).map(move |i| i..i + n)
}

fn wave<F: Format>(i: usize) -> F {
    F::from_f64_round(((i * 37 % 200) as f64 - 100.0) / 128.0)
}

fn waves<F: Format>(from: usize) -> Vec<F> {
    (from..from + SAMPLES).map(wave).collect()
}

fn pilot<F: Format>() -> Vec<F> {
    let turns = |i: usize| (i as f64 * PILOT_HZ / RATE).fract();
    let sine = |i: usize| (turns(i) * std::f64::consts::TAU).sin() * 0.1;
    (0..SAMPLES).map(|i| F::from_f64_round(sine(i))).collect()
}

fn decoder<F: Format>() {
    let (mpx, pilot) = (apart(0, &waves::<F>(0)), apart(1, &pilot::<F>()));
    let (their_mpx, their_pilot) = (apart(4, &theirs(&mpx)), apart(5, &theirs(&pilot)));
    let made = original::StereoPllState::new(PILOT_HZ, 20.0, 0.1, TheirRate(RATE));
    let mut fallback = made.expect("good arguments");
    let mut backend = fallback;
    let beta = fallback.coefficients().beta;
    let made = ours::StereoPllState::<F>::with_beta(PILOT_HZ, 20.0, 0.1, beta, RATE);
    let mut slices = made.expect("good arguments");
    let mut by_pairs = slices;
    let mut fallback_out = apart(6, &their_pairs(&mpx, &mpx));
    let mut backend_out = apart(6, &fallback_out);
    let (mut sum, mut difference) = (apart(2, &mpx), apart(3, &mpx));
    let mut output = apart(6, &pairs(&mpx, &mpx));
    let ways: Vec<Pass> = vec![
        (
            "`Fallback`",
            Box::new(|n| {
                for at in blocks(n) {
                    let (m, p) = (&their_mpx[at.clone()], &their_pilot[at.clone()]);
                    let out = &mut fallback_out[at];
                    let said = F::FALLBACK.stereo_pll(&mut fallback, black_box(m), p, out);
                    assert!(black_box(said).is_ok());
                }
            }),
        ),
        (
            "backend",
            Box::new(|n| {
                for at in blocks(n) {
                    let (m, p) = (&their_mpx[at.clone()], &their_pilot[at.clone()]);
                    let out = &mut backend_out[at];
                    let said = F::PROVED.stereo_pll(&mut backend, black_box(m), p, out);
                    assert!(black_box(said).is_ok());
                }
            }),
        ),
        (
            "slices",
            Box::new(|n| {
                for at in blocks(n) {
                    let (m, p) = (&mpx[at.clone()], &pilot[at.clone()]);
                    let (s, d) = (&mut sum[at.clone()], &mut difference[at]);
                    let said = slices.process(black_box(m), p, s, d);
                    assert!(black_box(said).is_ok());
                }
            }),
        ),
        (
            "pairs",
            Box::new(|n| {
                for at in blocks(n) {
                    let (m, p) = (&mpx[at.clone()], &pilot[at.clone()]);
                    let out = &mut output[at];
                    let said = Proved.stereo_pll(&mut by_pairs, black_box(m), p, out);
                    assert!(black_box(said).is_ok());
                }
            }),
        ),
    ];
    table(&format!("decoder {}", F::NAME), ways);
    let phases = [backend.phase(), slices.phase(), by_pairs.phase()];
    assert_eq!(phases, [fallback.phase(); 3]);
    assert!(fallback.is_stereo() && slices.is_stereo());
}

fn matrix<F: Format>() {
    let (sum, difference) = (apart(0, &waves::<F>(0)), apart(1, &waves::<F>(11)));
    let their_input = apart(4, &their_pairs(&sum, &difference));
    let input = apart(4, &pairs(&sum, &difference));
    let (mut fallback_out, mut backend_out) = (apart(5, &their_input), apart(5, &their_input));
    let (mut left, mut right) = (apart(2, &sum), apart(3, &sum));
    let mut output = apart(5, &input);
    let ways: Vec<Pass> = vec![
        (
            "`Fallback`",
            Box::new(|n| {
                for at in blocks(n) {
                    let input = black_box(&their_input[at.clone()]);
                    let said = F::FALLBACK.stereo_matrix(input, &mut fallback_out[at]);
                    assert!(black_box(said).is_ok());
                }
            }),
        ),
        (
            "backend",
            Box::new(|n| {
                for at in blocks(n) {
                    let input = black_box(&their_input[at.clone()]);
                    let said = F::PROVED.stereo_matrix(input, &mut backend_out[at]);
                    assert!(black_box(said).is_ok());
                }
            }),
        ),
        (
            "slices",
            Box::new(|n| {
                for at in blocks(n) {
                    let (s, d) = (&sum[at.clone()], &difference[at.clone()]);
                    let (l, r) = (&mut left[at.clone()], &mut right[at]);
                    assert!(black_box(ours::matrix(black_box(s), d, l, r)).is_ok());
                }
            }),
        ),
        (
            "pairs",
            Box::new(|n| {
                for at in blocks(n) {
                    let (input, out) = (black_box(&input[at.clone()]), &mut output[at]);
                    let said = ours::StereoMatrix::stereo_matrix(&Proved, input, out);
                    assert!(black_box(said).is_ok());
                }
            }),
        ),
    ];
    table(&format!("matrix {}", F::NAME), ways);
}

fn encoder() {
    let (left, right) = (apart(0, &waves::<f32>(0)), apart(1, &waves::<f32>(11)));
    let their_input = apart(4, &their_pairs(&left, &right));
    let input: Apart<C32> = apart(4, &pairs(&left, &right));
    let made = original::StereoEncodeState::new(19_000.0, 0.9, 0.09, TheirRate(RATE));
    let mut fallback = made.expect("good arguments");
    let mut backend = fallback;
    let made = ours::StereoEncodeState::with_rate(19_000.0, 0.9, 0.09, RATE);
    let mut slices = made.expect("good arguments");
    let mut by_pairs = slices;
    let [mut w, mut x, mut y, mut z] = [(); 4].map(|()| apart(3, &left));
    let ways: Vec<Pass> = vec![
        (
            "`Fallback`",
            Box::new(|n| {
                for at in blocks(n) {
                    let input = black_box(&their_input[at.clone()]);
                    let said = sdrk_core::Fallback.stereo_encode(&mut fallback, input, &mut w[at]);
                    assert!(black_box(said).is_ok());
                }
            }),
        ),
        (
            "backend",
            Box::new(|n| {
                for at in blocks(n) {
                    let input = black_box(&their_input[at.clone()]);
                    let said = sdrk_core::Proved.stereo_encode(&mut backend, input, &mut x[at]);
                    assert!(black_box(said).is_ok());
                }
            }),
        ),
        (
            "slices",
            Box::new(|n| {
                for at in blocks(n) {
                    let (l, r) = (&left[at.clone()], &right[at.clone()]);
                    let said = slices.process(black_box(l), r, &mut y[at]);
                    assert!(black_box(said).is_ok());
                }
            }),
        ),
        (
            "pairs",
            Box::new(|n| {
                for at in blocks(n) {
                    let (input, out) = (black_box(&input[at.clone()]), &mut z[at]);
                    let said =
                        ours::StereoEncode::stereo_encode(&Proved, &mut by_pairs, input, out);
                    assert!(black_box(said).is_ok());
                }
            }),
        ),
    ];
    table("encoder", ways);
    let phases = [backend.phase(), slices.phase(), by_pairs.phase()];
    assert_eq!(phases, [fallback.phase(); 3]);
}

pub fn run() -> ExitCode {
    println!("ns a call (ratio to `Fallback`); the first column is the block's length\n");
    decoder::<f32>();
    decoder::<Q15>();
    matrix::<f32>();
    matrix::<Q15>();
    encoder();
    ExitCode::SUCCESS
}
