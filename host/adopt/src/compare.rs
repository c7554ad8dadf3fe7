//! Both ways beside `Fallback`: answers, outputs and read-outs after each call, bit for bit. Any
//! NaN matches any NaN.

use std::process::ExitCode;

use bytemuck::{cast_slice, cast_slice_mut};
use pescrondilu::kernels::stereo::{self as ours, StereoPll as _};
use pescrondilu::{C32, Error, Proved, Q15, Rate};
use sdrk_core::error::Error as TheirError;
use sdrk_core::kernels::stereo::{
    self as original, StereoEncode as _, StereoEncodeRds as _, StereoMatrix as _, StereoPll as _,
};
use sdrk_core::timing::Rate as TheirRate;

use crate::format::{
    Bits, Format, Random, TheirPair, pair_bits, pairs, slice_bits, their_pair_bits, their_pairs,
    theirs,
};

const SESSIONS: usize = 300;
const BLOCKS: usize = 12;
/// Samples after which the loop is in lock.
const LOCK: usize = 50_000;
const LENGTHS: [usize; 8] = [0, 1, 2, 63, 64, 65, 300, 4096];

/// An answer in one form. The words of a message are not compared: they differ.
type Answer = Option<(usize, usize)>;

fn answer(said: Result<(), Error>) -> Answer {
    match said {
        Ok(()) => None,
        Err(Error::LengthMismatch { expected, got }) => Some((expected, got)),
        Err(other) => panic!("{other}"),
    }
}

fn their_answer(said: Result<(), TheirError>) -> Answer {
    match said {
        Ok(()) => None,
        Err(TheirError::LengthMismatch { expected, got }) => Some((expected, got)),
        Err(other) => panic!("{other:?}"),
    }
}

/// The read-outs of a decoder.
#[derive(Debug, PartialEq)]
struct Readouts {
    numbers: [u64; 3],
    phase: u32,
    stereo: bool,
    enabled: bool,
}

fn number(x: f64) -> u64 {
    if x.is_nan() { f64::NAN } else { x }.to_bits()
}

macro_rules! readouts {
    ($state:expr) => {
        Readouts {
            numbers: [
                number($state.integrator()),
                number($state.integrator_limit()),
                number($state.lock_level()),
            ],
            phase: $state.phase(),
            stereo: $state.is_stereo(),
            enabled: $state.is_enabled(),
        }
    };
}

/// Five decoders that get the same calls.
struct Decoders<F: Format> {
    fallback: original::StereoPllState<F::Theirs>,
    backend: original::StereoPllState<F::Theirs>,
    slices: ours::StereoPllState<F>,
    merged: ours::StereoPllState<F>,
    pairs: ours::StereoPllState<F>,
}

impl<F: Format> Decoders<F> {
    /// Constructed on both sides, with the same coefficients; none where both refuse.
    fn new(random: &mut Random, rate: f64) -> Option<Self> {
        let natural = [20.0, 50.0, 190.0, 250.0][random.below(4)];
        let level = [0.1, 0.0625, 0.12, 1.5][random.below(4)];
        let theirs = original::StereoPllState::new(19_000.0, natural, level, TheirRate(rate));
        let rate = Rate::from_f64(rate).expect("a good rate");
        let slices = ours::StereoPllState::<F>::new(19_000.0, natural, level, rate);
        let (Ok(fallback), Ok(slices)) = (theirs, slices) else {
            assert!(theirs.is_err() && slices.is_err());
            return None;
        };
        let (a, b) = (fallback.coefficients(), slices.coefficients());
        assert_eq!(
            (a.kp, a.ki, a.imax, a.beta, a.on, a.off, a.step0),
            (b.kp, b.ki, b.imax, b.beta, b.on, b.off, b.step0)
        );
        Some(Decoders {
            fallback,
            backend: fallback,
            slices,
            merged: slices,
            pairs: slices,
        })
    }

    fn agree(&self) {
        let want = readouts!(self.fallback);
        assert_eq!(readouts!(self.backend), want);
        assert_eq!(readouts!(self.slices), want);
        assert_eq!(readouts!(self.merged), want);
        assert_eq!(readouts!(self.pairs), want);
    }

    fn set(&mut self, random: &mut Random) {
        match random.below(8) {
            0 => {
                self.fallback.reset();
                self.backend.reset();
                self.slices.reset();
                self.merged.reset();
                self.pairs.reset();
            }
            k @ 1..4 => {
                self.fallback.set_enabled(k != 1);
                self.backend.set_enabled(k != 1);
                self.slices.set_enabled(k != 1);
                self.merged.set_enabled(k != 1);
                self.pairs.set_enabled(k != 1);
            }
            _ => (),
        }
    }

    fn block(&mut self, mpx: &[F], pilot: &[F], n: usize) {
        let nine = vec![F::from_f64_round(0.75); n];
        let (mut sum, mut difference) = (nine.clone(), nine.clone());
        let mut output = pairs(&nine, &nine);
        let mut theirs_out = their_pairs(&nine, &nine);
        let mut backend_out = theirs_out.clone();
        let (their_mpx, their_pilot) = (theirs(mpx), theirs(pilot));

        let (m, p) = (&their_mpx[..], &their_pilot[..]);
        let said = F::FALLBACK.stereo_pll(&mut self.fallback, m, p, &mut theirs_out);
        let want = their_answer(said);
        let bits: Bits = their_pair_bits::<F>(&theirs_out);
        let said = F::PROVED.stereo_pll(&mut self.backend, m, p, &mut backend_out);
        assert_eq!(their_answer(said), want);
        assert_eq!(their_pair_bits::<F>(&backend_out), bits);
        let said = self.slices.process(mpx, pilot, &mut sum, &mut difference);
        assert_eq!(answer(said.map_err(Error::from)), want);
        assert_eq!(slice_bits(&sum, &difference), bits);
        let said = Proved.stereo_pll(&mut self.pairs, mpx, pilot, &mut output);
        assert_eq!(answer(said), want);
        assert_eq!(pair_bits::<F>(&output), bits);
        self.merged_block(mpx, pilot, &theirs_out, want);
    }

    /// Left and right from one call beside the original's matrix of what its block answered and left.
    fn merged_block(&mut self, mpx: &[F], pilot: &[F], decoded: &[TheirPair<F>], want: Answer) {
        let nine = vec![F::from_f64_round(0.75); decoded.len()];
        let (mut left, mut right) = (nine.clone(), nine.clone());
        let mut sides = their_pairs(&nine, &nine);
        if want.is_none() {
            assert_eq!(F::FALLBACK.stereo_matrix(decoded, &mut sides), Ok(()));
        }
        let said = self
            .merged
            .process_merged(mpx, pilot, &mut left, &mut right);
        assert_eq!(answer(said.map_err(Error::from)), want);
        assert_eq!(slice_bits(&left, &right), their_pair_bits::<F>(&sides));
    }
}

/// Ordinary samples, or any bits.
fn samples<F: Format>(random: &mut Random, n: usize, any: bool) -> Vec<F> {
    let mut one = || match any {
        true => F::any(random),
        false => F::from_f64_round(random.unit()),
    };
    (0..n).map(|_| one()).collect()
}

/// A pilot that the loop locks to, from some sample on.
fn sine<F: Format>(rate: f64, from: usize, n: usize) -> Vec<F> {
    let turns = |i: usize| (i as f64 * 19_000.0 / rate).fract();
    let sine = |i| (turns(i) * std::f64::consts::TAU).sin() * 0.1;
    let samples = from..from + n;
    samples.map(|i| F::from_f64_round(sine(i))).collect()
}

/// The pilot, from some sample on not finite.
fn burst<F: Format>(random: &mut Random, mut pilot: Vec<F>) -> Vec<F> {
    let from = random.below(pilot.len() + 1);
    pilot[from..].fill(F::from_f64_round(f64::NAN));
    pilot
}

/// A burst, or any bits.
fn odd<F: Format>(random: &mut Random, pilot: Vec<F>) -> Vec<F> {
    match random.below(4) {
        0 => samples(random, pilot.len(), true),
        _ => burst(random, pilot),
    }
}

/// One length in eight is wrong.
fn damaged(random: &mut Random, n: usize) -> usize {
    match random.below(8) {
        0 => n + 1,
        1 if n > 0 && random.below(2) == 0 => n - 1,
        _ => n,
    }
}

/// How many calls agree, and how many of them end in stereo.
fn decoders<F: Format>(seed: u64) -> (usize, usize) {
    let mut random = Random(seed);
    let (mut calls, mut stereo) = (0, 0);
    for session in 0..SESSIONS {
        let rate = [192_000.0, 480_000.0, 96_000.5][random.below(3)];
        let Some(mut decoders) = Decoders::<F>::new(&mut random, rate) else {
            continue;
        };
        let mut at = 0;
        for block in 0..BLOCKS {
            let n = match block {
                0 => LOCK,
                _ => LENGTHS[random.below(LENGTHS.len())],
            };
            let any = random.below(4) == 0;
            let mpx = samples(&mut random, n, any);
            let pilot_n = damaged(&mut random, n);
            let mut pilot = sine(rate, at, pilot_n);
            if session % 2 == 0 && random.below(4) == 0 {
                pilot = odd(&mut random, pilot);
            }
            let output_n = damaged(&mut random, n);
            decoders.block(&mpx, &pilot, output_n);
            decoders.agree();
            (at, calls) = (at + n, calls + 1);
            stereo += usize::from(decoders.fallback.is_stereo());
            decoders.set(&mut random);
            decoders.agree();
        }
    }
    (calls, stereo)
}

fn matrices<F: Format>(seed: u64) -> usize {
    let mut random = Random(seed);
    for _ in 0..SESSIONS {
        let n = LENGTHS[random.below(LENGTHS.len())];
        let any = random.below(2) == 0;
        let (sum, difference) = (samples(&mut random, n, any), samples(&mut random, n, any));
        let input = their_pairs::<F>(&sum, &difference);
        let mut want = input.clone();
        let mut got = input.clone();
        assert_eq!(F::FALLBACK.stereo_matrix(&input, &mut want), Ok(()));
        assert_eq!(F::PROVED.stereo_matrix(&input, &mut got), Ok(()));
        let bits = their_pair_bits::<F>(&want);
        assert_eq!(their_pair_bits::<F>(&got), bits);
        let (mut left, mut right) = (sum.clone(), sum.clone());
        assert_eq!(
            ours::matrix(&sum, &difference, &mut left, &mut right),
            Ok(())
        );
        assert_eq!(slice_bits(&left, &right), bits);
        let mut output = pairs(&sum, &sum);
        let input = pairs(&sum, &difference);
        let said = ours::StereoMatrix::stereo_matrix(&Proved, &input, &mut output);
        assert_eq!(said, Ok(()));
        assert_eq!(pair_bits::<F>(&output), bits);
    }
    SESSIONS
}

fn bits(samples: &[f32]) -> Vec<u64> {
    samples.iter().map(|x| x.bits()).collect()
}

/// Both encoders: `Fallback`, the backend, slices, pairs.
fn encoders(seed: u64) -> usize {
    let mut random = Random(seed);
    let made = original::StereoEncodeRdsState::new(19_000.0, 0.9, 0.09, 0.04, TheirRate(192e3));
    let mut fallback = made.expect("good arguments");
    let mut backend = fallback;
    let made = ours::StereoEncodeRdsState::with_rate(19_000.0, 0.9, 0.09, 0.04, 192e3);
    let mut slices = made.expect("good arguments");
    let mut by_pairs = slices;
    for call in 0..SESSIONS {
        let n = LENGTHS[random.below(LENGTHS.len())];
        let any = random.below(2) == 0;
        let [l, r, b] = [(); 3].map(|()| samples::<f32>(&mut random, n, any));
        let (theirs_in, input): (_, Vec<C32>) = (their_pairs(&l, &r), pairs(&l, &r));
        let [mut w, mut x, mut y, mut z] = [(); 4].map(|()| vec![0.0_f32; n]);
        if call % 2 == 0 {
            let (f, p) = (sdrk_core::Fallback, sdrk_core::Proved);
            let said = f.stereo_encode_rds(&mut fallback, &theirs_in, &b, &mut w);
            assert_eq!(said, Ok(()));
            let said = p.stereo_encode_rds(&mut backend, &theirs_in, &b, &mut x);
            assert_eq!(said, Ok(()));
            assert_eq!(slices.process(&l, &r, &b, &mut y), Ok(()));
            let (state, trait_of) = (&mut by_pairs, &Proved);
            let said =
                ours::StereoEncodeRds::stereo_encode_rds(trait_of, state, &input, &b, &mut z);
            assert_eq!(said, Ok(()));
        } else {
            let (mut f, mut p) = (*fallback.encoder(), *backend.encoder());
            let said = sdrk_core::Fallback.stereo_encode(&mut f, &theirs_in, &mut w);
            assert_eq!(said, Ok(()));
            let said = sdrk_core::Proved.stereo_encode(&mut p, &theirs_in, &mut x);
            assert_eq!(said, Ok(()));
            let (mut s, mut q) = (*slices.encoder(), *by_pairs.encoder());
            assert_eq!(s.process(&l, &r, &mut y), Ok(()));
            let said = ours::StereoEncode::stereo_encode(&Proved, &mut q, &input, &mut z);
            assert_eq!(said, Ok(()));
            let phases = [p.phase(), s.phase(), q.phase()];
            assert_eq!(phases, [f.phase(); 3]);
        }
        assert_eq!(
            [bits(&x), bits(&y), bits(&z)],
            [bits(&w), bits(&w), bits(&w)]
        );
        let phases = [backend.phase(), slices.phase(), by_pairs.phase()];
        assert_eq!(phases, [fallback.phase(); 3]);
    }
    SESSIONS
}

/// A receiver's stage before and after the change of the crate's name.
fn stages() -> (usize, usize) {
    let mut before = crate::before::Stage::new(192_000).expect("a good rate");
    let mut after = crate::after::Stage::new(192_000).expect("a good rate");
    let mut random = Random(6);
    let (mut at, mut stereo) = (0, 0);
    for call in 0..SESSIONS {
        let n = LENGTHS[random.below(LENGTHS.len())];
        let mpx = samples::<f32>(&mut random, n, false);
        let mut pilot = sine(192_000.0, at, n);
        if call % 5 == 4 {
            pilot = burst(&mut random, pilot);
        }
        at += n;
        let want = before.block(&mpx, &pilot).expect("equal lengths");
        let got = after.block(&mpx, &pilot).expect("equal lengths");
        assert_eq!(pair_bits::<f32>(got), their_pair_bits::<f32>(want));
        assert_eq!(after.lamp(), before.lamp());
        stereo += usize::from(after.lamp());
    }
    let said = before.block(&[0.0; 2], &[0.0]).map(|_| ());
    let want = their_answer(said);
    let said = after.block(&[0.0; 2], &[0.0]).map(|_| ());
    assert_eq!(answer(said), want);
    (SESSIONS + 1, stereo)
}

/// A receiver that stays with sdrk for all else: its own slices of Q15 go to the crate's decoder
/// without a copy.
fn mixed() -> usize {
    let rate = TheirRate(192_000.0);
    let made = original::StereoPllState::new(19_000.0, 20.0, 0.1, rate);
    let mut fallback = made.expect("good arguments");
    let rate = Rate::from_f64(rate.as_f64()).expect("a good rate");
    let made = ours::StereoPllState::<Q15>::new(19_000.0, 20.0, 0.1, rate);
    let mut state = made.expect("good arguments");
    let mut random = Random(7);
    let mpx = theirs(&samples::<Q15>(&mut random, LOCK, false));
    let pilot = theirs(&sine::<Q15>(192_000.0, 0, LOCK));
    let mut output = vec![sdrk_core::CQ15::default(); LOCK];
    let said = Q15::FALLBACK.stereo_pll(&mut fallback, &mpx, &pilot, &mut output);
    assert_eq!(said, Ok(()));

    let [mut sum, mut difference] = [(); 2].map(|()| vec![sdrk_core::Q15(0); LOCK]);
    let said = state.process(
        Q15::from_i16_slice(cast_slice(&mpx)),
        Q15::from_i16_slice(cast_slice(&pilot)),
        Q15::from_i16_slice_mut(cast_slice_mut(&mut sum)),
        Q15::from_i16_slice_mut(cast_slice_mut(&mut difference)),
    );
    assert_eq!(said, Ok(()));
    let got = sum.iter().zip(&difference);
    assert!(got.eq(output.iter().map(|x| (&x.re, &x.im))));
    assert!(state.is_stereo() && fallback.is_stereo());
    1
}

pub fn run() -> ExitCode {
    for (what, (calls, stereo)) in [
        ("decoder f32", decoders::<f32>(1)),
        ("decoder Q15", decoders::<Q15>(2)),
        ("a stage before and after", stages()),
    ] {
        println!("{what}: {calls} calls agree, {stereo} of them end in stereo");
    }
    println!("matrix f32: {} calls agree", matrices::<f32>(3));
    println!("matrix Q15: {} calls agree", matrices::<Q15>(4));
    println!("encoders: {} calls agree", encoders(5));
    println!("sdrk's own slices: {} call agrees", mixed());
    ExitCode::SUCCESS
}
