//! What the tests share: both formats, compared by their bits, and samples for them.

// Each test file is a program of its own and uses a part of this.
#![allow(dead_code)]

use pescrondilu::kernels::stereo::{DecoderRecord, StereoPllState};
use pescrondilu::{ComplexSample, Q15, RealSample, Refusal};

pub const RATE: f64 = 192_000.0;
pub const PILOT_HZ: f64 = 19_000.0;

/// splitmix64.
pub struct Random(pub u64);

impl Random {
    pub fn word(&mut self) -> u64 {
        self.0 = self.0.wrapping_add(0x9e37_79b9_7f4a_7c15);
        let mut z = self.0;
        z = (z ^ (z >> 30)).wrapping_mul(0xbf58_476d_1ce4_e5b9);
        z = (z ^ (z >> 27)).wrapping_mul(0x94d0_49bb_1331_11eb);
        z ^ (z >> 31)
    }

    /// From -1 to 1.
    pub fn unit(&mut self) -> f64 {
        (self.word() >> 11) as f64 / (1_u64 << 52) as f64 - 1.0
    }
}

/// A format, with its bits.
pub trait Format: RealSample {
    /// What outputs hold before a call.
    const LEFT: Self;
    fn bits(self) -> u64;
    fn value_bits(value: Self::Value) -> u64;
    /// Any bits.
    fn any(random: &mut Random) -> Self;
}

impl Format for f32 {
    const LEFT: f32 = 9.0;

    fn bits(self) -> u64 {
        self.to_bits().into()
    }

    fn value_bits(value: f32) -> u64 {
        value.to_bits().into()
    }

    fn any(random: &mut Random) -> f32 {
        f32::from_bits(random.word() as u32)
    }
}

impl Format for Q15 {
    const LEFT: Q15 = Q15(9);

    fn bits(self) -> u64 {
        self.0 as u64
    }

    fn value_bits(value: i64) -> u64 {
        value as u64
    }

    fn any(random: &mut Random) -> Q15 {
        Q15(random.word() as i16)
    }
}

pub fn all_bits<T: Format>(samples: &[T]) -> Vec<u64> {
    samples.iter().map(|x| x.bits()).collect()
}

pub fn pair_bits<T: ComplexSample<Real: Format>>(pairs: &[T]) -> Vec<(u64, u64)> {
    let bits = |x: &T| (x.re().bits(), x.im().bits());
    pairs.iter().map(bits).collect()
}

/// A record, field by field.
pub fn record_bits<T: Format>(state: &StereoPllState<T>) -> [u64; 12] {
    let r: DecoderRecord<T::Value> = state.record();
    let v = T::value_bits;
    [
        v(r.kp),
        v(r.ki),
        v(r.imax),
        v(r.beta),
        v(r.on),
        v(r.off),
        v(r.integ),
        v(r.level),
        r.step0.into(),
        r.phase.into(),
        r.stereo.into(),
        r.enabled.into(),
    ]
}

/// The bits of a sample, any NaN being one NaN: its bits are left open.
pub fn one_nan<T: Format>(x: T) -> u64 {
    if x.to_f64().is_nan() {
        u64::MAX
    } else {
        x.bits()
    }
}

/// A record, field by field, any NaN being one NaN.
pub fn record_one_nan<T: Format>(state: &StereoPllState<T>) -> [u64; 12] {
    let r = state.record();
    let numbers = [r.kp, r.ki, r.imax, r.beta, r.on, r.off, r.integ, r.level];
    let mut bits = record_bits(state);
    for (bits, number) in bits.iter_mut().zip(numbers) {
        if T::unscaled(number, 1.0).is_nan() {
            *bits = u64::MAX;
        }
    }
    bits
}

/// A decoder with sdrk's gains for a pilot of 0.1.
pub fn decoder<T: RealSample>() -> StereoPllState<T> {
    let rate = pescrondilu::Rate::from_f64(RATE).expect("a good rate");
    StereoPllState::new(PILOT_HZ, 20.0, 0.1, rate).expect("good arguments")
}

/// The pilot's sine of a given amplitude.
pub fn pilot<T: RealSample>(from: usize, n: usize, amplitude: f64) -> Vec<T> {
    let turns = |i: usize| (i as f64 * PILOT_HZ / RATE).fract();
    let sine = |i| (turns(i) * std::f64::consts::TAU).sin() * amplitude;
    (from..from + n)
        .map(|i| T::from_f64_round(sine(i)))
        .collect()
}

/// Ordinary samples.
pub fn audio<T: RealSample>(random: &mut Random, n: usize) -> Vec<T> {
    (0..n).map(|_| T::from_f64_round(random.unit())).collect()
}

pub fn any<T: Format>(random: &mut Random, n: usize) -> Vec<T> {
    (0..n).map(|_| T::any(random)).collect()
}

/// A cause without lengths.
pub fn cause(number: u32) -> Refusal {
    lengths(number, 0, 0)
}

pub fn lengths(number: u32, expected: usize, got: usize) -> Refusal {
    Refusal {
        number,
        expected,
        got,
    }
}
