//! Constructions and sessions from a fixed seed.

use std::f64::consts::TAU;

use sdrk_core::probe::Fields;
use sdrk_core::types::Q15;
use stereo_oracle::answers::TABLE;
use stereo_oracle::inputs::{Inputs, one};

use crate::answers::{Arguments, Block, Call, Format};

/// From 0 to 1.
fn unit(r: &mut Inputs) -> f64 {
    r.below(1 << 53) as f64 / (1u64 << 53) as f64
}

/// x or one of its two neighbours on either side.
fn near(r: &mut Inputs, x: f64) -> f64 {
    let bits = x.to_bits().wrapping_add(r.below(5)).wrapping_sub(2);
    f64::from_bits(bits)
}

// ---- construction

/// As a receiver has them.
pub fn good_arguments(r: &mut Inputs) -> Arguments {
    let rate = match r.below(3) {
        0 => one(r, &[120e3, 192e3, 200e3, 240e3, 250e3, 384e3, 480e3, 2.4e6]),
        _ => 77e3 + unit(r) * 4e6,
    };
    let natural = match r.below(3) {
        0 => one(r, &[5.0, 10.0, 20.0, 50.0, 190.0]),
        _ => 1.0 + unit(r) * 189.0,
    };
    let level = match r.below(4) {
        0 => one(r, &[0.1, 0.0625, 1.0, 0.09]),
        _ => 0.01 + unit(r) * 0.99,
    };
    let beta = match r.below(4) {
        0 => one(r, &[1.0, 0.5, 0.25]),
        1 => unit(r),
        // what the original's formula gives
        _ => 1.0 - (-1.0 / (rate * 0.05)).exp(),
    };
    Arguments {
        pilot: 19000.0,
        natural,
        level,
        beta,
        rate,
    }
}

/// A value that becomes nearly a half, or nearly the middle of two f32, when it is scaled.
fn near_middle(r: &mut Inputs) -> f64 {
    let k = r.below(1 << 24) as f64 + 0.5;
    near(r, k)
}

const ODD: [f64; 12] = [
    0.0,
    -0.0,
    f64::NAN,
    f64::INFINITY,
    f64::NEG_INFINITY,
    -1.0,
    f64::MAX,
    f64::MIN_POSITIVE,
    5e-324,
    1e-30,
    1e30,
    1.0,
];

/// Any arguments: good ones with some turned odd, or brought to a limit or a rounding's middle.
pub fn arguments(r: &mut Inputs) -> Arguments {
    let mut a = good_arguments(r);
    let power = |r: &mut Inputs, low: i32, n: u64| f64::powi(2.0, low + r.below(n) as i32);
    for _ in 0..r.below(3) {
        match r.below(16) {
            0 => a.pilot = near(r, a.rate / 4.0),
            1 => a.natural = near(r, a.pilot / 100.0),
            2 => a.level = near(r, 1.0),
            3 => a.beta = near(r, 1.0),
            4 => a.pilot = one(r, &ODD),
            5 => a.natural = one(r, &ODD),
            6 => a.level = one(r, &ODD),
            7 => a.beta = one(r, &ODD),
            8 => a.rate = one(r, &ODD),
            // a slow rate, where the limit passes Q15, with frequencies that fit it
            9 => {
                a.rate = 80.0 + unit(r) * 60.0;
                a.pilot = a.rate / 10.0;
                a.natural = a.pilot / 100.0 * unit(r);
            }
            // small levels make large gains
            10 => a.level = unit(r) * power(r, -140, 140),
            // slow loops make small gains
            11 => a.natural = unit(r) * power(r, -90, 90),
            12 => a.beta = unit(r) * power(r, -160, 160),
            // beta, imax and on at a rounding's middle, in f32 and in Q15
            13 => a.beta = near_middle(r) * power(r, -60, 36),
            14 => a.rate = 50.0 / (near_middle(r) * power(r, -60, 32)),
            _ => a.level = near_middle(r) * power(r, -60, 36) * 5.0,
        }
    }
    match r.below(50) {
        0 => Arguments {
            pilot: r.f64(),
            natural: r.f64(),
            level: r.f64(),
            beta: r.f64(),
            rate: r.f64(),
        },
        _ => a,
    }
}

// ---- records and samples of one format

pub trait Drawn: Format {
    /// A record filled in by hand.
    fn any_fields(r: &mut Inputs) -> Fields<Self::Value>;
    /// A table: a cosine, one value, any bits, or values that make no NaN.
    fn table(r: &mut Inputs, n: usize) -> Vec<Self::Sample>;
    /// A pilot of a size that turns the decision, with the phase's step, or any bits.
    fn pilot(r: &mut Inputs, n: usize, f: &Fields<Self::Value>) -> Vec<Self::Sample>;
    fn samples(r: &mut Inputs, n: usize) -> Vec<Self::Sample>;
}

fn cosine(i: usize) -> f64 {
    (TAU * i as f64 / 4096.0).cos()
}

/// A sine at the record's own frequency.
fn sine(f_step0: u32, f_phase: u32, i: usize) -> f64 {
    let turns = (f_phase as f64 + f_step0 as f64 * i as f64) / 4294967296.0;
    (TAU * turns).sin()
}

const SIZES: [u32; 8] = [
    0x7F80_0000,
    0xFF80_0000,
    0x7FC0_0000,
    0xFFC0_0000,
    0x7F80_0001,
    0xFF80_0001,
    0x7FFF_FFFF,
    0xFFFF_FFFF,
];

/// A NaN of either sign, quiet or signalling, or an infinity of either sign.
pub fn not_finite(r: &mut Inputs) -> f32 {
    match r.below(3) {
        0 => f32::from_bits(r.0.nan_f32() as u32),
        _ => f32::from_bits(one(r, &SIZES)),
    }
}

fn near_f32(r: &mut Inputs, x: f32) -> f32 {
    f32::from_bits(x.to_bits().wrapping_add(r.below(5) as u32).wrapping_sub(2))
}

impl Drawn for f32 {
    fn any_fields(r: &mut Inputs) -> Fields<f32> {
        // any bits; or no NaN at the start; or gains at which f times 2^32 is near a half
        let kind = r.below(3);
        let value = |r: &mut Inputs| match kind {
            0 => r.f32(),
            1 => r.ordinary_f32(),
            _ => r.ordinary_f32() * f32::powi(2.0, -28),
        };
        let (kp, integ) = match kind {
            2 => (f32::powi(2.0, -33), 0.0),
            _ => (value(r), value(r)),
        };
        Fields {
            kp,
            ki: value(r),
            imax: value(r),
            beta: value(r),
            on: value(r),
            off: value(r),
            step0: r.u32(),
            phase: r.u32(),
            integ,
            level: value(r),
            stereo: r.below(2) == 0,
            enabled: r.below(4) > 0,
        }
    }

    fn table(r: &mut Inputs, n: usize) -> Vec<f32> {
        match r.below(8) {
            0..=2 => (0..n).map(|i| cosine(i) as f32).collect(),
            3 => vec![one(r, &[1.0, -1.0, 0.5, 0.0, 3e38]); n],
            4 => vec![r.f32(); n],
            5 | 6 => r.block_f32(n, true),
            _ => r.block_f32(n, false),
        }
    }

    fn pilot(r: &mut Inputs, n: usize, f: &Fields<f32>) -> Vec<f32> {
        let mut all: Vec<f32> = match r.below(8) {
            0..=2 => {
                let size = f.on as f64 * (1.0 + 4.0 * unit(r));
                (0..n)
                    .map(|i| (size * sine(f.step0, f.phase, i)) as f32)
                    .collect()
            }
            // with a table of ones and beta 1 the level is the pilot itself
            3 => (0..n)
                .map(|_| {
                    let x = one(r, &[f.on, f.off]);
                    near_f32(r, x)
                })
                .collect(),
            4 => (0..n).map(|_| r.below(64) as f32 - 32.0).collect(),
            5 => r.block_f32(n, true),
            6 => vec![0.0; n],
            _ => r.block_f32(n, false),
        };
        if n > 0 && r.below(3) == 0 {
            for _ in 0..1 + r.below(3) {
                let i = r.below(n as u64) as usize;
                all[i] = not_finite(r);
            }
        }
        all
    }

    fn samples(r: &mut Inputs, n: usize) -> Vec<f32> {
        let bounded = r.below(2) == 0;
        r.block_f32(n, bounded)
    }
}

const LEVEL_TOP: i64 = (1 << 61) + (1 << 30) - 1;
const LEVEL_LOW: i64 = -(1 << 61) - (1 << 30);

/// One of low..=high, often near an end.
fn between(r: &mut Inputs, low: i64, high: i64) -> i64 {
    let span = (high as i128 - low as i128) as u128 + 1;
    let any = (low as i128 + (r.0.word() as u128 % span) as i128) as i64;
    match r.below(4) {
        0 => high.saturating_sub(r.below(3) as i64).max(low),
        1 => low.saturating_add(r.below(3) as i64).min(high),
        // any width
        2 => {
            let w = (r.0.word() as i64) >> r.below(64);
            w.clamp(low, high)
        }
        _ => any,
    }
}

/// A fit record, up to the ends of every range.
fn fit_fields(r: &mut Inputs) -> Fields<i64> {
    // the guard leaves 2^63 - 1 - imax for a gain times 2^30
    let imax = match r.below(3) {
        0 => between(r, 0, i64::MAX),
        1 => between(r, 0, 1 << 40),
        _ => between(r, 0, 1 << 55),
    };
    let gain = (i64::MAX - imax) >> 30;
    let (on, off) = match r.below(3) {
        // the levels that a beta of 2^31 reaches, or one beside them
        0 => {
            let k = between(r, -(1 << 30), 1 << 30);
            (
                (k << 31) + r.below(3) as i64 - 1,
                (k << 31) - r.below(3) as i64,
            )
        }
        1 => (
            between(r, i64::MIN, i64::MAX),
            between(r, i64::MIN, i64::MAX),
        ),
        _ => {
            let on = between(r, 0, 1 << 60);
            (on, on / 4 * 3)
        }
    };
    // f at a half of 2^32, with a table of ones
    let tie = r.below(6) == 0;
    Fields {
        kp: if tie {
            (1 << 31).min(gain)
        } else {
            between(r, 0, gain)
        },
        ki: if tie { 0 } else { between(r, 0, gain) },
        imax,
        beta: match r.below(3) {
            0 => 1 << 31,
            _ => between(r, 0, 1 << 31),
        },
        on,
        off,
        step0: r.u32(),
        phase: r.u32(),
        integ: between(r, -imax, imax),
        level: between(r, LEVEL_LOW, LEVEL_TOP),
        stereo: r.below(2) == 0,
        enabled: r.below(4) > 0,
    }
}

/// A record with one or more fields outside its range, or at its end.
fn damaged(r: &mut Inputs, mut f: Fields<i64>) -> Fields<i64> {
    for _ in 0..1 + r.below(2) {
        match r.below(12) {
            0 => f.kp = -1 - (r.below(1 << 40) as i64),
            1 => f.ki = -1 - (r.below(1 << 40) as i64),
            2 => f.imax = one(r, &[-1, i64::MIN, -5000]),
            3 => f.beta = one(r, &[-1, (1 << 31) + 1, i64::MAX, i64::MIN]),
            4 => f.kp = ((i64::MAX - f.imax.max(0)) >> 30) + 1,
            5 => f.ki = ((i64::MAX - f.imax.max(0)) >> 30) + 1,
            6 => f.integ = f.imax.saturating_add(1),
            7 => f.integ = f.imax.saturating_neg().saturating_sub(1),
            8 => f.level = one(r, &[LEVEL_TOP + 1, i64::MAX]),
            9 => f.level = one(r, &[LEVEL_LOW - 1, i64::MIN]),
            10 => f.kp = r.0.word() as i64,
            _ => f.integ = r.0.word() as i64,
        }
    }
    f
}

impl Drawn for Q15 {
    fn any_fields(r: &mut Inputs) -> Fields<i64> {
        let f = fit_fields(r);
        if r.below(3) == 0 { damaged(r, f) } else { f }
    }

    fn table(r: &mut Inputs, n: usize) -> Vec<i16> {
        match r.below(8) {
            0..=2 => (0..n)
                .map(|i| (cosine(i) * 32767.0).round() as i16)
                .collect(),
            3 => vec![one(r, &[1, 16384, 32767, -32768, -32767, 0]); n],
            4 => (0..n).map(|_| one(r, &[-32768, 32767])).collect(),
            _ => r.block_i16(n),
        }
    }

    fn pilot(r: &mut Inputs, n: usize, f: &Fields<i64>) -> Vec<i16> {
        match r.below(6) {
            0..=1 => {
                let on = f.on as f64 / f64::powi(2.0, 61);
                let size = on * (1.0 + 4.0 * unit(r)) * 32768.0;
                (0..n)
                    .map(|i| (size * sine(f.step0, f.phase, i)) as i16)
                    .collect()
            }
            2 => vec![one(r, &[-32768, 32767, 1, -1, 0]); n],
            3 => (0..n).map(|_| r.below(9) as i16 - 4).collect(),
            _ => r.block_i16(n),
        }
    }

    fn samples(r: &mut Inputs, n: usize) -> Vec<i16> {
        r.block_i16(n)
    }
}

// ---- calls

const LENGTHS: [usize; 6] = [0, 1, 2, 63, 64, 65];

/// A block with chosen lengths of table, mpx, pilot and both outputs.
pub fn block_of<F: Drawn>(r: &mut Inputs, n: [usize; 5], f: &Fields<F::Value>) -> Block<F::Sample> {
    Block {
        table: F::table(r, n[0]),
        mpx: F::samples(r, n[1]),
        pilot: F::pilot(r, n[2], f),
        outputs: [F::samples(r, n[3]), F::samples(r, n[4])],
    }
}

/// A block, one in six with a damaged length.
pub fn block<F: Drawn>(r: &mut Inputs, f: &Fields<F::Value>) -> Block<F::Sample> {
    let m = match r.below(40) {
        0 => 4096,
        1..=9 => r.below(300) as usize,
        _ => one(r, &LENGTHS),
    };
    let mut n = [TABLE, m, m, m, m];
    if r.below(6) == 0 {
        for _ in 0..1 + r.below(2) {
            let k = r.below(5) as usize;
            n[k] = match r.below(4) {
                0 => n[k].saturating_sub(1),
                1 => n[k] + 1,
                2 => 0,
                _ => one(r, &[5, 4096, 8194]),
            };
        }
    }
    block_of::<F>(r, n, f)
}

pub fn call<F: Drawn>(r: &mut Inputs, f: &Fields<F::Value>) -> Call<F::Sample> {
    match r.below(12) {
        0 => Call::Enable,
        1 => Call::Disable,
        2 => Call::Reset,
        3..=5 => Call::Merged(block::<F>(r, f)),
        _ => Call::Block(block::<F>(r, f)),
    }
}
