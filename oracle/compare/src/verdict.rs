//! The on-air verdict, compared with a model that knows no float: positive floats are in the order of
//! their patterns, and the ends' patterns are worked out in whole numbers. The original has no verdict.

use pescrondilu_sys::encoder::pescrondilu_on_air;
use stereo_oracle::inputs::{Inputs, one};

use crate::part::Part;

/// Hundredths from 7 to 12 lie in 2^-4 to 2^-3: the pattern of the f32 nearest to so many.
const fn hundredths(n: u32) -> u32 {
    let digits = (((n as u64) << 27) + 50) / 100;
    (123 << 23) + digits as u32 - (1 << 23)
}

/// Whole numbers from 2^14 up lie below 2^15: the pattern of the f64 that is this one.
const fn hertz(n: u64) -> u64 {
    (1037 << 52) + (n << 38) - (1 << 52)
}

const AMPLITUDES: [u32; 2] = [hundredths(8), hundredths(10)];
const FREQUENCIES: [u64; 2] = [hertz(19_000 - 2), hertz(19_000 + 2)];

fn expected(frequency: f64, amplitude: f32) -> u32 {
    let [lowest, highest] = FREQUENCIES;
    let [least, most] = AMPLITUDES;
    let (f, a) = (frequency.to_bits(), amplitude.to_bits());
    u32::from((least..=most).contains(&a) && (lowest..=highest).contains(&f))
}

fn compare_one(part: &mut Part, frequency: f64, amplitude: f32) {
    let got = pescrondilu_on_air(frequency, amplitude);
    part.on_air += u64::from(got);
    part.same(expected(frequency, amplitude), got, || {
        format!("{:016x} {:08x}", frequency.to_bits(), amplitude.to_bits())
    });
}

/// Both ends and their neighbours, the same below 0, infinities, NaNs of either sign, quiet and
/// signalling, and values of the kind that a caller would hand in.
fn odd_frequencies() -> Vec<f64> {
    let near = FREQUENCIES
        .iter()
        .flat_map(|w| (w - 3..=w + 3).map(f64::from_bits));
    let other = [
        0x7FF0_0000_0000_0000,
        0x7FF0_0000_0000_0001,
        0x7FF8_0000_0000_0000,
        0x7FFF_FFFF_FFFF_FFFF,
        0,
        1,
    ];
    let usual = [
        17_998.0, 18_000.0, 18_500.0, 19_000.0, 20_000.0, 19.0, 0.019,
    ];
    let all = near
        .chain(other.map(f64::from_bits))
        .chain(usual)
        .collect::<Vec<_>>();
    all.iter().flat_map(|x| [*x, -*x]).collect()
}

fn odd_amplitudes() -> Vec<f32> {
    let near = AMPLITUDES
        .iter()
        .flat_map(|w| (w - 3..=w + 3).map(f32::from_bits));
    let other = [0x7F80_0000, 0x7F80_0001, 0x7FC0_0000, 0x7FFF_FFFF, 0, 1];
    let usual = [0.09, 0.05, 0.2, 1.0, 9.0];
    let all = near
        .chain(other.map(f32::from_bits))
        .chain(usual)
        .collect::<Vec<_>>();
    all.iter().flat_map(|x| [*x, -*x]).collect()
}

pub fn compare() -> bool {
    let mut r = Inputs::new(8);
    let mut part = Part::new("on_air");
    let (frequencies, amplitudes) = (odd_frequencies(), odd_amplitudes());
    for f in &frequencies {
        for a in &amplitudes {
            compare_one(&mut part, *f, *a);
        }
    }
    for end in FREQUENCIES {
        for w in end - 1_000_000..=end + 1_000_000 {
            compare_one(&mut part, f64::from_bits(w), one(&mut r, &amplitudes));
        }
    }
    for _ in 0..4_000_000 {
        let f = match r.below(4) {
            0 => r.f64(),
            1 => one(&mut r, &frequencies),
            _ => 18_990.0 + r.below(20 << 32) as f64 / 4_294_967_296.0,
        };
        let a = match r.below(4) {
            0 => r.f32(),
            1 => one(&mut r, &amplitudes),
            _ => f32::from_bits(0x3DA0_0000 + r.u32() % 0x0040_0000),
        };
        compare_one(&mut part, f, a);
    }
    part.report()
}

/// Every f32 as the amplitude, at 19 kHz, and as the frequency, at 0.09.
pub fn every() -> bool {
    let mut part = Part::new("every_on_air");
    for x in (0..=u32::MAX).map(f32::from_bits) {
        compare_one(&mut part, 19_000.0, x);
        compare_one(&mut part, f64::from(x), 0.09);
    }
    part.report()
}
