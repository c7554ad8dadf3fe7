//! The scan of the pilot beside a model, and the fast block, which asks it, beside the plain one.

mod common;

use common::{Random, any, audio, decoder, one_nan, pilot, record_one_nan};
use pescrondilu::kernels::stereo::{Scanned, StereoPllState, scan};
use pescrondilu::tables;

/// Both infinities; NaNs of both signs, quiet and signalling, with payloads of few and many bits.
const NOT_FINITE: [u32; 18] = [
    0x7F80_0000,
    0xFF80_0000,
    0x7FC0_0000,
    0xFFC0_0000,
    0x7F80_0001,
    0xFF80_0001,
    0x7FFF_FFFF,
    0xFFFF_FFFF,
    0x7FA0_0000,
    0xFFA0_0000,
    0x7FBF_FFFF,
    0xFFBF_FFFF,
    0x7FC0_0001,
    0xFFC0_0001,
    0x7F80_BEEF,
    0xFF81_0000,
    0x7FD5_5555,
    0xFFEA_AAAA,
];

/// Their neighbours, the largest numbers, and from there down to the least and both zeros.
const FINITE: [u32; 18] = [
    0x7F7F_FFFF,
    0xFF7F_FFFF,
    0x7F7F_FFFE,
    0xFF00_0000,
    0x7F00_0000,
    0xFF00_0001,
    0x0000_0000,
    0x8000_0000,
    0x0000_0001,
    0x8000_0001,
    0x007F_FFFF,
    0x807F_FFFF,
    0x0080_0000,
    0x8080_0000,
    0x3F80_0000,
    0xBFFF_FFFF,
    0x4000_0000,
    0xC07F_FFFF,
];

/// The core tests 32 samples as one, so these stand to both sides of one and of two times that.
const LENGTHS: [usize; 11] = [0, 1, 2, 31, 32, 33, 63, 64, 65, 100, 4096];

/// Every place, or in a long pilot every 37th and both ends.
fn places(n: usize) -> Vec<usize> {
    let step = if n > 100 { 37 } else { 1 };
    let mut places: Vec<usize> = (0..n).step_by(step).collect();
    places.extend(n.checked_sub(1));
    places.dedup();
    places
}

fn model(pilot: &[f32]) -> Scanned {
    let last = pilot.iter().rposition(|x| !x.is_finite());
    Scanned {
        finite: last.is_none(),
        read: pilot.len() - last.unwrap_or(0),
    }
}

fn last_at(place: usize, n: usize) -> Scanned {
    Scanned {
        finite: false,
        read: n - place,
    }
}

fn all_finite(n: usize) -> Scanned {
    Scanned {
        finite: true,
        read: n,
    }
}

/// The patterns over and over.
fn cycled(patterns: &[u32], n: usize) -> Vec<f32> {
    let bits = patterns.iter().cycle().take(n);
    bits.map(|bits| f32::from_bits(*bits)).collect()
}

/// Pilots in which every sample is finite: a sine, silence, the patterns next to the others.
fn finite_pilots(n: usize) -> [Vec<f32>; 3] {
    [pilot(0, n, 0.1), vec![0.0; n], cycled(&FINITE, n)]
}

#[test]
fn finite_pilots_are_read_to_the_start() {
    for n in LENGTHS {
        for samples in finite_pilots(n) {
            assert_eq!(scan(&samples), all_finite(n));
        }
        for bits in FINITE {
            let mut samples = vec![f32::from_bits(bits); n];
            assert_eq!(model(&samples), all_finite(n), "{bits:x}");
            assert_eq!(scan(&samples), all_finite(n), "{bits:x}");
            samples.fill(0.1);
            for place in places(n) {
                samples[place] = f32::from_bits(bits);
                assert_eq!(scan(&samples), all_finite(n), "{bits:x} at {place} of {n}");
                samples[place] = 0.1;
            }
        }
    }
}

#[test]
fn one_sample_at_each_place() {
    for n in LENGTHS {
        for mut samples in finite_pilots(n) {
            for place in places(n) {
                let before = samples[place];
                for bits in NOT_FINITE {
                    samples[place] = f32::from_bits(bits);
                    let wanted = last_at(place, n);
                    assert_eq!(model(&samples), wanted, "{bits:x} at {place} of {n}");
                    assert_eq!(scan(&samples), wanted, "{bits:x} at {place} of {n}");
                }
                samples[place] = before;
            }
        }
    }
}

/// Two alone, and with all between them: the later one counts.
#[test]
fn two_and_many_samples() {
    let nans = cycled(&NOT_FINITE, 4096);
    for n in LENGTHS {
        let places = match n {
            4096 => vec![0, 1, 31, 32, 2047, 2048, 4063, 4064, 4094, 4095],
            _ => places(n),
        };
        for &first in &places {
            for &last in places.iter().filter(|last| **last > first) {
                let mut samples = pilot(0, n, 0.1);
                (samples[first], samples[last]) = (nans[last], nans[first]);
                assert_eq!(scan(&samples), last_at(last, n), "{first} {last} {n}");
                samples[first..=last].copy_from_slice(&nans[first..=last]);
                assert_eq!(scan(&samples), last_at(last, n), "{first} to {last} {n}");
            }
        }
        if n > 0 {
            assert_eq!(scan(&nans[..n]), last_at(n - 1, n));
        }
    }
}

/// A slice may begin anywhere, and what stands beside it is not read.
#[test]
fn samples_outside_the_slice_do_not_count() {
    for n in [0, 1, 31, 32, 33, 64, 100] {
        for from in 0..40 {
            let mut samples = cycled(&NOT_FINITE, from + n + 40);
            samples[from..from + n].fill(0.1);
            assert_eq!(scan(&samples[from..from + n]), all_finite(n));
            for place in 0..n {
                samples[from + place] = f32::NAN;
                assert_eq!(scan(&samples[from..from + n]), last_at(place, n));
                samples[from + place] = 0.1;
            }
        }
    }
}

#[test]
fn any_bits() {
    let mut random = Random(31);
    let mut told = [0; 2];
    for _ in 0..20_000 {
        let n = random.word() % 600;
        let samples: Vec<f32> = any(&mut random, n as usize);
        let scanned = scan(&samples);
        assert_eq!(scanned, model(&samples));
        told[usize::from(scanned.finite)] += 1;
    }
    assert!(told[0] > 5_000 && told[1] > 5_000, "{told:?}");
}

fn numbers(samples: &[f32]) -> Vec<u64> {
    samples.iter().map(|x| one_nan(*x)).collect()
}

/// One block by both ways; gives the state after it.
fn same_by_both_ways(
    state: &StereoPllState<f32>,
    mpx: &[f32],
    pilot: &[f32],
) -> StereoPllState<f32> {
    let (mut fast, mut plain) = (*state, *state);
    let [mut sum, mut difference, mut plain_sum, mut plain_difference] =
        [(); 4].map(|()| vec![9.0; mpx.len()]);
    let answer = fast.process(mpx, pilot, &mut sum, &mut difference);
    assert_eq!(answer, Ok(()));
    let (s, d) = (&mut plain_sum, &mut plain_difference);
    assert_eq!(plain.process_plain(tables::cos(), mpx, pilot, s, d), Ok(()));
    assert_eq!(numbers(&sum), numbers(&plain_sum));
    assert_eq!(numbers(&difference), numbers(&plain_difference));
    assert_eq!(record_one_nan(&fast), record_one_nan(&plain));
    fast
}

/// A fresh decoder, one in stereo, and that one with the difference switched off.
fn states() -> [StereoPllState<f32>; 3] {
    let fresh = decoder::<f32>();
    let mut stereo = fresh;
    let (mut sum, mut difference) = (vec![0.0; 192_000], vec![0.0; 192_000]);
    stereo
        .process(
            &sum.clone(),
            &pilot(0, 192_000, 0.1),
            &mut sum,
            &mut difference,
        )
        .expect("equal lengths");
    assert!(stereo.is_stereo());
    let mut disabled = stereo;
    disabled.set_enabled(false);
    [fresh, stereo, disabled]
}

/// Were such a pilot taken for finite, the level would not stay finite.
#[test]
fn the_fast_block_is_the_plain_one_wherever_a_sample_is_not_finite() {
    let mut random = Random(32);
    for state in states() {
        for n in LENGTHS {
            let mpx: Vec<f32> = audio(&mut random, n);
            let good: Vec<f32> = pilot(0, n, 0.1);
            same_by_both_ways(&state, &mpx, &good);
            for place in places(n) {
                let mut samples = good.clone();
                samples[place] = f32::from_bits(NOT_FINITE[(n + place) % NOT_FINITE.len()]);
                let after = same_by_both_ways(&state, &mpx, &samples);
                assert!(after.lock_level().is_finite(), "{place} of {n}");
                samples[place] = f32::from_bits(FINITE[(n + place) % FINITE.len()]);
                same_by_both_ways(&state, &mpx, &samples);
            }
        }
    }
}
