//! Taps of linear-phase filters: a sinc under a Kaiser window.

use std::f64::consts::{PI, TAU};

/// How far the stop band lies below the pass band, in decibels.
pub const STOP_DB: f64 = 90.0;

/// The Kaiser window's parameter for an attenuation above 50 dB.
fn kaiser_beta(stop_db: f64) -> f64 {
    0.1102 * (stop_db - 8.7)
}

/// Modified Bessel function of order 0, by its series.
fn bessel_i0(x: f64) -> f64 {
    let (mut sum, mut term, mut k) = (1.0, 1.0, 1.0);
    while term > sum * 1e-17 {
        term *= (x / (2.0 * k)) * (x / (2.0 * k));
        sum += term;
        k += 1.0;
    }
    sum
}

/// A sinc of this cut-off, in parts of the rate, under a window that reaches `half` to each side.
pub struct Kernel {
    cut: f64,
    half: f64,
    beta: f64,
    scale: f64,
}

impl Kernel {
    pub fn new(cut: f64, half: usize) -> Kernel {
        let beta = kaiser_beta(STOP_DB);
        Kernel {
            cut,
            half: half as f64,
            beta,
            scale: 1.0 / bessel_i0(beta),
        }
    }

    /// The value `t` samples from the middle.
    pub fn at(&self, t: f64) -> f64 {
        let place = t / self.half;
        if place.abs() > 1.0 {
            return 0.0;
        }
        let window = bessel_i0(self.beta * (1.0 - place * place).sqrt()) * self.scale;
        window * sinc(2.0 * self.cut * t)
    }
}

/// sin(pi x) / (pi x).
pub fn sinc(x: f64) -> f64 {
    if x == 0.0 {
        1.0
    } else {
        (PI * x).sin() / (PI * x)
    }
}

/// Samples on each side of the middle for a step from pass to stop band that is `width` wide.
pub fn half_length(width: f64, rate: f64) -> usize {
    let taps = (STOP_DB - 7.95) / (2.285 * TAU * width / rate);
    (taps / 2.0).ceil() as usize
}

fn places(half: usize) -> impl Iterator<Item = f64> {
    let half = half as i64;
    (-half..=half).map(|k| k as f64)
}

/// Passes up to `pass` and stops from `stop`; gain 1 at 0 Hz.
pub fn low_pass(pass: f64, stop: f64, rate: f64) -> Vec<f64> {
    let half = half_length(stop - pass, rate);
    let kernel = Kernel::new((pass + stop) / (2.0 * rate), half);
    let taps: Vec<f64> = places(half).map(|k| kernel.at(k)).collect();
    let gain: f64 = taps.iter().sum();
    taps.into_iter().map(|tap| tap / gain).collect()
}

/// Passes `middle` with gain 1 and phase 0, and stops from `reach` to either side.
pub fn band_pass(middle: f64, reach: f64, rate: f64) -> Vec<f64> {
    let turn = TAU * middle / rate;
    let half = half_length(reach, rate);
    let kernel = Kernel::new(reach / (2.0 * rate), half);
    let taps: Vec<f64> = places(half)
        .map(|k| kernel.at(k) * (turn * k).cos())
        .collect();
    let gain: f64 = taps
        .iter()
        .zip(places(half))
        .map(|(tap, k)| tap * (turn * k).cos())
        .sum();
    taps.into_iter().map(|tap| tap / gain).collect()
}

/// The gain of symmetric taps at a frequency.
pub fn gain(taps: &[f64], frequency: f64, rate: f64) -> f64 {
    let turn = TAU * frequency / rate;
    let half = taps.len() / 2;
    taps.iter()
        .zip(places(half))
        .map(|(tap, k)| tap * (turn * k).cos())
        .sum()
}

/// In decibels.
#[cfg(test)]
pub fn db(ratio: f64) -> f64 {
    20.0 * ratio.abs().log10()
}

#[cfg(test)]
mod tests {
    use super::*;

    const RATES: [f64; 4] = [120_000.0, 192_000.0, 250_000.0, 384_000.0];

    #[test]
    fn bessel_is_right_at_known_places() {
        assert!((bessel_i0(0.0) - 1.0).abs() < 1e-15);
        assert!((bessel_i0(1.0) - 1.266_065_877_752_008_4).abs() < 1e-14);
        assert!((bessel_i0(5.0) - 27.239_871_823_604_442).abs() < 1e-11);
    }

    #[test]
    fn the_low_pass_is_flat_to_15_khz_and_stops_the_pilot() {
        for rate in RATES {
            let taps = low_pass(15_000.0, 18_000.0, rate);
            assert!((gain(&taps, 0.0, rate) - 1.0).abs() < 1e-12);
            for frequency in [1_000.0, 10_000.0, 15_000.0] {
                assert!(
                    db(gain(&taps, frequency, rate)).abs() < 0.001,
                    "{frequency} at {rate}"
                );
            }
            let mut frequency = 18_000.0;
            while frequency <= rate / 2.0 {
                assert!(
                    db(gain(&taps, frequency, rate)) < -88.0,
                    "{frequency} at {rate}"
                );
                frequency += 50.0;
            }
        }
    }

    #[test]
    fn the_band_pass_passes_the_pilot_only() {
        for rate in RATES {
            let taps = band_pass(19_000.0, 4_000.0, rate);
            assert!((gain(&taps, 19_000.0, rate) - 1.0).abs() < 1e-12);
            for near in [18_950.0, 19_050.0] {
                assert!(db(gain(&taps, near, rate)).abs() < 0.01, "{near} at {rate}");
            }
            let stop = (0..=15_000)
                .step_by(50)
                .chain((23_000..rate as usize / 2).step_by(50));
            for frequency in stop {
                let there = db(gain(&taps, frequency as f64, rate));
                assert!(there < -84.0, "{there} at {frequency} of {rate}");
            }
        }
    }

    #[test]
    fn taps_are_symmetric_and_odd_in_number() {
        for taps in [low_pass(15e3, 18e3, 192e3), band_pass(19e3, 4e3, 192e3)] {
            assert_eq!(taps.len() % 2, 1);
            for (one, other) in taps.iter().zip(taps.iter().rev()) {
                assert!((one - other).abs() < 1e-15);
            }
        }
    }
}
