//! De-emphasis and pre-emphasis of first order.

use std::f64::consts::TAU;

/// One pole and one zero. Its memory has no end, so a value that is not finite is passed over:
/// the output stays where it was.
#[derive(Clone, Copy, Debug)]
pub struct Emphasis {
    forward: [f64; 2],
    back: f64,
    last_in: f64,
    last_out: f64,
}

/// Here, and at 0 Hz, the gain is that of the network of resistor and capacitor.
const FITTED_HZ: f64 = 15_000.0;

/// The pole, the zero and the gain before them: gain·(1 + zero/z)/(1 - pole/z).
struct Fit {
    pole: f64,
    zero: f64,
    gain: f64,
}

/// The pole is the network's own. The zero takes the gain at 15 kHz to the network's, from which
/// the pole alone is 1.4 dB away at 48 kHz.
fn fit(seconds: f64, rate: f64) -> Fit {
    let pole = (-1.0 / (seconds * rate)).exp();
    let fitted = FITTED_HZ.min(0.45 * rate);
    let wanted = 1.0 / (1.0 + (TAU * fitted * seconds).powi(2));
    let cos = (TAU * fitted / rate).cos();
    let ratio = wanted * (1.0 + pole * pole - 2.0 * pole * cos) / (1.0 - pole).powi(2);
    // (1 - ratio) zero^2 + 2 (cos - ratio) zero + (1 - ratio) = 0. Each root is the inverse of the
    // other; the one inside the circle is taken, so that the filter can be inverted.
    let half = (cos - ratio) / (1.0 - ratio);
    let outer = half + half.signum() * (half * half - 1.0).max(0.0).sqrt();
    let zero = -1.0 / outer;
    Fit {
        pole,
        zero,
        gain: (1.0 - pole) / (1.0 + zero),
    }
}

impl Emphasis {
    /// What a receiver does.
    pub fn de(seconds: f64, rate: f64) -> Emphasis {
        let Fit { pole, zero, gain } = fit(seconds, rate);
        Emphasis::new([gain, gain * zero], pole)
    }

    /// What a transmitter does: the inverse, at the same rate, of the receiver's.
    pub fn pre(seconds: f64, rate: f64) -> Emphasis {
        let Fit { pole, zero, gain } = fit(seconds, rate);
        Emphasis::new([1.0 / gain, -pole / gain], -zero)
    }

    fn new(forward: [f64; 2], back: f64) -> Emphasis {
        Emphasis {
            forward,
            back,
            last_in: 0.0,
            last_out: 0.0,
        }
    }

    pub fn run(&mut self, samples: &mut [f32]) {
        for sample in samples {
            if sample.is_finite() {
                let x = f64::from(*sample);
                let [now, before] = self.forward;
                self.last_out = now * x + before * self.last_in + self.back * self.last_out;
                self.last_in = x;
            }
            *sample = self.last_out as f32;
        }
    }
}

#[cfg(test)]
mod tests {
    use super::super::design::db;
    use super::*;

    /// Gain at a frequency, from the response to one sample.
    fn gain(mut emphasis: Emphasis, frequency: f64, rate: f64) -> f64 {
        let mut response = vec![0.0f32; 4_000];
        response[0] = 1.0;
        emphasis.run(&mut response);
        let turn = TAU * frequency / rate;
        let part = |f: fn(f64) -> f64| -> f64 {
            let each = response.iter().enumerate();
            each.map(|(i, &x)| f64::from(x) * f(turn * i as f64)).sum()
        };
        part(f64::cos).hypot(part(f64::sin))
    }

    #[test]
    fn it_is_the_network_within_a_quarter_of_a_decibel() {
        for rate in [
            39_200.0, 44_100.0, 48_000.0, 64_000.0, 96_000.0, 192_000.0, 384_000.0,
        ] {
            for seconds in [50e-6, 75e-6] {
                for frequency in [100.0, 1_000.0, 3_000.0, 5_000.0, 10_000.0, 15_000.0] {
                    let wanted = 1.0 / (1.0 + (TAU * frequency * seconds).powi(2)).sqrt();
                    let off = db(gain(Emphasis::de(seconds, rate), frequency, rate) / wanted);
                    assert!(off.abs() < 0.25, "{off} dB at {frequency} of {rate}");
                    let off = db(gain(Emphasis::pre(seconds, rate), frequency, rate) * wanted);
                    assert!(off.abs() < 0.25, "{off} dB at {frequency} of {rate}, pre");
                }
            }
        }
    }

    #[test]
    fn low_rates_of_a_programme_are_stable() {
        for rate in [1_000.0, 8_000.0, 11_025.0, 22_050.0, 32_000.0] {
            for emphasis in [Emphasis::pre(75e-6, rate), Emphasis::de(75e-6, rate)] {
                assert!((gain(emphasis, 0.0, rate) - 1.0).abs() < 1e-3, "{rate}");
                let there = gain(emphasis, 0.4 * rate, rate);
                assert!(there > 0.1 && there < 10.0, "{there} at {rate}");
            }
        }
    }

    #[test]
    fn both_together_change_nothing() {
        let (mut pre, mut de) = (Emphasis::pre(50e-6, 48e3), Emphasis::de(50e-6, 48e3));
        let before: Vec<f32> = (0..500).map(|i| (i as f32 * 0.7).sin()).collect();
        let mut after = before.clone();
        pre.run(&mut after);
        de.run(&mut after);
        assert!(before.iter().zip(&after).all(|(x, y)| (x - y).abs() < 1e-5));
    }

    #[test]
    fn what_is_not_finite_is_passed_over() {
        let mut de = Emphasis::de(50e-6, 48e3);
        let mut samples = [1.0, f32::NAN, f32::INFINITY, f32::NEG_INFINITY, 1.0, 1.0];
        de.run(&mut samples);
        assert!(samples.iter().all(|x| x.is_finite()));
        assert_eq!(samples[1], samples[0]);
        assert!(samples[5] > samples[0]);
    }
}
