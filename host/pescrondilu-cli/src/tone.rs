//! A tone near 19 kHz that the loop cannot follow, so that a report does not take it for a weak pilot.

use std::f64::consts::{PI, TAU};

use crate::receiver::PILOT_HZ;

/// Seconds of a stretch: short enough that 2 kHz to either side of 19 kHz are told apart.
const STRETCH: f64 = 0.000_25;
/// Fewer stretches tell nothing.
const LEAST_STRETCHES: u64 = 100;

/// The filtered pilot in stretches, each weighed with a wave of 19 kHz, and how far one turned
/// against the one before.
pub struct Tone {
    rate: f64,
    /// Cosine and minus sine of 19 kHz from the start of a stretch, under a Hann window, which keeps
    /// out the image at -19 kHz.
    wave: Vec<[f64; 2]>,
    /// The present stretch: samples so far, and their sum with the wave.
    at: usize,
    sum: [f64; 2],
    before: [f64; 2],
    stretches: u64,
    /// Sums over the stretches: each times the conjugate of the one before, and each squared.
    turned: [f64; 2],
    squares: f64,
}

impl Tone {
    pub fn new(rate: f64) -> Tone {
        let length = (STRETCH * rate).round();
        let value = |i: u32| {
            let angle = TAU * PILOT_HZ / rate * f64::from(i);
            let window = 1.0 - (TAU * (f64::from(i) + 0.5) / length).cos();
            [window * angle.cos(), -window * angle.sin()]
        };
        Tone {
            rate,
            wave: (0..length as u32).map(value).collect(),
            at: 0,
            sum: [0.0; 2],
            before: [0.0; 2],
            stretches: 0,
            turned: [0.0; 2],
            squares: 0.0,
        }
    }

    /// A sample that is NaN or infinite counts as 0.
    pub fn hear(&mut self, pilot: &[f32]) {
        for sample in pilot {
            if sample.is_finite() {
                let (x, [c, s]) = (f64::from(*sample), self.wave[self.at]);
                self.sum = [self.sum[0] + x * c, self.sum[1] + x * s];
            }
            self.at += 1;
            if self.at == self.wave.len() {
                self.end_stretch();
            }
        }
    }

    fn end_stretch(&mut self) {
        let ([a, b], [c, d]) = (self.sum, self.before);
        self.turned = [
            self.turned[0] + a * c + b * d,
            self.turned[1] + b * c - a * d,
        ];
        self.squares += a * a + b * b;
        self.stretches += 1;
        (self.at, self.before, self.sum) = (0, self.sum, [0.0; 2]);
    }

    /// Frequency and amplitude, where what is near 19 kHz is one tone for the most part.
    pub fn found(&self) -> Option<(f64, f64)> {
        let [x, y] = self.turned;
        let size = x.hypot(y);
        if self.stretches < LEAST_STRETCHES || size <= self.squares / 2.0 {
            return None;
        }
        let length = self.wave.len() as f64;
        let turns = y.atan2(x) / TAU - PILOT_HZ * length / self.rate;
        let beside = turns - turns.round();
        // within a stretch a tone beside 19 kHz turns against the wave, and so adds up to less
        let kept = match PI * beside {
            0.0 => 1.0,
            angle => angle.sin() / (angle * (1.0 - beside * beside)),
        };
        let each = (size / self.stretches as f64).sqrt();
        let amplitude = 2.0 * each / (length * kept);
        Some((PILOT_HZ + beside * self.rate / length, amplitude))
    }
}

#[cfg(test)]
mod tests {
    use super::*;

    fn tone(hz: f64, amplitude: f64, rate: f64, samples: u32) -> Vec<f32> {
        let value = |i: u32| amplitude * (TAU * hz / rate * f64::from(i)).sin();
        (0..samples).map(|i| value(i) as f32).collect()
    }

    fn found(samples: &[f32], rate: f64, piece: usize) -> Option<(f64, f64)> {
        let mut tone = Tone::new(rate);
        samples.chunks(piece).for_each(|piece| tone.hear(piece));
        tone.found()
    }

    #[test]
    fn a_tone_is_found_at_its_frequency() {
        for rate in [110_000.0, 171_000.0, 192_000.0, 250_000.0, 4_000_000.0] {
            for hz in [17_600.0, 18_500.0, 18_940.0, 19_000.0, 19_060.0, 20_400.0] {
                let samples = tone(hz, 0.09, rate, rate as u32 / 4);
                let (frequency, amplitude) = found(&samples, rate, 1_000).unwrap();
                assert!(
                    (frequency - hz).abs() < 0.1,
                    "{frequency} for {hz} at {rate}"
                );
                assert!(
                    (amplitude / 0.09 - 1.0).abs() < 0.001,
                    "{amplitude} at {hz}, {rate}"
                );
                assert_eq!(found(&samples, rate, 7), found(&samples, rate, 1_000));
            }
        }
    }

    #[test]
    fn what_is_no_tone_is_not_one() {
        let rate = 192_000.0;
        assert_eq!(found(&[], rate, 1), None);
        assert_eq!(found(&[0.0; 48_000], rate, 192), None);
        assert_eq!(found(&[f32::NAN; 48_000], rate, 192), None);
        let short = tone(18_500.0, 0.09, rate, 4_000);
        assert_eq!(found(&short, rate, 192), None);
        // a generator of random bits
        let mut state = 1_u64;
        let mut noise = || {
            state = state
                .wrapping_mul(6_364_136_223_846_793_005)
                .wrapping_add(1);
            (state >> 40) as f32 / (1 << 24) as f32 - 0.5
        };
        let noise: Vec<f32> = (0..192_000).map(|_| noise()).collect();
        assert_eq!(found(&noise, rate, 192), None);
    }

    #[test]
    fn noise_and_a_nan_leave_a_tone_where_it_is() {
        let rate = 192_000.0;
        let mut samples = tone(18_500.0, 0.09, rate, 192_000);
        let mut state = 1_u64;
        for sample in &mut samples {
            state = state
                .wrapping_mul(6_364_136_223_846_793_005)
                .wrapping_add(1);
            *sample += 0.1 * ((state >> 40) as f32 / (1 << 24) as f32 - 0.5);
        }
        samples[777] = f32::NAN;
        samples[778] = f32::INFINITY;
        let (frequency, amplitude) = found(&samples, rate, 192).unwrap();
        assert!((frequency - 18_500.0).abs() < 2.0, "{frequency}");
        assert!((amplitude / 0.09 - 1.0).abs() < 0.01, "{amplitude}");
    }
}
