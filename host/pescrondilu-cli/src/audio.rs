//! From left and right at the multiplex's rate to the audio's: the low-pass, de-emphasis.

use crate::filter::design::low_pass;
use crate::filter::emphasis::Emphasis;
use crate::filter::fir::Fir;
use crate::format::{Format, fill_f32};

/// Audio passes whole up to here.
const AUDIO_HZ: f64 = 15_000.0;
/// The low-pass stops from here: the pilot, and RDS, which the loop brings from 57 to 19 kHz.
/// With these filters left and right are more than 96 dB apart; what limits the separation is the
/// loop's own ripple at 38 kHz, which is proportional to its natural frequency.
const STOP_HZ: f64 = 17_800.0;

/// Left and right.
pub type Stereo = [Vec<f32>; 2];

pub struct AudioPath {
    low: [Fir; 2],
    emphasis: Option<[Emphasis; 2]>,
    decimation: usize,
    /// One side before and after the low-pass. Each call uses them again.
    before: Vec<f32>,
    after: Vec<f32>,
}

/// The whole number that takes the rate to 48 or 44.1 kHz, or else nearest to 48 kHz.
pub fn decimation(rate: f64) -> usize {
    for audio in [48_000.0, 44_100.0] {
        if rate % audio == 0.0 {
            return (rate / audio) as usize;
        }
    }
    let low = (rate / 48_000.0).floor().max(1.0);
    let away = |step: f64| (rate / step / 48_000.0).ln().abs();
    let step = if away(low + 1.0) < away(low) {
        low + 1.0
    } else {
        low
    };
    step as usize
}

impl AudioPath {
    /// With this time constant of de-emphasis in seconds.
    pub fn new(rate: f64, deemphasis: Option<f64>) -> AudioPath {
        let decimation = decimation(rate);
        let taps = low_pass(AUDIO_HZ, STOP_HZ, rate);
        let emphasis = |seconds| Emphasis::de(seconds, rate / decimation as f64);
        AudioPath {
            low: [0, 1].map(|_| Fir::new(&taps, decimation)),
            emphasis: deemphasis.map(|seconds| [emphasis(seconds); 2]),
            decimation,
            before: Vec::new(),
            after: Vec::new(),
        }
    }

    pub fn decimation(&self) -> usize {
        self.decimation
    }

    /// Takes left and right as the core gives them and appends the audio; `last` also what the
    /// low-pass still holds.
    pub fn run<T: Format>(&mut self, wide: [&[T]; 2], last: bool, audio: &mut Stereo) {
        for (at, wide) in wide.into_iter().enumerate() {
            fill_f32(&mut self.before, wide);
            self.after.clear();
            self.low[at].run(&self.before, &mut self.after);
            if last {
                self.low[at].finish(&mut self.after);
            }
            self.after.iter_mut().for_each(|x| *x *= T::HEADROOM);
            if let Some(emphasis) = &mut self.emphasis {
                emphasis[at].run(&mut self.after);
            }
            audio[at].extend_from_slice(&self.after);
        }
    }
}

#[cfg(test)]
mod tests {
    use super::*;
    use pescrondilu::Q15;

    #[test]
    fn the_audio_rate_is_near_48_khz() {
        for (rate, step) in [
            (192_000.0, 4),
            (176_400.0, 4),
            (384_000.0, 8),
            (250_000.0, 5),
            (171_000.0, 4),
            (228_000.0, 5),
            (120_000.0, 3),
            (110_000.0, 2),
            (2_400_000.0, 50),
            (220_500.0, 5),
        ] {
            assert_eq!(decimation(rate), step, "{rate}");
            let audio = rate / step as f64;
            assert!((40_000.0..60_001.0).contains(&audio));
        }
    }

    fn steady<T: Format>(left: f32, right: f32) -> [f32; 2] {
        let mut path = AudioPath::new(192_000.0, Some(50e-6));
        let mut audio = Stereo::default();
        let wide = [left, right].map(|x| [T::multiplex(x); 8_000]);
        path.run([&wide[0], &wide[1]], true, &mut audio);
        assert_eq!(audio[0].len(), 2_000);
        [audio[0][1_000], audio[1][1_000]]
    }

    #[test]
    fn both_sides_pass_at_their_level_in_both_formats() {
        let near = |sides: [f32; 2], error: f32| {
            (sides[0] - 0.75).abs() < error && (sides[1] - 0.25).abs() < error
        };
        assert!(near(steady::<f32>(0.75, 0.25), 1e-5));
        assert!(near(steady::<Q15>(0.75, 0.25), 1e-4));
    }
}
