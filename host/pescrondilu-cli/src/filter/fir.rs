//! A linear-phase filter that is fed in pieces and adds no delay: its first output stands over the
//! first input. So its outputs lag behind, by half its length, until `finish`.

use super::dot::dot;

pub struct Fir {
    taps: Vec<f32>,
    /// Inputs that outputs still need.
    kept: Vec<f32>,
    /// Where the next output's first input stands in `kept`.
    next: usize,
    /// Each `step`-th output is kept.
    step: usize,
}

impl Fir {
    /// An odd number of symmetric taps.
    pub fn new(taps: &[f64], step: usize) -> Fir {
        let taps: Vec<f32> = taps.iter().map(|&tap| tap as f32).collect();
        let kept = vec![0.0; taps.len() / 2];
        Fir {
            taps,
            kept,
            next: 0,
            step,
        }
    }

    /// By how many samples the outputs lag behind.
    pub fn half(&self) -> usize {
        self.taps.len() / 2
    }

    /// Appends the outputs for which enough inputs are there.
    pub fn run(&mut self, input: &[f32], out: &mut Vec<f32>) {
        self.kept.extend_from_slice(input);
        let n = self.taps.len();
        while self.next + n <= self.kept.len() {
            out.push(dot(&self.kept[self.next..self.next + n], &self.taps));
            self.next += self.step;
        }
        let done = self.next.min(self.kept.len());
        self.kept.drain(..done);
        self.next -= done;
    }

    /// Appends the last outputs, as if silence followed.
    pub fn finish(&mut self, out: &mut Vec<f32>) {
        self.run(&vec![0.0; self.half()], out);
    }
}

#[cfg(test)]
mod tests {
    use super::super::design::{band_pass, db, low_pass};
    use super::*;
    use std::f64::consts::TAU;

    const RATE: f64 = 192_000.0;

    fn tone(frequency: f64, samples: usize) -> Vec<f32> {
        (0..samples)
            .map(|i| (TAU * frequency * i as f64 / RATE).sin() as f32)
            .collect()
    }

    fn filtered(fir: &mut Fir, input: &[f32], piece: usize) -> Vec<f32> {
        let mut out = Vec::new();
        input.chunks(piece).for_each(|part| fir.run(part, &mut out));
        fir.finish(&mut out);
        out
    }

    /// Highest magnitude away from both ends.
    fn peak(samples: &[f32]) -> f64 {
        let edge = samples.len() / 4;
        let middle = samples[edge..samples.len() - edge].iter();
        middle.fold(0.0, |m: f64, x| m.max(f64::from(x.abs())))
    }

    #[test]
    fn the_pilot_comes_out_in_phase_and_in_place() {
        let pilot = tone(19_000.0, 4_000);
        let out = filtered(&mut Fir::new(&band_pass(19e3, 4e3, RATE), 1), &pilot, 999);
        assert_eq!(out.len(), pilot.len());
        for (x, y) in pilot.iter().zip(&out).skip(300).take(3_400) {
            assert!((x - y).abs() < 1e-5);
        }
    }

    #[test]
    fn programme_does_not_come_through_the_band_pass() {
        for frequency in [1_000.0, 15_000.0, 23_000.0, 38_000.0, 57_000.0] {
            let mut band = Fir::new(&band_pass(19e3, 4e3, RATE), 1);
            let out = filtered(&mut band, &tone(frequency, 4_000), 512);
            assert!(db(peak(&out)) < -80.0, "{frequency}: {}", db(peak(&out)));
        }
    }

    #[test]
    fn decimation_keeps_each_fourth() {
        let taps = low_pass(15e3, 18e3, RATE);
        let input = tone(1_000.0, 4_001);
        let all = filtered(&mut Fir::new(&taps, 1), &input, 640);
        for piece in [1, 7, 4_001] {
            let some = filtered(&mut Fir::new(&taps, 4), &input, piece);
            assert_eq!(some.len(), 1_001);
            let same = some
                .iter()
                .zip(all.iter().step_by(4))
                .all(|(a, b)| a.to_bits() == b.to_bits());
            assert!(same, "pieces of {piece}");
        }
        for (x, y) in input.iter().zip(&all).skip(300).take(3_400) {
            assert!((x - y).abs() < 1e-4);
        }
        for frequency in [19_000.0, 33_000.0, 47_000.0, 76_000.0] {
            let out = filtered(&mut Fir::new(&taps, 4), &tone(frequency, 4_000), 512);
            assert!(db(peak(&out)) < -85.0, "{frequency}: {}", db(peak(&out)));
        }
    }

    #[test]
    fn a_nan_is_gone_after_the_length() {
        let mut input = tone(1_000.0, 3_000);
        input[1_000] = f32::from_bits(0xFFC0_0000);
        let mut fir = Fir::new(&low_pass(15e3, 18e3, RATE), 1);
        let half = fir.half();
        let out = filtered(&mut fir, &input, 100);
        for (i, y) in out.iter().enumerate() {
            assert_eq!(y.is_nan(), i.abs_diff(1_000) <= half, "{i}");
        }
    }
}
