//! From the audio's rate to the multiplex's by a windowed sinc, for any two whole rates.

use super::design::{Kernel, half_length};
use super::dot::dot;

/// At most this many places between two samples have taps of their own. Where the rates need more,
/// two neighbours are mixed, which is 120 dB below the signal.
const MOST_ROWS: u64 = 1024;

pub struct Interpolator {
    /// Row after row, each for one place between two samples.
    taps: Vec<f32>,
    width: usize,
    rows: u64,
    /// Outputs for each `down` inputs.
    up: u64,
    down: u64,
    /// The next output's place after its input, in parts of `up`.
    place: u64,
    kept: Vec<f32>,
    next: usize,
}

fn common_divisor(a: u64, b: u64) -> u64 {
    if b == 0 { a } else { common_divisor(b, a % b) }
}

/// Audio passes up to 15 kHz. The pilot's place is free of it, and so is that of the images.
fn band(from: f64) -> (f64, f64) {
    let pass = f64::min(15_000.0, 0.46 * from);
    (pass, f64::min(18_000.0, from - pass))
}

impl Interpolator {
    pub fn new(from: u32, to: u32) -> Interpolator {
        let (from, to) = (u64::from(from), u64::from(to));
        let shared = common_divisor(to, from);
        let (up, down) = (to / shared, from / shared);
        let (pass, stop) = band(from as f64);
        let half = half_length(stop - pass, from as f64);
        let kernel = Kernel::new((pass + stop) / (2.0 * from as f64), half);
        let rows = up.min(MOST_ROWS);
        // one row more, which lies one sample further: the upper neighbour of the last
        let taps = (0..=rows).flat_map(|row| row_of(&kernel, half, row as f64 / rows as f64));
        let (taps, width) = (taps.collect(), 2 * half);
        let kept = vec![0.0; half - 1];
        Interpolator {
            taps,
            width,
            rows,
            up,
            down,
            place: 0,
            kept,
            next: 0,
        }
    }

    /// Appends the outputs for which enough inputs are there.
    pub fn run(&mut self, input: &[f32], out: &mut Vec<f32>) {
        self.kept.extend_from_slice(input);
        while self.next + self.width <= self.kept.len() {
            out.push(self.output());
            self.place += self.down;
            self.next += (self.place / self.up) as usize;
            self.place %= self.up;
        }
        let done = self.next.min(self.kept.len());
        self.kept.drain(..done);
        self.next -= done;
    }

    /// Appends the last outputs, as if silence followed.
    pub fn finish(&mut self, out: &mut Vec<f32>) {
        self.run(&vec![0.0; self.width / 2], out);
    }

    fn output(&self) -> f32 {
        let samples = &self.kept[self.next..self.next + self.width];
        if self.rows == self.up {
            return dot(samples, self.row(self.place));
        }
        let place = self.place as f64 / self.up as f64 * self.rows as f64;
        let (row, upper) = (place as u64, place.fract() as f32);
        let (low, high) = (dot(samples, self.row(row)), dot(samples, self.row(row + 1)));
        low + upper * (high - low)
    }

    fn row(&self, row: u64) -> &[f32] {
        &self.taps[row as usize * self.width..][..self.width]
    }
}

/// The taps for an output that lies `place` of a sample after its input, with gain 1 at 0 Hz.
fn row_of(kernel: &Kernel, half: usize, place: f64) -> Vec<f32> {
    let first = 1.0 - half as f64 - place;
    let taps: Vec<f64> = (0..2 * half).map(|k| kernel.at(first + k as f64)).collect();
    let gain: f64 = taps.iter().sum();
    taps.iter().map(|tap| (tap / gain) as f32).collect()
}

#[cfg(test)]
mod tests {
    use super::*;
    use std::f64::consts::TAU;

    fn tone(frequency: f64, rate: u32, samples: usize) -> Vec<f32> {
        let rate = f64::from(rate);
        (0..samples)
            .map(|i| (TAU * frequency * i as f64 / rate).sin() as f32)
            .collect()
    }

    fn interpolated(from: u32, to: u32, input: &[f32], piece: usize) -> Vec<f32> {
        let mut interpolator = Interpolator::new(from, to);
        let mut out = Vec::new();
        input
            .chunks(piece)
            .for_each(|part| interpolator.run(part, &mut out));
        interpolator.finish(&mut out);
        out
    }

    #[test]
    fn a_tone_stays_itself_at_any_rates() {
        for (from, to) in [
            (48_000, 192_000),
            (44_100, 192_000),
            (44_100, 176_400),
            (32_000, 192_000),
            (48_000, 250_007),
            (96_000, 120_000),
            (192_000, 192_000),
            (384_000, 192_000),
            (11_025, 192_000),
        ] {
            let samples = from as usize / 20;
            let frequency = f64::min(14_000.0, 0.4 * f64::from(from));
            let out = interpolated(from, to, &tone(frequency, from, samples), 777);
            assert_eq!(
                out.len() as u64,
                (samples as u64 * u64::from(to)).div_ceil(from.into())
            );
            let wanted = tone(frequency, to, out.len());
            let edge = out.len() / 3;
            let worst = (edge..out.len() - edge).map(|i| (out[i] - wanted[i]).abs());
            let worst = worst.fold(0.0, f32::max);
            assert!(worst < 1e-4, "{from} to {to}: {worst}");
        }
    }

    #[test]
    fn nothing_is_left_at_the_pilot_or_above() {
        for frequency in [19_000.0, 21_000.0, 23_500.0] {
            let out = interpolated(48_000, 192_000, &tone(frequency, 48_000, 4_800), 4_800);
            let middle = &out[6_000..13_000];
            let peak = middle.iter().fold(0.0f32, |m, x| m.max(x.abs()));
            assert!(peak < 6e-5, "{frequency}: {peak}");
        }
    }

    #[test]
    fn the_pieces_do_not_matter() {
        let input = tone(1_000.0, 44_100, 1_000);
        let whole = interpolated(44_100, 192_000, &input, 1_000);
        for piece in [1, 13] {
            assert_eq!(interpolated(44_100, 192_000, &input, piece), whole);
        }
    }
}
