//! The biphase symbol of a bit under the standard's cosine filter, as a table. Time is in bits.

use std::f64::consts::FRAC_PI_2;

use crate::filter::design::sinc;
use crate::filter::dot::dot;

/// A sample is made of its own bit and of this many before and after it.
pub const SIDE: usize = 7;
pub const SPAN: usize = 2 * SIDE + 1;

/// The symbol is cut here, to either side of its middle. It is 0 there, and what is cut off is
/// below 4e-5 of its peak.
const REACH: f64 = 7.375;

/// Places within a bit that have a row. Between two rows their values are mixed, which is 130 dB
/// below the peak.
const PLACES: usize = 1 << 12;

/// What the filter H(f) = cos(pi f / 4) for |f| <= 2, 0 beyond, makes of an impulse: its integral
/// is cos(4 pi t) / (1 - 64 t^2) but for a factor. This form of it has no 0 / 0 at t = 1 / 8.
fn impulse(t: f64) -> f64 {
    let y = 8.0 * t.abs();
    FRAC_PI_2 * sinc((1.0 - y) / 2.0) / (1.0 + y)
}

/// A 1: an impulse a quarter of a bit before the middle, and the opposite one a quarter after it.
fn symbol(t: f64) -> f64 {
    if t.abs() > REACH {
        return 0.0;
    }
    impulse(t + 0.25) - impulse(t - 0.25)
}

pub struct Pulse {
    /// For each place within a bit, what each bit adds there; the oldest bit comes first.
    rows: Vec<[f32; SPAN]>,
}

impl Pulse {
    /// The peak over all bits that could be sent is 1: at each place all symbols may add up, and no
    /// place has more than 1. Bits that are all alike come to 0.98.
    pub fn new() -> Pulse {
        // one row more, which is the next bit's first: the upper neighbour of the last
        let rows: Vec<[f64; SPAN]> = (0..=PLACES).map(row).collect();
        let peak = rows.iter().map(most).fold(0.0, f64::max);
        let scaled = |row: [f64; SPAN]| row.map(|value| (value / peak) as f32);
        Pulse {
            rows: rows.into_iter().map(scaled).collect(),
        }
    }

    /// The value at a place of the middle bit, from 0 to below 1. A sign is 1, -1, or 0 for no bit.
    pub fn at(&self, place: f64, signs: &[f32; SPAN]) -> f32 {
        let place = place * PLACES as f64;
        let (row, upper) = (place as usize, place.fract() as f32);
        let low = dot(signs, &self.rows[row]);
        let high = dot(signs, &self.rows[row + 1]);
        low + upper * (high - low)
    }
}

fn row(place: usize) -> [f64; SPAN] {
    let after_middle = place as f64 / PLACES as f64 - 0.5;
    std::array::from_fn(|bit| symbol(after_middle + SIDE as f64 - bit as f64))
}

/// The sum where every bit adds to it.
fn most(row: &[f64; SPAN]) -> f64 {
    row.iter().map(|value| value.abs()).sum()
}

#[cfg(test)]
mod tests {
    use super::*;
    use std::f64::consts::{PI, TAU};

    /// The filter's integral from -2 to 2 by the trapezoid rule, 1 at time 0.
    fn integral(t: f64) -> f64 {
        let steps = 20_000;
        let at = |k: i32| {
            let f = 4.0 * f64::from(k) / f64::from(steps) - 2.0;
            (PI * f / 4.0).cos() * (TAU * f * t).cos()
        };
        let sum: f64 = (0..=steps).map(at).sum();
        sum * 4.0 / f64::from(steps) * PI / 8.0
    }

    #[test]
    fn the_impulse_is_the_filters_integral() {
        for t in [0.0, 0.1, 0.125, 0.1250001, 0.25, 0.375, 0.5, 1.3, 4.9] {
            for t in [t, -t] {
                let error = (impulse(t) - integral(t)).abs();
                assert!(error < 1e-7, "{t}: {error}");
            }
        }
    }

    #[test]
    fn the_symbol_is_odd_and_ends_at_0() {
        for k in 0..1_000 {
            let t = f64::from(k) / 100.0;
            assert_eq!(symbol(-t), -symbol(t), "{t}");
        }
        assert!(symbol(-0.25) > 1.0 && symbol(0.25) < -1.0);
        assert!(symbol(REACH).abs() < 1e-15);
        assert_eq!(symbol(REACH + 1e-9), 0.0);
        // what is cut off
        let cut = |k: u32| REACH + f64::from(k) / 1_000.0;
        let rest = (0..3_000).map(cut);
        let rest = rest.map(|t| (impulse(t + 0.25) - impulse(t - 0.25)).abs());
        assert!(rest.fold(0.0, f64::max) < 4e-5);
    }

    /// The signs by a word's bits.
    fn signs(word: u32) -> [f32; SPAN] {
        std::array::from_fn(|bit| if word >> bit & 1 == 1 { 1.0 } else { -1.0 })
    }

    #[test]
    fn the_peak_over_all_bits_is_1() {
        let pulse = Pulse::new();
        let mut highest = 0.0f32;
        for place in 0..64 {
            let place = f64::from(place) / 64.0;
            for word in 0..1 << SPAN {
                highest = highest.max(pulse.at(place, &signs(word)).abs());
            }
        }
        assert!(highest > 0.999 && highest <= 1.0 + 1e-6, "{highest}");
    }

    /// A sine at the bit rate: of a square wave's lines the filter passes the first alone.
    #[test]
    fn bits_that_are_alike_make_a_sine() {
        let pulse = Pulse::new();
        for place in 0..1_000 {
            let place = f64::from(place) / 1_000.0;
            let wanted = 0.980_2 * (TAU * place).sin();
            let error = f64::from(pulse.at(place, &signs(!0))) - wanted;
            assert!(error.abs() < 2e-4, "{place}: {error}");
        }
    }

    #[test]
    fn between_rows_it_is_mixed() {
        let pulse = Pulse::new();
        let word = signs(0b101_1001_1100_1010);
        let peak = (0..=PLACES).map(|place| most(&row(place)));
        let peak = peak.fold(0.0, f64::max);
        for k in 0..10_000 {
            let place = f64::from(k) / 10_000.0;
            let value = |bit: usize| symbol(place - 0.5 + SIDE as f64 - bit as f64);
            let wanted: f64 = (0..SPAN).map(|bit| f64::from(word[bit]) * value(bit)).sum();
            let error = f64::from(pulse.at(place, &word)) - wanted / peak;
            assert!(error.abs() < 1e-6, "{place}: {error}");
        }
    }
}
