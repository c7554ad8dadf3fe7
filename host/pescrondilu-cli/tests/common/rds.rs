//! An RDS receiver by IEC 62106, written without the program's and the library's code.

use std::f64::consts::{PI, TAU};

const SUBCARRIER_HZ: f64 = 57_000.0;
const BIT_HZ: f64 = 1_187.5;

/// The generator matrix: the check of each single bit of a word, from bit 15 down.
const MATRIX: [u16; 16] = [
    0x077, 0x2E7, 0x3AF, 0x30B, 0x359, 0x370, 0x1B8, 0x0DC, 0x06E, 0x037, 0x2C7, 0x3BF, 0x303,
    0x35D, 0x372, 0x1B9,
];

/// The receiver's filter, H(f) = cos(pi f / 4) up to f = 2, as its answer to an impulse. Time is in
/// bits, from 0 to where it is cut: an answer of 0.
struct Filter(Vec<f64>);

const CUT: f64 = 6.125;
const ENTRIES_A_BIT: f64 = 800.0;

impl Filter {
    /// The integral over all frequencies, by the trapezoid rule.
    fn new() -> Filter {
        let steps = 400;
        let answer = |t: f64| {
            let at = |k: i32| {
                let f = 2.0 * f64::from(k) / f64::from(steps);
                let half = if k == 0 || k == steps { 0.5 } else { 1.0 };
                half * (PI * f / 4.0).cos() * (TAU * f * t).cos()
            };
            (0..=steps).map(at).sum::<f64>() * 4.0 / f64::from(steps)
        };
        let entries = (CUT * ENTRIES_A_BIT) as u32;
        let times = (0..=entries).map(|k| f64::from(k) / ENTRIES_A_BIT);
        Filter(times.map(answer).collect())
    }

    fn at(&self, t: f64) -> f64 {
        let place = t.abs() * ENTRIES_A_BIT;
        let (entry, upper) = (place as usize, place.fract());
        match self.0[entry..] {
            [low, high, ..] => low + upper * (high - low),
            _ => 0.0,
        }
    }

    /// The filtered signal at a time.
    fn output(&self, signal: &[f64], bits_a_sample: f64, time: f64) -> f64 {
        let first = ((time - CUT) / bits_a_sample).ceil().max(0.0) as usize;
        let last = ((time + CUT) / bits_a_sample).floor() as usize;
        let near = signal.iter().enumerate().take(last + 1).skip(first);
        let parts = near.map(|(i, x)| x * self.at(time - i as f64 * bits_a_sample));
        bits_a_sample * parts.sum::<f64>()
    }
}

/// Each bit of a multiplex whose pilot begins with phase 0, before the decision: above 0 is a 1.
/// A bit is the filtered signal a quarter of its time after its start less that after three.
pub fn demodulate(mpx: &[f32], rate: u32) -> Vec<f64> {
    let turn = TAU * SUBCARRIER_HZ / f64::from(rate);
    let mixed = |(i, x): (usize, &f32)| 2.0 * f64::from(*x) * (turn * i as f64).sin();
    let signal: Vec<f64> = mpx.iter().enumerate().map(mixed).collect();
    let bits_a_sample = BIT_HZ / f64::from(rate);
    let filter = Filter::new();
    let bits = mpx.len() as f64 * bits_a_sample - CUT;
    let at = |time| filter.output(&signal, bits_a_sample, time);
    (0..bits as u32)
        .map(|bit| at(f64::from(bit) + 0.25) - at(f64::from(bit) + 0.75))
        .collect()
}

/// The words of all whole groups, from the first bit on. Each check has to be right.
pub fn words(bits: &[f64]) -> Vec<[u16; 4]> {
    let mut last = false;
    let undone = bits.iter().map(|value| {
        let bit = *value > 0.0;
        let differs = bit != last;
        last = bit;
        differs
    });
    let plain: Vec<bool> = undone.collect();
    plain.chunks_exact(104).map(group).collect()
}

fn group(bits: &[bool]) -> [u16; 4] {
    let blocks: Vec<(u16, u16)> = bits.chunks(26).map(block).collect();
    let second = blocks[1].0 >> 11 & 1 == 1;
    let third = if second { 0x350 } else { 0x168 };
    for ((word, offset), wanted) in blocks.iter().zip([0x0FC, 0x198, third, 0x1B4]) {
        assert_eq!(*offset, wanted, "the offset word of {word:04X}");
    }
    [0, 1, 2, 3].map(|at| blocks[at].0)
}

/// A block's word, and its checkword less the word's check.
fn block(bits: &[bool]) -> (u16, u16) {
    let number = |bits: &[bool]| bits.iter().fold(0, |x, bit| x << 1 | u16::from(*bit));
    let (word, checkword) = bits.split_at(16);
    let rows = word.iter().zip(MATRIX).filter(|(bit, _)| **bit);
    let check = rows.fold(0, |sum, (_, row)| sum ^ row);
    (number(word), number(checkword) ^ check)
}
