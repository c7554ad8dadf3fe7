//! Decoders, summaries and calls for the comparison of the summary.

use decoder_oracle::answers::{self, Block};
use decoder_oracle::inputs::{self, Drawn};
use pescrondilu_sys::summary::Summary;
use sdrk_core::probe::Fields;
use sdrk_core::types::Q15;
use stereo_oracle::answers::TABLE;
use stereo_oracle::inputs::{Inputs, one};

use super::model::{Measured, held, places};

/// What a format adds to the decoders and samples that are drawn.
pub trait Varied: Drawn<Sample: Measured> {
    /// Magnitudes that a summary may hold beside some samples, and such as it may never hold.
    const HELD: &'static [Self::Sample];
    const NEVER: &'static [Self::Sample];

    fn nought() -> Self::Sample;
    /// Any magnitude that a summary may hold.
    fn magnitude(r: &mut Inputs) -> Self::Sample;
    /// A decoder whose level is that of the last sample alone, so that the decision turns often.
    fn turning(r: &mut Inputs, f: Fields<Self::Value>) -> Fields<Self::Value>;
    /// Samples of all sizes, or of one size with some odd ones.
    fn mpx(r: &mut Inputs, n: usize) -> Vec<Self::Sample>;
    /// What a place of an output holds before a call. It is no NaN: a NaN would match any NaN.
    fn pattern(w: u32) -> Self::Sample;
}

/// Odd samples: NaNs of either sign, infinities, zeros, subnormals, the largest.
const ODD: [u32; 14] = [
    0x7FC0_0000,
    0xFFC0_0000,
    0x7F80_0001,
    0xFF80_0001,
    0xFFFF_FFFF,
    0x7FFF_FFFF,
    0x7F80_0000,
    0xFF80_0000,
    0x8000_0000,
    0,
    1,
    0x8000_0001,
    0x7F7F_FFFF,
    0xFF7F_FFFF,
];

fn odd(r: &mut Inputs) -> f32 {
    f32::from_bits(match r.below(3) {
        0 => r.0.nan_f32() as u32,
        _ => one(r, &ODD),
    })
}

impl Varied for f32 {
    const HELD: &'static [f32] = &[
        0.0,
        f32::from_bits(1),
        f32::MIN_POSITIVE,
        0.5,
        1.0,
        f32::MAX,
        f32::INFINITY,
    ];
    const NEVER: &'static [f32] = &[
        -0.0,
        f32::from_bits(0x8000_0001),
        -1.0,
        f32::NEG_INFINITY,
        f32::from_bits(0x7FC0_0000),
        f32::from_bits(0xFFC0_0000),
        f32::from_bits(0x7F80_0001),
        f32::from_bits(0xFF80_0001),
        f32::from_bits(0x7FFF_FFFF),
        f32::from_bits(0xFFFF_FFFF),
    ];

    fn nought() -> f32 {
        0.0
    }

    fn magnitude(r: &mut Inputs) -> f32 {
        match r.below(3) {
            0 => one(r, Self::HELD),
            1 => r.ordinary_f32().abs(),
            // any bits from 0 to those of infinity
            _ => f32::from_bits(r.u32() % 0x7F80_0001),
        }
    }

    fn turning(r: &mut Inputs, f: Fields<f32>) -> Fields<f32> {
        let (on, off) = one(
            r,
            &[
                (0.0, 0.0),
                (0.01, -0.01),
                (0.25, 0.0),
                (0.1, 0.05),
                (1.0, -0.1),
            ],
        );
        Fields {
            beta: 1.0,
            on,
            off,
            ..f
        }
    }

    fn mpx(r: &mut Inputs, n: usize) -> Vec<f32> {
        let mut all = match r.below(6) {
            0 => r.block_f32(n, false),
            // so small that a product is subnormal or 0
            1 => (0..n)
                .map(|_| f32::from_bits(r.u32() & 0x80FF_FFFF))
                .collect(),
            2 => vec![one(r, &[0.0, -0.0, 1.0, -1.0]); n],
            _ => r.block_f32(n, true),
        };
        if n > 0 && r.below(2) == 0 {
            for _ in 0..1 + r.below(4) {
                all[r.below(n as u64) as usize] = odd(r);
            }
        }
        all
    }

    fn pattern(w: u32) -> f32 {
        f32::from_bits(w & 0xBFFF_FFFF)
    }
}

impl Varied for Q15 {
    const HELD: &'static [i16] = &[0, 1, 2, 16384, 32766, 32767];
    const NEVER: &'static [i16] = &[-1, -2, -16384, -32767, -32768];

    fn nought() -> i16 {
        0
    }

    fn magnitude(r: &mut Inputs) -> i16 {
        match r.below(3) {
            0 => one(r, Self::HELD),
            1 => r.below(16) as i16,
            _ => r.below(32768) as i16,
        }
    }

    fn turning(r: &mut Inputs, f: Fields<i64>) -> Fields<i64> {
        let on = one(r, &[0, 1 << 31, 1 << 56, 1 << 58, 1 << 59]);
        let off = on - one(r, &[0, 1 << 31, 1 << 56, 1 << 58]);
        Fields {
            beta: 1 << 31,
            on,
            off,
            ..f
        }
    }

    fn mpx(r: &mut Inputs, n: usize) -> Vec<i16> {
        match r.below(6) {
            0 => vec![one(r, &[-32768, -32767, 32767, 1, 0]); n],
            1 => (0..n).map(|_| r.below(9) as i16 - 4).collect(),
            2 => {
                let top = 1 + r.below(2000);
                (0..n).map(|_| r.below(top) as i16).collect()
            }
            _ => r.block_i16(n),
        }
    }

    fn pattern(w: u32) -> i16 {
        (w >> 8) as i16
    }
}

/// A decoder that construction returned, one whose decision turns often, or one filled in by hand.
pub fn decoder<F: Varied>(r: &mut Inputs) -> Fields<F::Value> {
    if r.below(4) == 0 {
        return F::any_fields(r);
    }
    let made = loop {
        if let Ok(state) = answers::new::<F>(inputs::good_arguments(r)) {
            break F::fields(&state);
        }
    };
    match r.below(3) {
        0 => made,
        _ => F::turning(r, made),
    }
}

/// A decoder of a kind, if the format has any.
pub fn found<F: Drawn>(
    r: &mut Inputs,
    is: impl Fn(&Fields<F::Value>) -> bool,
) -> Option<Fields<F::Value>> {
    (0..1000).map(|_| F::any_fields(r)).find(is)
}

/// Tables that many sessions share, since one takes longer to make than a call. They are longer
/// than a block's, so that a block can have too long a one.
pub struct Tables<F: Varied>(Vec<Vec<F::Sample>>);

/// Sessions after which one of the tables is made anew.
const USES: u64 = 8;

impl<F: Varied> Tables<F> {
    pub fn new(r: &mut Inputs) -> Self {
        Tables((0..24).map(|_| F::table(r, 2 * TABLE)).collect())
    }

    pub fn renew(&mut self, r: &mut Inputs, session: u64) {
        if session.is_multiple_of(USES) {
            let k = r.below(self.0.len() as u64) as usize;
            self.0[k] = F::table(r, 2 * TABLE);
        }
    }

    pub fn any(&self, r: &mut Inputs) -> &[F::Sample] {
        &self.0[r.below(self.0.len() as u64) as usize]
    }
}

// ---- summaries

pub fn period(r: &mut Inputs) -> u32 {
    match r.below(8) {
        0 => one(r, &[1, 2, 7, 64]),
        1 => one(r, &[1, 2, 3, 62, 63, 64, 65, 66]),
        2 => u32::MAX - r.below(2) as u32,
        3 => r.u32().max(1),
        4 | 5 => 1 + r.below(20) as u32,
        _ => 1 + r.below(400) as u32,
    }
}

/// A number that stands for the switch.
pub fn switch(r: &mut Inputs, on: bool) -> u32 {
    match (on, r.below(2)) {
        (false, _) => 0,
        (true, 0) => one(r, &[1, 2, 256, 1 << 31, u32::MAX]),
        (true, _) => r.u32().max(1),
    }
}

/// Samples held, split into stereo and mono ones; a sum above a u32 goes to both.
pub fn split(r: &mut Inputs, held: u64) -> (u32, u32) {
    let least = held.saturating_sub(u32::MAX as u64);
    let most = held.min(u32::MAX as u64);
    let stereo = match r.below(3) {
        0 => least,
        1 => most,
        _ => least + r.below(most - least + 1),
    };
    (stereo as u32, (held - stereo) as u32)
}

/// A record that is taken, up to the ends of each range.
fn fit<F: Varied>(r: &mut Inputs) -> Summary<F::Sample> {
    let period = period(r);
    let most = period as u64 - 1;
    let held = match r.below(5) {
        0 => 0,
        1 => most,
        2 => most.min(1),
        3 => most.saturating_sub(r.below(70)),
        _ => r.below(most + 1),
    };
    let (stereo, mono) = split(r, held);
    let changes = match r.below(3) {
        0 => held,
        1 => 0,
        _ => r.below(held + 1),
    };
    let magnitude = match held {
        0 => F::nought(),
        _ => F::magnitude(r),
    };
    let on = r.below(2) == 0;
    Summary {
        period,
        stereo,
        mono,
        changes: changes as u32,
        magnitude,
        before: switch(r, on),
    }
}

/// A record with one of the causes of 20 in force, or brought to one's limit.
fn damaged<F: Varied>(r: &mut Inputs, mut s: Summary<F::Sample>) -> Summary<F::Sample> {
    let hold = |s: &mut Summary<F::Sample>, (stereo, mono)| (s.stereo, s.mono) = (stereo, mono);
    match r.below(9) {
        0 => s.period = 0,
        1 => {
            let parts = split(r, s.period as u64);
            hold(&mut s, parts);
        }
        2 => {
            let more = s.period as u64 + r.below(3);
            let parts = split(r, more);
            hold(&mut s, parts);
        }
        // as a u32 the sum is below the period
        3 => {
            let below = r.below(s.period as u64);
            let parts = split(r, (1 << 32) + below);
            hold(&mut s, parts);
        }
        4 => hold(&mut s, (r.u32(), r.u32())),
        5 => s.changes = (held(&s) as u32).saturating_add(1),
        6 => s.changes = one(r, &[u32::MAX, 1, 2]).max(s.changes),
        7 => s.magnitude = one(r, F::NEVER),
        _ => {
            hold(&mut s, (0, 0));
            s.changes = r.below(4) as u32 / 3;
            s.magnitude = one(r, F::HELD);
        }
    }
    s
}

/// A record filled in by hand.
pub fn summary<F: Varied>(r: &mut Inputs) -> Summary<F::Sample> {
    let s = fit::<F>(r);
    match r.below(3) {
        0 => damaged::<F>(r, s),
        _ => s,
    }
}

// ---- calls

/// The arguments of a summary call. The columns are stereo, mono, changes and magnitude.
pub struct Asked<S> {
    pub block: Block<S>,
    pub columns: [usize; 4],
    /// the word that the columns' and the guards' places are made from
    pub word: u32,
}

/// What place i of an output holds before a call.
pub fn word_at(word: u32, output: u32, i: usize) -> u32 {
    word.wrapping_add(output.wrapping_mul(0x1F3D_5B79))
        .wrapping_add((i as u32).wrapping_mul(0x9E37_79B9))
}

/// A block's length: often such that a period ends in it or beside it.
fn length<S>(r: &mut Inputs, s: &Summary<S>) -> usize {
    match r.below(512) {
        0 => 4096,
        1..=160 => one(r, &[0, 1, 2, 63, 64, 65]),
        161..=260 => r.below(24) as usize,
        261..=330 => r.below(400) as usize,
        _ => {
            let period = s.period as u64;
            let left = period.saturating_sub(held(s));
            let near = (left + period * r.below(4) + r.below(3)).saturating_sub(1);
            if near <= 500 {
                near as usize
            } else {
                r.below(100) as usize
            }
        }
    }
}

/// Lengths of table, mpx, pilot, both outputs and the four columns; one call in five has damaged
/// ones.
fn lengths<S>(r: &mut Inputs, s: &Summary<S>) -> [usize; 9] {
    let n = length(r, s);
    // a record that is refused may have any number
    let ends = places(s, n).min(n as u64 + 1) as usize;
    let mut all = [TABLE, n, n, n, n, ends, ends, ends, ends];
    if r.below(5) > 0 {
        return all;
    }
    for _ in 0..one(r, &[1, 1, 1, 2, 3, 9]) {
        let k = r.below(9) as usize;
        all[k] = match r.below(4) {
            0 => all[k].saturating_sub(1),
            1 => all[k] + 1,
            2 => 0,
            _ => one(r, &[1, 5, 64, 4096, 4098, 8194]),
        };
    }
    all[0] = all[0].min(2 * TABLE);
    all
}

/// A call with chosen lengths.
pub fn asked_of<F: Varied>(
    r: &mut Inputs,
    f: &Fields<F::Value>,
    tables: &Tables<F>,
    [table, mpx, pilot, sum, difference, columns @ ..]: [usize; 9],
) -> Asked<F::Sample> {
    let word = r.u32();
    let output = |output, n| {
        (0..n)
            .map(|i| F::pattern(word_at(word, output, i)))
            .collect()
    };
    Asked {
        block: Block {
            table: tables.any(r)[..table].to_vec(),
            mpx: F::mpx(r, mpx),
            pilot: F::pilot(r, pilot, f),
            outputs: [output(1, sum), output(2, difference)],
        },
        columns,
        word,
    }
}

pub fn asked<F: Varied>(
    r: &mut Inputs,
    f: &Fields<F::Value>,
    s: &Summary<F::Sample>,
    tables: &Tables<F>,
) -> Asked<F::Sample> {
    let lengths = lengths(r, s);
    asked_of::<F>(r, f, tables, lengths)
}
