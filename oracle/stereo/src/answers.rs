//! What the original answers, in the numbers of document 01. Where the document adds a cause that
//! the original lacks, the rule stands here.

use numbers_oracle::answers::{word_f32, word_i16};
use sdrk_core::error::Error;
use sdrk_core::kernels::mix::Nco;
use sdrk_core::kernels::stereo::{
    StereoEncode, StereoEncodeRds, StereoEncodeRdsState, StereoEncodeState, StereoMatrix,
};
use sdrk_core::probe;
use sdrk_core::tables::{COS_F32, COS_Q15};
use sdrk_core::timing::Rate;
use sdrk_core::types::{C32, CQ15, Q15};
use sdrk_core::{Fallback, Reference};

/// A refusal in the place of an increment: this plus its number.
pub const REFUSED: u64 = 1 << 32;

pub const TABLE: usize = 4097;

/// A block's answer: 0, or 100 and the cause's number; then the two lengths.
pub type Said = [usize; 3];

pub const ACCEPTED: Said = [0, 0, 0];

/// Which of the original's two implementations answers.
#[derive(Clone, Copy, Debug, PartialEq, Eq)]
pub enum Side {
    Reference,
    Fallback,
}

pub const SIDES: [Side; 2] = [Side::Reference, Side::Fallback];

// ---- lookup

pub fn cos_f32(table: &[f32], p: u32) -> u64 {
    let answer = COS_F32.with(table, || probe::interp_f32(p));
    word_f32(answer.expect("the table has 4097 entries"))
}

/// Cosine and sine.
pub fn pair_f32(table: &[f32], p: u32) -> [u64; 2] {
    let answer = COS_F32.with(table, || probe::interp_f32_pair(p));
    let (c, s) = answer.expect("the table has 4097 entries");
    [word_f32(c), word_f32(s)]
}

pub fn cos_q15(table: &[i16], p: u32) -> u64 {
    let answer = COS_Q15.with(table, || probe::interp_q15(p));
    answer.expect("the table has 4097 entries") as i64 as u64
}

// ---- correction

/// The original's quick way with its wide one.
pub fn correction_fallback(f: f32) -> u32 {
    probe::phase_step(f as f64, 4294967296.0)
}

/// The plain formula, which the original has in a private function.
pub fn correction_plain(f: f32) -> u32 {
    libm::floor(f as f64 * 4294967296.0 + 0.5) as i64 as u32
}

// ---- oscillator

/// Cause 1, which the document adds.
fn is_rate(rate: f64) -> bool {
    rate.is_finite() && rate > 0.0
}

/// A new oscillator, or the number of the refusal.
pub fn new_nco(freq: f64, rate: f64) -> Result<Nco, u32> {
    if !is_rate(rate) {
        return Err(1);
    }
    Nco::new(freq, Rate(rate)).map_err(|_| 17)
}

/// 0, or the number of the refusal.
pub fn set_frequency(nco: &mut Nco, freq: f64, rate: f64) -> u32 {
    if !is_rate(rate) {
        return 1;
    }
    match nco.set_frequency(freq, Rate(rate)) {
        Ok(()) => 0,
        Err(_) => 17,
    }
}

pub fn increment_for(freq: f64, rate: f64) -> Result<u32, u32> {
    new_nco(freq, rate).map(|nco| nco.increment())
}

/// An increment as a word of the list.
pub fn increment_word(made: Result<u32, u32>) -> u64 {
    match made {
        Ok(inc) => inc as u64,
        Err(number) => REFUSED + number as u64,
    }
}

pub fn advance(phase: u32, inc: u32, n: usize) -> u32 {
    let mut nco = Nco::from_increment(inc);
    nco.set_phase(phase);
    probe::advance(&mut nco, n);
    nco.phase()
}

// ---- encoders

/// What an encoder is constructed with.
#[derive(Clone, Copy, Debug)]
pub struct Arguments {
    pub frequency: f64,
    pub main: f32,
    pub pilot: f32,
    pub rds: f32,
    pub rate: f64,
}

/// An encoder's fields; without RDS the level is 0.
#[derive(Clone, Copy, Debug)]
pub struct Fields {
    pub phase: u32,
    pub inc: u32,
    pub main: f32,
    pub pilot: f32,
    pub level: f32,
}

impl Fields {
    pub fn words(&self) -> [u64; 5] {
        [
            self.phase as u64,
            self.inc as u64,
            word_f32(self.main),
            word_f32(self.pilot),
            word_f32(self.level),
        ]
    }
}

/// The slices of a block. An encoder without RDS does not look at `rds`.
#[derive(Clone, Debug)]
pub struct Block {
    pub table: Vec<f32>,
    pub left: Vec<f32>,
    pub right: Vec<f32>,
    pub rds: Vec<f32>,
    pub output: Vec<f32>,
}

/// An encoder of the original.
#[derive(Clone, Copy, Debug)]
pub enum Encoder {
    Plain(StereoEncodeState),
    Rds(StereoEncodeRdsState),
}

impl Encoder {
    fn made(a: Arguments, with_rds: bool) -> Result<Self, Error> {
        let rate = Rate(a.rate);
        Ok(if with_rds {
            let made = StereoEncodeRdsState::new(a.frequency, a.main, a.pilot, a.rds, rate);
            Encoder::Rds(made?)
        } else {
            let made = StereoEncodeState::new(a.frequency, a.main, a.pilot, rate);
            Encoder::Plain(made?)
        })
    }

    /// A new encoder, or the number of the refusal.
    pub fn new(a: Arguments, with_rds: bool) -> Result<Self, u32> {
        if !is_rate(a.rate) {
            return Err(1);
        }
        Encoder::made(a, with_rds).map_err(cause)
    }

    /// A record filled in by hand.
    pub fn by_hand(f: Fields, with_rds: bool) -> Self {
        let stereo = probe::encoder(f.phase, f.inc, f.main, f.pilot);
        if with_rds {
            Encoder::Rds(probe::encoder_rds(stereo, f.level))
        } else {
            Encoder::Plain(stereo)
        }
    }

    /// What its accessors say.
    pub fn fields(&self) -> Fields {
        match self {
            Encoder::Plain(e) => Fields {
                phase: e.phase(),
                inc: e.increment(),
                main: e.main(),
                pilot: e.pilot(),
                level: 0.0,
            },
            Encoder::Rds(e) => Fields {
                phase: e.phase(),
                inc: e.increment(),
                main: e.main(),
                pilot: e.pilot(),
                level: e.rds(),
            },
        }
    }

    /// 0, or the number of the refusal.
    pub fn set_pilot(&mut self, to: f32) -> u32 {
        let answer = match self {
            Encoder::Plain(e) => e.set_pilot(to),
            Encoder::Rds(e) => e.set_pilot(to),
        };
        answer.map_or_else(cause, |()| 0)
    }

    /// 0, or the number of the refusal; an encoder without RDS has no such call.
    pub fn set_rds(&mut self, to: f32) -> u32 {
        match self {
            Encoder::Plain(_) => panic!("no level of RDS"),
            Encoder::Rds(e) => e.set_rds(to).map_or_else(cause, |()| 0),
        }
    }

    pub fn set_phase(&mut self, p: u32) {
        match self {
            Encoder::Plain(e) => e.set_phase(p),
            Encoder::Rds(e) => e.set_phase(p),
        }
    }

    pub fn reset(&mut self) {
        match self {
            Encoder::Plain(e) => e.reset(),
            Encoder::Rds(e) => e.reset(),
        }
    }

    /// What a block answers, and the words of the output as it is left.
    pub fn block(&mut self, side: Side, b: &Block) -> (Said, Vec<u64>) {
        let n = b.left.len();
        let words = |x: &[f32]| x.iter().map(|y| word_f32(*y)).collect();
        if let Some(said) = rule(9, TABLE, b.table.len()).or_else(|| rule(10, n, b.right.len())) {
            return (said, words(&b.output));
        }
        let input = pairs(&b.left, &b.right);
        let mut written = b.output.clone();
        let mut number = 11;
        let answer = COS_F32.with(&b.table, || match self {
            Encoder::Plain(e) => match side {
                Side::Reference => Reference.stereo_encode(e, &input, &mut written),
                Side::Fallback => Fallback.stereo_encode(e, &input, &mut written),
            },
            Encoder::Rds(e) => {
                if b.rds.len() != n {
                    number = 10;
                }
                match side {
                    Side::Reference => Reference.stereo_encode_rds(e, &input, &b.rds, &mut written),
                    Side::Fallback => Fallback.stereo_encode_rds(e, &input, &b.rds, &mut written),
                }
            }
        });
        (said(answer, number), words(&written))
    }
}

/// Which cause an error of the original's encoders is: the one that gives the same error where it
/// is in force alone.
fn cause(e: Error) -> u32 {
    let good = Arguments {
        frequency: 19000.0,
        main: 0.5,
        pilot: 0.1,
        rds: 0.1,
        rate: 192000.0,
    };
    let alone = [
        (
            12,
            Arguments {
                frequency: 0.0,
                ..good
            },
        ),
        (13, Arguments { main: 2.0, ..good }),
        (14, Arguments { pilot: 1.0, ..good }),
        (
            15,
            Arguments {
                rate: 96000.0,
                ..good
            },
        ),
        (16, Arguments { rds: 1.0, ..good }),
    ];
    alone
        .iter()
        .find(|(_, a)| Encoder::made(*a, true).err() == Some(e))
        .map(|(number, _)| *number)
        .expect("each error has its cause")
}

// ---- blocks

fn said(answer: Result<(), Error>, cause: usize) -> Said {
    match answer {
        Ok(()) => ACCEPTED,
        Err(Error::LengthMismatch { expected, got }) => [100 + cause, expected, got],
        Err(e) => panic!("no such answer: {e:?}"),
    }
}

/// A second slice where the original takes pairs, or the table's length: the document's rule.
fn rule(number: usize, wanted: usize, length: usize) -> Option<Said> {
    (length != wanted).then_some([100 + number, wanted, length])
}

fn pairs(re: &[f32], im: &[f32]) -> Vec<C32> {
    re.iter().zip(im).map(|(r, i)| C32::new(*r, *i)).collect()
}

/// The words of the two outputs as the original leaves them.
pub struct Matrixed {
    pub said: Said,
    pub left: Vec<u64>,
    pub right: Vec<u64>,
}

fn matrixed<T: Copy, C: Copy>(
    (sum, difference, left, right): (&[T], &[T], &[T], &[T]),
    call: impl Fn(&[C], &mut [C]) -> Result<(), Error>,
    pair: fn(T, T) -> C,
    parts: fn(C) -> (T, T),
    word: fn(T) -> u64,
) -> Matrixed {
    let as_left = |said| Matrixed {
        said,
        left: left.iter().map(|x| word(*x)).collect(),
        right: right.iter().map(|x| word(*x)).collect(),
    };
    if let Some(said) = rule(10, sum.len(), difference.len()) {
        return as_left(said);
    }
    let input: Vec<C> = sum
        .iter()
        .zip(difference)
        .map(|(s, d)| pair(*s, *d))
        .collect();
    // the original's output has one length: ask with that of left, then with that of right
    for given in [left, right] {
        let mut output: Vec<C> = given.iter().map(|x| pair(*x, *x)).collect();
        let answer = said(call(&input, &mut output), 11);
        if answer != ACCEPTED {
            return as_left(answer);
        }
    }
    let mut output = input.clone();
    let answer = said(call(&input, &mut output), 11);
    Matrixed {
        said: answer,
        left: output.iter().map(|c| word(parts(*c).0)).collect(),
        right: output.iter().map(|c| word(parts(*c).1)).collect(),
    }
}

pub fn matrix_f32(
    side: Side,
    sum: &[f32],
    difference: &[f32],
    left: &[f32],
    right: &[f32],
) -> Matrixed {
    matrixed(
        (sum, difference, left, right),
        |i: &[C32], o: &mut [C32]| match side {
            Side::Reference => Reference.stereo_matrix(i, o),
            Side::Fallback => Fallback.stereo_matrix(i, o),
        },
        C32::new,
        |c| (c.re, c.im),
        word_f32,
    )
}

pub fn matrix_q15(
    side: Side,
    sum: &[i16],
    difference: &[i16],
    left: &[i16],
    right: &[i16],
) -> Matrixed {
    matrixed(
        (sum, difference, left, right),
        |i: &[CQ15], o: &mut [CQ15]| match side {
            Side::Reference => Reference.stereo_matrix(i, o),
            Side::Fallback => Fallback.stereo_matrix(i, o),
        },
        |re, im| CQ15 {
            re: Q15(re),
            im: Q15(im),
        },
        |c| (c.re.0, c.im.0),
        word_i16,
    )
}
