//! What the original's decoder answers, in the numbers of document 01. Where the document adds a
//! cause that the original lacks, the rule stands here.

use std::fmt::Debug;

use numbers_oracle::answers::{word_f32, word_f64, word_i16};
use sdrk_core::error::Error;
use sdrk_core::kernels::stereo::{StereoPll, StereoPllState, hand};
use sdrk_core::probe::{self, Fields};
use sdrk_core::tables::{COS_F32, COS_Q15};
use sdrk_core::timing::Rate;
use sdrk_core::types::{C32, CQ15, Q15, RealSample};
use sdrk_core::{Fallback, Reference};
use stereo_oracle::answers::{ACCEPTED, Matrixed, Said, Side, TABLE, matrix_f32, matrix_q15};

/// What a decoder is constructed with.
#[derive(Clone, Copy, Debug)]
pub struct Arguments {
    pub pilot: f64,
    pub natural: f64,
    pub level: f64,
    pub beta: f64,
    pub rate: f64,
}

impl Arguments {
    pub fn words(&self) -> [u64; 5] {
        [self.pilot, self.natural, self.level, self.beta, self.rate].map(f64::to_bits)
    }
}

/// Of sum and difference into left and right.
type Matrix<S> = fn(Side, &[S], &[S], &[S], &[S]) -> Matrixed;

/// One of the decoder's two formats.
pub trait Format: RealSample {
    type Sample: Copy + Debug;
    type Value: Copy + Debug;
    const MATRIX: Matrix<Self::Sample>;

    fn word_sample(x: Self::Sample) -> u64;
    fn word_value(x: Self::Value) -> u64;
    fn state(fields: Fields<Self::Value>) -> StereoPllState<Self>;
    fn fields(state: &StereoPllState<Self>) -> Fields<Self::Value>;
    /// Cause 0.
    fn is_fit(fields: &Fields<Self::Value>) -> bool;
    /// Whether the original's implementation takes the record at all.
    fn takes(side: Side, fields: &Fields<Self::Value>) -> bool;
    /// A block with an output of a given length, and the pairs that it leaves there.
    fn run(
        side: Side,
        state: &mut StereoPllState<Self>,
        table: &[Self::Sample],
        mpx: &[Self::Sample],
        pilot: &[Self::Sample],
        output: usize,
    ) -> (Result<(), Error>, Vec<(Self::Sample, Self::Sample)>);
}

impl Format for f32 {
    type Sample = f32;
    type Value = f32;
    const MATRIX: Matrix<f32> = matrix_f32;

    fn word_sample(x: f32) -> u64 {
        word_f32(x)
    }

    fn word_value(x: f32) -> u64 {
        word_f32(x)
    }

    fn state(fields: Fields<f32>) -> StereoPllState<f32> {
        hand::state_f32(fields)
    }

    fn fields(state: &StereoPllState<f32>) -> Fields<f32> {
        probe::fields_f32(state)
    }

    fn is_fit(_: &Fields<f32>) -> bool {
        true
    }

    /// `clamp` of the plain implementation panics where the limit is negative or a NaN.
    fn takes(side: Side, fields: &Fields<f32>) -> bool {
        side == Side::Fallback || fields.imax >= 0.0
    }

    fn run(
        side: Side,
        state: &mut StereoPllState<f32>,
        table: &[f32],
        mpx: &[f32],
        pilot: &[f32],
        output: usize,
    ) -> (Result<(), Error>, Vec<(f32, f32)>) {
        let mut out = vec![C32::new(9.0, 9.0); output];
        let answer = COS_F32.with(table, || match side {
            Side::Reference => Reference.stereo_pll(state, mpx, pilot, &mut out),
            Side::Fallback => Fallback.stereo_pll(state, mpx, pilot, &mut out),
        });
        (answer, out.iter().map(|c| (c.re, c.im)).collect())
    }
}

impl Format for Q15 {
    type Sample = i16;
    type Value = i64;
    const MATRIX: Matrix<i16> = matrix_q15;

    fn word_sample(x: i16) -> u64 {
        word_i16(x)
    }

    fn word_value(x: i64) -> u64 {
        x as u64
    }

    fn state(fields: Fields<i64>) -> StereoPllState<Q15> {
        hand::state_q15(fields)
    }

    fn fields(state: &StereoPllState<Q15>) -> Fields<i64> {
        probe::fields_q15(state)
    }

    /// Document 01's words, in numbers that nothing here passes.
    fn is_fit(f: &Fields<i64>) -> bool {
        let (imax, level) = (f.imax as i128, f.level as i128);
        let guard = |gain: i64| {
            let sum = gain as i128 * (1 << 30) + imax;
            (i64::MIN as i128..=i64::MAX as i128).contains(&sum)
        };
        f.kp >= 0
            && f.ki >= 0
            && f.imax >= 0
            && (0..=1 << 31).contains(&f.beta)
            && guard(f.kp)
            && guard(f.ki)
            && (-imax..=imax).contains(&(f.integ as i128))
            && (-(1 << 61) - (1 << 30)..=(1 << 61) + (1 << 30) - 1).contains(&level)
    }

    fn takes(_: Side, fields: &Fields<i64>) -> bool {
        Self::is_fit(fields)
    }

    fn run(
        side: Side,
        state: &mut StereoPllState<Q15>,
        table: &[i16],
        mpx: &[i16],
        pilot: &[i16],
        output: usize,
    ) -> (Result<(), Error>, Vec<(i16, i16)>) {
        let samples = |x: &[i16]| x.iter().map(|y| Q15(*y)).collect::<Vec<_>>();
        let (mpx, pilot) = (samples(mpx), samples(pilot));
        let nine = CQ15 {
            re: Q15(9),
            im: Q15(9),
        };
        let mut out = vec![nine; output];
        let answer = COS_Q15.with(table, || match side {
            Side::Reference => Reference.stereo_pll(state, &mpx, &pilot, &mut out),
            Side::Fallback => Fallback.stereo_pll(state, &mpx, &pilot, &mut out),
        });
        (answer, out.iter().map(|c| (c.re.0, c.im.0)).collect())
    }
}

// ---- construction

fn made<F: Format>(a: Arguments) -> Result<StereoPllState<F>, Error> {
    libm::with_beta(Some(a.beta), || {
        StereoPllState::new(a.pilot, a.natural, a.level, Rate(a.rate))
    })
}

/// Which cause an error of the original's constructor is: the one that gives the same error where
/// it is in force alone.
fn cause<F: Format>(e: Error) -> u32 {
    let good = Arguments {
        pilot: 19000.0,
        natural: 20.0,
        level: 0.1,
        beta: 0.5,
        rate: 192000.0,
    };
    let slow = Arguments {
        pilot: 10.0,
        natural: 0.1,
        level: 1.0,
        ..good
    };
    let tiny = f64::powi(2.0, -40);
    let alone = [
        (2, Arguments { pilot: 0.0, ..good }),
        (
            3,
            Arguments {
                natural: 0.0,
                ..good
            },
        ),
        (4, Arguments { level: 0.0, ..good }),
        (
            6,
            Arguments {
                level: 1e-300,
                ..good
            },
        ),
        (7, Arguments { rate: 90.0, ..slow }),
        (
            8,
            Arguments {
                rate: 110.0,
                beta: tiny,
                ..slow
            },
        ),
    ];
    alone
        .iter()
        .find(|(_, a)| made::<F>(*a).err() == Some(e))
        .map(|(number, _)| *number)
        .expect("each error has its cause")
}

/// The fresh decoder, or the number of the refusal; the causes 1 and 5 are the document's.
pub fn new<F: Format>(a: Arguments) -> Result<StereoPllState<F>, u32> {
    if !(a.rate.is_finite() && a.rate > 0.0) {
        return Err(1);
    }
    let answer = made::<F>(a).map_err(cause::<F>);
    if let Err(2..=4) = answer {
        return answer;
    }
    if !(0.0..=1.0).contains(&a.beta) {
        return Err(5);
    }
    answer
}

// ---- calls

/// A call with what it brings.
#[derive(Clone, Debug)]
pub enum Call<S> {
    Block(Block<S>),
    Merged(Block<S>),
    Enable,
    Disable,
    Reset,
}

impl<S> Call<S> {
    /// The block of either sort.
    pub fn block(&self) -> Option<&Block<S>> {
        match self {
            Call::Block(b) | Call::Merged(b) => Some(b),
            Call::Enable | Call::Disable | Call::Reset => None,
        }
    }
}

/// A block's two outputs: sum and difference, of a merged one left and right.
pub type Outputs<S> = [Vec<S>; 2];

#[derive(Clone, Debug)]
pub struct Block<S> {
    pub table: Vec<S>,
    pub mpx: Vec<S>,
    pub pilot: Vec<S>,
    pub outputs: Outputs<S>,
}

/// What a call answers and leaves, in words: any NaN has one word.
#[derive(Clone, Debug, PartialEq)]
pub struct Outcome {
    pub said: Said,
    pub outputs: Outputs<u64>,
    pub fields: [u64; 12],
    /// integrator, its limit, lock level, stereo, phase, enabled
    pub reads: [u64; 6],
}

pub fn field_words<F: Format>(f: &Fields<F::Value>) -> [u64; 12] {
    let w = F::word_value;
    [
        w(f.kp),
        w(f.ki),
        w(f.imax),
        w(f.beta),
        w(f.on),
        w(f.off),
        f.step0 as u64,
        f.phase as u64,
        w(f.integ),
        w(f.level),
        f.stereo as u64,
        f.enabled as u64,
    ]
}

fn read_words<F: Format>(s: &StereoPllState<F>) -> [u64; 6] {
    [
        word_f64(s.integrator()),
        word_f64(s.integrator_limit()),
        word_f64(s.lock_level()),
        s.is_stereo() as u64,
        s.phase() as u64,
        s.is_enabled() as u64,
    ]
}

pub fn output_words<F: Format>(outputs: &Outputs<F::Sample>) -> Outputs<u64> {
    outputs
        .each_ref()
        .map(|x| x.iter().map(|y| F::word_sample(*y)).collect())
}

/// The answer by the length rule: the document's for the table and for the second output, the
/// original's for the pilot and for each output by itself.
fn lengths<F: Format>(side: Side, state: &StereoPllState<F>, b: &Block<F::Sample>) -> Said {
    if b.table.len() != TABLE {
        return [109, TABLE, b.table.len()];
    }
    let number = if b.pilot.len() == b.mpx.len() {
        111
    } else {
        110
    };
    for output in b.outputs.each_ref().map(Vec::len) {
        if output == b.mpx.len() && b.pilot.len() == b.mpx.len() {
            continue;
        }
        let mut copy = *state;
        let (answer, _) = F::run(side, &mut copy, &b.table, &b.mpx, &b.pilot, output);
        let Err(Error::LengthMismatch { expected, got }) = answer else {
            panic!("no such answer: {answer:?}");
        };
        let before = field_words::<F>(&F::fields(state));
        assert_eq!(field_words::<F>(&F::fields(&copy)), before);
        return [number, expected, got];
    }
    ACCEPTED
}

/// The side that takes the record.
pub fn side<F: Format>(f: &Fields<F::Value>) -> Side {
    if F::takes(Side::Reference, f) {
        Side::Reference
    } else {
        Side::Fallback
    }
}

/// What a block answers before it is carried out: cause 0 and the length rule.
pub fn refusal<F: Format>(state: &StereoPllState<F>, b: &Block<F::Sample>) -> Said {
    let fields = F::fields(state);
    if !F::is_fit(&fields) {
        return UNFIT;
    }
    lengths(side::<F>(&fields), state, b)
}

/// What a block answers, and its outputs as it leaves them: what `given` makes of its pairs.
fn block<F: Format>(
    side: Side,
    state: &mut StereoPllState<F>,
    b: &Block<F::Sample>,
    given: impl Fn(&Outputs<F::Sample>) -> Outputs<u64>,
) -> (Said, Outputs<u64>) {
    let said = lengths(side, state, b);
    if said != ACCEPTED {
        return (said, output_words::<F>(&b.outputs));
    }
    let n = b.mpx.len();
    let (answer, pairs) = F::run(side, state, &b.table, &b.mpx, &b.pilot, n);
    assert_eq!(answer, Ok(()));
    let (sum, difference) = pairs.into_iter().unzip();
    (said, given(&[sum, difference]))
}

/// The matrix of a block's pairs, by the same implementation.
fn matrixed<F: Format>(
    side: Side,
    [sum, difference]: &Outputs<F::Sample>,
    [left, right]: &Outputs<F::Sample>,
) -> Outputs<u64> {
    let m = F::MATRIX(side, sum, difference, left, right);
    assert_eq!(m.said, ACCEPTED);
    [m.left, m.right]
}

/// A call, carried out by one of the original's implementations, which takes the record.
pub fn call<F: Format>(
    side: Side,
    state: &mut StereoPllState<F>,
    call: &Call<F::Sample>,
) -> Outcome {
    let (mut said, mut outputs) = (ACCEPTED, Default::default());
    match call {
        Call::Enable => state.set_enabled(true),
        Call::Disable => state.set_enabled(false),
        Call::Reset => state.reset(),
        Call::Block(b) => (said, outputs) = block(side, state, b, output_words::<F>),
        Call::Merged(b) => {
            let given = |pairs: &_| matrixed::<F>(side, pairs, &b.outputs);
            (said, outputs) = block(side, state, b, given);
        }
    }
    Outcome {
        said,
        outputs,
        fields: field_words::<F>(&F::fields(state)),
        reads: read_words(state),
    }
}

/// The answer to an unfit record.
const UNFIT: Said = [100, 0, 0];

/// A block of either sort on an unfit record, by the document: cause 0, and nothing changes.
pub fn unfit<F: Format>(fields: Fields<F::Value>, b: &Block<F::Sample>) -> Outcome {
    let state = F::state(fields);
    Outcome {
        said: UNFIT,
        outputs: output_words::<F>(&b.outputs),
        fields: field_words::<F>(&fields),
        reads: read_words(&state),
    }
}

/// Whether f comes so near to the largest i64 in some sample of the block that the rounding of the
/// correction stops there. It is the one place where the two implementations may differ.
pub fn stops(state: &StereoPllState<Q15>, b: &Block<i16>) -> bool {
    let mut s = *state;
    (0..b.mpx.len()).any(|i| {
        let kp = probe::fields_q15(&s).kp as i128;
        let c = COS_Q15.with(&b.table, || probe::interp_q15(s.phase()));
        let e = c.expect("the table has 4097 entries") as i128 * b.pilot[i] as i128;
        let one = |x: &[i16]| vec![x[i]];
        let (mpx, pilot) = (one(&b.mpx), one(&b.pilot));
        let (answer, _) = Q15::run(Side::Reference, &mut s, &b.table, &mpx, &pilot, 1);
        assert_eq!(answer, Ok(()));
        kp * e + probe::fields_q15(&s).integ as i128 > i64::MAX as i128 - (1 << 31)
    })
}
