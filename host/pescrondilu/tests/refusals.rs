//! Each cause of document 01 through this crate, as the core's number and as sdrk's error. A call
//! that is turned back leaves the state and the outputs. Cause 19 is in rds.rs, 20 in summary.rs, 21
//! and 22 are in rack.rs.

mod common;

use common::{Format, Random, all_bits, any, cause, decoder, lengths, pair_bits, record_bits};
use pescrondilu::kernels::mix::Nco;
use pescrondilu::kernels::stereo::{
    DecoderRecord, StereoEncode, StereoEncodeRds, StereoEncodeRdsState, StereoEncodeState,
    StereoMatrix, StereoPll, StereoPllState, matrix,
};
use pescrondilu::{
    C32, CQ15, ComplexSample, Error, Proved, Q15, Rate, RealSample, Refusal, Sample, num, tables,
};

const NAN: f64 = f64::NAN;
const INFINITY: f64 = f64::INFINITY;

/// pilot, natural frequency, pilot level, lock coefficient, rate
const GOOD: [f64; 5] = [19_000.0, 20.0, 0.1, 1e-4, 192_000.0];

fn made<T: RealSample>(args: [f64; 5]) -> Result<StereoPllState<T>, Refusal> {
    let [pilot, natural, level, beta, rate] = args;
    StereoPllState::with_beta(pilot, natural, level, beta, rate)
}

/// `GOOD` with other values at some places.
fn with(changes: &[(usize, f64)]) -> [f64; 5] {
    let mut args = GOOD;
    for (place, value) in changes {
        args[*place] = *value;
    }
    args
}

fn refused<T: RealSample>(number: u32, changes: &[(usize, f64)]) {
    let answer = made::<T>(with(changes));
    assert_eq!(answer.err(), Some(cause(number)), "{changes:?}");
}

/// The cause as sdrk's error: an argument out of its range.
fn invalid(refusal: Refusal) -> bool {
    Error::from(refusal) == Error::InvalidParameter(refusal.message())
}

fn each_of_construction<T: RealSample>() {
    assert!(made::<T>(GOOD).is_ok());
    let not_positive = [0.0, -0.0, -1.0, NAN, INFINITY, -INFINITY];
    for (number, place) in [(1, 4), (2, 0), (3, 1), (4, 2)] {
        for value in not_positive {
            refused::<T>(number, &[(place, value)]);
        }
    }
    refused::<T>(2, &[(0, 48_000.0)]);
    refused::<T>(3, &[(1, 190.0_f64.next_up())]);
    refused::<T>(4, &[(2, 1.0_f64.next_up())]);
    for beta in [NAN, -1e-300, 1.0_f64.next_up(), INFINITY] {
        refused::<T>(5, &[(3, beta)]);
    }
    // A lock coefficient of 0 is in its range and has no place in f32; a level of 1e-300 neither.
    refused::<T>(6, &[(3, 0.0)]);
    refused::<T>(6, &[(3, -0.0)]);
    refused::<T>(6, &[(2, 1e-300)]);
    assert!(made::<T>(with(&[(1, 190.0), (2, 1.0), (3, 1.0)])).is_ok());
}

#[test]
fn construction_1_to_6() {
    each_of_construction::<f32>();
    each_of_construction::<Q15>();
}

#[test]
fn construction_7_and_8_in_q15_only() {
    let too_large: &[_] = &[(1, 190.0), (2, 1e-12)];
    let small_ki: &[_] = &[(1, 1e-3)];
    let small_beta: &[_] = &[(3, 1e-11)];
    refused::<Q15>(7, too_large);
    refused::<Q15>(8, small_ki);
    refused::<Q15>(8, small_beta);
    for args in [too_large, small_ki, small_beta] {
        assert!(made::<f32>(with(args)).is_ok());
    }
}

#[test]
fn construction_answers_the_first_cause() {
    let mut args = [NAN, NAN, NAN, NAN, NAN];
    // the rate first, then the pilot, its natural frequency, its level, the lock coefficient
    for (number, place) in [(1, 4), (2, 0), (3, 1), (4, 2), (5, 3)] {
        assert_eq!(made::<f32>(args).err(), Some(cause(number)));
        assert_eq!(made::<Q15>(args).err(), Some(cause(number)));
        args[place] = GOOD[place];
    }
    assert!(made::<f32>(args).is_ok());
}

/// sdrk's constructor, which has its rate and its lock coefficient checked before.
fn as_error<T: RealSample>(number: u32, pilot: f64, natural: f64, level: f64) {
    let rate = Rate::hz(192_000).expect("a good rate");
    let answer = StereoPllState::<T>::new(pilot, natural, level, rate);
    let message = cause(number).message();
    assert_eq!(answer.err(), Some(Error::InvalidParameter(message)));
}

#[test]
fn construction_as_an_error() {
    as_error::<f32>(2, NAN, 20.0, 0.1);
    as_error::<f32>(3, 19_000.0, 200.0, 0.1);
    as_error::<f32>(4, 19_000.0, 20.0, 0.0);
    as_error::<f32>(6, 19_000.0, 20.0, 1e-300);
    as_error::<Q15>(7, 19_000.0, 190.0, 1e-12);
    as_error::<Q15>(8, 19_000.0, 1e-3, 0.1);
    for hz in [0.0, -1.0, NAN, INFINITY] {
        let why = cause(1).message();
        assert_eq!(Rate::from_f64(hz), Err(Error::InvalidParameter(why)));
    }
    assert!(Rate::hz(0).is_err());
}

#[test]
fn numbers_as_errors_and_in_words() {
    for number in (0..=8).chain(12..=22) {
        assert!(invalid(cause(number)), "{number}");
        let words = cause(number).to_string();
        assert_eq!(
            words,
            format!("cause {number}: {}", cause(number).message())
        );
    }
    for number in 9..=11 {
        let refusal = lengths(number, 4, 5);
        let error = Error::LengthMismatch {
            expected: 4,
            got: 5,
        };
        assert_eq!(Error::from(refusal), error);
        assert!(refusal.to_string().ends_with("(expected 4, got 5)"));
    }
    let messages: std::collections::BTreeSet<_> = (0..=23).map(|n| cause(n).message()).collect();
    assert_eq!(messages.len(), 24, "no two causes have the same words");
    assert!(matches!(Error::from(cause(23)), Error::Internal(_)));
}

/// Lengths of table, mpx, pilot, and of sum and difference or left and right.
type Lengths = [usize; 5];

fn slices<T: Format>(n: Lengths) -> (Vec<T>, Vec<T>, Vec<T>, [Vec<T>; 2]) {
    let [table, mpx, pilot, sum, difference] = n;
    let table = tables::cos::<T>().iter().cycle().take(table);
    let some = T::from_f64_round(0.1);
    let outputs = [vec![T::LEFT; sum], vec![T::LEFT; difference]];
    (
        table.copied().collect(),
        vec![some; mpx],
        vec![some; pilot],
        outputs,
    )
}

/// The core's three blocks and, with a good table, the two calls with the crate's own.
fn block_refused<T: Format>(state: &StereoPllState<T>, n: Lengths, want: Refusal) {
    type Call<T> = fn(&mut StereoPllState<T>, &[T], &[T], &[T], &mut [Vec<T>; 2]) -> Answer;
    type Answer = Result<(), Refusal>;
    let calls: [Call<T>; 5] = [
        |st, t, m, p, [s, d]| st.process_with(t, m, p, s, d),
        |st, t, m, p, [s, d]| st.process_plain(t, m, p, s, d),
        |st, t, m, p, [l, r]| st.process_merged_with(t, m, p, l, r),
        |st, _, m, p, [s, d]| st.process(m, p, s, d),
        |st, _, m, p, [l, r]| st.process_merged(m, p, l, r),
    ];
    let own_table = n[0] == tables::LENGTH;
    for call in &calls[..if own_table { 5 } else { 3 }] {
        let mut st = *state;
        let (table, mpx, pilot, mut outputs) = slices::<T>(n);
        let left = outputs.clone();
        let answer = call(&mut st, &table, &mpx, &pilot, &mut outputs);
        assert_eq!(answer, Err(want));
        assert_eq!(record_bits(&st), record_bits(state));
        assert_eq!(outputs.map(|x| all_bits(&x)), left.map(|x| all_bits(&x)));
    }
}

fn pairs_refused<T: Format>(state: &StereoPllState<T>, n: [usize; 3], want: Refusal)
where
    T::Complex: ComplexSample<Real = T>,
{
    let mut st = *state;
    let some = T::from_f64_round(0.1);
    let (mpx, pilot) = (vec![some; n[0]], vec![some; n[1]]);
    let mut output = vec![<T::Complex as ComplexSample>::new(T::LEFT, T::LEFT); n[2]];
    let left = pair_bits(&output);
    let answer = Proved.stereo_pll(&mut st, &mpx, &pilot, &mut output);
    assert_eq!(answer, Err(want.into()));
    assert_eq!(record_bits(&st), record_bits(state));
    assert_eq!(pair_bits(&output), left);
}

/// A decoder that has worked some samples, so that every field differs from a fresh one.
fn worked<T: Format>() -> StereoPllState<T> {
    let mut st = decoder::<T>();
    let pilot = common::pilot::<T>(0, 20_000, 0.1);
    let (mut sum, mut difference) = (pilot.clone(), pilot.clone());
    st.process(&pilot, &pilot, &mut sum, &mut difference)
        .expect("equal lengths");
    st.set_enabled(false);
    assert!(st.is_stereo() && st.phase() != 0 && st.lock_level() != 0.0);
    st
}

fn lengths_of_blocks<T: Format>() {
    let st = worked::<T>();
    for (n, want) in [
        ([0, 64, 64, 64, 64], lengths(9, 4097, 0)),
        ([4096, 64, 64, 64, 64], lengths(9, 4097, 4096)),
        ([4098, 64, 63, 62, 61], lengths(9, 4097, 4098)),
        ([4096, 0, 0, 0, 0], lengths(9, 4097, 4096)),
        ([4097, 64, 63, 62, 61], lengths(10, 64, 63)),
        ([4097, 0, 1, 0, 0], lengths(10, 0, 1)),
        ([4097, 64, 64, 65, 63], lengths(11, 64, 65)),
        ([4097, 64, 64, 64, 63], lengths(11, 64, 63)),
        ([4097, 1, 1, 1, 0], lengths(11, 1, 0)),
    ] {
        block_refused(&st, n, want);
    }
    for (n, want) in [
        ([64, 63, 62], lengths(10, 64, 63)),
        ([64, 64, 65], lengths(11, 64, 65)),
        ([200, 200, 199], lengths(11, 200, 199)),
        ([0, 1, 1], lengths(10, 0, 1)),
        ([0, 0, 1], lengths(11, 0, 1)),
        ([1, 1, 0], lengths(11, 1, 0)),
    ] {
        pairs_refused(&st, n, want);
    }
}

#[test]
fn block_9_10_11() {
    lengths_of_blocks::<f32>();
    lengths_of_blocks::<Q15>();
}

#[test]
fn no_samples_are_accepted() {
    fn empty<T: Format>() {
        let state = worked::<T>();
        let mut st = state;
        assert_eq!(st.process(&[], &[], &mut [], &mut []), Ok(()));
        assert_eq!(st.process_merged(&[], &[], &mut [], &mut []), Ok(()));
        assert_eq!(Proved.stereo_pll(&mut st, &[], &[], &mut []), Ok(()));
        assert_eq!(record_bits(&st), record_bits(&state));
    }
    empty::<f32>();
    empty::<Q15>();
    assert_eq!(matrix::<f32>(&[], &[], &mut [], &mut []), Ok(()));
}

/// Q15 records out of their ranges, each in one field.
fn unfit() -> Vec<DecoderRecord<i64>> {
    let fit = decoder::<Q15>().record();
    let bound = (1 << 61) + (1 << 30);
    let r = |change: fn(&mut DecoderRecord<i64>)| {
        let mut record = fit;
        change(&mut record);
        record
    };
    let level = |level| DecoderRecord { level, ..fit };
    vec![
        r(|r| r.kp = -1),
        r(|r| r.ki = -1),
        r(|r| (r.imax, r.integ) = (-1, 0)),
        r(|r| r.beta = -1),
        r(|r| r.beta = (1 << 31) + 1),
        r(|r| r.kp = 1 << 33),
        r(|r| r.ki = 1 << 33),
        r(|r| r.integ = r.imax + 1),
        r(|r| r.integ = -r.imax - 1),
        level(bound),
        level(-bound - 1),
    ]
}

#[test]
fn block_0_comes_before_the_others() {
    for record in unfit() {
        let st = StereoPllState::<Q15>::from_record(record);
        for n in [
            [4097, 64, 64, 64, 64],
            [4097, 0, 0, 0, 0],
            [4096, 64, 63, 62, 61],
            [4097, 64, 64, 64, 63],
        ] {
            block_refused(&st, n, cause(0));
        }
        for n in [[64; 3], [0; 3], [200; 3], [64, 63, 64], [64, 64, 65]] {
            pairs_refused(&st, n, cause(0));
        }
    }
}

#[test]
fn records_at_their_limits_are_fit() {
    let fit = decoder::<Q15>().record();
    let bound = (1 << 61) + (1 << 30);
    let (integ, level) = (fit.imax, bound - 1);
    for record in [
        DecoderRecord {
            integ,
            level,
            ..fit
        },
        DecoderRecord {
            integ: -integ,
            level: -bound,
            ..fit
        },
        DecoderRecord {
            beta: 1 << 31,
            ..fit
        },
    ] {
        let mut st = StereoPllState::<Q15>::from_record(record);
        let (mut sum, mut difference) = ([Q15(0)], [Q15(0)]);
        let answer = st.process(&[Q15(1)], &[Q15(1)], &mut sum, &mut difference);
        assert_eq!(answer, Ok(()));
        // Many pieces: none after the first is refused.
        let mut random = Random(7);
        let (mpx, pilot) = (any(&mut random, 1000), any(&mut random, 1000));
        let mut st = StereoPllState::<Q15>::from_record(record);
        let mut output = [CQ15::ZERO; 1000];
        let answer = Proved.stereo_pll(&mut st, &mpx, &pilot, &mut output);
        assert_eq!(answer, Ok(()));
    }
}

/// A switch that is on may be any word. A refused call leaves the word as it is.
#[test]
fn a_refusal_leaves_every_word_of_a_record() {
    let record = DecoderRecord {
        stereo: 2,
        enabled: 256,
        ..decoder::<f32>().record()
    };
    let mut st = StereoPllState::<f32>::from_record(record);
    assert!(st.is_stereo() && st.is_enabled());
    assert!(st.process(&[0.0], &[], &mut [0.0], &mut [0.0]).is_err());
    assert_eq!(st.record(), record);
    let answer = st.process_merged(&[0.0], &[], &mut [0.0], &mut [0.0]);
    assert!(answer.is_err());
    assert_eq!(st.record(), record);
}

fn lengths_of_the_matrix<T: Format>()
where
    T::Complex: ComplexSample<Real = T>,
{
    for (n, want) in [
        ([64, 63, 62, 61], lengths(10, 64, 63)),
        ([64, 64, 63, 65], lengths(11, 64, 63)),
        ([64, 64, 64, 65], lengths(11, 64, 65)),
        ([0, 0, 0, 1], lengths(11, 0, 1)),
    ] {
        let [sum, difference, mut left, mut right] = n.map(|n| vec![T::LEFT; n]);
        assert_eq!(matrix(&sum, &difference, &mut left, &mut right), Err(want));
        assert!(left.iter().chain(&right).all(|x| *x == T::LEFT));
    }
    let zero = T::Complex::ZERO;
    let mut output = [zero; 3];
    let answer = Proved.stereo_matrix(
        &[<T::Complex as ComplexSample>::new(T::LEFT, T::LEFT); 2],
        &mut output,
    );
    assert_eq!(answer, Err(lengths(11, 2, 3).into()));
    assert_eq!(output, [zero; 3]);
}

#[test]
fn matrix_10_and_11() {
    lengths_of_the_matrix::<f32>();
    lengths_of_the_matrix::<Q15>();
}

/// Just above the f32 nearest 0.2.
fn above_a_fifth() -> f32 {
    0.2_f32.next_up()
}

/// frequency, main gain, pilot amplitude, RDS level, rate; the causes in their order.
fn encoders(args: (f64, f32, f32, f32, f64), number: u32) {
    let (hz, main, pilot, rds, rate) = args;
    let with_rds = StereoEncodeRdsState::with_rate(hz, main, pilot, rds, rate);
    assert_eq!(with_rds.err(), Some(cause(number)), "{args:?}");
    let without = StereoEncodeState::with_rate(hz, main, pilot, rate);
    if number == 16 {
        assert!(without.is_ok());
    } else {
        assert_eq!(without.err(), Some(cause(number)), "{args:?}");
    }
    if let Ok(rate) = Rate::from_f64(rate) {
        let error = Error::InvalidParameter(cause(number).message());
        let answer = StereoEncodeRdsState::new(hz, main, pilot, rds, rate);
        assert_eq!(answer.err(), Some(error));
    }
}

#[test]
fn encoder_1_and_12_to_16() {
    let bad = above_a_fifth();
    for rate in [0.0, -1.0, NAN, INFINITY] {
        encoders((0.0, 2.0, bad, bad, rate), 1);
    }
    for hz in [17_999.0, 20_001.0, NAN, INFINITY] {
        encoders((hz, 2.0, bad, bad, 96_000.0), 12);
    }
    for main in [-0.1, 1.0_f32.next_up(), f32::NAN] {
        encoders((19_000.0, main, bad, bad, 96_000.0), 13);
    }
    for pilot in [-0.1, bad, f32::NAN] {
        encoders((19_000.0, 0.9, pilot, bad, 96_000.0), 14);
    }
    encoders((19_000.0, 0.9, 0.09, bad, 120_000.0_f64.next_down()), 15);
    for rds in [-0.1, bad, f32::NAN] {
        encoders((19_000.0, 0.9, 0.09, rds, 192_000.0), 16);
    }
    for (hz, main, level) in [(18_000.0, 1.0, 0.2), (20_000.0, -0.0, -0.0)] {
        let answer = StereoEncodeRdsState::with_rate(hz, main, level, level, 120_000.0);
        assert!(answer.is_ok());
    }
}

fn encoder() -> StereoEncodeState {
    let mut st = StereoEncodeState::with_rate(19_000.0, 0.9, 0.09, 192_000.0).expect("good");
    st.set_phase(12_345);
    st
}

fn encoder_rds() -> StereoEncodeRdsState {
    let made = StereoEncodeRdsState::with_rate(19_000.0, 0.9, 0.09, 0.04, 192_000.0);
    let mut st = made.expect("good");
    st.set_phase(12_345);
    st
}

#[test]
fn set_calls_14_and_16() {
    let why = |number| Err(Error::InvalidParameter(cause(number).message()));
    for level in [-0.1, above_a_fifth(), f32::NAN] {
        let (mut st, mut rds) = (encoder(), encoder_rds());
        assert_eq!(st.set_pilot(level), why(14));
        assert_eq!(rds.set_pilot(level), why(14));
        assert_eq!(rds.set_rds(level), why(16));
        assert_eq!((st, rds), (encoder(), encoder_rds()));
    }
    let mut rds = encoder_rds();
    assert_eq!((rds.set_pilot(0.2), rds.set_rds(0.0)), (Ok(()), Ok(())));
    assert_eq!((rds.pilot(), rds.rds(), rds.phase()), (0.2, 0.0, 12_345));
}

#[test]
fn encoder_blocks_9_10_11() {
    // table, left, right, output
    for (n, want) in [
        ([4096, 64, 63, 62], lengths(9, 4097, 4096)),
        ([4097, 64, 63, 62], lengths(10, 64, 63)),
        ([4097, 64, 64, 65], lengths(11, 64, 65)),
    ] {
        let [table, left, right, mut output] = n.map(|n| vec![9.0; n]);
        let mut st = encoder();
        let answer = st.process_with(&table, &left, &right, &mut output);
        assert_eq!((answer, st), (Err(want), encoder()));
        assert!(output.iter().all(|x| *x == 9.0));
    }
    let mut output = [9.0; 3];
    let mut st = encoder();
    assert_eq!(
        st.process(&[0.5; 3], &[0.5; 2], &mut output),
        Err(lengths(10, 3, 2))
    );
    let answer = Proved.stereo_encode(&mut st, &[C32::new(0.5, 0.5); 2], &mut output);
    assert_eq!(answer, Err(lengths(11, 2, 3).into()));
    assert_eq!((st, output), (encoder(), [9.0; 3]));
}

#[test]
fn encoder_blocks_with_rds_9_10_11() {
    // table, left, right, rds, output
    for (n, want) in [
        ([4098, 64, 63, 62, 61], lengths(9, 4097, 4098)),
        ([4097, 64, 63, 62, 61], lengths(10, 64, 63)),
        ([4097, 64, 64, 62, 61], lengths(10, 64, 62)),
        ([4097, 64, 64, 64, 61], lengths(11, 64, 61)),
    ] {
        let [table, left, right, rds, mut output] = n.map(|n| vec![9.0; n]);
        let mut st = encoder_rds();
        let answer = st.process_with(&table, &left, &right, &rds, &mut output);
        assert_eq!((answer, st), (Err(want), encoder_rds()));
        assert!(output.iter().all(|x| *x == 9.0));
    }
    let (mut st, mut output) = (encoder_rds(), [9.0; 3]);
    let answer = st.process(&[0.5; 3], &[0.5; 3], &[0.5; 2], &mut output);
    assert_eq!(answer, Err(lengths(10, 3, 2)));
    let pairs = [C32::new(0.5, 0.5); 3];
    let answer = Proved.stereo_encode_rds(&mut st, &pairs, &[0.5; 2], &mut output[..1]);
    assert_eq!(answer, Err(lengths(10, 3, 2).into()));
    let answer = Proved.stereo_encode_rds(&mut st, &pairs, &[0.5; 3], &mut output[..1]);
    assert_eq!(answer, Err(lengths(11, 3, 1).into()));
    assert_eq!((st, output), (encoder_rds(), [9.0; 3]));
}

#[test]
fn oscillator_1_and_17() {
    let mut nco = Nco::from_increment(7);
    nco.set_phase(5);
    let before = nco;
    let rate = Rate::hz(1).expect("a good rate");
    for (hz, rate_hz, number) in [
        (NAN, 0.0, 1),
        (1.0, NAN, 1),
        (NAN, 1.0, 17),
        (INFINITY, 1.0, 17),
        (1e300, 1e-300, 17),
    ] {
        assert_eq!(Nco::with_rate(hz, rate_hz), Err(cause(number)));
        assert_eq!(nco.set_frequency_at(hz, rate_hz), Err(cause(number)));
        assert_eq!(nco, before);
    }
    let error = Err(Error::InvalidParameter(cause(17).message()));
    assert_eq!(nco.set_frequency(NAN, rate), error);
    assert_eq!(Nco::new(NAN, rate).map(|_| ()), error);
    assert_eq!(nco, before);
}

#[test]
fn q14_18() {
    assert_eq!(num::q14_from_f64(2.0), None);
    assert_eq!(num::q14_from_f64(NAN), None);
    assert_eq!(num::q14_from_f64(-2.0), Some(-32768));
}

/// The crate's own pairs of each format are what the traits name.
#[test]
fn pairs_of_each_format() {
    let _: <f32 as RealSample>::Complex = C32::ZERO;
    let _: <Q15 as RealSample>::Complex = CQ15::ZERO;
}
