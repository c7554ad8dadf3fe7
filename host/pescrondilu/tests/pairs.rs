//! sdrk's traits over pairs and the calls over slices give the same bits.

mod common;

use common::{Format, Random, all_bits, any, audio, decoder, pair_bits, pilot, record_bits};
use pescrondilu::kernels::stereo::{
    StereoEncode, StereoEncodeRds, StereoEncodeRdsState, StereoEncodeState, StereoMatrix,
    StereoPll, StereoPllState, matrix,
};
use pescrondilu::{C32, ComplexSample, Proved, Q15, tables};

const LENGTHS: [usize; 12] = [0, 1, 2, 7, 8, 9, 63, 64, 65, 128, 1000, 4096];

fn pairs<T: Format>(re: &[T], im: &[T]) -> Vec<T::Complex> {
    let pair = |(re, im): (&T, &T)| <T::Complex as ComplexSample>::new(*re, *im);
    re.iter().zip(im).map(pair).collect()
}

/// One block by pairs, by slices and by the plain block.
fn block<T: Format>(state: &mut StereoPllState<T>, mpx: &[T], pilot: &[T]) {
    let n = mpx.len();
    let (mut plain, mut by_pairs) = (*state, *state);
    let (mut sum, mut difference) = (vec![T::LEFT; n], vec![T::LEFT; n]);
    let mut output = pairs(&sum, &difference);
    let (mut plain_sum, mut plain_difference) = (sum.clone(), difference.clone());

    let (s, d) = (&mut sum, &mut difference);
    state.process(mpx, pilot, s, d).expect("equal lengths");
    Proved
        .stereo_pll(&mut by_pairs, mpx, pilot, &mut output)
        .expect("equal lengths");
    let (s, d) = (&mut plain_sum, &mut plain_difference);
    let table = tables::cos::<T>();
    let answer = plain.process_plain(table, mpx, pilot, s, d);
    assert_eq!(answer, Ok(()));

    assert_eq!(pair_bits(&output), pair_bits(&pairs(&sum, &difference)));
    assert_eq!(record_bits(&by_pairs), record_bits(state));
    let numbers = |x: &T| x.to_f64().is_nan();
    if !mpx.iter().chain(pilot).any(numbers) {
        // The bits of a NaN are left open between the core's two blocks.
        assert_eq!(all_bits(&plain_sum), all_bits(&sum));
        assert_eq!(all_bits(&plain_difference), all_bits(&difference));
        assert_eq!(record_bits(&plain), record_bits(state));
    }
}

fn sessions<T: Format>(seed: u64) {
    let mut random = Random(seed);
    let mut state = decoder::<T>();
    let mut from = 0;
    for n in LENGTHS.into_iter().chain([20_000]).chain(LENGTHS) {
        let mpx = audio(&mut random, n);
        block(&mut state, &mpx, &pilot(from, n, 0.1));
        from += n;
        state.set_enabled(n != 63);
    }
    assert!(state.is_stereo());
    // From here on any bits, NaNs of every kind among them.
    for n in LENGTHS {
        let (mpx, pilot) = (any(&mut random, n), any(&mut random, n));
        block(&mut state, &mpx, &pilot);
    }
}

#[test]
fn decoder_f32() {
    sessions::<f32>(1);
}

#[test]
fn decoder_q15() {
    sessions::<Q15>(2);
}

fn matrices<T: Format>(seed: u64) {
    let mut random = Random(seed);
    for n in LENGTHS {
        let (sum, difference) = (any(&mut random, n), any(&mut random, n));
        let (mut left, mut right) = (vec![T::LEFT; n], vec![T::LEFT; n]);
        let mut output = pairs(&left, &right);
        let input = pairs(&sum, &difference);
        assert_eq!(matrix(&sum, &difference, &mut left, &mut right), Ok(()));
        assert_eq!(Proved.stereo_matrix(&input, &mut output), Ok(()));
        assert_eq!(pair_bits(&output), pair_bits(&pairs(&left, &right)));
    }
}

#[test]
fn matrix_f32() {
    matrices::<f32>(3);
}

#[test]
fn matrix_q15() {
    matrices::<Q15>(4);
}

#[test]
fn encoder() {
    let mut random = Random(5);
    let made = StereoEncodeState::with_rate(19_000.0, 0.9, 0.09, 192_000.0);
    let mut state = made.expect("good arguments");
    let mut by_pairs = state;
    for n in LENGTHS {
        let (left, right) = (any(&mut random, n), any(&mut random, n));
        let input: Vec<C32> = pairs(&left, &right);
        let (mut slices, mut output) = (vec![9.0; n], vec![9.0; n]);
        assert_eq!(state.process(&left, &right, &mut slices), Ok(()));
        let answer = Proved.stereo_encode(&mut by_pairs, &input, &mut output);
        assert_eq!((answer, by_pairs), (Ok(()), state));
        assert_eq!(all_bits(&output), all_bits(&slices));
    }
}

#[test]
fn encoder_with_rds() {
    let mut random = Random(6);
    let made = StereoEncodeRdsState::with_rate(19_000.0, 0.9, 0.09, 0.04, 192_000.0);
    let mut state = made.expect("good arguments");
    let mut by_pairs = state;
    for n in LENGTHS {
        let (left, right) = (any(&mut random, n), any(&mut random, n));
        let rds: Vec<f32> = any(&mut random, n);
        let input: Vec<C32> = pairs(&left, &right);
        let (mut slices, mut output) = (vec![9.0; n], vec![9.0; n]);
        assert_eq!(state.process(&left, &right, &rds, &mut slices), Ok(()));
        let answer = Proved.stereo_encode_rds(&mut by_pairs, &input, &rds, &mut output);
        assert_eq!((answer, by_pairs), (Ok(()), state));
        assert_eq!(all_bits(&output), all_bits(&slices));
    }
}
