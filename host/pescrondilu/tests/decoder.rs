//! What a receiver sees of the pilot loop: lock, loss, bursts that are not finite, read-outs.

mod common;

use common::{Format, RATE, Random, all_bits, any, audio, decoder, one_nan, pilot, record_one_nan};
use pescrondilu::kernels::stereo::{DecoderRecord, StereoPll, StereoPllState, matrix};
use pescrondilu::{C32, Proved, Q15, Rate, RealSample};

/// Runs a block of the given pilot; the multiplex signal is a constant.
fn run<T: RealSample>(st: &mut StereoPllState<T>, pilot: &[T]) -> Vec<T> {
    let mpx = vec![T::from_f64_round(0.5); pilot.len()];
    let (mut sum, mut difference) = (mpx.clone(), mpx.clone());
    st.process(&mpx, pilot, &mut sum, &mut difference)
        .expect("equal lengths");
    assert_eq!(sum, mpx);
    difference
}

/// A second of the pilot.
const SECOND: usize = RATE as usize;

fn lock_and_loss<T: Format>() {
    let mut st = decoder::<T>();
    let first = run(&mut st, &pilot(0, SECOND, 0.1));
    assert!(st.is_stereo());
    assert!(first.iter().any(|d| *d != T::ZERO));
    assert!((st.lock_level() - 0.05).abs() < 1e-3);
    assert!(st.integrator().abs() <= st.integrator_limit());

    st.set_enabled(false);
    let muted = run(&mut st, &pilot(SECOND, 100, 0.1));
    assert!(muted.iter().all(|d| *d == T::ZERO));
    assert!(st.is_stereo() && !st.is_enabled());

    st.set_enabled(true);
    let lost = run(&mut st, &pilot(0, SECOND, 0.0));
    assert!(!st.is_stereo());
    assert_eq!(lost.last(), Some(&T::ZERO));
}

#[test]
fn the_decision_follows_the_pilot() {
    lock_and_loss::<f32>();
    lock_and_loss::<Q15>();
}

/// Pilot samples that are not finite leave level and decision, by slices and by pairs. The phase
/// goes on.
fn burst(st: &StereoPllState<f32>) {
    for odd in [f32::NAN, -f32::NAN, f32::INFINITY, f32::NEG_INFINITY] {
        for n in [1, 63, 64, 65, 4096] {
            let (mut slices, mut by_pairs) = (*st, *st);
            let difference = run(&mut slices, &vec![odd; n]);
            let mut output = vec![C32::new(9.0, 9.0); n];
            Proved
                .stereo_pll(&mut by_pairs, &vec![0.5; n], &vec![odd; n], &mut output)
                .expect("equal lengths");
            assert_eq!(slices.lock_level(), st.lock_level());
            assert_eq!(slices.is_stereo(), st.is_stereo());
            assert_ne!(slices.phase(), st.phase());
            assert_eq!(by_pairs, slices);
            let im: Vec<f32> = output.iter().map(|x| x.im).collect();
            assert_eq!(im, difference);
            assert_eq!(difference.iter().all(|d| *d == 0.0), !st.is_stereo());
        }
    }
}

#[test]
fn a_burst_in_stereo_leaves_level_and_decision() {
    let mut st = decoder::<f32>();
    run(&mut st, &pilot(0, SECOND, 0.1));
    assert!(st.is_stereo());
    burst(&st);
}

#[test]
fn a_burst_in_mono_leaves_level_and_decision() {
    let mut st = decoder::<f32>();
    burst(&st);
    // A level that is not 0 and too low for stereo.
    run(&mut st, &pilot(0, SECOND, 0.02));
    assert!(!st.is_stereo() && st.lock_level() > 0.005);
    burst(&st);
}

/// One NaN inside a good pilot costs one sample of the level and no decision.
#[test]
fn one_nan_does_not_stay() {
    let mut st = decoder::<f32>();
    run(&mut st, &pilot(0, SECOND, 0.1));
    let mut odd = pilot(SECOND, 1000, 0.1);
    odd[500] = f32::NAN;
    run(&mut st, &odd);
    assert!(st.is_stereo() && st.lock_level().is_finite() && st.integrator().is_finite());
}

/// The case of README.md: finite pilots alone make the level a NaN, and reset ends it.
#[test]
fn a_nan_level_holds_until_reset() {
    let made = StereoPllState::<f32>::with_beta(19_000.0, 20.0, 0.1, 1.0, RATE);
    let mut st = made.expect("good arguments");
    let ones = vec![1.0; 4097];
    let (mut sum, mut difference) = ([0.0; 3], [0.0; 3]);
    st.process_with(
        &ones,
        &[0.0; 3],
        &[-3e38, 3e38, 0.0],
        &mut sum,
        &mut difference,
    )
    .expect("equal lengths");
    assert!(st.lock_level().is_nan() && st.is_stereo());
    run(&mut st, &pilot(0, 1000, 0.0));
    assert!(st.lock_level().is_nan() && st.is_stereo());
    st.reset();
    assert_eq!((st.lock_level(), st.is_stereo()), (0.0, false));
}

/// Document 01's P3, P4 and P5.
#[test]
fn cases_p3_to_p5() {
    let record = DecoderRecord {
        kp: 131_072,
        ki: 1,
        imax: 40_000,
        beta: 65_536,
        on: 2_147_483_648,
        off: 1_073_741_824,
        integ: 0,
        level: 0,
        step0: 100,
        phase: 0,
        stereo: 0,
        enabled: 1,
    };
    let table = vec![Q15(16_384); 4097];
    let step = |st: &mut StereoPllState<Q15>, pilot: i16| {
        let (mut sum, mut difference) = ([Q15(0)], [Q15(0)]);
        st.process_with(&table, &[Q15(3)], &[Q15(pilot)], &mut sum, &mut difference)
            .expect("a fit record");
        let r = st.record();
        (
            sum[0].0,
            difference[0].0,
            r.level,
            r.integ,
            r.phase,
            r.stereo,
        )
    };
    let mut st = StereoPllState::<Q15>::from_record(record);
    assert_eq!(step(&mut st, 2), (3, 2, 2_147_483_648, 32_768, 101, 1));
    assert_eq!(step(&mut st, 2), (3, 2, 4_294_901_760, 40_000, 202, 1));
    let mut st = StereoPllState::<Q15>::from_record(record);
    assert_eq!(step(&mut st, -2), (3, 0, -2_147_483_648, -32_768, 99, 0));
}

/// Reset keeps the gains and the switch, and gives what construction gave.
#[test]
fn reset_gives_a_fresh_decoder() {
    fn check<T: Format>() {
        let mut st = decoder::<T>();
        run(&mut st, &pilot(0, SECOND, 0.1));
        st.reset();
        assert_eq!(st, decoder::<T>());
        st.set_enabled(false);
        st.reset();
        assert!(!st.is_enabled());
    }
    check::<f32>();
    check::<Q15>();
}

/// sdrk's lock coefficient: a time constant of 50 ms.
#[test]
fn the_level_is_smoothed_over_50_ms() {
    for hz in [96_000, 192_000, 480_000] {
        let rate = Rate::hz(hz).expect("a good rate");
        let st = StereoPllState::<f32>::new(19_000.0, 20.0, 0.1, rate).expect("good arguments");
        let beta = 1.0 - (-1.0 / (hz as f64 * 0.05)).exp();
        assert_eq!(st.coefficients().beta, beta);
        assert_eq!(st.record().beta, beta as f32);
    }
}

/// The coefficients are the f64 that the core rounded into its record.
#[test]
fn coefficients_are_those_of_the_record() {
    for (natural, level, beta, rate) in [
        (20.0, 0.1, 1e-4, 192_000.0),
        (50.0, 0.0625, 0.5, 480_000.0),
        (0.7, 1.0, 1.0, 96_000.5),
        (190.0, 0.013, 3e-5, 1e6),
    ] {
        let made = StereoPllState::<f32>::with_beta(19_000.0, natural, level, beta, rate);
        let st = made.expect("good arguments");
        let (c, r) = (st.coefficients(), st.record());
        let single = [c.kp, c.ki, c.imax, c.beta, c.on, c.off].map(|x| x as f32);
        assert_eq!(single, [r.kp, r.ki, r.imax, r.beta, r.on, r.off]);
        assert_eq!(c.step0, r.step0);

        let made = StereoPllState::<Q15>::with_beta(19_000.0, natural, level, beta, rate);
        let st = made.expect("good arguments");
        let r = st.record();
        let scaled = |x: f64, places| (x * 2.0_f64.powi(places) + 0.5).floor() as i64;
        assert_eq!(st.coefficients(), c);
        assert_eq!([scaled(c.kp, 34), scaled(c.ki, 34)], [r.kp, r.ki]);
        assert_eq!([scaled(c.imax, 64), scaled(c.beta, 31)], [r.imax, r.beta]);
        assert_eq!([scaled(c.on, 61), scaled(c.off, 61)], [r.on, r.off]);
    }
}

/// Of a stored record the coefficients are what it holds, and the states agree in all calls.
#[test]
fn a_stored_record_comes_back() {
    fn check<T: Format>(nearly: f64) {
        let mut st = decoder::<T>();
        run(&mut st, &pilot(0, 5000, 0.1));
        let back = StereoPllState::<T>::from_record(st.record());
        assert_eq!(back.record(), st.record());
        let (a, b) = (back.coefficients(), st.coefficients());
        for (a, b) in [(a.kp, b.kp), (a.ki, b.ki), (a.imax, b.imax)] {
            assert!((a / b - 1.0).abs() < nearly, "{a} {b}");
        }
        for (a, b) in [(a.beta, b.beta), (a.on, b.on), (a.off, b.off)] {
            assert!((a / b - 1.0).abs() < nearly, "{a} {b}");
        }
        assert_eq!(a.step0, b.step0);
    }
    check::<f32>(1e-7);
    check::<Q15>(1e-2);
}

/// The read-outs are the record's fields without their scales.
#[test]
fn read_outs() {
    let record = DecoderRecord {
        integ: -(1 << 50),
        level: 1 << 57,
        ..decoder::<Q15>().record()
    };
    let st = StereoPllState::<Q15>::from_record(record);
    assert_eq!(st.integrator(), -(2.0_f64.powi(-14)));
    assert_eq!(st.lock_level(), 0.0625);
    assert_eq!(st.integrator_limit(), record.imax as f64 / 2.0_f64.powi(64));
    let st = decoder::<f32>();
    assert_eq!(st.integrator_limit(), f64::from(st.record().imax));
}

fn numbers<T: Format>(samples: &[T]) -> Vec<u64> {
    samples.iter().map(|x| one_nan(*x)).collect()
}

/// One merged block beside a block and the matrix of what it left. Outputs of `n` samples.
fn merged_block<T: Format>(state: &mut StereoPllState<T>, mpx: &[T], pilot: &[T], n: usize) {
    let mut merged = *state;
    let [mut sum, mut difference, mut left, mut right] = [(); 4].map(|()| vec![T::LEFT; n]);
    let said = state.process(mpx, pilot, &mut sum, &mut difference);
    let answer = merged.process_merged(mpx, pilot, &mut left, &mut right);
    assert_eq!(answer, said);
    assert_eq!(record_one_nan(&merged), record_one_nan(state));
    let (mut want_left, mut want_right) = (sum.clone(), difference.clone());
    if said.is_ok() {
        let answer = matrix(&sum, &difference, &mut want_left, &mut want_right);
        assert_eq!(answer, Ok(()));
    }
    assert_eq!(numbers(&left), numbers(&want_left));
    assert_eq!(numbers(&right), numbers(&want_right));
}

/// Blocks in and out of lock, of any bits, with a NaN in the pilot, with wrong lengths; enable,
/// disable and reset between them. How many blocks end in stereo, and how many in mono.
fn merged_session<T: Format>(seed: u64) -> (usize, usize) {
    let mut random = Random(seed);
    let mut below = |n: usize| (random.word() % n as u64) as usize;
    let mut samples = Random(seed + 100);
    let mut state = decoder::<T>();
    let (mut from, mut stereo, mut mono) = (0, 0, 0);
    for call in 0..200 {
        let n = match call % 20 {
            0 => 20_000,
            _ => [0, 1, 2, 63, 64, 65, 300, 4096][below(8)],
        };
        let mut mpx = audio(&mut samples, n);
        let mut pilots = pilot(from, n, 0.1);
        let mut outputs = n;
        match below(8) {
            0 => pilots = any(&mut samples, n),
            1 => mpx = any(&mut samples, n),
            2 if n > 0 => pilots[n / 2] = T::from_f64_round(f64::NAN),
            3 => pilots.push(T::ZERO),
            4 => outputs += 1,
            _ => (),
        }
        merged_block(&mut state, &mpx, &pilots, outputs);
        from += n;
        if state.is_stereo() {
            stereo += 1;
        } else {
            mono += 1;
        }
        match below(8) {
            0 => state.set_enabled(false),
            1..3 => state.set_enabled(true),
            3 => state.reset(),
            _ => (),
        }
    }
    (stereo, mono)
}

#[test]
fn merged_is_the_block_and_then_the_matrix() {
    for seed in 1..5 {
        for (stereo, mono) in [merged_session::<f32>(seed), merged_session::<Q15>(seed)] {
            assert!(stereo > 20 && mono > 20, "{stereo} {mono}");
        }
    }
}

/// The difference that is not heard is +0, and -0 plus it is +0.
#[test]
fn merged_minus_nought() {
    let fresh = decoder::<f32>();
    let mut disabled = decoder::<f32>();
    run(&mut disabled, &pilot(0, SECOND, 0.1));
    disabled.set_enabled(false);
    assert!(disabled.is_stereo());
    for mut st in [fresh, disabled] {
        let (mut left, mut right) = ([9.0; 3], [9.0; 3]);
        st.process_merged(&[-0.0, 0.0, 0.5], &[0.0; 3], &mut left, &mut right)
            .expect("equal lengths");
        assert_eq!(all_bits(&left), all_bits(&[0.0, 0.0, 0.5]));
        assert_eq!(all_bits(&right), all_bits(&[-0.0, 0.0, 0.5]));
    }
}

/// A full-scale multiplex reaches the limit of Q15 before any low-pass; at a quarter it does not.
#[test]
fn merged_q15_wants_headroom() {
    let mut locked = decoder::<Q15>();
    run(&mut locked, &pilot(0, SECOND, 0.1));
    assert!(locked.is_stereo());
    let pilots = pilot(SECOND, 1000, 0.1);
    let largest = |mpx: Q15| {
        let mut st = locked;
        let (mut left, mut right) = ([Q15(0); 1000], [Q15(0); 1000]);
        st.process_merged(&[mpx; 1000], &pilots, &mut left, &mut right)
            .expect("equal lengths");
        let sizes = left.iter().chain(&right).map(|x| i32::from(x.0).abs());
        sizes.max().expect("there are samples")
    };
    assert_eq!(largest(Q15::MAX), 32_767);
    assert_eq!(largest(Q15::MIN), 32_768);
    for mpx in [Q15(8192), Q15(-8192)] {
        assert!((24_400..=24_578).contains(&largest(mpx)), "{mpx:?}");
    }
}
