//! Encoders, oscillator, verdict, tables: what this crate adds to the core's calls.

use pescrondilu::kernels::mix::Nco;
use pescrondilu::kernels::stereo::{StereoEncodeRdsState, StereoEncodeState, on_air};
use pescrondilu::{Q15, tables};
use pescrondilu_sys::encoder as sys;

/// What this crate has as const functions of its own is what the core's calls give.
#[test]
fn the_oscillator_is_the_cores() {
    for (phase, inc) in [(0, 0), (5, 7), (u32::MAX, 1 << 31), (1, u32::MAX)] {
        let mut nco = Nco::from_increment(inc);
        assert_eq!(nco.record(), sys::pescrondilu_nco_from_increment(inc));
        let record = sys::pescrondilu_nco_set_phase(nco.record(), phase);
        nco.set_phase(phase);
        assert_eq!((nco.record(), nco.phase()), (record, phase));
        for n in [0, 1, 4096, 1 << 33, usize::MAX] {
            let mut moved = nco;
            moved.advance(n);
            let want = phase.wrapping_add(inc.wrapping_mul(n as u32));
            assert_eq!((moved.phase(), moved.increment()), (want, inc));
        }
        let record = sys::pescrondilu_nco_reset(nco.record());
        nco.reset();
        assert_eq!(nco.record(), record);
    }
    const QUARTER: Nco = Nco::from_increment(1 << 30);
    assert_eq!(QUARTER.increment(), 1 << 30);
    assert_eq!(
        Nco::with_rate(-0.25, 1.0).map(|o| o.increment()),
        Ok(3_221_225_472)
    );
    assert_eq!(Nco::default(), Nco::from_increment(0));
}

#[test]
fn records_of_the_encoders() {
    let mut st = StereoEncodeRdsState::with_rate(19_000.0, 0.9, 0.09, 0.04, 192_000.0)
        .expect("good arguments");
    st.set_phase(77);
    assert_eq!(StereoEncodeRdsState::from_record(st.record()), st);
    assert_eq!(
        StereoEncodeState::from_record(st.record().enc),
        *st.encoder()
    );
    assert_eq!((st.phase(), st.increment()), (77, st.encoder().increment()));
    let nco = Nco::with_rate(19_000.0, 192_000.0).expect("good arguments");
    assert_eq!(st.increment(), nco.increment());
    st.reset();
    assert_eq!(
        (st.phase(), st.main(), st.pilot(), st.rds()),
        (0, 0.9, 0.09, 0.04)
    );
}

/// An RDS level of 0 is the encoder without RDS.
#[test]
fn silent_rds() {
    let mut with = StereoEncodeRdsState::with_rate(19_000.0, 0.9, 0.09, 0.0, 192_000.0)
        .expect("good arguments");
    let mut without = *with.encoder();
    let audio: Vec<f32> = (0..500).map(|i| (i as f32 * 0.1).sin()).collect();
    let right: Vec<f32> = audio.iter().rev().copied().collect();
    let (mut a, mut b) = (vec![0.0; 500], vec![0.0; 500]);
    assert_eq!(with.process(&audio, &right, &audio, &mut a), Ok(()));
    assert_eq!(without.process(&audio, &right, &mut b), Ok(()));
    assert_eq!(a, b);
    assert_eq!(*with.encoder(), without);
}

#[test]
fn the_verdict_has_the_limits_of_both() {
    let (lowest, highest) = (18_998.0_f64, 19_002.0_f64);
    let good = [
        lowest,
        lowest.next_up(),
        19_000.0,
        highest.next_down(),
        highest,
    ];
    let bad = [
        lowest.next_down(),
        highest.next_up(),
        18_500.0,
        -19_000.0,
        f64::INFINITY,
        f64::from_bits(0x7FF8_0000_0000_0001),
        f64::from_bits(0xFFF0_0000_0000_0001),
    ];
    let strong = [0.08_f32, 0.09, 0.1];
    let weak = [0.08_f32.next_down(), 0.1_f32.next_up(), f32::NAN, -0.09];
    for hz in good {
        assert!(strong.iter().all(|amplitude| on_air(hz, *amplitude)));
        assert!(!weak.iter().any(|amplitude| on_air(hz, *amplitude)));
    }
    for hz in bad {
        let all = strong.iter().chain(&weak);
        assert!(!all.into_iter().any(|amplitude| on_air(hz, *amplitude)));
    }
}

/// An exciter may be set up away from 19 kHz; what it sends is not fit for air.
#[test]
fn an_encoder_takes_a_frequency_that_may_not_go_on_air() {
    for hz in [18_000.0, 18_500.0, 20_000.0] {
        assert!(StereoEncodeState::with_rate(hz, 0.9, 0.09, 192_000.0).is_ok());
        assert!(!on_air(hz, 0.09));
    }
}

#[test]
fn tables_are_cosines() {
    let (single, fixed) = (tables::cos_f32(), tables::cos_q15());
    assert_eq!((single.len(), fixed.len()), (4097, 4097));
    for i in 0..=4096 {
        let exact = (i as f64 / 4096.0 * std::f64::consts::TAU).cos();
        assert!((f64::from(single[i]) - exact).abs() <= 3e-8, "{i}");
        assert!((f64::from(fixed[i]) - 32768.0 * exact).abs() <= 1.0, "{i}");
        // The same going back, and the other sign half a turn on.
        assert_eq!((single[i], fixed[i]), (single[4096 - i], fixed[4096 - i]));
        assert_eq!(single[(i + 2048) % 4096], -single[i]);
    }
    for quarter in [1024, 3072] {
        assert_eq!((single[quarter].to_bits(), fixed[quarter]), (0, 0));
    }
    assert_eq!(tables::cos::<Q15>().as_ptr().cast::<i16>(), fixed.as_ptr());
    assert!(std::ptr::eq(tables::cos_f32(), single), "made once");
}

#[test]
fn integers_are_samples_without_a_copy() {
    let mut raw = [1, -2, 3];
    assert_eq!(
        Q15::from_i16_slice(&raw).as_ptr().cast::<i16>(),
        raw.as_ptr()
    );
    Q15::from_i16_slice_mut(&mut raw)[1] = Q15(7);
    assert_eq!(raw, [1, 7, 3]);
    let mut samples = raw.map(Q15);
    Q15::as_i16_slice_mut(&mut samples)[0] = -9;
    assert_eq!(Q15::as_i16_slice(&samples), [-9, 7, 3]);
    assert_eq!(Q15::as_i16_slice(&[]), [0; 0]);
}
