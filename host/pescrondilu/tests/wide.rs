//! The count of the phase corrections that took the wide way, beside a model that works f out from
//! the record before and after each sample.

mod common;

use common::{PILOT_HZ, RATE, Random, any, audio, cause, decoder, lengths, pilot, record_one_nan};
use pescrondilu::kernels::stereo::{
    DecoderRecord, Rack, RackQueue, StereoPll, StereoPllState, Summary, SummaryColumns, Waiting,
};
use pescrondilu::{C32, Proved, Q15, tables};
use pescrondilu_sys::decoder as sys;
use pescrondilu_sys::rack as sys_rack;
use pescrondilu_sys::summary as sys_summary;

/// 2^19. Where f is this, f times 2^32 plus 0.5 is just above 2^51; where it is the negative, it is
/// just above -2^51.
const EDGE: f32 = 524_288.0;

/// Both sides of both edges, zeros, and what is small.
const QUICK: [f32; 9] = [
    EDGE.next_down(),
    -EDGE,
    -EDGE.next_down(),
    262_144.0,
    -1.0,
    0.0,
    -0.0,
    f32::MIN_POSITIVE,
    1e-45,
];

const WIDE: [f32; 8] = [
    EDGE,
    EDGE.next_up(),
    -EDGE.next_up(),
    -2.0 * EDGE,
    3e9,
    -1e30,
    f32::MAX,
    f32::MIN,
];

// ---- The model

fn cosine(table: &[f32], phase: u32) -> f32 {
    let i = (phase >> 20) as usize;
    let part = (phase & 0xF_FFFF) as f32 / 1_048_576.0;
    let (a, b) = (table[i], table[i + 1]);
    a + (b - a) * part
}

/// Document 02, request 7: |v| is not below 2^51.
fn is_wide(f: f32) -> bool {
    let v = f64::from(f) * 4_294_967_296.0 + 0.5;
    v.is_nan() || v.abs() >= 2_251_799_813_685_248.0
}

/// The f of the next sample: kp times the error, plus the integrator after it. The plain block, which
/// counts nothing, takes the sample.
fn next_f(st: &mut StereoPllState<f32>, table: &[f32], pilot: f32) -> f32 {
    let before = st.record();
    st.process_plain(table, &[0.0], &[pilot], &mut [0.0], &mut [0.0])
        .expect("equal lengths");
    let c = cosine(table, before.phase);
    let e = if pilot.is_finite() { pilot * c } else { 0.0 };
    before.kp * e + st.record().integ
}

fn model(mut st: StereoPllState<f32>, table: &[f32], pilot: &[f32]) -> usize {
    let wide = |p: &&f32| is_wide(next_f(&mut st, table, **p));
    pilot.iter().filter(wide).count()
}

// ---- Decoders and pilots

/// A decoder that construction does not give: its gains, and what its integrator holds.
fn by_hand(kp: f32, ki: f32, imax: f32, integ: f32) -> StereoPllState<f32> {
    StereoPllState::from_record(DecoderRecord {
        kp,
        ki,
        imax,
        integ,
        ..decoder::<f32>().record()
    })
}

/// With a table of ones f is the pilot sample itself, where that is finite, and else 0.
fn follows_pilot() -> StereoPllState<f32> {
    by_hand(1.0, 0.0, f32::INFINITY, 0.0)
}

/// f is this at each sample, whatever the finite pilot and table.
fn holds(integ: f32) -> StereoPllState<f32> {
    by_hand(0.0, 0.0, f32::INFINITY, integ)
}

fn ones() -> Vec<f32> {
    vec![1.0; 4097]
}

// ---- The calls

/// The count of each sort of call over slices, all from the same state and of the same samples.
fn counts(st: &StereoPllState<f32>, table: &[f32], pilot: &[f32]) -> [usize; 4] {
    let mut plain = *st;
    let n = pilot.len();
    let mpx = vec![0.5; n];
    let [mut first, mut second] = [(); 2].map(|()| vec![9.0; n]);
    let (a, b) = (&mut first, &mut second);
    plain
        .process_plain(table, &mpx, pilot, a, b)
        .expect("equal lengths");
    assert_eq!(plain.wide_corrections(), 0);

    let (mut block, mut merged, mut summed) = (*st, *st, *st);
    let said = block.process_with(table, &mpx, pilot, a, b);
    assert_eq!(said, Ok(()));
    let said = merged.process_merged_with(table, &mpx, pilot, a, b);
    assert_eq!(said, Ok(()));
    let mut summary = Summary::new(u32::MAX).expect("a period");
    let none = SummaryColumns::default();
    let said = summed.process_summary_with(table, &mut summary, &mpx, pilot, a, b, none);
    assert_eq!(said, Ok(()));
    let mut rack = Rack::new(&[*st; 2]).expect("two");
    let queue = RackQueue {
        mpx: &mpx,
        pilot,
        sum: a,
        difference: b,
    };
    let taken = rack.round_with(table, 2 * n.max(1) as u32, &mut [queue]);
    assert_eq!(taken.map(|taken| taken[..2].to_vec()), Ok(vec![n, 0]));
    assert_eq!(rack.decoders()[1].wide_corrections(), 0);

    let all = [block, merged, summed, rack.decoders()[0]];
    for after in &all {
        assert_eq!(record_one_nan(after), record_one_nan(&plain));
    }
    all.map(|after| after.wide_corrections())
}

/// The count over pairs, with the crate's own table.
fn count_of_pairs(st: &StereoPllState<f32>, pilot: &[f32]) -> usize {
    let mut st = *st;
    let mut output = vec![C32::default(); pilot.len()];
    Proved
        .stereo_pll(&mut st, &vec![0.5; pilot.len()], pilot, &mut output)
        .expect("equal lengths");
    st.wide_corrections()
}

// ---- Both edges

#[test]
fn both_sides_of_both_edges_by_the_pilot() {
    let st = follows_pilot();
    for (values, wide) in [(&QUICK[..], 0), (&WIDE, 1)] {
        for f in values {
            assert_eq!(next_f(&mut st.clone(), &ones(), *f), *f);
            assert_eq!(counts(&st, &ones(), &[*f]), [wide; 4], "{f}");
            // among others, at each place of a block
            for place in 0..65 {
                let mut pilot = vec![0.1; 65];
                pilot[place] = *f;
                assert_eq!(counts(&st, &ones(), &pilot), [wide; 4], "{f} at {place}");
            }
        }
    }
    let all: Vec<f32> = QUICK.into_iter().chain(WIDE).collect();
    assert_eq!(counts(&st, &ones(), &all), [WIDE.len(); 4]);
}

#[test]
fn both_sides_of_both_edges_by_the_integrator() {
    for (values, wide) in [(&QUICK[..], 0), (&WIDE, 1)] {
        for f in values {
            for n in [0, 1, 8, 9, 64, 65, 200] {
                let pilot = pilot(0, n, 0.1);
                let st = holds(*f);
                assert_eq!(counts(&st, tables::cos(), &pilot), [wide * n; 4], "{f}");
                assert_eq!(count_of_pairs(&st, &pilot), wide * n, "{f}");
            }
        }
    }
}

/// The sum of both parts is rounded to f32 first: it reaches the edge from below.
#[test]
fn the_sum_is_rounded_before_the_edge() {
    let below = EDGE.next_down();
    let step = EDGE - below;
    for (integ, wide) in [(0.0, 0), (step / 4.0, 0), (step / 2.0, 1), (step, 1)] {
        let st = by_hand(below, 0.0, f32::INFINITY, integ);
        assert_eq!(counts(&st, &ones(), &[1.0]), [wide; 4], "{integ}");
    }
    // at the lower edge the quick way ends one step further out
    for (integ, wide) in [(0.0, 0), (-step, 0), (-2.0 * step, 1)] {
        let st = by_hand(EDGE, 0.0, f32::INFINITY, integ);
        assert_eq!(counts(&st, &ones(), &[-1.0]), [wide; 4], "{integ}");
    }
}

/// The integrator counts as step 6 leaves it: with this sample, and within its limit.
#[test]
fn the_integrator_is_the_one_after_the_sample() {
    let grows = by_hand(0.0, 1.0, f32::INFINITY, EDGE - 1.0);
    assert_eq!(counts(&grows, &ones(), &[1.0]), [1; 4]);
    assert_eq!(counts(&grows, &ones(), &[0.5, 0.25, 0.25, 0.0]), [2; 4]);
    let limited = by_hand(0.0, 1.0, EDGE.next_down(), EDGE - 1.0);
    assert_eq!(counts(&limited, &ones(), &[1.0, 9.0]), [0; 4]);
    let brought_back = by_hand(0.0, 0.0, 1.0, 1e30);
    assert_eq!(counts(&brought_back, &ones(), &[0.0]), [0; 4]);
}

#[test]
fn nan_and_infinite_f_are_counted() {
    let (inf, nan) = (f32::INFINITY, f32::NAN);
    for (st, pilot, wide) in [
        // kp times the error
        (by_hand(inf, 0.0, 1.0, 0.0), 1.0, 1),
        (by_hand(inf, 0.0, 1.0, 0.0), -1.0, 1),
        (by_hand(-inf, 0.0, 1.0, 0.0), 1.0, 1),
        (by_hand(nan, 0.0, 1.0, 0.0), 1.0, 1),
        (by_hand(-nan, 0.0, 1.0, 0.0), 0.0, 1),
        // an infinite gain and no error make a NaN
        (by_hand(inf, 0.0, 1.0, 0.0), 0.0, 1),
        // the integrator, which an infinite limit leaves
        (holds(inf), 0.5, 1),
        (holds(-inf), 0.5, 1),
        (holds(nan), 0.5, 1),
        (by_hand(0.0, 0.0, 1.0, inf), 0.5, 0),
        (by_hand(0.0, 0.0, 1.0, nan), 0.5, 1),
        // infinities of both signs
        (by_hand(inf, 0.0, inf, -inf), 1.0, 1),
    ] {
        let want = [wide; 4];
        let record = st.record();
        assert_eq!(counts(&st, &ones(), &[pilot]), want, "{record:?} {pilot}");
        assert_eq!(model(st, &ones(), &[pilot]), wide);
    }
}

/// The error of such a pilot sample is 0. It is no reason for the wide way by itself.
#[test]
fn a_pilot_that_is_not_finite_has_error_0() {
    for odd in [f32::NAN, -f32::NAN, f32::INFINITY, f32::NEG_INFINITY] {
        assert_eq!(counts(&follows_pilot(), &ones(), &[odd; 65]), [0; 4]);
        assert_eq!(counts(&holds(EDGE), &ones(), &[odd; 65]), [65; 4]);
        assert_eq!(counts(&holds(-EDGE), &ones(), &[odd; 65]), [0; 4]);
        let infinite = by_hand(f32::INFINITY, 0.0, 1.0, 0.0);
        assert_eq!(counts(&infinite, &ones(), &[odd; 65]), [65; 4]);
        let mut pilot = vec![EDGE; 65];
        pilot[64] = odd;
        assert_eq!(counts(&follows_pilot(), &ones(), &pilot), [64; 4]);
    }
}

// ---- Beside the model

/// Gains, limits and integrators from small to beyond every edge, and of any bits.
fn any_decoder(random: &mut Random) -> StereoPllState<f32> {
    let mut value = || match random.word() % 8 {
        0 => f32::from_bits(random.word() as u32),
        1 => [0.0, EDGE, -EDGE, f32::INFINITY, f32::NAN][(random.word() % 5) as usize],
        2 | 3 => (random.unit() * 4.0) as f32 * EDGE,
        4 => (random.unit() * 1e-3) as f32,
        _ => random.unit() as f32,
    };
    by_hand(value(), value(), value().abs(), value())
}

fn any_pilot(random: &mut Random, n: usize) -> Vec<f32> {
    match random.word() % 4 {
        0 => any(random, n),
        1 => vec![EDGE; n],
        2 => audio::<f32>(random, n).iter().map(|x| x * EDGE).collect(),
        _ => audio(random, n),
    }
}

#[test]
fn every_call_counts_as_the_model_does() {
    let mut random = Random(71);
    let (mut none, mut some, mut all) = (0, 0, 0);
    for _ in 0..3_000 {
        let st = any_decoder(&mut random);
        let n = [1, 2, 7, 64, 65, 100][(random.word() % 6) as usize];
        let pilot = any_pilot(&mut random, n);
        let table = match random.word() % 3 {
            0 => ones(),
            1 => any(&mut random, 4097),
            _ => tables::cos().to_vec(),
        };
        let want = model(st, &table, &pilot);
        assert_eq!(counts(&st, &table, &pilot), [want; 4], "{st:?}");
        let want_of_pairs = model(st, tables::cos(), &pilot);
        assert_eq!(count_of_pairs(&st, &pilot), want_of_pairs, "{st:?}");
        *match want {
            0 => &mut none,
            _ if want == n => &mut all,
            _ => &mut some,
        } += 1;
    }
    assert!(none.min(some).min(all) > 300, "{none} {some} {all}");
}

/// Each block is counted by itself, and each decoder of a rack by itself.
#[test]
fn one_count_a_decoder_in_rounds() {
    let mut random = Random(72);
    for number in 2..=8 {
        let decoders: Vec<_> = (0..number).map(|_| any_decoder(&mut random)).collect();
        let queues: Vec<Vec<f32>> = (0..number)
            .map(|k| any_pilot(&mut random, 10 * k + 3))
            .collect();
        let flat = queues.concat();
        let waiting: Vec<_> = queues.iter().map(|q| Waiting::samples(q.len())).collect();
        let mut rack = Rack::new(&decoders).expect("two to eight");
        let share = 20;
        let [mut sum, mut difference] = [(); 2].map(|()| vec![0.0; flat.len()]);
        let (s, d) = (&mut sum, &mut difference);
        let taken = rack
            .round_flat(share * number as u32, &waiting, &flat, &flat, s, d)
            .expect("equal lengths");
        for (k, st) in rack.decoders().iter().enumerate() {
            let own = &queues[k][..taken[k]];
            let want = model(decoders[k], tables::cos(), own);
            assert_eq!(st.wide_corrections(), want, "{k} of {number}");
        }
        // a round with nothing waiting counts nothing
        assert!(rack.round(8, &mut []).is_ok());
        assert!(rack.decoders().iter().all(|st| st.wide_corrections() == 0));
    }
}

#[test]
fn a_block_does_not_add_to_the_one_before() {
    let mut st = follows_pilot();
    let [mut sum, mut difference] = [[0.0; 3]; 2];
    for (pilot, wide) in [
        ([EDGE, 0.0, EDGE], 2),
        ([EDGE, EDGE, EDGE], 3),
        ([0.0, -EDGE, 0.0], 0),
        ([EDGE, 0.0, 0.0], 1),
    ] {
        st.process_with(&ones(), &[0.5; 3], &pilot, &mut sum, &mut difference)
            .expect("equal lengths");
        assert_eq!(st.wide_corrections(), wide);
    }
    st.process(&[], &[], &mut [], &mut [])
        .expect("equal lengths");
    assert_eq!(st.wide_corrections(), 0);
}

// ---- What is no block

/// A decoder after a block with this many wide corrections.
fn counted(wide: usize) -> StereoPllState<f32> {
    let mut st = holds(EDGE);
    let [mut sum, mut difference] = [(); 2].map(|()| vec![0.0; wide]);
    let samples = vec![0.5; wide];
    st.process(&samples, &samples, &mut sum, &mut difference)
        .expect("equal lengths");
    assert_eq!(st.wide_corrections(), wide);
    st
}

/// A refusal has no count. State and count stay.
#[test]
fn a_refused_call_leaves_the_count() {
    let mut st = counted(5);
    let before = st;
    let short = [0.5; 2];
    let [mut a, mut b] = [[0.0; 3]; 2];
    let cos = tables::cos::<f32>();

    let said = st.process(&[0.5; 3], &short, &mut a, &mut b);
    assert_eq!(said, Err(lengths(10, 3, 2)));
    let said = st.process_with(&cos[1..], &[0.5; 3], &[0.5; 3], &mut a, &mut b);
    assert_eq!(said, Err(lengths(9, 4097, 4096)));
    let said = st.process_merged(&[0.5; 3], &[0.5; 3], &mut a[1..], &mut b);
    assert_eq!(said, Err(lengths(11, 3, 2)));
    let mut summary = Summary::<f32>::new(2).expect("a period");
    let none = SummaryColumns::default();
    let said = st.process_summary(&mut summary, &[0.5; 3], &[0.5; 3], &mut a, &mut b, none);
    assert_eq!(said, Err(lengths(11, 1, 0)));
    let said = st.process_plain(cos, &[0.5; 3], &short, &mut a, &mut b);
    assert_eq!(said, Err(lengths(10, 3, 2)));
    let mut output = [C32::default(); 3];
    assert!(
        Proved
            .stereo_pll(&mut st, &[0.5; 3], &short, &mut output)
            .is_err()
    );
    assert!(
        Proved
            .stereo_pll(&mut st, &[0.5; 2], &short, &mut output)
            .is_err()
    );
    assert!(
        Proved
            .stereo_pll(&mut st, &[], &short, &mut output)
            .is_err()
    );
    assert_eq!((st, st.wide_corrections()), (before, 5));

    let mut rack = Rack::new(&[st, counted(2)]).expect("two");
    assert_eq!(rack.round(1, &mut []), Err(cause(22)));
    let queue = RackQueue {
        mpx: &short,
        pilot: &short,
        sum: &mut a,
        difference: &mut b,
    };
    assert_eq!(rack.round(8, &mut [queue]), Err(lengths(11, 2, 3)));
    let left = rack.decoders().iter().map(|st| st.wide_corrections());
    assert_eq!(left.collect::<Vec<_>>(), [5, 2]);
}

/// The count is that of the last block: it is 0 before one, and no set call touches it.
#[test]
fn set_calls_leave_the_count_and_a_new_decoder_has_none() {
    assert_eq!(decoder::<f32>().wide_corrections(), 0);
    let mut st = counted(5);
    assert_eq!(
        StereoPllState::<f32>::from_record(st.record()).wide_corrections(),
        0
    );
    st.set_enabled(false);
    st.set_enabled(true);
    st.reset();
    assert_eq!(st.wide_corrections(), 5);
    // the plain block has none
    st.process_plain(tables::cos(), &[0.5], &[0.5], &mut [0.0], &mut [0.0])
        .expect("equal lengths");
    assert_eq!(st.wide_corrections(), 0);
}

/// What the last call counted is no part of the loop.
#[test]
fn equal_loops_may_have_other_counts() {
    let st = counted(5);
    let same = StereoPllState::from_record(st.record());
    assert_eq!(st.record(), same.record());
    assert_ne!(st.wide_corrections(), same.wide_corrections());
    assert_eq!(st, same);
    assert_ne!(st, counted(4));
}

// ---- The bounds under which the count is proved to be 0

/// A constructed decoder whose kp is near this: the gain grows as the nominal level falls.
fn with_kp(kp: f64) -> StereoPllState<f32> {
    let made = |level| StereoPllState::<f32>::with_beta(PILOT_HZ, 20.0, level, 0.5, RATE);
    let usual = made(0.1).expect("good arguments").coefficients().kp;
    made(0.1 * usual / kp).expect("good arguments")
}

#[test]
fn within_the_bounds_it_is_0() {
    let mut random = Random(73);
    let minus: Vec<f32> = ones().iter().map(|x| -x).collect();
    for kp in [0.003, 1.0, 1000.0, 262_143.9] {
        let start = with_kp(kp);
        let (kp, imax) = (start.record().kp, start.record().imax);
        assert!(kp + imax <= 262_144.0);
        for table in [tables::cos().to_vec(), ones(), minus.clone()] {
            let mut st = start;
            for block in 0..20 {
                let pilot: Vec<f32> = match block % 3 {
                    0 => vec![1.0; 64],
                    1 => vec![-1.0; 64],
                    _ => audio(&mut random, 64),
                };
                assert_eq!(counts(&st, &table, &pilot), [0; 4]);
                let [mut sum, mut difference] = [[0.0; 64]; 2];
                st.process_with(&table, &pilot, &pilot, &mut sum, &mut difference)
                    .expect("equal lengths");
                if block == 15 {
                    st.reset();
                }
            }
        }
    }
    // a gain of twice the bound leaves them
    assert_eq!(counts(&with_kp(524_289.0), &ones(), &[1.0; 8]), [8; 4]);
}

// ---- By the C names: a refused call has 0 there

#[test]
fn a_refused_call_counts_0_by_the_c_names() {
    let st = holds(EDGE).record();
    let cos = tables::cos::<f32>();
    let m = [0.5; 4];
    let [mut a, mut b] = [[0.0; 4]; 2];
    let accepted = sys::block(st, cos, &m, &m, &mut a, &mut b);
    assert_eq!((accepted.answer.code, accepted.wide), (0, 4));
    for (table, pilot, first, second, code) in [
        (&cos[1..], 4, 4, 4, 109),
        (cos, 3, 4, 4, 110),
        (cos, 4, 3, 4, 111),
        (cos, 4, 4, 3, 111),
    ] {
        let (a, b) = (&mut a[..first], &mut b[..second]);
        let block = sys::block(st, table, &m, &m[..pilot], a, b);
        assert_eq!((block.answer.code, block.wide), (code, 0));
        let merged = sys::merged_block(st, table, &m, &m[..pilot], a, b);
        assert_eq!((merged.answer.code, merged.wide), (code, 0));
    }
    let summary = |period| {
        let s = sys_summary::pescrondilu_f32_summary_new(period);
        let [mut a, mut b] = [[0.0; 4]; 2];
        let (x, y, z) = (&mut [][..], &mut [][..], &mut [][..]);
        sys_summary::summary_block(st, s, cos, &m, &m, &mut a, &mut b, x, y, z, &mut [])
    };
    let told = |period| (summary(period).answer.code, summary(period).wide);
    assert_eq!([9, 4, 0].map(told), [(0, 4), (111, 0), (120, 0)]);
}

/// Also past the number, and where another decoder is at fault.
#[test]
fn a_refused_round_counts_0_by_the_c_names() {
    let m = [0.5; 4];
    let round = |number, allowance, last| {
        let rack = sys_rack::Rack {
            decoders: [holds(EDGE).record(); 8],
            number,
        };
        let [mut a, mut b] = [[0.0; 4]; 2];
        let lists: [&[f32]; 2] = [&m[..2], &m[2..]];
        let pilots: [&[f32]; 2] = [&m[..2], &m[2..last]];
        let ((a1, a2), (b1, b2)) = (a.split_at_mut(2), b.split_at_mut(2));
        let reply = sys_rack::rack_round_slices(
            rack,
            allowance,
            tables::cos::<f32>(),
            &lists,
            &pilots,
            &mut [a1, a2],
            &mut [b1, b2],
        );
        (reply.answer.code, reply.wide)
    };
    assert_eq!(round(2, 2, 4), (0, [1, 1, 0, 0, 0, 0, 0, 0]));
    assert_eq!(round(3, 9, 4), (0, [2, 2, 0, 0, 0, 0, 0, 0]));
    assert_eq!(round(2, 8, 3), (110, [0; 8]));
    assert_eq!(round(2, 1, 4), (122, [0; 8]));
    assert_eq!(round(1, 8, 4), (121, [0; 8]));
    assert_eq!(round(9, 99, 4), (121, [0; 8]));
}

/// A Q15 decoder's replies have no room for a count.
#[test]
fn q15_has_no_count() {
    let record = decoder::<Q15>().record();
    let (m, mut a, mut b) = ([9_i16; 2], [0; 2], [0; 2]);
    let reply = sys::block(record, tables::cos_q15(), &m, &m, &mut a, &mut b);
    let (): () = reply.wide;
    assert_eq!(reply.answer.code, 0);
    assert_eq!(size_of_val(&reply), 104);
}
