//! The block with its summary beside the block alone and a model of the figures, and cause 20.

mod common;

use common::{
    Format, RATE, Random, all_bits, any, audio, cause, decoder, lengths, one_nan, pilot,
    record_bits, record_one_nan,
};
use pescrondilu::kernels::stereo::{
    DecoderRecord, StereoPllState, Summary, SummaryColumns, SummaryRecord,
};
use pescrondilu::{Error, Q15, Refusal, tables};

/// The figures of a period.
#[derive(Clone, Copy, Debug, Default, PartialEq)]
struct Figures {
    stereo: u32,
    mono: u32,
    changes: u32,
    magnitude: f64,
}

/// Document 02, request 4, sample by sample.
#[derive(Clone, Copy, Debug, PartialEq)]
struct Model {
    period: u32,
    held: Figures,
    before: bool,
}

impl Model {
    fn new(period: u32) -> Model {
        Model {
            period,
            held: Figures::default(),
            before: false,
        }
    }

    /// Gives the figures of the period that the sample ends.
    fn sample(&mut self, stereo: bool, difference: f64) -> Option<Figures> {
        let held = &mut self.held;
        if stereo {
            held.stereo += 1;
        } else {
            held.mono += 1;
        }
        held.changes += u32::from(stereo != self.before);
        self.before = stereo;
        // `max` passes over a NaN
        held.magnitude = held.magnitude.max(difference.abs());
        let full = held.stereo + held.mono == self.period;
        full.then(|| std::mem::take(held))
    }
}

fn held<T: Format>(summary: &Summary<T>) -> Figures {
    Figures {
        stereo: summary.stereo(),
        mono: summary.mono(),
        changes: summary.changes(),
        magnitude: summary.magnitude().to_f64(),
    }
}

fn summary<T: Format>(period: u32) -> Summary<T> {
    Summary::new(period).expect("a period")
}

/// Every word of a summary's record.
fn words<T: Format>(summary: &Summary<T>) -> [u64; 6] {
    let r: SummaryRecord<T> = summary.record();
    let [period, stereo, mono, changes, before] =
        [r.period, r.stereo, r.mono, r.changes, r.before].map(u64::from);
    [period, stereo, mono, changes, r.magnitude.bits(), before]
}

/// The four columns, with room of their own.
#[derive(Clone, Debug, PartialEq)]
struct Room<T> {
    stereo: Vec<u32>,
    mono: Vec<u32>,
    changes: Vec<u32>,
    magnitude: Vec<T>,
}

impl<T: Format> Room<T> {
    /// With so many places each.
    fn new(n: [usize; 4]) -> Room<T> {
        Room {
            stereo: vec![0xAAAA; n[0]],
            mono: vec![0xBBBB; n[1]],
            changes: vec![0xCCCC; n[2]],
            magnitude: vec![T::LEFT; n[3]],
        }
    }

    fn columns(&mut self) -> SummaryColumns<'_, T> {
        SummaryColumns {
            stereo: &mut self.stereo,
            mono: &mut self.mono,
            changes: &mut self.changes,
            magnitude: &mut self.magnitude,
        }
    }

    fn figures(&self) -> Vec<Figures> {
        let figures = |i: usize| Figures {
            stereo: self.stereo[i],
            mono: self.mono[i],
            changes: self.changes[i],
            magnitude: self.magnitude[i].to_f64(),
        };
        (0..self.stereo.len()).map(figures).collect()
    }
}

/// One block with its summary, which is accepted: difference, and the periods that ended.
fn run<T: Format>(
    st: &mut StereoPllState<T>,
    summary: &mut Summary<T>,
    mpx: &[T],
    pilot: &[T],
) -> (Vec<T>, Vec<Figures>) {
    let n = mpx.len();
    let (mut sum, mut difference) = (vec![T::LEFT; n], vec![T::LEFT; n]);
    let mut room = Room::new([summary.periods_in(n); 4]);
    let columns = room.columns();
    let answer = st.process_summary(summary, mpx, pilot, &mut sum, &mut difference, columns);
    assert_eq!(answer, Ok(()));
    assert_eq!(numbers(&sum), numbers(mpx));
    (difference, room.figures())
}

fn numbers<T: Format>(samples: &[T]) -> Vec<u64> {
    samples.iter().map(|x| one_nan(*x)).collect()
}

/// One block beside the block alone, and beside the model, which gets the samples one by one.
fn beside<T: Format>(
    st: &mut StereoPllState<T>,
    summary: &mut Summary<T>,
    model: &mut Model,
    mpx: &[T],
    pilot: &[T],
) {
    let (mut alone, mut single) = (*st, *st);
    let (difference, ended) = run(st, summary, mpx, pilot);
    let [mut sum, mut want] = [(); 2].map(|()| vec![T::LEFT; mpx.len()]);
    let answer = alone.process(mpx, pilot, &mut sum, &mut want);
    assert_eq!(answer, Ok(()));
    assert_eq!(numbers(&difference), numbers(&want));
    assert_eq!(record_one_nan(st), record_one_nan(&alone));

    let mut model_ended = Vec::new();
    for (m, p) in mpx.iter().zip(pilot) {
        let (mut s, mut d) = ([T::ZERO], [T::ZERO]);
        let answer = single.process(&[*m], &[*p], &mut s, &mut d);
        assert_eq!(answer, Ok(()));
        model_ended.extend(model.sample(single.is_stereo(), d[0].to_f64()));
    }
    assert_eq!(ended, model_ended);
    assert_eq!(held(summary), model.held);
    assert_eq!(summary.is_stereo_before(), model.before);
    assert_eq!(summary.period(), model.period);
    assert!(summary.magnitude().to_f64().is_sign_positive());
}

/// A second of the pilot.
const SECOND: usize = RATE as usize;

/// A decoder in stereo.
fn stereo<T: Format>() -> StereoPllState<T> {
    let mut st = decoder::<T>();
    let (mut sum, mut difference) = (vec![T::ZERO; SECOND], vec![T::ZERO; SECOND]);
    let mpx = vec![T::ZERO; SECOND];
    st.process(&mpx, &pilot(0, SECOND, 0.1), &mut sum, &mut difference)
        .expect("equal lengths");
    assert!(st.is_stereo());
    st
}

/// A lock coefficient with which the decision changes from sample to sample.
fn quick<T: Format>() -> StereoPllState<T> {
    StereoPllState::with_beta(19_000.0, 20.0, 0.1, 0.9, RATE).expect("good arguments")
}

/// Blocks of many lengths, in and out of lock and of any bits; enable, disable and reset between
/// them. Gives how many changes the unfinished period holds at the end.
fn session<T: Format>(start: StereoPllState<T>, period: u32, seed: u64) -> u32 {
    let mut random = Random(seed);
    let mut samples = Random(seed + 100);
    let (mut st, mut summary, mut model) = (start, summary::<T>(period), Model::new(period));
    let mut from = 0;
    for _ in 0..60 {
        let n = [0, 1, 2, 6, 7, 8, 63, 64, 65, 300, 2000][(random.word() % 11) as usize];
        let mut mpx: Vec<T> = audio(&mut samples, n);
        let mut pilots: Vec<T> = pilot(from, n, 0.1);
        match random.word() % 8 {
            0 => pilots = any(&mut samples, n),
            1 => mpx = any(&mut samples, n),
            2 if n > 0 => mpx[n / 2] = T::from_f64_round(f64::NAN),
            3 => pilots.fill(T::ZERO),
            _ => (),
        }
        beside(&mut st, &mut summary, &mut model, &mpx, &pilots);
        from += n;
        match random.word() % 12 {
            0 => st.set_enabled(false),
            1 | 2 => st.set_enabled(true),
            3 => st.reset(),
            _ => (),
        }
    }
    summary.changes()
}

fn sessions<T: Format>() {
    // the block of 64 samples and its neighbours are among them
    let periods = [1, 2, 7, 63, 64, 65, 2000, 2001, u32::MAX];
    for (i, period) in periods.into_iter().enumerate() {
        session(decoder::<T>(), period, i as u64);
        session(stereo::<T>(), period, 50 + i as u64);
        session(quick::<T>(), period, 90 + i as u64);
    }
    assert!(session(quick::<T>(), u32::MAX, 7) > 500);
}

#[test]
fn the_figures_are_those_of_the_samples_in_f32() {
    sessions::<f32>();
}

#[test]
fn the_figures_are_those_of_the_samples_in_q15() {
    sessions::<Q15>();
}

/// Periods that are the block's length, one less and one more, from a period's first sample on.
#[test]
fn periods_beside_the_length_of_a_block() {
    fn check<T: Format>() {
        for n in [1, 2, 7, 64, 100] {
            for period in [n - 1, n, n + 1].into_iter().filter(|period| *period > 0) {
                let (mut st, mut model) = (stereo::<T>(), Model::new(period as u32));
                let mut summary = summary::<T>(period as u32);
                let mut random = Random(n as u64);
                for block in 0..5 {
                    let mpx: Vec<T> = audio(&mut random, n);
                    let pilots: Vec<T> = pilot(SECOND + block * n, n, 0.1);
                    beside(&mut st, &mut summary, &mut model, &mpx, &pilots);
                    let over = (block + 1) * n % period;
                    assert_eq!((summary.stereo() + summary.mono()) as usize, over);
                }
            }
        }
    }
    check::<f32>();
    check::<Q15>();
}

/// A signal cut into blocks of other lengths: the same periods, summary, decoder and difference.
fn cut<T: Format>(seed: u64) {
    let mut random = Random(seed);
    let n = 3000;
    let mut mpx: Vec<T> = audio(&mut random, n);
    mpx[1234] = T::from_f64_round(f64::NAN);
    mpx[777] = T::from_f64_round(f64::INFINITY);
    let mut pilots: Vec<T> = pilot(0, n, 0.1);
    pilots[1000..1010].copy_from_slice(&any::<T>(&mut random, 10));
    for period in [1, 2, 7, 64, 999, 3000, 3001] {
        for start in [stereo::<T>(), quick::<T>()] {
            let (mut st, mut whole) = (start, summary::<T>(period));
            let (difference, ended) = run(&mut st, &mut whole, &mpx, &pilots);
            assert_eq!(ended.len(), n / period as usize);
            for size in [1, 2, 13, 64, 1500, 2999] {
                let (mut cut_st, mut cut) = (start, summary::<T>(period));
                let (mut cut_difference, mut cut_ended) = (Vec::new(), Vec::new());
                for (m, p) in mpx.chunks(size).zip(pilots.chunks(size)) {
                    let (d, e) = run(&mut cut_st, &mut cut, m, p);
                    cut_difference.extend(d);
                    cut_ended.extend(e);
                }
                assert_eq!(cut_ended, ended, "{period} {size}");
                assert_eq!(words(&cut), words(&whole));
                assert_eq!(numbers(&cut_difference), numbers(&difference));
                assert_eq!(record_one_nan(&cut_st), record_one_nan(&st));
            }
        }
    }
}

#[test]
fn how_a_signal_is_cut_makes_no_difference() {
    cut::<f32>(3);
    cut::<Q15>(4);
}

/// No sample: nothing changes, whatever is held.
#[test]
fn no_samples_are_accepted() {
    fn check<T: Format>() {
        let (mut st, mut summary) = (stereo::<T>(), summary::<T>(10));
        run(&mut st, &mut summary, &[T::LEFT; 9], &[T::ZERO; 9]);
        let (before, held) = (record_bits(&st), words(&summary));
        let (difference, ended) = run(&mut st, &mut summary, &[], &[]);
        assert_eq!((difference.len(), ended.len()), (0, 0));
        assert_eq!((record_bits(&st), words(&summary)), (before, held));
    }
    check::<f32>();
    check::<Q15>();
}

/// A NaN in the multiplex becomes one in the difference, and the magnitude passes over it.
#[test]
fn a_nan_in_the_multiplex_is_passed_over() {
    for nan in [f32::NAN, -f32::NAN, f32::from_bits(0x7F80_0001)] {
        let (mut st, mut summary) = (stereo::<f32>(), summary::<f32>(4));
        let mpx = [0.25, nan, -0.5, nan, nan, nan, nan, nan];
        let pilots = pilot(SECOND, 8, 0.1);
        let (difference, ended) = run(&mut st, &mut summary, &mpx, &pilots);
        assert!(difference[1].is_nan() && difference[7].is_nan());
        let largest = difference[0].abs().max(difference[2].abs());
        assert_eq!(ended[0].magnitude, f64::from(largest));
        assert!(largest > 0.0);
        // a period in which every difference is NaN
        let all_nan = Figures {
            stereo: 4,
            ..Figures::default()
        };
        assert_eq!(ended[1], all_nan);
    }
}

#[test]
fn an_infinity_in_the_multiplex_counts() {
    for infinity in [f32::INFINITY, f32::NEG_INFINITY] {
        let (mut st, mut summary) = (stereo::<f32>(), summary::<f32>(3));
        let mpx = [0.25, infinity, 0.5, 0.25];
        let (difference, ended) = run(&mut st, &mut summary, &mpx, &pilot(SECOND, 4, 0.1));
        assert!(difference[1].is_infinite());
        assert_eq!(ended[0].magnitude, f64::INFINITY);
        // the next period begins at 0
        assert_eq!(summary.magnitude(), difference[3].abs());
    }
}

/// A disabled decoder goes on deciding; its difference is 0.
#[test]
fn disabled_counts_stereo_and_its_magnitude_is_0() {
    fn check<T: Format>() {
        let (mut st, mut summary) = (stereo::<T>(), summary::<T>(100));
        st.set_enabled(false);
        let mpx = vec![T::from_f64_round(0.5); 150];
        let (difference, ended) = run(&mut st, &mut summary, &mpx, &pilot(SECOND, 150, 0.1));
        assert!(difference.iter().all(|d| *d == T::ZERO));
        // mono stands before a fresh summary's first sample, whatever the decoder said before
        let figures = |stereo, changes| Figures {
            stereo,
            changes,
            ..Figures::default()
        };
        assert_eq!(
            (&ended[..], held(&summary)),
            (&[figures(100, 1)][..], figures(50, 0))
        );
        st.set_enabled(true);
        run(
            &mut st,
            &mut summary,
            &mpx[..10],
            &pilot(SECOND + 150, 10, 0.1),
        );
        assert!(summary.magnitude().to_f64() > 0.1);
    }
    check::<f32>();
    check::<Q15>();
}

/// The decision before is the summary's own: a reset of the decoder is a change to mono.
#[test]
fn a_reset_in_the_middle_of_a_period() {
    fn check<T: Format>() {
        let (mut st, mut summary) = (stereo::<T>(), summary::<T>(30));
        let mpx = vec![T::from_f64_round(0.5); 10];
        run(&mut st, &mut summary, &mpx, &pilot(SECOND, 10, 0.1));
        assert!(summary.is_stereo_before() && summary.magnitude().to_f64() > 0.1);
        let largest = summary.magnitude();
        st.reset();
        assert!(!st.is_stereo() && summary.is_stereo_before());
        let (_, ended) = run(&mut st, &mut summary, &mpx, &[T::ZERO; 10]);
        assert_eq!(ended, []);
        assert_eq!(
            (summary.stereo(), summary.mono(), summary.changes()),
            (10, 10, 2)
        );
        // what was held stays, and mono adds nothing to the magnitude
        assert_eq!(summary.magnitude(), largest);
        // a summary without samples in between sees no change
        st = stereo::<T>();
        st.reset();
        let (_, ended) = run(&mut st, &mut summary, &mpx, &[T::ZERO; 10]);
        assert_eq!((ended[0].mono, ended[0].changes), (20, 2));
    }
    check::<f32>();
    check::<Q15>();
}

/// As many samples as a period can have, less two held: it ends with the second sample.
#[test]
fn the_longest_period_ends() {
    fn check<T: Format>() {
        let largest = T::from_f64_round(0.75);
        let mut summary = Summary::from_record(SummaryRecord {
            period: u32::MAX,
            stereo: 1 << 31,
            mono: (1 << 31) - 3,
            changes: u32::MAX - 2,
            magnitude: largest,
            before: 0,
        });
        assert_eq!([0, 1, 2, 3].map(|n| summary.periods_in(n)), [0, 0, 1, 1]);
        let mut st = stereo::<T>();
        let (_, ended) = run(&mut st, &mut summary, &[T::ZERO; 3], &pilot(SECOND, 3, 0.1));
        let figures = Figures {
            stereo: (1 << 31) + 2,
            mono: (1 << 31) - 3,
            changes: u32::MAX - 1,
            magnitude: largest.to_f64(),
        };
        assert_eq!(ended, [figures]);
        assert_eq!(
            (summary.stereo(), summary.mono(), summary.changes()),
            (1, 0, 0)
        );
    }
    check::<f32>();
    check::<Q15>();
}

#[test]
fn periods_are_counted_without_wrapping() {
    let of = |period, stereo, mono| {
        let record = SummaryRecord {
            period,
            stereo,
            mono,
            ..summary::<f32>(1).record()
        };
        Summary::from_record(record)
    };
    assert_eq!(of(u32::MAX, u32::MAX, u32::MAX).periods_in(0), 2);
    assert_eq!(of(u32::MAX, 0, u32::MAX - 1).periods_in(1), 1);
    assert_eq!(of(1, 0, 0).periods_in(usize::MAX), usize::MAX);
    assert_eq!(of(1, u32::MAX, 1).periods_in(usize::MAX), usize::MAX);
    assert_eq!(of(2, 1, 0).periods_in(usize::MAX), 1 << 63);
    assert_eq!(of(0, 5, 5).periods_in(100), 0);
}

/// Lengths of table, mpx, pilot, sum, difference, and of the four columns.
type Lengths = [usize; 9];

/// A call that is turned back leaves decoder, summary and all six outputs, word by word.
fn refused<T: Format>(state: &StereoPllState<T>, summary: &Summary<T>, n: Lengths, want: Refusal) {
    let [
        table,
        mpx,
        pilot,
        sum,
        difference,
        stereo,
        mono,
        changes,
        magnitude,
    ] = n;
    let lent = tables::cos::<T>().iter().cycle().take(table);
    let lent: Vec<T> = lent.copied().collect();
    let [mpx, pilot] = [mpx, pilot].map(|n| vec![T::from_f64_round(0.1); n]);
    for own_table in [false, true] {
        if own_table && table != tables::LENGTH {
            continue;
        }
        let (mut st, mut after) = (*state, *summary);
        let [mut sum, mut difference] = [sum, difference].map(|n| vec![T::LEFT; n]);
        let mut room = Room::<T>::new([stereo, mono, changes, magnitude]);
        let left = room.clone();
        let (s, d, columns) = (&mut sum, &mut difference, room.columns());
        let answer = match own_table {
            true => st.process_summary(&mut after, &mpx, &pilot, s, d, columns),
            false => st.process_summary_with(&lent, &mut after, &mpx, &pilot, s, d, columns),
        };
        assert_eq!(answer, Err(want), "{n:?}");
        assert_eq!(record_bits(&st), record_bits(state));
        assert_eq!(words(&after), words(summary));
        assert!(sum.iter().chain(&difference).all(|x| *x == T::LEFT));
        assert_eq!(all_bits(&room.magnitude), all_bits(&left.magnitude));
        assert_eq!(room, left);
    }
}

/// A decoder in stereo, and a summary of 7 samples that holds 5 of them. With 64 samples more 9
/// periods end.
fn worked<T: Format>() -> (StereoPllState<T>, Summary<T>) {
    let (mut st, mut summary) = (stereo::<T>(), summary::<T>(7));
    run(&mut st, &mut summary, &[T::LEFT; 5], &pilot(SECOND, 5, 0.1));
    assert_eq!((summary.stereo(), summary.changes()), (5, 1));
    assert!(summary.magnitude().to_f64() > 0.0);
    assert_eq!(summary.periods_in(64), 9);
    (st, summary)
}

fn lengths_of_blocks<T: Format>() {
    let (st, summary) = worked::<T>();
    for (n, want) in [
        ([0, 64, 64, 64, 64, 9, 9, 9, 9], lengths(9, 4097, 0)),
        ([4096, 64, 63, 62, 61, 8, 8, 8, 8], lengths(9, 4097, 4096)),
        ([4098, 0, 0, 0, 0, 0, 0, 0, 0], lengths(9, 4097, 4098)),
        ([4097, 64, 63, 62, 61, 8, 8, 8, 8], lengths(10, 64, 63)),
        ([4097, 64, 65, 64, 64, 9, 9, 9, 9], lengths(10, 64, 65)),
        ([4097, 64, 64, 65, 63, 8, 8, 8, 8], lengths(11, 64, 65)),
        ([4097, 64, 64, 64, 63, 8, 8, 8, 8], lengths(11, 64, 63)),
        ([4097, 64, 64, 64, 64, 8, 7, 6, 5], lengths(11, 9, 8)),
        ([4097, 64, 64, 64, 64, 9, 10, 6, 5], lengths(11, 9, 10)),
        ([4097, 64, 64, 64, 64, 9, 9, 0, 5], lengths(11, 9, 0)),
        ([4097, 64, 64, 64, 64, 9, 9, 9, 64], lengths(11, 9, 64)),
        ([4097, 0, 0, 0, 0, 0, 0, 0, 1], lengths(11, 0, 1)),
        ([4097, 1, 1, 1, 1, 0, 1, 0, 0], lengths(11, 0, 1)),
        ([4097, 2, 2, 2, 2, 1, 1, 0, 1], lengths(11, 1, 0)),
    ] {
        refused(&st, &summary, n, want);
        let error = Error::LengthMismatch {
            expected: want.expected,
            got: want.got,
        };
        assert_eq!(Error::from(want), error);
    }
}

#[test]
fn lengths_9_10_11() {
    lengths_of_blocks::<f32>();
    lengths_of_blocks::<Q15>();
}

/// Records that no call takes, for the counts, and in each format for the magnitude.
fn unfit<T: Format>(magnitudes: &[T], above_0: &[T]) -> Vec<SummaryRecord<T>> {
    let fit = worked::<T>().1.record();
    let empty = summary::<T>(7).record();
    let counts = |period, stereo, mono, changes| SummaryRecord {
        period,
        stereo,
        mono,
        changes,
        ..fit
    };
    let mut records = vec![
        // the period is 0
        counts(0, 5, 0, 1),
        SummaryRecord { period: 0, ..empty },
        // the samples held reach it
        counts(7, 7, 0, 1),
        counts(7, 0, 7, 1),
        counts(7, 3, 4, 1),
        counts(7, 8, 0, 1),
        counts(7, u32::MAX, u32::MAX, 1),
        // .. and do not wrap
        counts(7, u32::MAX, 1, 0),
        counts(7, u32::MAX, 5, 1),
        counts(u32::MAX, 1 << 31, 1 << 31, 1),
        // more changes than samples
        counts(7, 5, 0, 6),
        counts(7, 2, 3, u32::MAX),
        SummaryRecord {
            changes: 1,
            ..empty
        },
    ];
    let with = |record, magnitude| SummaryRecord {
        magnitude,
        ..record
    };
    records.extend(
        magnitudes
            .iter()
            .flat_map(|m| [with(fit, *m), with(empty, *m)]),
    );
    records.extend(above_0.iter().map(|m| with(empty, *m)));
    records
}

fn unfit_f32() -> Vec<SummaryRecord<f32>> {
    let nan = |bits: u32| f32::from_bits(bits);
    unfit(
        &[
            nan(0x7FC0_0000),
            nan(0x7F80_0001),
            nan(0x7FFF_FFFF),
            nan(0xFFC0_0000),
            nan(0xFF80_0001),
            -0.0,
            -f32::from_bits(1),
            -0.5,
            f32::NEG_INFINITY,
        ],
        &[f32::from_bits(1), 0.5, f32::MAX, f32::INFINITY],
    )
}

fn unfit_q15() -> Vec<SummaryRecord<Q15>> {
    unfit(&[Q15(-1), Q15(-32_767), Q15::MIN], &[Q15(1), Q15::MAX])
}

fn cause_20<T: Format>(records: Vec<SummaryRecord<T>>) {
    let (st, _) = worked::<T>();
    for record in records {
        let summary = Summary::from_record(record);
        let places = summary.periods_in(64).min(99);
        for n in [
            [4097, 64, 64, 64, 64, places, places, places, places],
            [4097, 0, 0, 0, 0, 0, 0, 0, 0],
            // it comes before the others
            [4096, 64, 63, 62, 61, 1, 2, 3, 4],
            [4097, 64, 64, 64, 64, 64, 64, 64, 64],
        ] {
            refused(&st, &summary, n, cause(20));
        }
    }
}

#[test]
fn each_unfit_summary_20() {
    cause_20::<f32>(unfit_f32());
    cause_20::<Q15>(unfit_q15());
    assert_eq!(Summary::<f32>::new(0), Err(cause(20)));
    assert_eq!(Summary::<Q15>::new(0), Err(cause(20)));
    let error = Error::from(cause(20));
    assert_eq!(error, Error::InvalidParameter(cause(20).message()));
    assert!(
        cause(20)
            .to_string()
            .starts_with("cause 20: the summary's period")
    );
}

/// An unfit Q15 decoder: after the summary's cause and before the lengths'.
#[test]
fn cause_0_comes_after_20_in_q15() {
    let (st, fit) = worked::<Q15>();
    let record = DecoderRecord {
        kp: -1,
        ..st.record()
    };
    let st = StereoPllState::<Q15>::from_record(record);
    for n in [
        [4097, 64, 64, 64, 64, 9, 9, 9, 9],
        [4097, 0, 0, 0, 0, 0, 0, 0, 0],
        [4096, 64, 63, 62, 61, 8, 8, 8, 8],
        [4097, 64, 64, 64, 64, 8, 8, 8, 8],
    ] {
        refused(&st, &fit, n, cause(0));
        for record in unfit_q15() {
            refused(&st, &Summary::from_record(record), n, cause(20));
        }
    }
}

/// What is next to the unfit records is taken.
#[test]
fn records_at_their_limits_are_fit() {
    fn check<T: Format>(magnitudes: &[T]) {
        let mut records = vec![summary::<T>(u32::MAX).record(), summary::<T>(1).record()];
        for magnitude in magnitudes {
            for (period, stereo, mono, changes) in [
                (7, 6, 0, 6),
                (7, 0, 6, 0),
                (7, 3, 3, 6),
                (2, 1, 0, 1),
                (u32::MAX, u32::MAX - 1, 0, u32::MAX - 1),
                (u32::MAX, 1 << 31, (1 << 31) - 2, 0),
            ] {
                records.push(SummaryRecord {
                    period,
                    stereo,
                    mono,
                    changes,
                    magnitude: *magnitude,
                    before: 0,
                });
            }
        }
        for record in records {
            let (mut st, mut summary) = (stereo::<T>(), Summary::from_record(record));
            run(&mut st, &mut summary, &[], &[]);
            assert_eq!(summary.record(), record);
            let held = record.stereo + record.mono;
            let (_, ended) = run(&mut st, &mut summary, &[T::ZERO], &pilot(SECOND, 1, 0.1));
            let figures = Figures {
                stereo: record.stereo + 1,
                mono: record.mono,
                changes: record.changes + 1,
                magnitude: record.magnitude.to_f64(),
            };
            match held + 1 == record.period {
                true => assert_eq!(ended, [figures]),
                false => assert_eq!((ended, self::held(&summary)), (vec![], figures)),
            }
        }
    }
    check::<f32>(&[0.0, f32::from_bits(1), 1.0, f32::MAX, f32::INFINITY]);
    check::<Q15>(&[Q15(0), Q15(1), Q15::MAX]);
}

/// A switch that is on may be any word. A refused call leaves the word as it is; an accepted one
/// gives 0 or 1.
#[test]
fn any_word_is_a_decision_before() {
    for before in [0, 1, 2, 256, u32::MAX] {
        let record = SummaryRecord {
            before,
            ..summary::<f32>(7).record()
        };
        let (mut st, mut summary) = (stereo::<f32>(), Summary::from_record(record));
        assert_eq!(summary.is_stereo_before(), before != 0);
        refused(
            &st,
            &summary,
            [4097, 7, 7, 7, 7, 0, 1, 1, 1],
            lengths(11, 1, 0),
        );
        run(&mut st, &mut summary, &[0.5], &pilot(SECOND, 1, 0.1));
        assert_eq!(summary.changes(), u32::from(before == 0));
        assert_eq!(summary.record().before, 1);
    }
}
