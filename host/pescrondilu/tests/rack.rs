//! A round of a rack beside each decoder's own block, rounds until all is worked, and the causes 21
//! and 22 and those of the decoders in their order. Each round is made twice, over flat slices and
//! over queues, and both have to leave the same.

mod common;

use common::{
    Format, PILOT_HZ, RATE, Random, all_bits, any, audio, cause, decoder, lengths, one_nan, pilot,
    record_bits, record_one_nan,
};
use pescrondilu::kernels::stereo::{
    DecoderRecord, RACK_PLACES, Rack, RackQueue, StereoPllState, Waiting,
};
use pescrondilu::{Error, Q15, RealSample, Refusal, tables};
use pescrondilu_sys::decoder::Sample;
use pescrondilu_sys::rack as sys;

/// What waits for a decoder: multiplex and pilot, equally long.
type Queue<T> = (Vec<T>, Vec<T>);

/// What lies past the parts, and on either side of a queue's outputs.
const PAST: usize = 3;

fn numbers<T: Format>(samples: &[T]) -> Vec<u64> {
    samples.iter().map(|x| one_nan(*x)).collect()
}

fn is_left<T: Format>(samples: &[T]) -> bool {
    samples.iter().all(|x| x.bits() == T::LEFT.bits())
}

/// A decoder whose loop and level depend on `i`, in stereo where `i` is odd.
fn one<T: Format>(i: usize) -> StereoPllState<T> {
    let natural = 10.0 + 5.0 * i as f64;
    let beta = [1e-3, 0.9, 0.01][i % 3];
    let made = StereoPllState::<T>::with_beta(PILOT_HZ, natural, 0.1, beta, RATE);
    let mut st = made.expect("good arguments");
    if i % 2 == 1 {
        let n = 40_000;
        let (mut sum, mut difference) = (vec![T::ZERO; n], vec![T::ZERO; n]);
        st.process(
            &vec![T::ZERO; n],
            &pilot(i, n, 0.1),
            &mut sum,
            &mut difference,
        )
        .expect("equal lengths");
    }
    st.set_enabled(i % 5 != 4);
    st
}

/// A queue's samples and its outputs, in buffers of their own.
struct Own<T> {
    mpx: Vec<T>,
    pilot: Vec<T>,
    sum: Vec<T>,
    difference: Vec<T>,
}

impl<T: Format> Own<T> {
    fn new(mpx: &[T], pilot: &[T], sum: usize, difference: usize) -> Self {
        Own {
            mpx: mpx.to_vec(),
            pilot: pilot.to_vec(),
            sum: vec![T::LEFT; sum + 2 * PAST],
            difference: vec![T::LEFT; difference + 2 * PAST],
        }
    }

    /// Room for the outputs of these samples.
    fn of((mpx, pilot): &Queue<T>) -> Self {
        Own::new(mpx, pilot, mpx.len(), mpx.len())
    }

    fn queue(&mut self) -> RackQueue<'_, T> {
        let ends = [self.sum.len() - PAST, self.difference.len() - PAST];
        RackQueue {
            mpx: &self.mpx,
            pilot: &self.pilot,
            sum: &mut self.sum[PAST..ends[0]],
            difference: &mut self.difference[PAST..ends[1]],
        }
    }

    /// Sum and difference; nothing around them was written.
    fn outputs(&self) -> [Vec<T>; 2] {
        [&self.sum, &self.difference].map(|output| {
            let (before, rest) = output.split_at(PAST);
            let (own, behind) = rest.split_at(rest.len() - PAST);
            assert!(is_left(before) && is_left(behind));
            own.to_vec()
        })
    }

    fn is_left(&self) -> bool {
        is_left(&self.sum) && is_left(&self.difference)
    }
}

fn rack<T: Format>(number: usize) -> Rack<T> {
    let decoders: Vec<_> = (0..number).map(one).collect();
    Rack::new(&decoders).expect("two to eight")
}

/// So many samples for each decoder, the pilot at some place of its own.
fn queues<T: Format>(random: &mut Random, lengths: &[usize]) -> Vec<Queue<T>> {
    let mut queue = |n: usize| {
        let from = (random.word() % 10_000) as usize;
        (audio(random, n), pilot(from, n, 0.1))
    };
    lengths.iter().map(|n| queue(*n)).collect()
}

/// What each decoder took, and its two outputs.
type Round<T> = (Vec<usize>, Vec<[Vec<T>; 2]>);

/// One round over queues, which is accepted.
fn round_by_queues<T: Format>(rack: &mut Rack<T>, allowance: u32, queues: &[Queue<T>]) -> Round<T> {
    let mut own: Vec<_> = queues.iter().map(Own::of).collect();
    let mut queues: Vec<_> = own.iter_mut().map(Own::queue).collect();
    let taken = rack.round(allowance, &mut queues).expect("it is accepted");
    assert!(taken[rack.number()..].iter().all(|n| *n == 0));
    let outputs = own.iter().map(Own::outputs).collect();
    (taken[..rack.number()].to_vec(), outputs)
}

/// One round, which is accepted. Over queues it leaves the same.
fn round<T: Format>(rack: &mut Rack<T>, allowance: u32, queues: &[Queue<T>]) -> Round<T> {
    let mut other = *rack;
    let (taken, outputs) = round_flat(rack, allowance, queues);
    let (by_queues, others) = round_by_queues(&mut other, allowance, queues);
    assert_eq!(by_queues, taken);
    for (here, there) in others.iter().flatten().zip(outputs.iter().flatten()) {
        assert_eq!(numbers(here), numbers(there));
    }
    for (here, there) in other.decoders().iter().zip(rack.decoders()) {
        assert_eq!(record_one_nan(here), record_one_nan(there));
    }
    (taken, outputs)
}

/// One round over flat slices, which is accepted.
fn round_flat<T: Format>(rack: &mut Rack<T>, allowance: u32, queues: &[Queue<T>]) -> Round<T> {
    let waiting: Vec<_> = queues.iter().map(|q| Waiting::samples(q.0.len())).collect();
    let past = vec![T::LEFT; PAST];
    let mpx: Vec<T> = queues.iter().flat_map(|q| q.0.clone()).collect();
    let pilot: Vec<T> = queues.iter().flat_map(|q| q.1.clone()).collect();
    let (mpx, pilot) = ([mpx, past.clone()].concat(), [pilot, past].concat());
    let [mut sum, mut difference] = [(); 2].map(|()| vec![T::LEFT; mpx.len()]);
    let answer = rack.round_flat(allowance, &waiting, &mpx, &pilot, &mut sum, &mut difference);
    let taken = answer.expect("it is accepted");
    assert!(taken[rack.number()..].iter().all(|n| *n == 0));

    let (mut s, mut d) = (&sum[..], &difference[..]);
    let mut outputs = Vec::new();
    for w in waiting {
        let (sum, difference);
        (sum, s) = s.split_at(w.mpx);
        (difference, d) = d.split_at(w.mpx);
        outputs.push([sum.to_vec(), difference.to_vec()]);
    }
    assert_eq!((s.len(), d.len()), (PAST, PAST));
    assert!(is_left(s) && is_left(d));
    (taken[..rack.number()].to_vec(), outputs)
}

/// One round beside each decoder's own block over the samples that it may take.
fn beside<T: Format>(rack: &mut Rack<T>, allowance: u32, queues: &[Queue<T>]) {
    let share = allowance as usize / rack.number();
    let before = rack.decoders().to_vec();
    let (taken, outputs) = round(rack, allowance, queues);
    for (k, mut alone) in before.into_iter().enumerate() {
        let (mpx, pilot) = &queues[k];
        let n = share.min(mpx.len());
        assert_eq!(taken[k], n, "decoder {k}");
        let [mut sum, mut difference] = [(); 2].map(|()| vec![T::LEFT; n]);
        let answer = alone.process(&mpx[..n], &pilot[..n], &mut sum, &mut difference);
        assert_eq!(answer, Ok(()));
        let [of_sum, of_difference] = &outputs[k];
        assert_eq!(numbers(&of_sum[..n]), numbers(&sum), "decoder {k}");
        assert_eq!(numbers(&of_difference[..n]), numbers(&difference));
        assert!(is_left(&of_sum[n..]) && is_left(&of_difference[n..]));
        let after = &rack.decoders()[k];
        assert_eq!(record_one_nan(after), record_one_nan(&alone));
        assert_eq!(after.coefficients(), alone.coefficients());
    }
}

/// Rounds with uneven queues, some of them empty and some of any bits; a decoder is reset, switched
/// or replaced between them.
fn session<T: Format>(number: usize, seed: u64) {
    let mut random = Random(seed);
    let mut rack = rack::<T>(number);
    let n = number as u32;
    for _ in 0..40 {
        let lengths: Vec<usize> = (0..number)
            .map(|_| [0, 0, 1, 2, 7, 63, 64, 65, 300][(random.word() % 9) as usize])
            .collect();
        let mut queues: Vec<Queue<T>> = queues(&mut random, &lengths);
        for (mpx, pilot) in &mut queues {
            match random.word() % 8 {
                0 => *mpx = any(&mut random, mpx.len()),
                1 => *pilot = any(&mut random, pilot.len()),
                2 => pilot.fill(T::ZERO),
                _ => (),
            }
        }
        let allowances = [n, n + 1, 2 * n - 1, 64 * n, 65 * n - 1, 1000, u32::MAX];
        let allowance = allowances[(random.word() % 7) as usize];
        beside(&mut rack, allowance, &queues);
        let k = (random.word() as usize) % number;
        let st = &mut rack.decoders_mut()[k];
        match random.word() % 8 {
            0 => st.reset(),
            1 => st.set_enabled(false),
            2 => st.set_enabled(true),
            3 => *st = one(k + 1),
            _ => (),
        }
    }
}

fn sessions<T: Format>() {
    for number in 2..=RACK_PLACES {
        session::<T>(number, number as u64);
    }
}

#[test]
fn a_round_is_each_decoders_own_block_in_f32() {
    sessions::<f32>();
}

#[test]
fn a_round_is_each_decoders_own_block_in_q15() {
    sessions::<Q15>();
}

/// The samples make a difference to be compared, and decoders in stereo and in mono stand beside
/// each other.
#[test]
fn the_decoders_of_these_tests_differ() {
    fn check<T: Format>() {
        let mut rack = rack::<T>(RACK_PLACES);
        let queues = queues(&mut Random(5), &[500; RACK_PLACES]);
        let (_, outputs) = round(&mut rack, u32::MAX, &queues);
        let heard = |[_, d]: &[Vec<T>; 2]| d.iter().any(|x| *x != T::ZERO);
        assert!(heard(&outputs[1]) && heard(&outputs[3]));
        assert!(!heard(&outputs[4]));
        for k in 1..RACK_PLACES {
            let others = &rack.decoders()[..k];
            assert!(!others.contains(&rack.decoders()[k]));
        }
    }
    check::<f32>();
    check::<Q15>();
}

/// What the decoders leave of an allowance is not given to others.
#[test]
fn the_rest_of_an_allowance_lapses() {
    fn check<T: Format>() {
        for (number, allowance, waits, want) in [
            (3, 30, [100, 0, 4], [10, 0, 4]),
            (3, 31, [100, 10, 11], [10, 10, 10]),
            (3, 32, [9, 10, 100], [9, 10, 10]),
            (3, 33, [100, 100, 0], [11, 11, 0]),
            (3, 3, [2, 2, 2], [1, 1, 1]),
            (3, 5, [2, 0, 2], [1, 0, 1]),
            (3, 6, [2, 0, 2], [2, 0, 2]),
            (3, u32::MAX, [300, 1, 0], [300, 1, 0]),
        ] {
            let mut rack = rack::<T>(number);
            let queues = queues(&mut Random(1), &waits);
            let (taken, _) = round(&mut rack, allowance, &queues);
            assert_eq!(taken, want, "{allowance} {waits:?}");
        }
    }
    check::<f32>();
    check::<Q15>();
}

/// Nothing waits for any decoder: the round is accepted, and nothing changes.
#[test]
fn no_samples_are_accepted() {
    fn check<T: Format>() {
        for number in 2..=RACK_PLACES {
            let mut rack = rack::<T>(number);
            let before = rack;
            let mut sum = [T::LEFT; 2];
            let mut difference = [T::LEFT; 2];
            // no entry or queue is as one with nothing waiting
            for entries in [0, 1, number, 20] {
                let mut queues: Vec<_> = (0..entries).map(|_| RackQueue::default()).collect();
                let answer = rack.round(number as u32, &mut queues);
                assert_eq!(answer, Ok([0; RACK_PLACES]));
                let waiting = vec![Waiting::default(); entries];
                let some = [T::LEFT; 2];
                let (s, d) = (&mut sum, &mut difference);
                let answer = rack.round_flat(number as u32, &waiting, &some, &some, s, d);
                assert_eq!(answer, Ok([0; RACK_PLACES]));
                let answer = rack.round_flat(1000, &waiting, &[], &[], &mut [], &mut []);
                assert_eq!(answer, Ok([0; RACK_PLACES]));
            }
            assert!(is_left(&sum) && is_left(&difference));
            assert_eq!(rack, before);
        }
    }
    check::<f32>();
    check::<Q15>();
}

/// A decoder leaves the same beside idle and busy ones, at any place.
#[test]
fn the_others_make_no_difference() {
    fn check<T: Format>() {
        let mut random = Random(11);
        let own: Queue<T> = queues(&mut random, &[90]).remove(0);
        let own_decoder = one::<T>(3);
        let mut alone = own_decoder;
        let [mut sum, mut difference] = [(); 2].map(|()| vec![T::LEFT; 70]);
        alone
            .process(&own.0[..70], &own.1[..70], &mut sum, &mut difference)
            .expect("equal lengths");
        for number in 2..=RACK_PLACES {
            let start = rack::<T>(number);
            for place in 0..number {
                for busy in [0, 1, 69, 200] {
                    let mut rack = start;
                    rack.decoders_mut()[place] = own_decoder;
                    let mut all = queues(&mut random, &vec![busy; number]);
                    all[place] = own.clone();
                    // the share is 70
                    let allowance = 71 * number as u32 - 1;
                    let (taken, outputs) = round(&mut rack, allowance, &all);
                    assert_eq!(taken[place], 70);
                    let [s, d] = &outputs[place];
                    assert_eq!(all_bits(&s[..70]), all_bits(&sum));
                    assert_eq!(all_bits(&d[..70]), all_bits(&difference));
                    assert_eq!(record_bits(&rack.decoders()[place]), record_bits(&alone));
                }
            }
        }
    }
    check::<f32>();
    check::<Q15>();
}

/// What waits is brought again from the first untaken sample on. Each decoder has it all worked
/// after as many rounds as its share goes into it, rounded up, and is where one block leaves it.
#[test]
fn all_that_waits_is_worked_in_time() {
    fn check<T: Format>() {
        for (allowance, waits) in [
            (3, [5, 0, 2]),
            (30, [95, 10, 11]),
            (31, [100, 30, 29]),
            (3 * 64 + 2, [64, 65, 640]),
            (u32::MAX, [1000, 1, 0]),
        ] {
            let share = allowance as usize / 3;
            let all: Vec<Queue<T>> = queues(&mut Random(23), &waits);
            let mut rack = rack::<T>(3);
            let start = rack;
            let (mut at, mut rounds) = ([0; 3], [0; 3]);
            let mut outputs = [(); 3].map(|()| [Vec::<T>::new(), Vec::new()]);
            for count in 1.. {
                let left = |k: usize| (all[k].0[at[k]..].to_vec(), all[k].1[at[k]..].to_vec());
                let (taken, given) = round(&mut rack, allowance, &[0, 1, 2].map(left));
                for k in 0..3 {
                    for (output, given) in outputs[k].iter_mut().zip(&given[k]) {
                        output.extend(&given[..taken[k]]);
                    }
                    at[k] += taken[k];
                    if taken[k] > 0 {
                        rounds[k] = count;
                    }
                }
                if taken.iter().all(|n| *n == 0) {
                    break;
                }
            }
            assert_eq!(at, waits);
            assert_eq!(rounds, waits.map(|w: usize| w.div_ceil(share)));
            for k in 0..3 {
                let mut whole = start.decoders()[k];
                let [mut sum, mut difference] = [(); 2].map(|()| vec![T::LEFT; waits[k]]);
                let (mpx, pilot) = &all[k];
                let answer = whole.process(mpx, pilot, &mut sum, &mut difference);
                assert_eq!(answer, Ok(()));
                assert_eq!(record_bits(&rack.decoders()[k]), record_bits(&whole));
                let [s, d] = &outputs[k];
                assert_eq!(all_bits(s), all_bits(&sum));
                assert_eq!(all_bits(d), all_bits(&difference));
            }
        }
    }
    check::<f32>();
    check::<Q15>();
}

/// Fewer entries than decoders: nothing waits for the others. More: they are not read.
#[test]
fn entries_and_decoders_need_not_be_as_many() {
    fn check<T: Format>() {
        let all: Vec<Queue<T>> = queues(&mut Random(31), &[20, 30, 0]);
        let (mut want, mut fewer, mut more) = (rack::<T>(3), rack::<T>(3), rack::<T>(3));
        round(&mut want, 60, &all);
        round(&mut fewer, 60, &all[..2]);
        assert_eq!(fewer, want);
        let mut waiting = vec![Waiting::samples(usize::MAX); 12];
        waiting[0] = Waiting::samples(20);
        waiting[1] = Waiting::samples(30);
        waiting[2] = Waiting::samples(0);
        // the entries past the number would be refused
        waiting[3].pilot = 1;
        let mpx = [&all[0].0[..], &all[1].0].concat();
        let pilot = [&all[0].1[..], &all[1].1].concat();
        let [mut sum, mut difference] = [(); 2].map(|()| vec![T::LEFT; 50]);
        let answer = more.round_flat(60, &waiting, &mpx, &pilot, &mut sum, &mut difference);
        assert_eq!(answer, Ok([20, 20, 0, 0, 0, 0, 0, 0]));
        assert_eq!(more, want);
    }
    check::<f32>();
    check::<Q15>();
}

/// Queues past the number of decoders are not touched, whatever their lengths; one in between may
/// have nothing waiting.
#[test]
fn queues_and_decoders_need_not_be_as_many() {
    fn check<T: Format>() {
        for number in 2..=RACK_PLACES {
            let mut waits = vec![20; number];
            waits[number / 2] = 0;
            let all: Vec<Queue<T>> = queues(&mut Random(37), &waits);
            let (mut want, mut got) = (rack::<T>(number), rack::<T>(number));
            let (taken, outputs) = round_by_queues(&mut want, 15 * number as u32, &all);

            let mut own: Vec<_> = all.iter().map(Own::of).collect();
            let (mpx, pilot) = &all[0];
            for lengths in [[20, 20], [3, 30], [0, 0], [20, 19]] {
                own.push(Own::new(mpx, pilot, lengths[0], lengths[1]));
                own.push(Own::new(&mpx[1..], pilot, lengths[0], lengths[1]));
                own.push(Own::new(&[], &pilot[1..], lengths[1], lengths[0]));
            }
            let mut queues: Vec<_> = own.iter_mut().map(Own::queue).collect();
            let answer = got.round(15 * number as u32, &mut queues);
            assert_eq!(answer.map(|t| t[..number].to_vec()), Ok(taken));
            assert_eq!(got, want);
            for (own, outputs) in own.iter().zip(&outputs) {
                assert_eq!(own.outputs(), *outputs);
            }
            assert!(own[number..].iter().all(Own::is_left));
        }
    }
    check::<f32>();
    check::<Q15>();
}

/// Several decoders may be brought the same samples.
#[test]
fn queues_may_have_the_same_inputs() {
    fn check<T: Format>() {
        let one: Queue<T> = queues(&mut Random(41), &[50]).remove(0);
        let (mut want, mut got) = (rack::<T>(3), rack::<T>(3));
        let (_, outputs) = round(&mut want, 99, &[one.clone(), one.clone(), one.clone()]);
        let mut buffers = [(); 6].map(|()| vec![T::LEFT; 50]);
        let mut queues: Vec<_> = buffers
            .chunks_exact_mut(2)
            .map(|pair| {
                let [sum, difference] = pair else {
                    unreachable!("two buffers each")
                };
                RackQueue {
                    mpx: &one.0,
                    pilot: &one.1,
                    sum,
                    difference,
                }
            })
            .collect();
        let answer = got.round(99, &mut queues);
        assert_eq!(answer, Ok([33, 33, 33, 0, 0, 0, 0, 0]));
        assert_eq!(got, want);
        for (buffer, output) in buffers.iter().zip(outputs.iter().flatten()) {
            assert_eq!(buffer, output);
        }
    }
    check::<f32>();
    check::<Q15>();
}

/// Lengths of mpx, pilot, sum and difference.
type Lengths = [usize; 4];

fn part([mpx, pilot, sum, difference]: Lengths) -> Waiting {
    Waiting {
        mpx,
        pilot,
        sum,
        difference,
    }
}

/// The lengths that hold all parts.
fn total(parts: &[Lengths]) -> Lengths {
    [0, 1, 2, 3].map(|i| parts.iter().map(|p| p[i]).sum())
}

/// The parts as the ends of the flat slices cut them off.
fn cut(parts: &[Lengths], slices: Lengths) -> Vec<Lengths> {
    let mut left = slices;
    let mut next = |part: &Lengths| {
        std::array::from_fn(|i| {
            let n = part[i].min(left[i]);
            left[i] -= n;
            n
        })
    };
    parts.iter().map(&mut next).collect()
}

fn same_records<T: Format>(after: &Rack<T>, before: &Rack<T>) {
    assert_eq!(after.number(), before.number());
    for (after, before) in after.decoders().iter().zip(before.decoders()) {
        assert_eq!(record_bits(after), record_bits(before));
    }
}

/// A round that is turned back leaves every decoder and every output, word by word. Over queues of
/// the same lengths it is turned back too.
fn refused<T: Format>(
    rack: &Rack<T>,
    table: usize,
    allowance: u32,
    parts: &[Lengths],
    slices: Lengths,
    want: Refusal,
) {
    let lent = tables::cos::<T>().iter().cycle().take(table);
    let lent: Vec<T> = lent.copied().collect();
    let waiting: Vec<_> = parts.iter().map(|p| part(*p)).collect();
    let [mpx, pilot] = [slices[0], slices[1]].map(|n| vec![T::from_f64_round(0.1); n]);
    for own_table in [false, true] {
        if own_table && table != tables::LENGTH {
            continue;
        }
        let mut after = *rack;
        let [mut sum, mut difference] = [slices[2], slices[3]].map(|n| vec![T::LEFT; n]);
        let (s, d) = (&mut sum, &mut difference);
        let answer = match own_table {
            true => after.round_flat(allowance, &waiting, &mpx, &pilot, s, d),
            false => after.round_flat_with(&lent, allowance, &waiting, &mpx, &pilot, s, d),
        };
        assert_eq!(answer, Err(want), "{allowance} {parts:?} {slices:?}");
        same_records(&after, rack);
        assert!(is_left(&sum) && is_left(&difference));

        let own = cut(parts, slices).into_iter();
        let mut own: Vec<_> = own
            .map(|[m, p, s, d]| Own::new(&mpx[..m], &pilot[..p], s, d))
            .collect();
        let mut queues: Vec<_> = own.iter_mut().map(Own::queue).collect();
        let answer = match own_table {
            true => after.round(allowance, &mut queues),
            false => after.round_with(&lent, allowance, &mut queues),
        };
        assert_eq!(answer, Err(want), "{allowance} {parts:?} {slices:?}");
        same_records(&after, rack);
        assert!(own.iter().all(Own::is_left));
    }
}

#[test]
fn construction_21() {
    fn check<T: Format>() {
        for number in [0, 1, 9, 10, 100] {
            let decoders = vec![decoder::<T>(); number];
            assert_eq!(Rack::new(&decoders), Err(cause(21)), "{number}");
        }
        for number in 2..=RACK_PLACES {
            let decoders: Vec<_> = (0..number).map(one::<T>).collect();
            let rack = Rack::new(&decoders).expect("two to eight");
            assert_eq!((rack.number(), rack.decoders()), (number, &decoders[..]));
        }
    }
    check::<f32>();
    check::<Q15>();
    for number in [21, 22] {
        let error = Error::from(cause(number));
        assert_eq!(error, Error::InvalidParameter(cause(number).message()));
    }
    assert!(cause(21).to_string().starts_with("cause 21: the number"));
    assert!(cause(22).to_string().starts_with("cause 22: the allowance"));
}

/// Before each decoder's own causes.
#[test]
fn allowance_22() {
    fn check<T: Format>() {
        for number in 2..=RACK_PLACES {
            let rack = rack::<T>(number);
            let (good, bad) = (vec![[4; 4]; number], vec![[4, 3, 2, 1]; number]);
            let whole = total(&good);
            for allowance in 0..number as u32 {
                refused(&rack, 4097, allowance, &good, whole, cause(22));
                refused(&rack, 4096, allowance, &good, whole, cause(22));
                refused(&rack, 4097, allowance, &bad, whole, cause(22));
                refused(&rack, 4097, allowance, &[], [0; 4], cause(22));
            }
            let mut rack = rack;
            beside(
                &mut rack,
                number as u32,
                &queues(&mut Random(2), &vec![4; number]),
            );
        }
    }
    check::<f32>();
    check::<Q15>();
}

/// Each length of each decoder, and the one that comes first where there are more.
#[test]
fn lengths_9_10_11() {
    fn check<T: Format>() {
        for number in [2, 3, 8] {
            let rack = rack::<T>(number);
            let good = vec![[6, 6, 6, 6]; number];
            for table in [0, 4096, 4098] {
                let want = lengths(9, 4097, table);
                refused(&rack, table, 1000, &good, total(&good), want);
                refused(&rack, table, 1000, &[], [0; 4], want);
            }
            for k in 0..number {
                for (at_fault, want) in [
                    ([6, 5, 6, 6], lengths(10, 6, 5)),
                    ([6, 7, 5, 4], lengths(10, 6, 7)),
                    ([6, 6, 5, 4], lengths(11, 6, 5)),
                    ([6, 6, 6, 7], lengths(11, 6, 7)),
                    // also where nothing waits
                    ([0, 1, 0, 0], lengths(10, 0, 1)),
                    ([0, 0, 1, 2], lengths(11, 0, 1)),
                    ([0, 0, 0, 2], lengths(11, 0, 2)),
                ] {
                    let mut parts = good.clone();
                    parts[k] = at_fault;
                    // a share of 1: the lengths are those of what waits
                    for allowance in [number as u32, 1000] {
                        refused(&rack, 4097, allowance, &parts, total(&parts), want);
                    }
                    // the table's is the first decoder's, and comes before its own lengths
                    let table = lengths(9, 4097, 4096);
                    refused(&rack, 4096, 1000, &parts, total(&parts), table);
                }
            }
        }
    }
    check::<f32>();
    check::<Q15>();
}

/// The earlier decoder's cause comes first, also where its number is higher.
#[test]
fn decoder_before_cause() {
    fn check<T: Format>() {
        let rack = rack::<T>(3);
        for (parts, want) in [
            (
                [[6, 6, 6, 5], [6, 5, 6, 6], [6, 6, 6, 6]],
                lengths(11, 6, 5),
            ),
            (
                [[6, 6, 6, 6], [4, 4, 3, 4], [2, 1, 2, 2]],
                lengths(11, 4, 3),
            ),
            (
                [[6, 6, 6, 6], [0, 0, 0, 1], [2, 1, 2, 2]],
                lengths(11, 0, 1),
            ),
            (
                [[6, 6, 6, 6], [4, 5, 3, 4], [2, 2, 2, 1]],
                lengths(10, 4, 5),
            ),
        ] {
            refused(&rack, 4097, 60, &parts, total(&parts), want);
        }
    }
    check::<f32>();
    check::<Q15>();
}

/// An unfit Q15 record: before its decoder's other causes, and after those of the decoders before.
#[test]
fn record_0_in_q15() {
    let good = vec![[6; 4]; 3];
    for k in 0..3 {
        let mut rack = rack::<Q15>(3);
        let st = &mut rack.decoders_mut()[k];
        let record = DecoderRecord {
            kp: -1,
            ..st.record()
        };
        *st = StereoPllState::from_record(record);
        refused(&rack, 4097, 60, &good, total(&good), cause(0));
        refused(&rack, 4097, 2, &good, total(&good), cause(22));
        // also where nothing waits
        refused(&rack, 4097, 60, &[], [0; 4], cause(0));
        let mut parts = good.clone();
        parts[k] = [6, 5, 4, 3];
        refused(&rack, 4097, 60, &parts, total(&parts), cause(0));
        if k > 0 {
            refused(&rack, 4096, 60, &good, total(&good), lengths(9, 4097, 4096));
            let mut parts = good.clone();
            parts[k - 1] = [6, 6, 6, 5];
            refused(&rack, 4097, 60, &parts, total(&parts), lengths(11, 6, 5));
        } else {
            refused(&rack, 4096, 60, &good, total(&good), cause(0));
            let mut parts = good.clone();
            parts[1] = [6, 6, 6, 5];
            refused(&rack, 4097, 60, &parts, total(&parts), cause(0));
        }
    }
}

/// A slice that is too short cuts the part at its end, and all behind it.
#[test]
fn parts_are_cut_off_at_a_slices_end() {
    fn check<T: Format>() {
        let rack = rack::<T>(3);
        let parts = [[6; 4], [5; 4], [4; 4]];
        for (slices, want) in [
            ([14, 15, 15, 15], lengths(10, 3, 4)),
            ([15, 14, 15, 15], lengths(10, 4, 3)),
            ([15, 15, 14, 15], lengths(11, 4, 3)),
            ([15, 15, 15, 14], lengths(11, 4, 3)),
            ([15, 15, 15, 11], lengths(11, 4, 0)),
            ([15, 15, 10, 15], lengths(11, 5, 4)),
            ([15, 7, 10, 15], lengths(10, 5, 1)),
            ([0, 15, 15, 15], lengths(10, 0, 6)),
            ([15, 0, 0, 0], lengths(10, 6, 0)),
            ([7, 7, 7, 15], lengths(11, 1, 5)),
            // the pilot ends in the first part, the output only in the second
            ([15, 5, 8, 15], lengths(10, 6, 5)),
        ] {
            refused(&rack, 4097, 60, &parts, slices, want);
            refused(&rack, 4097, 3, &parts, slices, want);
        }
    }
    check::<f32>();
    check::<Q15>();
}

/// Where all four slices end at the same place of a part, what is there waits.
#[test]
fn slices_that_end_alike_are_accepted() {
    fn check<T: Format>() {
        let waiting = [6, 5, 4].map(Waiting::samples);
        let endless = [Waiting::samples(usize::MAX); 3];
        for n in 0..=17_usize {
            let cut = [
                n.min(6),
                n.saturating_sub(6).min(5),
                n.saturating_sub(11).min(4),
            ];
            for (waiting, waits) in [(&waiting, cut), (&endless, [n, 0, 0])] {
                let queues: Vec<Queue<T>> = queues(&mut Random(n as u64), &waits);
                let (mut got, mut want) = (rack::<T>(3), rack::<T>(3));
                let (want_taken, outputs) = round(&mut want, 12, &queues);

                let flat = |queues: Vec<Vec<T>>| {
                    let mut flat = queues.concat();
                    flat.resize(n, T::LEFT);
                    flat
                };
                let mpx = flat(queues.iter().map(|q| q.0.clone()).collect());
                let pilot = flat(queues.iter().map(|q| q.1.clone()).collect());
                let [mut sum, mut difference] = [(); 2].map(|()| vec![T::LEFT; n]);
                let (s, d) = (&mut sum, &mut difference);
                let taken = got.round_flat(12, waiting, &mpx, &pilot, s, d);
                assert_eq!(taken.map(|t| t[..3].to_vec()), Ok(want_taken));
                assert_eq!(got, want);
                let [sums, differences] =
                    [0, 1].map(|i| flat(outputs.iter().map(|o| o[i].clone()).collect()));
                assert_eq!(all_bits(&sum), all_bits(&sums));
                assert_eq!(all_bits(&difference), all_bits(&differences));
            }
        }
    }
    check::<f32>();
    check::<Q15>();
}

/// A switch that is on may be any word. A refused round leaves the word as it is; an accepted one
/// gives 0 or 1, also where nothing waits, as a block does.
#[test]
fn any_word_is_a_switch() {
    fn check<T: Format>() {
        // both are in stereo with a slow level, so that they stay there
        let mut rack = Rack::new(&[one::<T>(3), one(5)]).expect("two");
        for st in rack.decoders_mut() {
            let record = DecoderRecord {
                stereo: 2,
                enabled: 256,
                ..st.record()
            };
            *st = StereoPllState::from_record(record);
        }
        let parts = [[4; 4], [4, 4, 4, 3]];
        refused(&rack, 4097, 8, &parts, total(&parts), lengths(11, 4, 3));
        beside(&mut rack, 8, &queues(&mut Random(3), &[4, 0]));
        for st in rack.decoders() {
            assert_eq!((st.record().stereo, st.record().enabled), (1, 1));
        }
    }
    check::<f32>();
    check::<Q15>();
}

/// Racks are compared and shown by the decoders that they have.
#[test]
fn places_past_the_number_are_not_seen() {
    let mut one_way = Rack::new(&[one::<f32>(0), one(1)]).expect("two");
    let other = Rack::new(&[one::<f32>(1), one(1)]).expect("two");
    assert_ne!(one_way, other);
    one_way.decoders_mut()[0] = one(1);
    assert_eq!(one_way, other);
    assert_eq!(format!("{one_way:?}"), format!("{other:?}"));
    let three = Rack::new(&[one::<f32>(1), one(1), one(1)]).expect("three");
    assert_ne!(three, other);
    assert_eq!(format!("{three:?}").matches("kp").count(), 2 * 3);
}

// ---- What the crate's own rack cannot have, by the C names: other numbers, and the places past it

/// What a round of the core replies.
type Reply<T> = sys::Round<<T as RealSample>::Value, <<T as RealSample>::Raw as Sample>::Wide>;

/// A rack of eight decoders that differ, and this number.
fn core_rack<T: Format>(number: usize) -> sys::Rack<T::Value> {
    let decoders = rack::<T>(RACK_PLACES);
    let decoders = decoders.decoders().iter().map(StereoPllState::record);
    let decoders: Vec<_> = decoders.collect();
    sys::Rack {
        decoders: decoders.try_into().expect("eight"),
        number,
    }
}

fn states<T: Format>(rack: &sys::Rack<T::Value>) -> [[u64; 12]; RACK_PLACES] {
    rack.decoders
        .map(|record| record_bits(&StereoPllState::<T>::from_record(record)))
}

/// A round of the core over slices, so many in each list: the answer, and what lies in the outputs,
/// one behind the other.
fn core_slices<T: Format>(
    rack: sys::Rack<T::Value>,
    allowance: u32,
    own: &mut [Own<T>],
    lists: Lengths,
    table: &[T],
) -> (Reply<T>, [Vec<T>; 2]) {
    let (mut mpx, mut pilot, mut sum, mut difference) = (vec![], vec![], vec![], vec![]);
    for queue in own.iter_mut().map(Own::queue) {
        mpx.push(T::raw(queue.mpx));
        pilot.push(T::raw(queue.pilot));
        sum.push(T::raw_mut(queue.sum));
        difference.push(T::raw_mut(queue.difference));
    }
    let reply = sys::rack_round_slices::<T::Raw>(
        rack,
        allowance,
        T::raw(table),
        &mpx[..lists[0]],
        &pilot[..lists[1]],
        &mut sum[..lists[2]],
        &mut difference[..lists[3]],
    );
    let outputs = own.iter().map(Own::outputs);
    let (sums, differences): (Vec<_>, Vec<_>) = outputs.map(|[s, d]| (s, d)).unzip();
    (reply, [sums.concat(), differences.concat()])
}

/// A round of the core with so many samples for each of the eight places. Over slices it answers
/// and leaves the same.
fn core_round<T: Format>(
    rack: sys::Rack<T::Value>,
    allowance: u32,
    parts: [Waiting; RACK_PLACES],
    n: usize,
    table: &[T],
) -> (Reply<T>, [Vec<T>; 2]) {
    let (mpx, pilot): Queue<T> = queues(&mut Random(77), &[n]).remove(0);
    let [mut sum, mut difference] = [(); 2].map(|()| vec![T::LEFT; n]);
    let waiting = sys::RackWaiting { decoders: parts };
    let reply = sys::rack_round::<T::Raw>(
        rack,
        allowance,
        waiting,
        T::raw(table),
        T::raw(&mpx),
        T::raw(&pilot),
        T::raw_mut(&mut sum),
        T::raw_mut(&mut difference),
    );

    let [mut m, mut p] = [&mpx[..], &pilot[..]];
    let mut own = Vec::new();
    for [m_n, p_n, s_n, d_n] in cut(
        &parts.map(|w| [w.mpx, w.pilot, w.sum, w.difference]),
        [n; 4],
    ) {
        let (own_mpx, own_pilot);
        (own_mpx, m) = m.split_at(m_n);
        (own_pilot, p) = p.split_at(p_n);
        own.push(Own::new(own_mpx, own_pilot, s_n, d_n));
    }
    let (other, outputs) = core_slices(rack, allowance, &mut own, [RACK_PLACES; 4], table);
    assert_eq!(other.answer, reply.answer);
    assert_eq!(other.taken, reply.taken);
    assert_eq!(other.wide, reply.wide);
    assert_eq!(other.rack.number, reply.rack.number);
    assert_eq!(states::<T>(&other.rack), states::<T>(&reply.rack));
    for (here, there) in outputs.iter().zip([&sum, &difference]) {
        assert_eq!(all_bits(here), all_bits(&there[..here.len()]));
        assert!(is_left(&there[here.len()..]));
    }
    (reply, [sum, difference])
}

/// 21 comes before 22 and before the decoders' causes; no record and no output is touched.
#[test]
fn number_21_by_the_c_names() {
    fn check<T: Format>() {
        let good = [Waiting::samples(4); RACK_PLACES];
        let bad = [part([4, 3, 2, 1]); RACK_PLACES];
        let cos = tables::cos::<T>();
        for number in [0, 1, 9, 10, 256 + 2, 1 << 32, (1 << 32) + 2, usize::MAX] {
            let rack = core_rack::<T>(number);
            for (allowance, parts, table) in [
                (1000, good, cos),
                (u32::MAX, good, cos),
                (0, good, cos),
                (1000, bad, cos),
                (1000, good, &cos[1..]),
            ] {
                let (reply, outputs) = core_round::<T>(rack, allowance, parts, 32, table);
                assert_eq!(reply.answer.numbers(), [121, 0, 0], "{number}");
                assert_eq!(reply.taken, [0; RACK_PLACES]);
                assert_eq!(reply.rack.number, number);
                assert_eq!(states::<T>(&reply.rack), states::<T>(&rack));
                assert!(outputs.iter().all(|x| is_left(x)));
            }
        }
    }
    check::<f32>();
    check::<Q15>();
}

/// Refused rounds take nothing.
#[test]
fn a_refused_round_takes_nothing_by_the_c_names() {
    fn check<T: Format>() {
        let rack = core_rack::<T>(3);
        let good = [Waiting::samples(4); RACK_PLACES];
        let cos = tables::cos::<T>();
        for k in 0..3 {
            for (at_fault, code) in [
                ([4, 3, 4, 4], [110, 4, 3]),
                ([4, 4, 3, 4], [111, 4, 3]),
                ([4, 4, 4, 3], [111, 4, 3]),
            ] {
                let mut parts = good;
                parts[k] = part(at_fault);
                let (reply, outputs) = core_round::<T>(rack, 9, parts, 12, cos);
                assert_eq!(reply.answer.numbers(), code);
                assert_eq!(reply.taken, [0; RACK_PLACES]);
                assert_eq!(states::<T>(&reply.rack), states::<T>(&rack));
                assert!(outputs.iter().all(|x| is_left(x)));
            }
        }
        for (allowance, table, code) in [
            (2, cos, [122, 0, 0]),
            (9, &cos[1..], [109, 4097, 4096]),
            (2, &cos[1..], [122, 0, 0]),
        ] {
            let (reply, outputs) = core_round::<T>(rack, allowance, good, 12, table);
            assert_eq!(reply.answer.numbers(), code);
            assert_eq!(reply.taken, [0; RACK_PLACES]);
            assert_eq!(states::<T>(&reply.rack), states::<T>(&rack));
            assert!(outputs.iter().all(|x| is_left(x)));
        }
    }
    check::<f32>();
    check::<Q15>();
}

/// The records past the number stay, what waits there is not read, and they take nothing. Only a
/// switch becomes 0 or 1.
#[test]
fn records_past_the_number_stay_by_the_c_names() {
    fn check<T: Format>() {
        for number in 2..RACK_PLACES {
            let mut rack = core_rack::<T>(number);
            let before = states::<T>(&rack);
            rack.decoders[7].enabled = 1 << 31;
            let mut parts = [part([7, 0, usize::MAX, 1]); RACK_PLACES];
            parts[..number].fill(Waiting::samples(4));
            let n = 4 * number + 5;
            let allowance = 3 * number as u32 + 1;
            let (reply, outputs) = core_round::<T>(rack, allowance, parts, n, tables::cos::<T>());
            assert_eq!(reply.answer.numbers(), [0; 3]);
            assert_eq!(reply.rack.number, number);
            let after = states::<T>(&reply.rack);
            for k in 0..RACK_PLACES {
                let used = k < number;
                assert_eq!(reply.taken[k], if used { 3 } else { 0 });
                if !used {
                    let mut want = before[k];
                    if k == 7 {
                        want[11] = 1;
                    }
                    assert_eq!(after[k], want);
                } else {
                    assert_ne!(after[k], before[k]);
                }
            }
            assert!(outputs.iter().all(|x| is_left(&x[4 * number..])));
        }
    }
    check::<f32>();
    check::<Q15>();
}

/// A slice that is not in its list counts as empty, each list by itself.
#[test]
fn lists_may_end_early_by_the_c_names() {
    fn check<T: Format>() {
        let rack = core_rack::<T>(3);
        // how many samples the third decoder has, and how many slices each list
        for (third, lists, code) in [
            (4, [3, 3, 3, 3], [0, 0, 0]),
            (4, [3, 2, 3, 3], [110, 4, 0]),
            (4, [3, 3, 2, 3], [111, 4, 0]),
            (4, [3, 3, 3, 2], [111, 4, 0]),
            (4, [2, 3, 3, 3], [110, 0, 4]),
            (4, [2, 2, 3, 2], [111, 0, 4]),
            (4, [2, 2, 2, 2], [0, 0, 0]),
            (4, [1, 1, 1, 0], [111, 4, 0]),
            (4, [0, 0, 0, 1], [111, 0, 4]),
            (4, [0, 0, 0, 0], [0, 0, 0]),
            (0, [3, 2, 3, 3], [0, 0, 0]),
            (0, [2, 3, 2, 2], [0, 0, 0]),
            (0, [2, 2, 3, 2], [0, 0, 0]),
            (0, [2, 2, 2, 3], [0, 0, 0]),
        ] {
            let waits = [4, 4, third];
            let each: Vec<Queue<T>> = queues(&mut Random(78), &waits);
            let mut own: Vec<_> = each.iter().map(Own::of).collect();
            let (reply, _) = core_slices(rack, 9, &mut own, lists, tables::cos::<T>());
            assert_eq!(reply.answer.numbers(), code, "{third} {lists:?}");
            for k in 0..RACK_PLACES {
                let there = code[0] == 0 && k < lists[0] && waits[k] > 0;
                assert_eq!(reply.taken[k], if there { 3 } else { 0 });
                let same = states::<T>(&reply.rack)[k] == states::<T>(&rack)[k];
                assert_eq!(same, !there);
                assert!(there || k > 2 || own[k].is_left());
            }
        }
    }
    check::<f32>();
    check::<Q15>();
}
