//! The summary beside the pairs. The original has none, so a model answers: the original's plain
//! decoder runs sample by sample, and the figures are worked out from that history afterwards.

pub mod inputs;
mod model;

use std::fmt::Debug;

use decoder_oracle::answers::{self, Block, Call, Format, Outcome, field_words};
use pescrondilu_sys::summary::{Summary, Summed};
use sdrk_core::kernels::stereo::StereoPllState;
use sdrk_core::probe::Fields;
use sdrk_core::types::Q15;
use stereo_oracle::answers::{ACCEPTED, Said, Side, TABLE};
use stereo_oracle::inputs::{Inputs, one};

use crate::decoder::counts_of;
use crate::part::Part;
use crate::record::{Columns, Ours, Record, Way};
use crate::room::{GUARD, Room};
use crate::wide;
use inputs::{Asked, Tables, Varied, word_at};
use model::{Figures, Model, Sample};

trait Compared: Ours + Varied {}

impl Compared for f32 {}
impl Compared for Q15 {}

/// The six outputs of a call.
struct Rooms<S> {
    sum: Room<S>,
    difference: Room<S>,
    stereo: Room<u32>,
    mono: Room<u32>,
    changes: Room<u32>,
    magnitude: Room<S>,
}

fn rooms<F: Compared>(a: &Asked<F::Sample>) -> Rooms<F::Sample> {
    let [stereo, mono, changes, magnitude] = a.columns;
    // each room has a pattern of its own
    let counts = |n, room| Room::new(n, None, |i| word_at(a.word, room, i));
    let samples = |n, given, room| Room::new(n, given, |i| F::pattern(word_at(a.word, room, i)));
    let [sum, difference] = &a.block.outputs;
    Rooms {
        sum: samples(sum.len(), Some(sum), 3),
        difference: samples(difference.len(), Some(difference), 4),
        stereo: counts(stereo, 5),
        mono: counts(mono, 6),
        changes: counts(changes, 7),
        magnitude: samples(magnitude, None, 8),
    }
}

/// What a call, or a list of them, answers and leaves, in words: any NaN has one word.
#[derive(Default, PartialEq)]
struct Left {
    said: Said,
    /// the count, and over a list the sum of the counts of its summary calls
    wide: usize,
    /// sum, difference, stereo, mono, changes, magnitude; of one call with the places around them
    outputs: [Vec<u64>; 6],
    decoder: [u64; 12],
    /// period, stereo, mono, changes, magnitude, before
    summary: [u64; 6],
}

fn summary_words<F: Compared>(s: &Summary<F::Sample>) -> [u64; 6] {
    [
        s.period as u64,
        s.stereo as u64,
        s.mono as u64,
        s.changes as u64,
        F::word_sample(s.magnitude),
        s.before as u64,
    ]
}

fn left<F: Compared>(
    (said, wide): (Said, usize),
    rooms: Rooms<F::Sample>,
    decoder: [u64; 12],
    summary: &Summary<F::Sample>,
) -> Left {
    let samples = |room: Room<F::Sample>| room.0.into_iter().map(F::word_sample).collect();
    let counts = |room: Room<u32>| room.0.into_iter().map(u64::from).collect();
    Left {
        said,
        wide,
        outputs: [
            samples(rooms.sum),
            samples(rooms.difference),
            counts(rooms.stereo),
            counts(rooms.mono),
            counts(rooms.changes),
            samples(rooms.magnitude),
        ],
        decoder,
        summary: summary_words::<F>(summary),
    }
}

/// The first place at which the two differ. The places of an output count from `guard`.
fn difference(expected: &Left, got: &Left, guard: usize) -> String {
    if expected.said != got.said {
        return format!("said {:?}, ours {:?}", expected.said, got.said);
    }
    if expected.wide != got.wide {
        return format!("counted {}, ours {}", expected.wide, got.wide);
    }
    let names = [
        "sum",
        "difference",
        "stereo",
        "mono",
        "changes",
        "magnitude",
    ];
    let outputs = expected.outputs.iter().zip(&got.outputs).zip(names);
    let outputs = outputs.map(|((e, g), name)| (name, guard, &e[..], &g[..]));
    let records = [
        ("decoder", 0, &expected.decoder[..], &got.decoder[..]),
        ("summary", 0, &expected.summary[..], &got.summary[..]),
    ];
    for (name, from, e, g) in outputs.chain(records) {
        if e.len() != g.len() {
            return format!("{name}: lengths {} and {}", e.len(), g.len());
        }
        if let Some(i) = (0..e.len()).find(|i| e[*i] != g[*i]) {
            let place = i as i64 - from as i64;
            return format!("{name} {place}: {:x}, ours {:x}", e[i], g[i]);
        }
    }
    "nowhere".into()
}

/// The raw history of an accepted block, in blocks of one sample, and the state after it.
fn history<F: Compared>(
    mut state: StereoPllState<F>,
    b: &Block<F::Sample>,
) -> (Vec<Sample<F::Sample>>, StereoPllState<F>) {
    let side = answers::side::<F>(&F::fields(&state));
    let mut samples = Vec::new();
    for (x, p) in b.mpx.iter().zip(&b.pilot) {
        let (answer, pairs) = F::run(side, &mut state, &b.table, &[*x], &[*p], 1);
        assert_eq!(answer, Ok(()));
        samples.push(Sample {
            stereo: F::fields(&state).stereo,
            difference: pairs[0].1,
        });
    }
    (samples, state)
}

/// Samples of a failing call, in words.
pub fn bits<F: Format>(samples: &[F::Sample]) -> String {
    let words: Vec<u64> = samples.iter().take(8).map(|x| F::word_sample(*x)).collect();
    format!("{} of {words:x?}", samples.len())
}

/// Our decoder and summary, and the model's, over one list of calls.
struct Session<'a, F: Compared> {
    part: &'a mut Part,
    number: u64,
    calls: u64,
    ours: Record<F>,
    summary: Summary<F::Sample>,
    theirs: StereoPllState<F>,
    model: Model<F::Sample>,
}

impl<'a, F: Compared> Session<'a, F> {
    /// `on` stands in our record for a switch that is on.
    fn new(part: &'a mut Part, number: u64, fields: Fields<F::Value>, on: u32) -> Self {
        let summary = F::Sample::SUMMARY_NEW(1);
        Session {
            part,
            number,
            calls: 0,
            ours: Record::from(fields, on),
            summary,
            theirs: F::state(fields),
            model: Model::new(summary),
        }
    }

    fn fields(&self) -> Fields<F::Value> {
        F::fields(&self.theirs)
    }

    /// A fresh summary, whose fields are compared too.
    fn fresh(&mut self, period: u32) {
        let expected = Summary {
            period,
            stereo: 0,
            mono: 0,
            changes: 0,
            magnitude: F::nought(),
            before: 0,
        };
        let got = F::Sample::SUMMARY_NEW(period);
        let words = summary_words::<F>;
        self.part.same(words(&expected), words(&got), || {
            format!("a fresh one, period {period}")
        });
        self.hold(got);
    }

    /// A summary filled in by hand.
    fn hold(&mut self, s: Summary<F::Sample>) {
        self.summary = s;
        self.model = Model::new(s);
    }

    /// What the block alone answers and leaves, and the state after it.
    fn block(&mut self, call: &Call<F::Sample>) -> (Outcome, StereoPllState<F>) {
        let (fields, mut next) = (self.fields(), self.theirs);
        let outcome = match call.block() {
            Some(b) if !F::is_fit(&fields) => answers::unfit::<F>(fields, b),
            _ => {
                let side = answers::side::<F>(&fields);
                self.part.alone += (call.block().is_some() && side == Side::Fallback) as u64;
                answers::call(side, &mut next, call)
            }
        };
        (outcome, next)
    }

    /// What the model answers and leaves.
    fn expected(&mut self, a: &Asked<F::Sample>) -> Left {
        let b = &a.block;
        let (block, next) = self.block(&Call::Block(b.clone()));
        let record = self.model.record();
        let said = model::said(&record, block.said, b.mpx.len(), a.columns);
        let mut rooms = rooms::<F>(a);
        if said != ACCEPTED {
            let decoder = field_words::<F>(&self.fields());
            return left::<F>((said, 0), rooms, decoder, &record);
        }
        let counts = F::counts(&self.theirs, &b.table, &b.mpx, &b.pilot);
        self.part.counts(&counts);
        let (samples, state) = history::<F>(self.theirs, b);
        let decoder = field_words::<F>(&F::fields(&state));
        // the original's block is its samples one by one
        assert_eq!(decoder, field_words::<F>(&F::fields(&next)));
        let differences = samples.iter().map(|s| F::word_sample(s.difference));
        assert!(differences.eq(block.outputs[1].iter().copied()));
        self.theirs = state;
        let figures = self.model.take(&samples);
        count(self.part, &samples, &figures);
        self.part.several += (figures.len() > 1) as u64;
        rooms.sum.get_mut().copy_from_slice(&b.mpx);
        fill(&mut rooms.difference, samples.iter().map(|s| s.difference));
        fill(&mut rooms.stereo, figures.iter().map(|f| f.stereo));
        fill(&mut rooms.mono, figures.iter().map(|f| f.mono));
        fill(&mut rooms.changes, figures.iter().map(|f| f.changes));
        fill(&mut rooms.magnitude, figures.iter().map(|f| f.magnitude));
        left::<F>((said, counts.wide), rooms, decoder, &self.model.record())
    }

    fn got(&mut self, a: &Asked<F::Sample>) -> Left {
        let mut rooms = rooms::<F>(a);
        let columns = Columns {
            stereo: rooms.stereo.get_mut(),
            mono: rooms.mono.get_mut(),
            changes: rooms.changes.get_mut(),
            magnitude: rooms.magnitude.get_mut(),
        };
        let outputs = [rooms.sum.get_mut(), rooms.difference.get_mut()];
        let said = self
            .ours
            .summary(&mut self.summary, &a.block, outputs, columns);
        left::<F>(said, rooms, self.ours.words(), &self.summary)
    }

    /// A summary call; whether both sides agree.
    fn ask(&mut self, a: &Asked<F::Sample>) -> bool {
        let (fields, summary) = (self.fields(), self.summary);
        let expected = self.expected(a);
        let got = self.got(a);
        self.calls += 1;
        self.part.cases += 1;
        self.part.samples += a.block.mpx.len() as u64;
        self.part.said(got.said);
        self.part.stereo += F::fields(&self.theirs).stereo as u64;
        self.part.by_column += (got.said[0] == 111 && is_of_column(a)) as u64;
        if got == expected {
            return true;
        }
        let b = &a.block;
        let text = format!(
            "session {}, call {}: {}\n  {fields:?}\n  {summary:?}\n  table {}\n  mpx {}\n  \
             pilot {}\n  outputs {:?}, columns {:?}",
            self.number,
            self.calls,
            difference(&expected, &got, GUARD),
            bits::<F>(&b.table),
            bits::<F>(&b.mpx),
            bits::<F>(&b.pilot),
            b.outputs.each_ref().map(Vec::len),
            a.columns,
        );
        self.part.differ_in(b.mpx.len(), text);
        false
    }

    /// A call that moves the decoder and not the summary; whether both sides agree.
    fn between(&mut self, way: Way, call: &Call<F::Sample>) -> bool {
        let (expected, next) = self.block(call);
        let counts = match way {
            Way::Plain => Default::default(),
            Way::Fast => counts_of::<F>(&self.theirs, call, expected.said),
        };
        self.theirs = next;
        let got = self.ours.call(way, call);
        self.calls += 1;
        self.part.merged += matches!(call, Call::Merged(_)) as u64;
        if got == (expected, counts.wide) {
            return true;
        }
        let n = call.block().map_or(0, |b| b.mpx.len());
        let text = format!(
            "session {}, call {}: the decoder itself",
            self.number, self.calls
        );
        self.part.differ_in(n, text);
        false
    }

    /// One step of a session, made for the state in which it finds both records. `by_hand` has a
    /// summary filled in before every second call.
    fn step(&mut self, r: &mut Inputs, tables: &Tables<F>, by_hand: bool) -> bool {
        let way = one(r, &[Way::Plain, Way::Fast]);
        match r.below(16) {
            0 => self.between(way, &Call::Enable),
            1 => self.between(way, &Call::Disable),
            2 => self.between(way, &Call::Reset),
            k @ (3 | 4) => {
                let n = one(r, &[1, 2, 5, 40]);
                let ends = [TABLE, n, n, n, n, 0, 0, 0, 0];
                let block = inputs::asked_of::<F>(r, &self.fields(), tables, ends).block;
                let call = match k {
                    3 => Call::Block(block),
                    _ => Call::Merged(block),
                };
                self.between(way, &call)
            }
            5 if !by_hand => {
                self.fresh(inputs::period(r));
                true
            }
            _ => {
                if by_hand && (r.below(2) == 0 || model::is_refused(&self.summary)) {
                    self.hold(inputs::summary::<F>(r));
                }
                let a = inputs::asked::<F>(r, &self.fields(), &self.summary, tables);
                self.ask(&a)
            }
        }
    }

    /// Some steps. A difference ends the session, since more would follow from it.
    fn go(&mut self, r: &mut Inputs, tables: &Tables<F>, by_hand: bool) {
        for _ in 0..6 + r.below(8) {
            if !self.step(r, tables, by_hand) {
                return;
            }
        }
    }
}

/// Counts summaries, and the changes between the samples.
fn count<S>(part: &mut Part, samples: &[Sample<S>], figures: &[Figures<S>]) {
    part.summaries += figures.len() as u64;
    let changes = samples.windows(2).filter(|w| w[0].stereo != w[1].stereo);
    part.changes += changes.count() as u64;
}

/// Whether a refusal by 11 is a column's: both outputs of the block fit.
fn is_of_column<S>(a: &Asked<S>) -> bool {
    let n = a.block.mpx.len();
    a.block.outputs.iter().all(|output| output.len() == n)
}

fn fill<T: Copy + Debug>(room: &mut Room<T>, values: impl ExactSizeIterator<Item = T>) {
    let places = room.get_mut();
    assert_eq!(places.len(), values.len());
    places.iter_mut().zip(values).for_each(|(p, v)| *p = v);
}

/// Sessions of summaries that are fresh or, `by_hand`, filled in.
fn sessions<F: Compared>(name: &'static str, seed: u64, count: u64, by_hand: bool) -> bool {
    let mut r = Inputs::new(seed);
    let mut part = Part::new(name);
    let mut tables = Tables::<F>::new(&mut r);
    for number in 0..count {
        tables.renew(&mut r, number);
        let fields = inputs::decoder::<F>(&mut r);
        let on = inputs::switch(&mut r, true);
        let mut session = Session::<F>::new(&mut part, number, fields, on);
        match by_hand {
            true => session.hold(inputs::summary::<F>(&mut r)),
            false => session.fresh(inputs::period(&mut r)),
        }
        session.go(&mut r, &tables, by_hand);
    }
    part.report()
}

/// Decoders that leave the quick path of the correction, or come near to it, with fresh summaries.
fn leaving(count: u64) -> bool {
    let mut r = Inputs::new(46);
    let mut part = Part::new("wide_summaries");
    let tables = Tables::<f32>::new(&mut r);
    for number in 0..count {
        let fields = wide::decoder(&mut r);
        let mut session = Session::<f32>::new(&mut part, number, fields, 1);
        session.fresh(inputs::period(&mut r));
        for _ in 0..6 + r.below(8) {
            let fields = session.fields();
            let mut a = inputs::asked::<f32>(&mut r, &fields, &session.summary, &tables);
            a.block.table = wide::table(&mut r, a.block.table.len());
            a.block.pilot = wide::pilot(&mut r, a.block.pilot.len(), &fields);
            let way = one(&mut r, &[Way::Plain, Way::Fast]);
            let same = match r.below(16) {
                0 => session.between(way, &Call::Reset),
                1 => session.between(way, &Call::Block(a.block)),
                2 => session.between(way, &Call::Merged(a.block)),
                _ => session.ask(&a),
            };
            if !same {
                break;
            }
        }
    }
    part.reached();
    part.report()
}

// ---- each limit of cause 20

/// Each period with each number of samples, changes and magnitude around the limits, and blocks of
/// 0, 1 and 2 samples.
fn limits<F: Compared>(name: &'static str) -> bool {
    let mut r = Inputs::new(43);
    let mut part = Part::new(name);
    let tables = Tables::<F>::new(&mut r);
    let mut number = 0;
    for period in [0, 1, 2, 3, 7, 64, u32::MAX - 1, u32::MAX] {
        let p = period as u64;
        let around = [0, 1, 2, p.saturating_sub(2), p.saturating_sub(1), p, p + 1];
        let wrapped = [0, 1, p.saturating_sub(1)].map(|k| (1 << 32) + k);
        for held in around.into_iter().chain(wrapped) {
            for changes in [
                0,
                1,
                held.saturating_sub(1),
                held,
                held + 1,
                u32::MAX as u64,
            ] {
                for magnitude in F::HELD.iter().chain(F::NEVER) {
                    for n in [0, 1, 2] {
                        let (stereo, mono) = inputs::split(&mut r, held);
                        let on = r.below(2) == 0;
                        let s = Summary {
                            period,
                            stereo,
                            mono,
                            changes: changes.min(u32::MAX as u64) as u32,
                            magnitude: *magnitude,
                            before: inputs::switch(&mut r, on),
                        };
                        let fields = inputs::decoder::<F>(&mut r);
                        let ends = model::places(&s, n).min(n as u64) as usize;
                        let lengths = [TABLE, n, n, n, n, ends, ends, ends, ends];
                        let a = inputs::asked_of::<F>(&mut r, &fields, &tables, lengths);
                        number += 1;
                        let mut session = Session::<F>::new(&mut part, number, fields, 1);
                        session.hold(s);
                        session.ask(&a);
                    }
                }
            }
        }
    }
    part.report()
}

/// Each set of causes in force together: 20, 0, and the lengths of table, pilot, both outputs and
/// the four columns. In f32 there is no cause 0.
fn order<F: Compared>(name: &'static str) -> bool {
    let mut r = Inputs::new(44);
    let mut part = Part::new(name);
    let tables = Tables::<F>::new(&mut r);
    for set in 0..1u64 << 10 {
        let is_in = |k: u64| (set >> k & 1) as usize;
        let unfit = match is_in(1) {
            1 => inputs::found::<F>(&mut r, |f| !F::is_fit(f)),
            _ => None,
        };
        let fields = unfit
            .or_else(|| inputs::found::<F>(&mut r, |f| F::takes(Side::Reference, f)))
            .expect("some record is taken");
        let n = 3;
        // two periods end
        let s = Summary {
            period: 2,
            stereo: 1,
            mono: is_in(0) as u32,
            changes: 1,
            magnitude: F::HELD[1],
            before: 1,
        };
        let lengths = [
            TABLE - is_in(2),
            n,
            n + is_in(3),
            n - is_in(4),
            n + 2 * is_in(5),
            2 - is_in(6),
            2 + is_in(7),
            2 + 2 * is_in(8),
            2 - 2 * is_in(9),
        ];
        let a = inputs::asked_of::<F>(&mut r, &fields, &tables, lengths);
        let mut session = Session::<F>::new(&mut part, set, fields, 1);
        session.hold(s);
        session.ask(&a);
    }
    part.report()
}

// ---- other cuts

/// Samples under one table, in summary calls or in other blocks, with a set call before them or none.
struct Stretch<S> {
    set: Option<Call<S>>,
    summarized: bool,
    block: Block<S>,
}

/// How a stretch is cut.
#[derive(Clone, Copy, Debug)]
enum Cut {
    Whole,
    Ones,
    Any,
}

/// The next block's length of the `left` samples.
fn cut_at(r: &mut Inputs, cut: Cut, left: usize) -> usize {
    match cut {
        Cut::Whole => left,
        Cut::Ones => left.min(1),
        Cut::Any => match r.below(3) {
            0 => one(r, &[0, 1, 2]).min(left),
            _ => r.below(left as u64 + 1) as usize,
        },
    }
}

/// A summary call, whose outputs are put after those in `all`.
fn summarized<F: Compared>(
    record: &mut Record<F>,
    summary: &mut Summary<F::Sample>,
    part: &Block<F::Sample>,
    all: &mut Left,
) -> Said {
    let n = part.mpx.len();
    let ends = model::places(summary, n) as usize;
    let nought = |n| vec![F::nought(); n];
    let (mut sum, mut difference) = (nought(n), nought(n));
    let (mut magnitude, mut counts) = (nought(ends), [(); 3].map(|()| vec![0; ends]));
    let [stereo, mono, changes] = &mut counts;
    let columns = Columns {
        stereo,
        mono,
        changes,
        magnitude: &mut magnitude,
    };
    let outputs = [&mut sum[..], &mut difference[..]];
    let (said, wide) = record.summary(summary, part, outputs, columns);
    all.wide += wide;
    for (k, samples) in [(0, sum), (1, difference), (5, magnitude)] {
        all.outputs[k].extend(samples.iter().map(|x| F::word_sample(*x)));
    }
    for (k, counts) in counts.iter().enumerate() {
        all.outputs[2 + k].extend(counts.iter().map(|n| *n as u64));
    }
    said
}

/// A block or a merged block, plain or fast, which moves the decoder and not the summary.
fn passed<F: Compared>(r: &mut Inputs, record: &mut Record<F>, mut part: Block<F::Sample>) -> Said {
    let n = part.mpx.len();
    part.outputs = [(); 2].map(|()| vec![F::nought(); n]);
    let sort = one(r, &[Call::Block, Call::Merged]);
    let way = one(r, &[Way::Plain, Way::Fast]);
    record.call(way, &sort(part)).0.said
}

/// The stretches, each cut into blocks, by our library alone.
fn ran<F: Compared>(
    r: &mut Inputs,
    cut: Cut,
    mut record: Record<F>,
    mut summary: Summary<F::Sample>,
    stretches: &[Stretch<F::Sample>],
) -> Left {
    let mut all = Left::default();
    for s in stretches {
        if let Some(call) = &s.set {
            record.call(Way::Fast, call);
        }
        let (n, mut from) = (s.block.mpx.len(), 0);
        // a stretch of no samples is one block, too
        loop {
            let to = from + cut_at(r, cut, n - from);
            let part = Block {
                table: s.block.table.clone(),
                mpx: s.block.mpx[from..to].to_vec(),
                pilot: s.block.pilot[from..to].to_vec(),
                outputs: Default::default(),
            };
            let said = match s.summarized {
                true => summarized::<F>(&mut record, &mut summary, &part, &mut all),
                false => passed::<F>(r, &mut record, part),
            };
            if said != ACCEPTED {
                all.said = said;
                return all;
            }
            from = to;
            if from == n {
                break;
            }
        }
    }
    all.decoder = record.words();
    all.summary = summary_words::<F>(&summary);
    all
}

/// The same by the model, from the whole history at once.
fn worked_out<F: Compared>(
    part: &mut Part,
    mut state: StereoPllState<F>,
    summary: Summary<F::Sample>,
    stretches: &[Stretch<F::Sample>],
) -> Left {
    let mut all = Left::default();
    let mut raw = Vec::new();
    for s in stretches {
        if let Some(call) = &s.set {
            answers::call(Side::Reference, &mut state, call);
        }
        let (b, before) = (&s.block, state);
        let (samples, next) = history::<F>(state, b);
        state = next;
        if !s.summarized {
            continue;
        }
        let counts = F::counts(&before, &b.table, &b.mpx, &b.pilot);
        part.counts(&counts);
        all.wide += counts.wide;
        let mpx = s.block.mpx.iter().map(|x| F::word_sample(*x));
        all.outputs[0].extend(mpx);
        raw.extend(samples);
    }
    let mut model = Model::new(summary);
    let figures = model.take(&raw);
    count(part, &raw, &figures);
    part.samples += raw.len() as u64;
    all.outputs[1] = raw.iter().map(|s| F::word_sample(s.difference)).collect();
    all.outputs[2] = figures.iter().map(|f| f.stereo as u64).collect();
    all.outputs[3] = figures.iter().map(|f| f.mono as u64).collect();
    all.outputs[4] = figures.iter().map(|f| f.changes as u64).collect();
    all.outputs[5] = figures
        .iter()
        .map(|f| F::word_sample(f.magnitude))
        .collect();
    all.decoder = field_words::<F>(&F::fields(&state));
    // a record that no call took is as it was handed in, its switch too
    let taken = stretches.iter().any(|s| s.summarized);
    let held = if taken { model.record() } else { summary };
    all.summary = summary_words::<F>(&held);
    all
}

fn stretches<F: Compared>(
    r: &mut Inputs,
    f: &Fields<F::Value>,
    tables: &Tables<F>,
) -> Vec<Stretch<F::Sample>> {
    (0..1 + r.below(5))
        .map(|_| {
            let n = r.below(80) as usize;
            let lengths = [TABLE, n, n, 0, 0, 0, 0, 0, 0];
            Stretch {
                set: match r.below(6) {
                    0 => Some(Call::Enable),
                    1 => Some(Call::Disable),
                    2 => Some(Call::Reset),
                    _ => None,
                },
                summarized: r.below(4) > 0,
                block: inputs::asked_of::<F>(r, f, tables, lengths).block,
            }
        })
        .collect()
}

/// The same samples with the same set calls, cut into blocks in three ways.
fn cuts<F: Compared>(name: &'static str, count: u64) -> bool {
    let mut r = Inputs::new(45);
    let mut part = Part::new(name);
    let mut tables = Tables::<F>::new(&mut r);
    let mut number = 0;
    while number < count {
        tables.renew(&mut r, number);
        let fields = inputs::decoder::<F>(&mut r);
        let mut summary = inputs::summary::<F>(&mut r);
        if !F::is_fit(&fields) || model::is_refused(&summary) {
            continue;
        }
        if r.below(2) == 0 {
            summary = F::Sample::SUMMARY_NEW(summary.period);
        }
        number += 1;
        let all = stretches::<F>(&mut r, &fields, &tables);
        let expected = worked_out::<F>(&mut part, F::state(fields), summary, &all);
        let n = expected.outputs[0].len();
        for cut in [Cut::Whole, Cut::Ones, Cut::Any] {
            let got = ran::<F>(&mut r, cut, Record::from(fields, 1), summary, &all);
            part.cases += 1;
            if got != expected {
                let text = difference(&expected, &got, 0);
                let text = format!(
                    "session {number}, {n} samples, cut {cut:?}: {text}\n  {fields:?}\n  {summary:?}"
                );
                part.differ_in(n, text);
            }
        }
    }
    part.report()
}

/// All parts; whether there was no difference.
pub fn compare(count: u64) -> bool {
    limits::<f32>("limits_f32")
        & limits::<Q15>("limits_q15")
        & order::<f32>("order_f32")
        & order::<Q15>("order_q15")
        & sessions::<f32>("summaries_f32", 41, count, false)
        & sessions::<Q15>("summaries_q15", 41, count, false)
        & sessions::<f32>("held_f32", 42, count, true)
        & sessions::<Q15>("held_q15", 42, count, true)
        & cuts::<f32>("cuts_f32", count / 4)
        & cuts::<Q15>("cuts_q15", count / 4)
        & leaving(count / 4)
}
