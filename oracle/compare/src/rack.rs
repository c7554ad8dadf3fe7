//! A round of a rack, over flat slices and over slices of each decoder's own. The original has none,
//! so a model answers: each decoder is the original's own and runs by itself on the samples that the
//! rule gives it.

mod inputs;
mod model;
mod slices;

use decoder_oracle::answers::{self, Call, field_words};
use pescrondilu_sys::decoder::{Count as _, Sample};
use pescrondilu_sys::rack::{Rack, RackWaiting, Round, Waiting, rack_round};
use sdrk_core::kernels::stereo::StereoPllState;
use sdrk_core::probe::Fields;
use sdrk_core::types::Q15;
use stereo_oracle::answers::{ACCEPTED, Said, Side, TABLE};
use stereo_oracle::inputs::{Inputs, one};

use crate::part::Part;
use crate::record::{Ours, Record, Way};
use crate::room::{GUARD, Room};
use crate::summary::bits;
use crate::summary::inputs::{Tables, Varied, decoder, found, switch, word_at};
use crate::wide;
use inputs::{OUTSIDE, Queue, Queues, Shape};
use model::{Answer, Asked, PLACES, dealt};
use slices::Lists;

trait Compared: Ours + Varied {}

impl Compared for f32 {}
impl Compared for Q15 {}

/// Sum and difference, each with a pattern of its own.
fn rooms<F: Compared>(a: &Asked<F::Sample>) -> [Room<F::Sample>; 2] {
    let room = |n, room| Room::new(n, None, |i| F::pattern(word_at(a.word, room, i)));
    let [sum, difference] = a.outputs;
    [room(sum, 1), room(difference, 2)]
}

/// The same dealt out to slices.
fn rooms_in<F: Compared>(a: &Asked<F::Sample>, lists: &Lists) -> [Vec<Room<F::Sample>>; 2] {
    let mut flat = rooms::<F>(a);
    std::array::from_fn(|k| lists.rooms(a, 2 + k, flat[k].get_mut(), F::pattern))
}

/// What a round tells beside the outputs and the records: the answer, how much each decoder took and
/// counted, and the number that comes back.
#[derive(Clone, Copy, PartialEq)]
struct Told {
    said: Said,
    taken: [usize; PLACES],
    wide: [usize; PLACES],
    number: usize,
}

/// What our round replies.
type Reply<F> =
    Round<<F as answers::Format>::Value, <<F as answers::Format>::Sample as Sample>::Wide>;

impl Told {
    /// The records are those that the round left.
    fn after<F: Compared>(records: &mut [Record<F>; PLACES], round: Reply<F>) -> Told {
        *records = round.rack.decoders.map(Record);
        Told {
            said: round.answer.numbers(),
            taken: round.taken,
            wide: round.wide.map(|wide| wide.number()),
            number: round.rack.number,
        }
    }
}

/// What a round answers and leaves, in words: any NaN has one word.
#[derive(PartialEq)]
struct Left {
    told: Told,
    /// sum and difference, with the places around them; of a list all of them
    outputs: [Vec<u64>; 2],
    decoders: [[u64; 12]; PLACES],
}

fn left<F: Compared>(
    told: Told,
    rooms: [Vec<Room<F::Sample>>; 2],
    decoders: [[u64; 12]; PLACES],
) -> Left {
    let words = |room: Room<F::Sample>| room.0.into_iter().map(F::word_sample);
    Left {
        told,
        outputs: rooms.map(|rooms| rooms.into_iter().flat_map(words).collect()),
        decoders,
    }
}

/// The first place at which the two differ. The places of an output count from the first guard.
fn difference(expected: &Left, got: &Left) -> String {
    let (e, g) = (&expected.told, &got.told);
    if e.said != g.said {
        return format!("said {:?}, ours {:?}", e.said, g.said);
    }
    if e.taken != g.taken {
        return format!("taken {:?}, ours {:?}", e.taken, g.taken);
    }
    if e.wide != g.wide {
        return format!("counted {:?}, ours {:?}", e.wide, g.wide);
    }
    if e.number != g.number {
        return format!("number {}, ours {}", e.number, g.number);
    }
    for (k, name) in ["sum", "difference"].into_iter().enumerate() {
        let (e, g) = (&expected.outputs[k], &got.outputs[k]);
        if let Some(i) = (0..e.len()).find(|i| e[*i] != g[*i]) {
            let place = i as i64 - GUARD as i64;
            return format!("{name} {place}: {:x}, ours {:x}", e[i], g[i]);
        }
    }
    for (k, (e, g)) in expected.decoders.iter().zip(&got.decoders).enumerate() {
        if let Some(i) = (0..e.len()).find(|i| e[*i] != g[*i]) {
            return format!("decoder {k}, field {i}: {:x}, ours {:x}", e[i], g[i]);
        }
    }
    "nowhere".into()
}

/// Our round.
fn ours<F: Compared>(
    records: &mut [Record<F>; PLACES],
    a: &Asked<F::Sample>,
    rooms: &mut [Room<F::Sample>; 2],
) -> Told {
    let rack = Rack {
        decoders: records.map(|record| record.0),
        number: a.number,
    };
    let waiting = RackWaiting {
        decoders: a.waiting.map(|[mpx, pilot, sum, difference]| Waiting {
            mpx,
            pilot,
            sum,
            difference,
        }),
    };
    let [sum, difference] = rooms.each_mut().map(Room::get_mut);
    let (table, mpx, pilot) = (&a.table, &a.mpx, &a.pilot);
    let round = rack_round(
        rack,
        a.allowance,
        waiting,
        table,
        mpx,
        pilot,
        sum,
        difference,
    );
    Told::after(records, round)
}

/// Our rack and the original's decoders over one list of rounds.
struct Session<'a, F: Compared> {
    part: &'a mut Part,
    number: u64,
    calls: u64,
    ours: [Record<F>; PLACES],
    theirs: [StereoPllState<F>; PLACES],
    queues: Queues<F::Sample>,
}

impl<'a, F: Compared> Session<'a, F> {
    fn new(
        part: &'a mut Part,
        number: u64,
        r: &mut Inputs,
        fields: [Fields<F::Value>; PLACES],
    ) -> Self {
        part.sessions += 1;
        Session {
            part,
            number,
            calls: 0,
            ours: fields.map(|f| Record::from(f, switch(r, true))),
            theirs: fields.map(F::state),
            queues: Default::default(),
        }
    }

    fn fields(&self, k: usize) -> Fields<F::Value> {
        F::fields(&self.theirs[k])
    }

    /// A decoder filled in by hand.
    fn hold(&mut self, r: &mut Inputs, k: usize, fields: Fields<F::Value>) {
        self.ours[k] = Record::from(fields, switch(r, true));
        self.theirs[k] = F::state(fields);
    }

    fn expected(&mut self, a: &Asked<F::Sample>) -> (Answer, Left) {
        let mut rooms = rooms::<F>(a);
        let [sum, difference] = rooms.each_mut().map(Room::get_mut);
        let answer = model::round::<F>(&mut self.theirs, a, sum, difference);
        let decoders = self
            .theirs
            .each_ref()
            .map(|s| field_words::<F>(&F::fields(s)));
        let rooms = rooms.map(|room| vec![room]);
        let told = Told {
            said: answer.said,
            taken: answer.taken,
            wide: answer.counts.map(|counts| counts.wide),
            number: a.number,
        };
        (answer, left::<F>(told, rooms, decoders))
    }

    fn got(&mut self, a: &Asked<F::Sample>) -> Left {
        let mut rooms = rooms::<F>(a);
        let told = ours::<F>(&mut self.ours, a, &mut rooms);
        let rooms = rooms.map(|room| vec![room]);
        left::<F>(told, rooms, self.ours.map(|record| record.words()))
    }

    /// What the model leaves, dealt out to slices.
    fn expected_in(&self, a: &Asked<F::Sample>, lists: &Lists, flat: Left) -> Left {
        let pattern = |w| F::word_sample(F::pattern(w));
        let outputs = std::array::from_fn(|k| {
            let output = &flat.outputs[k][GUARD..][..a.outputs[k]];
            let rooms = lists.rooms(a, 2 + k, output, pattern);
            rooms.into_iter().flat_map(|room| room.0).collect()
        });
        Left { outputs, ..flat }
    }

    /// The round over slices, with these records.
    fn got_in(&self, a: &Asked<F::Sample>, lists: &Lists, mut ours: [Record<F>; PLACES]) -> Left {
        let mut rooms = rooms_in::<F>(a, lists);
        let told = slices::ours::<F>(&mut ours, a, lists, &mut rooms);
        left::<F>(told, rooms, ours.map(|record| record.words()))
    }

    /// A round, flat and over slices; whether both agree with the model. What was taken does not
    /// wait any more.
    fn ask(&mut self, a: &Asked<F::Sample>) -> bool {
        let (before, ours) = (self.theirs, self.ours);
        let (answer, expected) = self.expected(a);
        let got = self.got(a);
        self.calls += 1;
        self.part.cases += 1;
        self.part.said(got.told.said);
        let lists = Lists::new(a);
        self.count(a, &answer, &before, &lists);
        if got != expected {
            let text = self.text(a, &before, &difference(&expected, &got));
            self.part.differ_in(a.mpx.len(), text);
            return false;
        }
        let expected = self.expected_in(a, &lists, expected);
        let got = self.got_in(a, &lists, ours);
        if got != expected {
            let what = format!("over slices, {}", difference(&expected, &got));
            let text = self.text(a, &before, &what);
            self.part.differ_in(a.mpx.len(), text);
            return false;
        }
        for (queue, n) in self.queues.iter_mut().zip(answer.taken) {
            queue.take(n);
        }
        true
    }

    /// What the round has of each sort, by the model.
    fn count(
        &mut self,
        a: &Asked<F::Sample>,
        answer: &Answer,
        before: &[StereoPllState<F>],
        lists: &Lists,
    ) {
        let part = &mut *self.part;
        if let Some(k) = answer.refused {
            part.at[k] += 1;
        }
        if answer.said != ACCEPTED {
            return;
        }
        answer.counts.iter().for_each(|counts| part.counts(counts));
        let (taken, waited) = (&answer.taken, &answer.waited);
        let used = 0..a.number;
        part.blocks += a.number as u64;
        part.samples += taken.iter().sum::<usize>() as u64;
        part.unfinished += used.clone().any(|k| taken[k] < waited[k]) as u64;
        part.empty += used.clone().any(|k| waited[k] == 0) as u64;
        part.cut += used.clone().any(|k| waited[k] < a.waiting[k][0]) as u64;
        part.lacking += lists.lack(a) as u64;
        part.past += lists.pass() as u64;
        let side = |s: &StereoPllState<F>| answers::side::<F>(&F::fields(s));
        let alone = before[used].iter().filter(|s| side(s) == Side::Fallback);
        part.alone += alone.count() as u64;
        let after = self.theirs[..a.number].iter();
        part.stereo += after.filter(|s| F::fields(s).stereo).count() as u64;
    }

    /// What is printed of a round that differs.
    fn text(&self, a: &Asked<F::Sample>, before: &[StereoPllState<F>], what: &str) -> String {
        let decoders: Vec<String> = before
            .iter()
            .map(|s| format!("  {:?}", F::fields(s)))
            .collect();
        format!(
            "session {}, round {}: {what}\n  number {}, allowance {}, outputs {:?}\n  \
             waiting {:?}\n  table {}\n  mpx {}\n  pilot {}\n{}",
            self.number,
            self.calls,
            a.number,
            a.allowance,
            a.outputs,
            a.waiting,
            bits::<F>(&a.table),
            bits::<F>(&a.mpx),
            bits::<F>(&a.pilot),
            decoders.join("\n"),
        )
    }

    /// A set call of one decoder.
    fn set(&mut self, k: usize, call: &Call<F::Sample>) {
        answers::call(Side::Reference, &mut self.theirs[k], call);
        self.ours[k].call(Way::Fast, call);
    }

    /// Samples join, now here and now there.
    fn join(&mut self, r: &mut Inputs) {
        for k in 0..PLACES {
            if r.below(4) == 0 {
                let n = inputs::joining(r);
                let fields = self.fields(k);
                self.queues[k].join::<F>(r, &fields, n);
            }
        }
    }

    /// Most of the decoders in use that are unfit are filled in anew, since they refuse each round.
    fn mend(&mut self, r: &mut Inputs, number: usize) {
        for k in 0..number {
            if !F::is_fit(&self.fields(k)) && r.below(4) > 0 {
                let fields = inputs::fit::<F>(r);
                self.hold(r, k, fields);
            }
        }
    }

    /// What happens to a decoder before a round, if anything.
    fn turn(&mut self, r: &mut Inputs) {
        let k = r.below(PLACES as u64) as usize;
        match r.below(16) {
            0 => self.set(k, &Call::Enable),
            1 => self.set(k, &Call::Disable),
            2 => self.set(k, &Call::Reset),
            3 | 4 => {
                let fields = F::any_fields(r);
                self.hold(r, k, fields);
            }
            _ => {}
        }
    }

    /// Some rounds of a rack of one number, or now and then of another. A difference ends the
    /// session, since more would follow from it.
    fn go(&mut self, r: &mut Inputs, tables: &Tables<F>) {
        let number = inputs::number(r);
        (0..3).for_each(|_| self.join(r));
        for _ in 0..4 + r.below(6) {
            self.mend(r, number);
            self.turn(r);
            self.join(r);
            let now = match r.below(32) {
                0 => one(r, &OUTSIDE),
                1 => inputs::number(r),
                _ => number,
            };
            let a = inputs::asked::<F>(r, now, &self.queues, tables);
            if !self.ask(&a) {
                return;
            }
        }
    }
}

/// Sessions of racks.
fn sessions<F: Compared>(name: &'static str, count: u64) -> bool {
    let mut r = Inputs::new(51);
    let mut part = Part::new(name);
    let mut tables = Tables::<F>::new(&mut r);
    for number in 0..count {
        tables.renew(&mut r, number);
        let fields = [(); PLACES].map(|()| decoder::<F>(&mut r));
        Session::<F>::new(&mut part, number, &mut r, fields).go(&mut r, &tables);
    }
    part.report()
}

/// Racks of decoders that leave the quick path of the correction, or come near to it.
fn leaving(count: u64) -> bool {
    let mut r = Inputs::new(54);
    let mut part = Part::new("wide_racks");
    let tables = Tables::<f32>::new(&mut r);
    for session in 0..count {
        let fields = [(); PLACES].map(|()| wide::decoder(&mut r));
        let number = inputs::number(&mut r);
        let mut session = Session::<f32>::new(&mut part, session, &mut r, fields);
        for _ in 0..4 + r.below(6) {
            for k in 0..PLACES {
                let n = r.below(4) as usize * r.below(20) as usize;
                let fields = session.fields(k);
                let queue = &mut session.queues[k];
                queue.mpx.extend(f32::mpx(&mut r, n));
                queue.pilot.extend(wide::pilot(&mut r, n, &fields));
            }
            let k = r.below(PLACES as u64) as usize;
            match r.below(8) {
                0 => session.set(k, &Call::Reset),
                1 => {
                    let fields = wide::decoder(&mut r);
                    session.hold(&mut r, k, fields);
                }
                _ => {}
            }
            let mut a = inputs::asked::<f32>(&mut r, number, &session.queues, &tables);
            a.table = wide::table(&mut r, a.table.len());
            if !session.ask(&a) {
                break;
            }
        }
    }
    part.reached();
    part.report()
}

// ---- the order of the causes

/// What is wrong with a decoder.
#[derive(Clone, Copy, Debug, PartialEq)]
enum Wrong {
    Unfit,
    Pilot,
    Sum,
    Difference,
}

const WRONGS: [Wrong; 4] = [Wrong::Unfit, Wrong::Pilot, Wrong::Sum, Wrong::Difference];

/// A round with chosen causes in force: the number, the allowance, the table's length, and of each
/// decoder how much it has waiting and what is wrong with it.
struct Causes {
    number: usize,
    allowance: u32,
    entries: usize,
    waits: [usize; PLACES],
    wrong: Vec<(usize, Wrong)>,
}

impl Causes {
    fn is(&self, k: usize, wrong: Wrong) -> bool {
        self.wrong.contains(&(k, wrong))
    }

    /// The lengths of each part. Each damaged one has a length of its own.
    fn waiting(&self) -> [[usize; 4]; PLACES] {
        std::array::from_fn(|k| {
            let n = self.waits[k];
            let more = |wrong, by| n + if self.is(k, wrong) { by } else { 0 };
            [
                n,
                more(Wrong::Pilot, 2 * k + 1),
                more(Wrong::Sum, 2 * k + 2),
                more(Wrong::Difference, 2 * k + 3),
            ]
        })
    }
}

/// Asks a round of it. A format without unfit records has a fit one there.
fn ask_causes<F: Compared>(part: &mut Part, r: &mut Inputs, tables: &Tables<F>, causes: &Causes) {
    let fields = std::array::from_fn(|k| {
        let unfit = match causes.is(k, Wrong::Unfit) {
            true => found::<F>(r, |f| !F::is_fit(f)),
            false => None,
        };
        unfit.unwrap_or_else(|| inputs::fit::<F>(r))
    });
    let number = part.sessions;
    let mut session = Session::<F>::new(part, number, r, fields);
    let each = session.queues.iter_mut().zip(&fields);
    for ((queue, fields), n) in each.zip(causes.waits) {
        queue.join::<F>(r, fields, n);
    }
    let shape = Shape {
        number: causes.number,
        allowance: causes.allowance,
        waiting: causes.waiting(),
        brought: causes.waiting(),
        entries: causes.entries,
    };
    let a = inputs::built::<F>(r, shape, &session.queues, tables);
    session.ask(&a);
}

/// A number and an allowance: both fine, one of them refused, or both.
const FIRST: [(usize, u32); 8] = [
    (3, 8),
    (3, 3),
    (3, 2),
    (3, 0),
    (1, 1),
    (9, 100),
    (9, 8),
    (1, 0),
];

/// Each set of causes of the table and the decoders in a rack of three, half of the rounds with a
/// number and an allowance of the list above. Then, in a rack of eight, each two causes of decoders
/// at each two places, with and without samples.
fn order<F: Compared>(name: &'static str) -> bool {
    let mut r = Inputs::new(52);
    let mut part = Part::new(name);
    let tables = Tables::<F>::new(&mut r);
    for set in 0..1u64 << 13 {
        let places = (0..3).flat_map(|k| WRONGS.map(|wrong| (k, wrong)));
        let wrong = places.enumerate().filter(|(i, _)| set >> i & 1 == 1);
        let (number, allowance) = match r.below(2) {
            0 => FIRST[0],
            _ => one(&mut r, &FIRST),
        };
        let causes = Causes {
            number,
            allowance,
            entries: TABLE - (set >> 12) as usize,
            waits: [(); PLACES].map(|()| r.below(5) as usize),
            wrong: wrong.map(|(_, wrong)| wrong).collect(),
        };
        ask_causes::<F>(&mut part, &mut r, &tables, &causes);
    }
    for (i, j) in (0..PLACES).flat_map(|i| (0..PLACES).map(move |j| (i, j))) {
        for (first, second) in WRONGS.iter().flat_map(|a| WRONGS.map(|b| (*a, b))) {
            for waits in [[0; PLACES], [3; PLACES]] {
                let causes = Causes {
                    number: PLACES,
                    allowance: 8 + r.below(30) as u32,
                    entries: TABLE,
                    waits,
                    wrong: vec![(i, first), (j, second)],
                };
                ask_causes::<F>(&mut part, &mut r, &tables, &causes);
            }
        }
    }
    part.report()
}

// ---- no starving

/// The whole of a decoder's samples by one block of the original: its outputs, its count and its
/// record.
struct Whole {
    outputs: [Vec<u64>; 2],
    wide: usize,
    decoder: [u64; 12],
}

fn whole<F: Compared>(
    fields: Fields<F::Value>,
    table: &[F::Sample],
    queue: &Queue<F::Sample>,
) -> Whole {
    let mut state = F::state(fields);
    let wide = F::counts(&state, table, &queue.mpx, &queue.pilot).wide;
    let pairs = model::block::<F>(&mut state, table, &queue.mpx, &queue.pilot);
    let words = pairs
        .into_iter()
        .map(|(s, d)| (F::word_sample(s), F::word_sample(d)));
    let (sum, difference) = words.unzip();
    Whole {
        outputs: [sum, difference],
        wide,
        decoder: field_words::<F>(&F::fields(&state)),
    }
}

/// A rack with a fixed number and a fixed allowance, and what waits for each decoder at the start.
struct Fixed<F: Compared> {
    number: usize,
    allowance: u32,
    records: [Record<F>; PLACES],
    queues: Queues<F::Sample>,
    table: Vec<F::Sample>,
    /// of each decoder all outputs so far, and the sum of its counts
    outputs: [[Vec<u64>; 2]; PLACES],
    wide: [usize; PLACES],
}

impl<F: Compared> Fixed<F> {
    fn share(&self) -> usize {
        self.allowance as usize / self.number
    }

    /// A round of all that still waits: the answer, and how much each decoder took.
    fn round(&mut self, r: &mut Inputs) -> (Said, [usize; PLACES]) {
        let a = inputs::plain(
            self.number,
            self.allowance,
            &self.queues,
            &self.table,
            r.u32(),
        );
        let (told, given) = self.given(&a);
        for (k, (queue, n)) in self.queues.iter_mut().zip(told.taken).enumerate() {
            self.wide[k] += told.wide[k];
            for (all, slices) in self.outputs[k].iter_mut().zip(&given) {
                let places = slices.get(k).into_iter().flatten().take(n);
                all.extend(places.map(|x| F::word_sample(*x)));
            }
            queue.take(n);
        }
        (told.said, told.taken)
    }

    /// A round, every second one over slices: what it tells, and each decoder's outputs.
    fn given(&mut self, a: &Asked<F::Sample>) -> (Told, [Vec<Vec<F::Sample>>; 2]) {
        if a.word % 2 == 0 {
            let mut rooms = rooms::<F>(a);
            let told = ours::<F>(&mut self.records, a, &mut rooms);
            let given = std::array::from_fn(|k| {
                let output = rooms[k].get_mut().iter().copied();
                dealt(output, a.lengths(2 + k))
            });
            return (told, given);
        }
        let lists = Lists::new(a);
        let mut rooms = rooms_in::<F>(a, &lists);
        let told = slices::ours::<F>(&mut self.records, a, &lists, &mut rooms);
        let given = rooms.each_mut().map(|rooms| {
            let outputs = rooms.iter_mut().map(|room| room.get_mut().to_vec());
            outputs.collect()
        });
        (told, given)
    }

    /// A round that is refused, which is to leave all as it is.
    fn refused(&mut self, r: &mut Inputs) -> Said {
        let table = &self.table[..TABLE - 1];
        let (number, allowance) = (self.number, self.allowance);
        let mut a = match r.below(2) {
            0 => inputs::plain(number, number as u32 - 1, &self.queues, &self.table, 0),
            _ => inputs::plain(number, allowance, &self.queues, table, 0),
        };
        if r.below(3) == 0 {
            a.number = one(r, &OUTSIDE);
        }
        ours::<F>(&mut self.records, &a, &mut rooms::<F>(&a)).said
    }

    /// Whether decoder k is as one block over all of its samples leaves it.
    fn is_as(&self, k: usize, whole: &Whole) -> bool {
        self.outputs[k] == whole.outputs
            && self.wide[k] == whole.wide
            && self.records[k].words() == whole.decoder
    }
}

/// A rack over rounds in which nothing joins: where a decoder is not done in the round that the
/// share gives for its samples, or not as one block leaves it, the text says so.
fn starved<F: Compared>(
    part: &mut Part,
    r: &mut Inputs,
    fixed: &mut Fixed<F>,
    wholes: &[Whole],
) -> Option<String> {
    let waits = fixed.queues.each_ref().map(|q| q.mpx.len());
    let rounds = waits.map(|n| n.div_ceil(fixed.share()));
    let last = rounds[..fixed.number].iter().max().copied().unwrap_or(0);
    // one round more finds all done
    for round in 1..=last + 1 {
        if r.below(6) == 0 {
            part.said(fixed.refused(r));
            part.cases += 1;
        }
        let (said, taken) = fixed.round(r);
        part.cases += 1;
        part.samples += taken.iter().sum::<usize>() as u64;
        if said != ACCEPTED {
            return Some(format!("round {round} said {said:?}"));
        }
        for k in 0..fixed.number {
            let is_done = fixed.queues[k].mpx.is_empty();
            if is_done != (round >= rounds[k]) {
                let n = waits[k];
                return Some(format!(
                    "decoder {k} of {n} samples, round {round}: {is_done}"
                ));
            }
            if is_done && !fixed.is_as(k, &wholes[k]) {
                return Some(format!("decoder {k}, round {round}: not as one block"));
            }
        }
        part.unfinished += (round < last) as u64;
    }
    None
}

fn fixed<F: Compared>(r: &mut Inputs, tables: &Tables<F>) -> (Fixed<F>, Vec<Whole>) {
    let number = inputs::number(r);
    let share = one(r, &[1, 1, 2, 3, 7, 16, 63, 64, 65, 200]) + r.below(3);
    let lapses = r.below(number as u64);
    let fields = [(); PLACES].map(|()| inputs::fit::<F>(r));
    let mut queues: Queues<F::Sample> = Default::default();
    for k in 0..number {
        // so few that the rounds do not become too many
        let any = r.below(12 * share + 1);
        let n = one(r, &[0, 1, share, 2 * share + 1, any, any]) as usize;
        queues[k].join::<F>(r, &fields[k], n);
    }
    let table = tables.any(r)[..TABLE].to_vec();
    let each = fields.iter().zip(&queues);
    let wholes = each.map(|(f, q)| whole::<F>(*f, &table, q)).collect();
    let fixed = Fixed {
        number,
        allowance: (number as u64 * share + lapses) as u32,
        records: fields.map(|f| Record::from(f, switch(r, true))),
        queues,
        table,
        outputs: Default::default(),
        wide: [0; PLACES],
    };
    (fixed, wholes)
}

/// A decoder is done after exactly as many accepted rounds as its samples have shares.
fn shares<F: Compared>(name: &'static str, count: u64) -> bool {
    let mut r = Inputs::new(53);
    let mut part = Part::new(name);
    let mut tables = Tables::<F>::new(&mut r);
    for number in 0..count {
        tables.renew(&mut r, number);
        part.sessions += 1;
        let (mut rack, wholes) = fixed::<F>(&mut r, &tables);
        let (decoders, allowance) = (rack.number, rack.allowance);
        let samples = rack.queues.iter().map(|q| q.mpx.len()).sum();
        if let Some(text) = starved(&mut part, &mut r, &mut rack, &wholes) {
            let text =
                format!("session {number}, {decoders} decoders, allowance {allowance}: {text}");
            part.differ_in(samples, text);
        }
    }
    part.report()
}

/// All parts; whether there was no difference.
pub fn compare(count: u64) -> bool {
    order::<f32>("rack_order_f32")
        & order::<Q15>("rack_order_q15")
        & sessions::<f32>("racks_f32", count)
        & sessions::<Q15>("racks_q15", count)
        & shares::<f32>("shares_f32", count / 10)
        & shares::<Q15>("shares_q15", count / 10)
        & leaving(count / 10)
}
