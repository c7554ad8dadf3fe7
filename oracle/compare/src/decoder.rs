//! The decoder's constructions and sessions, compared with the original.

use decoder_oracle::answers::{self, Arguments, Block, Call, Format, Outcome, field_words};
use decoder_oracle::inputs::{self, Drawn};
use sdrk_core::kernels::stereo::StereoPllState;
use sdrk_core::probe::Fields;
use sdrk_core::types::Q15;
use stereo_oracle::answers::{ACCEPTED, Said, Side, TABLE};
use stereo_oracle::inputs::{Inputs, one};

use crate::part::Part;
use crate::record::{Ours, Record, Way};
use crate::wide::{self, Counts};

/// What a format adds to a session.
trait Compared: Ours + Drawn {
    /// Whether the fast original may leave another state than the plain one after this block.
    fn may_differ(state: &StereoPllState<Self>, b: &Block<Self::Sample>) -> bool;
}

impl Compared for f32 {
    fn may_differ(_: &StereoPllState<f32>, _: &Block<f32>) -> bool {
        false
    }
}

impl Compared for Q15 {
    fn may_differ(state: &StereoPllState<Q15>, b: &Block<i16>) -> bool {
        answers::stops(state, b)
    }
}

/// Where two outcomes differ.
fn difference(expected: &Outcome, got: &Outcome) -> String {
    if expected.said != got.said {
        return format!("said {:?}, ours {:?}", expected.said, got.said);
    }
    let lists = [
        (
            "first output",
            &expected.outputs[0][..],
            &got.outputs[0][..],
        ),
        ("second output", &expected.outputs[1], &got.outputs[1]),
        ("field", &expected.fields[..], &got.fields[..]),
        ("read-out", &expected.reads[..], &got.reads[..]),
    ];
    for (name, e, g) in lists {
        if e.len() != g.len() {
            return format!("{name}: lengths {} and {}", e.len(), g.len());
        }
        if let Some(i) = (0..e.len()).find(|i| e[*i] != g[*i]) {
            return format!("{name} {i}: {:x}, ours {:x}", e[i], g[i]);
        }
    }
    "nowhere".into()
}

/// What the fast decoder counts in a call: nothing where it is no block, or refused.
pub fn counts_of<F: Ours>(
    before: &StereoPllState<F>,
    call: &Call<F::Sample>,
    said: Said,
) -> Counts {
    match call.block() {
        Some(b) if said == ACCEPTED => F::counts(before, &b.table, &b.mpx, &b.pilot),
        _ => Counts::default(),
    }
}

/// Our two decoders and the original's two over one list of calls.
struct Session<'a, F: Compared> {
    part: &'a mut Part,
    /// how the session began, for a difference that is printed
    begun: String,
    calls: u64,
    plain: Record<F>,
    fast: Record<F>,
    reference: StereoPllState<F>,
    fallback: StereoPllState<F>,
}

impl<'a, F: Compared> Session<'a, F> {
    /// `on` stands in our records for a switch that is on.
    fn new(part: &'a mut Part, begun: String, fields: Fields<F::Value>, on: u32) -> Self {
        Session {
            part,
            begun,
            calls: 0,
            plain: Record::from(fields, on),
            fast: Record::from(fields, on),
            reference: F::state(fields),
            fallback: F::state(fields),
        }
    }

    fn fields(&self) -> Fields<F::Value> {
        F::fields(&self.fallback)
    }

    /// What the original answers: the plain implementation where it takes the record, else the
    /// fast one, else the document's cause 0.
    fn expected(&mut self, call: &Call<F::Sample>) -> Outcome {
        let fields = self.fields();
        if let Some(b) = call.block()
            && !F::is_fit(&fields)
        {
            return answers::unfit::<F>(fields, b);
        }
        let before = self.reference;
        let fast = answers::call(Side::Fallback, &mut self.fallback, call);
        if call.block().is_some() && !F::takes(Side::Reference, &fields) {
            self.part.alone += 1;
            self.reference = self.fallback;
            return fast;
        }
        let plain = answers::call(Side::Reference, &mut self.reference, call);
        if fast != plain {
            let may_differ = |b| F::may_differ(&before, b);
            if call.block().is_some_and(may_differ) {
                self.part.stopped += 1;
            } else {
                let text = difference(&plain, &fast);
                self.part
                    .differ(format!("{}: the original itself: {text}", self.begun));
            }
            self.fallback = self.reference;
        }
        plain
    }

    fn call(&mut self, call: &Call<F::Sample>) {
        let before = self.reference;
        let expected = self.expected(call);
        let counts = counts_of::<F>(&before, call, expected.said);
        self.part.counts(&counts);
        self.calls += 1;
        for way in [Way::Plain, Way::Fast] {
            let record = match way {
                Way::Plain => &mut self.plain,
                Way::Fast => &mut self.fast,
            };
            let (got, wide) = record.call(way, call);
            let counted = match way {
                Way::Plain => 0,
                Way::Fast => counts.wide,
            };
            self.part.samples += got.outputs.iter().map(|x| x.len() as u64).sum::<u64>();
            self.part.merged += matches!(call, Call::Merged(_)) as u64;
            self.part.said(got.said);
            self.part.stereo += got.reads[3];
            let (begun, calls) = (&self.begun, self.calls);
            self.part.cases += 1;
            if got != expected {
                let text = difference(&expected, &got);
                self.part
                    .differ(format!("{begun}, call {calls}, {way:?}: {text}"));
            } else if wide != counted {
                self.part.differ(format!(
                    "{begun}, call {calls}: counted {counted}, ours {wide}"
                ));
            }
        }
    }

    /// Some calls, made for the state in which each of them finds the decoder.
    fn go(&mut self, r: &mut Inputs) {
        for _ in 0..4 + r.below(8) {
            let call = inputs::call::<F>(r, &self.fields());
            self.call(&call);
        }
    }
}

/// One construction: the code, and every field of the record made, or zeros where there is none.
fn construct<F: Compared>(part: &mut Part, a: Arguments) {
    let (code, record) = Record::<F>::construct(a);
    part.code(code);
    let expected = match answers::new::<F>(a) {
        Ok(state) => (0, field_words::<F>(&F::fields(&state))),
        Err(number) => (100 + number, [0; 12]),
    };
    part.same(expected, (code, record.words()), || {
        format!("{a:?} {:x?}", a.words())
    });
}

fn constructions<F: Compared>(name: &'static str, count: u64) -> bool {
    let mut r = Inputs::new(12);
    let mut part = Part::new(name);
    for _ in 0..count {
        construct::<F>(&mut part, inputs::arguments(&mut r));
    }
    part.report()
}

/// Sessions of decoders that construction returned.
fn constructed<F: Compared>(name: &'static str, count: u64) -> bool {
    let mut r = Inputs::new(13);
    let mut part = Part::new(name);
    let mut made = 0;
    while made < count {
        let a = match made % 4 {
            0 => inputs::arguments(&mut r),
            _ => inputs::good_arguments(&mut r),
        };
        if let Ok(state) = answers::new::<F>(a) {
            made += 1;
            let mut s = Session::<F>::new(&mut part, format!("{a:?}"), F::fields(&state), 1);
            // the fresh record is our own, too
            let (code, record) = Record::construct(a);
            assert_eq!(code, 0);
            (s.plain, s.fast) = (record, record);
            s.go(&mut r);
        }
    }
    part.report()
}

/// Sessions of records filled in by hand.
fn by_hand<F: Compared>(name: &'static str, count: u64) -> bool {
    let mut r = Inputs::new(14);
    let mut part = Part::new(name);
    for _ in 0..count {
        let fields = F::any_fields(&mut r);
        let on = [1, 2, 256, 1 << 31, u32::MAX][r.below(5) as usize];
        Session::<F>::new(&mut part, format!("{fields:?}"), fields, on).go(&mut r);
    }
    part.report()
}

/// A pilot that is finite but for one sample, at each place of a block.
fn one_place() -> bool {
    let mut r = Inputs::new(15);
    let mut part = Part::new("one_not_finite");
    for n in [1, 2, 63, 64, 65] {
        for i in 0..n {
            for k in 0..8 {
                let a = inputs::good_arguments(&mut r);
                let state = answers::new::<f32>(a).expect("good arguments are accepted");
                let mut s =
                    Session::<f32>::new(&mut part, format!("{a:?}"), f32::fields(&state), 1);
                let mut b = inputs::block_of::<f32>(&mut r, [TABLE, n, n, n, n], &s.fields());
                b.table = (0..TABLE)
                    .map(|i| (i as f32 / 4096.0 * std::f32::consts::TAU).cos())
                    .collect();
                b.pilot = (0..n).map(|_| r.ordinary_f32()).collect();
                b.pilot[i] = match k {
                    0 => f32::INFINITY,
                    1 => f32::NEG_INFINITY,
                    2 => f32::from_bits(0x7FC0_0000),
                    3 => f32::from_bits(0xFFC0_0000),
                    4 => f32::from_bits(0x7F80_0001),
                    5 => f32::from_bits(0xFF80_0001),
                    6 => f32::MAX,
                    _ => inputs::not_finite(&mut r),
                };
                s.call(&Call::Block(b.clone()));
                s.call(&Call::Merged(b.clone()));
                s.call(&Call::Block(b));
            }
        }
    }
    part.report()
}

/// Decoders near the largest f: docs/DIFFERENCES.md has the first one.
fn near_the_top() -> bool {
    let mut r = Inputs::new(16);
    let mut part = Part::new("near_the_top");
    for k in 0..2000 {
        let a = Arguments {
            pilot: 19000.0,
            natural: 40.0,
            level: 0.00117912543
                * if k == 0 {
                    1.0
                } else {
                    1.0 + r.below(1000) as f64 * 1e-12
                },
            beta: 0.5,
            rate: 192000.0,
        };
        let state = answers::new::<Q15>(a).expect("accepted");
        let mut s = Session::<Q15>::new(&mut part, format!("{a:?}"), Q15::fields(&state), 1);
        let n = 1 + k % 3;
        let b = Block {
            table: vec![-32768; TABLE],
            mpx: vec![0; n],
            pilot: vec![-32768; n],
            outputs: [vec![9; n], vec![9; n]],
        };
        s.call(&match k % 2 {
            0 => Call::Block(b),
            _ => Call::Merged(b),
        });
        s.go(&mut r);
    }
    if part.stopped == 0 {
        part.differ("the two implementations of the original did not differ".into());
    }
    part.report()
}

/// Decoders that leave the quick path of the correction, or come near to it.
fn leaving(count: u64) -> bool {
    let mut r = Inputs::new(18);
    let mut part = Part::new("wide_blocks");
    for _ in 0..count {
        let fields = wide::decoder(&mut r);
        let mut s = Session::<f32>::new(&mut part, format!("{fields:?}"), fields, 1);
        for _ in 0..4 + r.below(8) {
            let b = wide::block(&mut r, &s.fields());
            s.call(&match r.below(16) {
                0 => Call::Enable,
                1 => Call::Disable,
                2 => Call::Reset,
                3..=8 => Call::Merged(b),
                _ => Call::Block(b),
            });
        }
    }
    part.reached();
    part.report()
}

/// A number in -1..=1, often at an end.
fn within(r: &mut Inputs) -> f32 {
    match r.below(3) {
        0 => one(r, &[1.0, -1.0, 0.0, -0.0]),
        _ => (r.below(1 << 25) as f32 - 16777216.0) / 16777216.0,
    }
}

/// A constructed decoder whose kp + imax, added in f32, is at most 262144, often just so.
fn moderate(r: &mut Inputs) -> (Arguments, Record<f32>) {
    loop {
        let a = inputs::good_arguments(r);
        let (_, usual) = Record::<f32>::construct(a);
        let kp = match r.below(2) {
            0 => 262144.0 - r.below(64) as f64 / 64.0,
            _ => f64::powi(2.0, r.below(30) as i32 - 12),
        };
        // kp goes as 1 / level
        let level = a.level * usual.0.kp as f64 / kp;
        let (code, record) = Record::construct(Arguments { level, ..a });
        if code == 0 && record.0.kp + record.0.imax <= 262144.0 {
            return (Arguments { level, ..a }, record);
        }
    }
}

/// Document 02's claim: from a fresh decoder with such gains, tables and pilots in -1..=1, no
/// correction takes the wide way.
fn bounds(count: u64) -> bool {
    let mut r = Inputs::new(19);
    let mut part = Part::new("wide_bounds");
    let mut highest = 0.0;
    for _ in 0..count {
        let (a, mut record) = moderate(&mut r);
        highest = f32::max(highest, record.0.kp + record.0.imax);
        for _ in 0..8 {
            let n = one(&mut r, &[1, 2, 64, 65, 200]);
            let table = match r.below(4) {
                0 => f32::cosines(),
                1 => vec![one(&mut r, &[1.0, -1.0]); TABLE],
                _ => (0..TABLE).map(|_| within(&mut r)).collect(),
            };
            let constant = within(&mut r);
            let pilot: Vec<f32> = match r.below(3) {
                0 => vec![constant; n],
                _ => (0..n).map(|_| within(&mut r)).collect(),
            };
            let b = Block {
                table,
                mpx: r.block_f32(n, false),
                pilot,
                outputs: [vec![9.0; n], vec![9.0; n]],
            };
            let call = match r.below(8) {
                0 => Call::Reset,
                1 => Call::Disable,
                2 => Call::Enable,
                3 | 4 => Call::Merged(b),
                _ => Call::Block(b),
            };
            let (got, wide) = record.call(Way::Fast, &call);
            part.samples += got.outputs[0].len() as u64;
            part.same((ACCEPTED, 0), (got.said, wide), || format!("{a:?}"));
        }
    }
    if highest != 262144.0 {
        part.differ(format!("the highest kp + imax is {highest}"));
    }
    part.report()
}

/// What the history rule compares: levels with `on` and `off`, and the integrator with its limit.
trait Ruled: Compared<Value: PartialOrd> {
    fn is_finite(p: Self::Sample) -> bool;
    fn minus(x: Self::Value) -> Self::Value;
    /// A table within -1 to 1.
    fn cosines() -> Vec<Self::Sample>;
}

impl Ruled for f32 {
    fn is_finite(p: f32) -> bool {
        p.is_finite()
    }

    fn minus(x: f32) -> f32 {
        -x
    }

    fn cosines() -> Vec<f32> {
        (0..TABLE).map(|i| cosine(i) as f32).collect()
    }
}

impl Ruled for Q15 {
    fn is_finite(_: i16) -> bool {
        true
    }

    fn minus(x: i64) -> i64 {
        -x
    }

    fn cosines() -> Vec<i16> {
        (0..TABLE).map(|i| (cosine(i) * 32767.0) as i16).collect()
    }
}

fn cosine(i: usize) -> f64 {
    (i as f64 / 4096.0 * std::f64::consts::TAU).cos()
}

/// Demand 3's rule: some level was at or above `on`, and none after it was below `off`.
fn locked<V: PartialOrd>(levels: &[V], on: &V, off: &V) -> bool {
    let last = levels.iter().rposition(|v| v >= on);
    last.is_some_and(|i| !levels[i + 1..].iter().any(|v| v < off))
}

/// Our fast decoder in blocks of one sample, so that each sample's level is seen: the decision by
/// the history rule, and the integrator within its limit.
fn history<F: Ruled>(name: &'static str, count: u64) -> bool {
    let mut r = Inputs::new(17);
    let mut part = Part::new(name);
    let table = F::cosines();
    let mut made = 0;
    while made < count {
        let a = inputs::good_arguments(&mut r);
        let (code, mut record) = Record::<F>::construct(a);
        if code > 0 {
            continue;
        }
        made += 1;
        let mut levels = Vec::new();
        let waves = F::pilot(&mut r, 200, &record.fields());
        for p in waves {
            if r.below(100) == 0 {
                record.call(Way::Fast, &Call::Reset);
                levels.clear();
            }
            let b = Block {
                table: table.clone(),
                mpx: vec![p],
                pilot: vec![p],
                outputs: [vec![p], vec![p]],
            };
            let call = match r.below(3) {
                0 => Call::Merged(b),
                _ => Call::Block(b),
            };
            let (got, _) = record.call(Way::Fast, &call);
            let f = record.fields();
            if F::is_finite(p) {
                levels.push(f.level);
            }
            part.stereo += got.reads[3];
            let within = f.integ <= f.imax && f.integ >= F::minus(f.imax);
            let expected = (locked(&levels, &f.on, &f.off), true);
            part.same(expected, (f.stereo, within), || format!("{a:?}"));
        }
    }
    part.report()
}

/// All parts; whether there was no difference.
pub fn compare(count: u64) -> bool {
    constructions::<f32>("new_f32", 50 * count)
        & constructions::<Q15>("new_q15", 50 * count)
        & constructed::<f32>("sessions_f32", count)
        & constructed::<Q15>("sessions_q15", count)
        & by_hand::<f32>("by_hand_f32", count)
        & by_hand::<Q15>("by_hand_q15", count)
        & one_place()
        & near_the_top()
        & leaving(count)
        & bounds(count / 10)
        & history::<f32>("history_f32", count / 10)
        & history::<Q15>("history_q15", count / 10)
}
