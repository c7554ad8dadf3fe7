//! Writes the list that crates/test_decoder_replay replays: the original's answers to constructions and
//! to the calls of sessions.
//!
//!     list-decoder PATH

use std::fmt::Write;

use decoder_oracle::answers::{self, Arguments, Block, Call, Outcome, field_words};
use decoder_oracle::inputs::{self, Drawn};
use decoder_oracle::samples::{ANY, CALM, Made, ONE, SINE, TRIANGLE, filled};
use numbers_oracle::answers::word_f32;
use sdrk_core::kernels::stereo::StereoPllState;
use sdrk_core::num::q15_mul;
use sdrk_core::probe::{self, Fields};
use sdrk_core::tables::{COS_F32, COS_Q15};
use sdrk_core::types::Q15;
use stereo_oracle::answers::{Side, TABLE};
use stereo_oracle::inputs::{Inputs, one};

const QUARTER: u32 = 1 << 30;

/// Entries of the buffers that the replaying program has.
const ROOM: usize = 80;
const TABLE_ROOM: usize = TABLE + 1;

/// The place of no sample.
const NOWHERE: u64 = 65535;

/// What the list needs of a format.
trait Listed: Made + Drawn {
    const NEW: &str;
    const HAND: &str;
    const SET: &str;
    const BLOCK: &str;
    const MERGED: &str;
    /// The word of -0 where the format has one: a mono block merges it into both zeros.
    const NOUGHT: u64;
    /// What an output holds before a block.
    const NINE: Self::Sample;
    /// A pilot at the decoder's own frequency and phase.
    fn sine(size: Self::Sample, table: &[Self::Sample], p: u32) -> Self::Sample;
    /// A size of the pilot near `on`, in the low bits of a word.
    fn size(r: &mut Inputs, f: &Fields<Self::Value>) -> u64;
    /// A value for a whole table, and an odd sample for a pilot.
    fn constant(r: &mut Inputs) -> u64;
    fn odd(r: &mut Inputs) -> u64;
    fn may_differ(state: &StereoPllState<Self>, b: &Block<Self::Sample>) -> bool;
}

impl Listed for f32 {
    const NEW: &str = "new_f32";
    const HAND: &str = "hand_f32";
    const SET: &str = "set_f32";
    const BLOCK: &str = "block_f32";
    const MERGED: &str = "merged_f32";
    const NOUGHT: u64 = 0x8000_0000;
    const NINE: f32 = 9.0;

    fn sine(size: f32, table: &[f32], p: u32) -> f32 {
        let s = COS_F32.with(table, || probe::interp_f32(p.wrapping_sub(QUARTER)));
        size * s.expect("the table has 4097 entries")
    }

    fn size(r: &mut Inputs, f: &Fields<f32>) -> u64 {
        word_f32(f.on * (1.0 + r.below(1000) as f32 / 250.0))
    }

    fn constant(r: &mut Inputs) -> u64 {
        word_f32(one(r, &[1.0, -1.0, 0.5, 0.0, 3e38, f32::NAN]))
    }

    fn odd(r: &mut Inputs) -> u64 {
        word_f32(inputs::not_finite(r))
    }

    fn may_differ(_: &StereoPllState<f32>, _: &Block<f32>) -> bool {
        false
    }
}

impl Listed for Q15 {
    const NEW: &str = "new_q15";
    const HAND: &str = "hand_q15";
    const SET: &str = "set_q15";
    const BLOCK: &str = "block_q15";
    const MERGED: &str = "merged_q15";
    const NOUGHT: u64 = 0;
    const NINE: i16 = 9;

    fn sine(size: i16, table: &[i16], p: u32) -> i16 {
        let s = COS_Q15.with(table, || probe::interp_q15(p.wrapping_sub(QUARTER)));
        let s = s.expect("the table has 4097 entries") as i16;
        q15_mul(Q15(size), Q15(s)).0
    }

    fn size(r: &mut Inputs, f: &Fields<i64>) -> u64 {
        let on = f.on as f64 / f64::powi(2.0, 61) * 32768.0;
        (on * (1.0 + r.below(1000) as f64 / 250.0)) as i16 as u16 as u64
    }

    fn constant(r: &mut Inputs) -> u64 {
        one(r, &[1i16, 16384, 32767, -32768, 0]) as u16 as u64
    }

    fn odd(r: &mut Inputs) -> u64 {
        one(r, &[-32768i16, 32767, 0]) as u16 as u64
    }

    fn may_differ(state: &StereoPllState<Q15>, b: &Block<i16>) -> bool {
        answers::stops(state, b)
    }
}

/// crates/test_decoder_replay/src/words12.rt has the same.
fn digest(words: impl IntoIterator<Item = u64>, first: u64) -> u64 {
    const P: u64 = 4294967291;
    words
        .into_iter()
        .fold(first, |h, w| (h % P * 1000003 + w % P) % P)
}

/// Whether a block gives the decoder's pairs, or left and right.
#[derive(Clone, Copy)]
enum Sort {
    Block,
    Merged,
}

/// The words of a block's line.
#[derive(Clone, Copy)]
struct Spec {
    table: u64,
    mpx: u64,
    lengths: [usize; 5],
    place: u64,
    odd: u64,
    pilot: u64,
}

impl Spec {
    /// Of n samples, with no odd one in the pilot.
    fn even(n: usize, table: u64, mpx: u64, pilot: u64) -> Self {
        Spec {
            table,
            mpx,
            lengths: [TABLE, n, n, n, n],
            place: NOWHERE,
            odd: 0,
            pilot,
        }
    }

    fn words(&self) -> [u64; 5] {
        let [t, m, p, first, second] = self.lengths.map(|n| n as u64);
        [
            self.table,
            self.mpx,
            t | m << 16 | p << 32 | first << 48,
            second | self.place << 16 | self.odd << 32,
            self.pilot,
        ]
    }

    /// The block that the replaying program makes of these words.
    fn block<F: Listed>(&self, f: &Fields<F::Value>) -> Block<F::Sample> {
        let whole = filled::<F>(self.table, TABLE_ROOM);
        let mut pilot: Vec<F::Sample> = match self.pilot >> 32 << 32 {
            SINE => (0..ROOM as u32)
                .map(|i| f.phase.wrapping_add(f.step0.wrapping_mul(i)))
                .map(|p| F::sine(F::low(self.pilot), &whole, p))
                .collect(),
            _ => filled::<F>(self.pilot, ROOM),
        };
        if let Some(x) = pilot.get_mut(self.place as usize) {
            *x = F::low(self.odd);
        }
        let [t, m, p, first, second] = self.lengths;
        pilot.truncate(p);
        Block {
            table: whole[..t].to_vec(),
            mpx: filled::<F>(self.mpx, m),
            pilot,
            outputs: [vec![F::NINE; first], vec![F::NINE; second]],
        }
    }
}

struct List {
    text: String,
    r: Inputs,
}

impl List {
    fn line(&mut self, name: &str, arguments: &[u64], answers: &[u64; 12]) {
        let mut words = [0; 5];
        words[..arguments.len()].copy_from_slice(arguments);
        write!(self.text, "{name:16}").expect("a string can be written");
        for w in words.iter().chain(answers) {
            write!(self.text, " {w:016x}").expect("a string can be written");
        }
        self.text.push('\n');
    }

    /// The words of a record after its number.
    fn record<F: Listed>(fields: &Fields<F::Value>) -> [u64; 12] {
        let w = field_words::<F>(fields);
        let mut out = [0; 12];
        out[1..11].copy_from_slice(&w[..10]);
        out[11] = 2 * w[10] + w[11];
        out
    }

    /// A construction's line, and the decoder where there is one.
    fn construct<F: Listed>(&mut self, a: Arguments) -> Option<StereoPllState<F>> {
        let made = answers::new::<F>(a);
        let words = match &made {
            Ok(s) => Self::record::<F>(&F::fields(s)),
            Err(n) => std::array::from_fn(|k| if k == 0 { *n as u64 } else { 0 }),
        };
        self.line(F::NEW, &a.words(), &words);
        made.ok()
    }

    /// What a call leaves, in the line's words.
    fn left<F: Listed>(o: &Outcome) -> [u64; 12] {
        // a block's outputs in their room; other calls have none
        let output = |x: &[u64]| {
            let rest = std::iter::repeat_n(F::word_sample(F::NINE), ROOM - x.len());
            digest(x.iter().copied().chain(rest), 1)
        };
        let [first, second] = &o.outputs;
        let f = &o.fields;
        let gains = digest(f[..6].iter().copied(), f[6]);
        let said = o.said.map(|n| n as u64);
        [
            said[0],
            said[1],
            said[2],
            output(first),
            output(second),
            gains,
            f[7],
            f[8],
            f[9],
            2 * f[10] + f[11],
            o.reads[0],
            digest([o.reads[2]], o.reads[1]),
        ]
    }

    /// The plain implementation's answer where it takes the record, else the fast one's, else the
    /// document's; where both answer they agree, but for the stop.
    fn answer<F: Listed>(state: &mut StereoPllState<F>, call: &Call<F::Sample>) -> Outcome {
        let fields = F::fields(state);
        if let Some(b) = call.block()
            && !F::is_fit(&fields)
        {
            return answers::unfit::<F>(fields, b);
        }
        let mut other = *state;
        let fast = answers::call(Side::Fallback, &mut other, call);
        if !F::takes(Side::Reference, &fields) {
            *state = other;
            return fast;
        }
        let before = *state;
        let plain = answers::call(Side::Reference, state, call);
        let may_differ = |b| F::may_differ(&before, b);
        assert!(fast == plain || call.block().is_some_and(may_differ));
        plain
    }

    fn block<F: Listed>(
        &mut self,
        sort: Sort,
        state: &mut StereoPllState<F>,
        spec: Spec,
    ) -> Outcome {
        let block = spec.block::<F>(&F::fields(state));
        let (name, call) = match sort {
            Sort::Block => (F::BLOCK, Call::Block(block)),
            Sort::Merged => (F::MERGED, Call::Merged(block)),
        };
        let outcome = Self::answer(state, &call);
        self.line(name, &spec.words(), &Self::left::<F>(&outcome));
        outcome
    }

    fn set<F: Listed>(&mut self, state: &mut StereoPllState<F>, which: u64) {
        let call = match which {
            0 => Call::Enable,
            1 => Call::Disable,
            _ => Call::Reset,
        };
        let outcome = Self::answer(state, &call);
        let mut words = Self::left::<F>(&outcome);
        (words[3], words[4]) = (0, 0);
        self.line(F::SET, &[which], &words);
    }

    fn spec<F: Listed>(&mut self, f: &Fields<F::Value>) -> Spec {
        let r = &mut self.r;
        let seed = |r: &mut Inputs| r.u32() as u64;
        let n = one(r, &[0, 1, 2, 16, 63, 64, 65, 80]);
        let mut lengths = [TABLE, n, n, n, n];
        if r.below(6) == 0 {
            let k = r.below(5) as usize;
            lengths[k] = match r.below(3) {
                0 => lengths[k].saturating_sub(1),
                1 => 0,
                _ if k == 0 => TABLE_ROOM,
                _ => (lengths[k] + 1).min(ROOM),
            };
        }
        Spec {
            table: match r.below(8) {
                0..=3 => TRIANGLE,
                4 | 5 => ONE | F::constant(r),
                6 => CALM | seed(r),
                _ => ANY | seed(r),
            },
            mpx: match r.below(8) {
                0 => ONE | F::NOUGHT,
                1..=4 => CALM | seed(r),
                _ => ANY | seed(r),
            },
            lengths,
            place: if r.below(3) == 0 {
                r.below(80)
            } else {
                NOWHERE
            },
            odd: F::odd(r),
            pilot: match r.below(8) {
                0..=3 => SINE | F::size(r, f),
                4 => ONE | F::size(r, f),
                5 | 6 => CALM | seed(r),
                _ => ANY | seed(r),
            },
        }
    }

    fn session<F: Listed>(&mut self, mut state: StereoPllState<F>) {
        for _ in 0..6 + self.r.below(6) {
            match self.r.below(9) {
                k @ 0..=2 => self.set(&mut state, k),
                k => {
                    let sort = if k < 5 { Sort::Merged } else { Sort::Block };
                    let spec = self.spec::<F>(&F::fields(&state));
                    self.block(sort, &mut state, spec);
                }
            }
        }
    }

    fn format<F: Listed>(&mut self) {
        for _ in 0..400 {
            let a = inputs::arguments(&mut self.r);
            self.construct::<F>(a);
        }
        for _ in 0..120 {
            let a = inputs::good_arguments(&mut self.r);
            let state = self.construct::<F>(a).expect("good arguments are accepted");
            self.session(state);
        }
        for _ in 0..120 {
            let fields = F::any_fields(&mut self.r);
            self.line(F::HAND, &[], &Self::record::<F>(&fields));
            self.session(F::state(fields));
        }
    }

    /// The decoder of docs/DIFFERENCES.md on which the original's two implementations differ.
    fn near_the_top(&mut self, sort: Sort) {
        let a = Arguments {
            pilot: 19000.0,
            natural: 40.0,
            level: 0.00117912543,
            beta: 0.5,
            rate: 192000.0,
        };
        let mut state = self.construct::<Q15>(a).expect("accepted");
        let low = ONE | 0x8000;
        self.block(sort, &mut state, Spec::even(1, low, ONE, low));
        assert_eq!(state.phase(), 2572506452);
    }

    /// A merged block of a silent pilot, so in mono, and an mpx of -0.
    fn merged_minus_zero(&mut self) {
        let a = inputs::good_arguments(&mut self.r);
        let mut state = self
            .construct::<f32>(a)
            .expect("good arguments are accepted");
        let spec = Spec::even(ROOM, TRIANGLE, ONE | f32::NOUGHT, ONE);
        let outcome = self.block(Sort::Merged, &mut state, spec);
        assert_eq!(outcome.outputs, [vec![0; ROOM], vec![f32::NOUGHT; ROOM]]);
    }
}

fn main() {
    let Some(path) = std::env::args_os().nth(1) else {
        eprintln!("usage: list-decoder PATH");
        std::process::exit(2);
    };
    let mut list = List {
        text: String::new(),
        r: Inputs::new(1),
    };
    list.format::<f32>();
    list.format::<Q15>();
    list.near_the_top(Sort::Block);
    list.near_the_top(Sort::Merged);
    list.merged_minus_zero();
    if let Err(e) = std::fs::write(&path, &list.text) {
        eprintln!("{}: {e}", path.display());
        std::process::exit(1);
    }
    println!(
        "{} lines, {} bytes",
        list.text.lines().count(),
        list.text.len()
    );
}
