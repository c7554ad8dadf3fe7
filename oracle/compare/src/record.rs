//! Our decoder, plain or fast, behind the calls of `decoder_oracle::answers`.

use decoder_oracle::answers::{Arguments, Block, Call, Format, Outcome, Outputs, output_words};
use numbers_oracle::answers::word_f64;
use pescrondilu_sys::decoder::{self, Count as _, Decoder, Sample};
use pescrondilu_sys::rack::Racked;
use pescrondilu_sys::summary::{Summary, Summed, summary_block};
use sdrk_core::kernels::stereo::StereoPllState;
use sdrk_core::probe::Fields;
use sdrk_core::types::Q15;
use stereo_oracle::answers::{ACCEPTED, Said};

use crate::wide::{self, Counts};

/// Which of our two decoders.
#[derive(Clone, Copy, Debug, PartialEq, Eq)]
pub enum Way {
    Plain,
    Fast,
}

/// A format that our library has.
pub trait Ours: Format<Sample: Summed<Value = Self::Value> + Racked<Value = Self::Value>> {
    /// What an accepted block of the fast decoder counts, by the model.
    fn counts(
        state: &StereoPllState<Self>,
        table: &[Self::Sample],
        mpx: &[Self::Sample],
        pilot: &[Self::Sample],
    ) -> Counts;
}

impl Ours for f32 {
    fn counts(state: &StereoPllState<f32>, table: &[f32], mpx: &[f32], pilot: &[f32]) -> Counts {
        wide::counts(state, table, mpx, pilot)
    }
}

impl Ours for Q15 {
    /// Nothing is counted in Q15.
    fn counts(_: &StereoPllState<Q15>, _: &[i16], _: &[i16], _: &[i16]) -> Counts {
        Counts::default()
    }
}

/// What a block answers, its outputs as it leaves them, and its count, 0 where it has none.
type Given<S> = (Said, Outputs<S>, usize);

/// The four further outputs of a summary call, one a figure.
pub struct Columns<'a, S> {
    pub stereo: &'a mut [u32],
    pub mono: &'a mut [u32],
    pub changes: &'a mut [u32],
    pub magnitude: &'a mut [S],
}

#[derive(Clone, Copy)]
pub struct Record<F: Ours>(pub Decoder<F::Value>);

impl<F: Ours> Record<F> {
    /// `on` stands for a switch that is on.
    pub fn from(f: Fields<F::Value>, on: u32) -> Self {
        Record(Decoder {
            kp: f.kp,
            ki: f.ki,
            imax: f.imax,
            beta: f.beta,
            on: f.on,
            off: f.off,
            integ: f.integ,
            level: f.level,
            step0: f.step0,
            phase: f.phase,
            stereo: if f.stereo { on } else { 0 },
            enabled: if f.enabled { on } else { 0 },
        })
    }

    /// The code, and the record that comes with it.
    pub fn construct(a: Arguments) -> (u32, Self) {
        let made = F::Sample::NEW(a.pilot, a.natural, a.level, a.beta, a.rate);
        (made.code, Record(made.decoder))
    }

    pub fn fields(&self) -> Fields<F::Value> {
        let d = self.0;
        Fields {
            kp: d.kp,
            ki: d.ki,
            imax: d.imax,
            beta: d.beta,
            on: d.on,
            off: d.off,
            step0: d.step0,
            phase: d.phase,
            integ: d.integ,
            level: d.level,
            stereo: d.stereo != 0,
            enabled: d.enabled != 0,
        }
    }

    /// As `field_words`, but for the switches, which are the numbers that we gave back.
    pub fn words(&self) -> [u64; 12] {
        let (d, w) = (self.0, F::word_value);
        [
            w(d.kp),
            w(d.ki),
            w(d.imax),
            w(d.beta),
            w(d.on),
            w(d.off),
            d.step0 as u64,
            d.phase as u64,
            w(d.integ),
            w(d.level),
            d.stereo as u64,
            d.enabled as u64,
        ]
    }

    /// integrator, its limit, lock level, stereo, phase, enabled
    pub fn reads(&self) -> [u64; 6] {
        let r = F::Sample::READ(self.0);
        [
            word_f64(r.integrator),
            word_f64(r.integrator_limit),
            word_f64(r.lock_level),
            r.stereo as u64,
            r.phase as u64,
            r.enabled as u64,
        ]
    }

    fn block(&mut self, way: Way, b: &Block<F::Sample>) -> Given<F::Sample> {
        let mut outputs = b.outputs.clone();
        let [sum, difference] = &mut outputs;
        let (table, mpx, pilot) = (&b.table, &b.mpx, &b.pilot);
        let (answer, wide) = match way {
            Way::Plain => {
                let reply = decoder::plain_block(self.0, table, mpx, pilot, sum, difference);
                self.0 = reply.decoder;
                (reply.answer, 0)
            }
            Way::Fast => {
                let reply = decoder::block(self.0, table, mpx, pilot, sum, difference);
                self.0 = reply.decoder;
                (reply.answer, reply.wide.number())
            }
        };
        (answer.numbers(), outputs, wide)
    }

    /// A merged block, which is one call.
    fn merged(&mut self, b: &Block<F::Sample>) -> Given<F::Sample> {
        let mut outputs = b.outputs.clone();
        let [left, right] = &mut outputs;
        let reply = decoder::merged_block(self.0, &b.table, &b.mpx, &b.pilot, left, right);
        self.0 = reply.decoder;
        (reply.answer.numbers(), outputs, reply.wide.number())
    }

    /// The plain way's merged block: a plain block, and the matrix of its outputs or its refusal.
    fn merged_plain(&mut self, b: &Block<F::Sample>) -> Given<F::Sample> {
        let (said, pairs, wide) = self.block(Way::Plain, b);
        if said != ACCEPTED {
            return (said, pairs, wide);
        }
        let [sum, difference] = &pairs;
        let mut outputs = b.outputs.clone();
        let [left, right] = &mut outputs;
        let answer = decoder::matrix(sum, difference, left, right);
        (answer.numbers(), outputs, wide)
    }

    /// A block with its summaries, into the outputs given beside it and not into its own: the answer
    /// and the count.
    pub fn summary(
        &mut self,
        summary: &mut Summary<F::Sample>,
        b: &Block<F::Sample>,
        [sum, difference]: [&mut [F::Sample]; 2],
        columns: Columns<'_, F::Sample>,
    ) -> (Said, usize) {
        let (table, mpx, pilot) = (&b.table, &b.mpx, &b.pilot);
        let Columns {
            stereo,
            mono,
            changes,
            magnitude,
        } = columns;
        let reply = summary_block(
            self.0, *summary, table, mpx, pilot, sum, difference, stereo, mono, changes, magnitude,
        );
        self.0 = reply.decoder;
        *summary = reply.summary;
        (reply.answer.numbers(), reply.wide.number())
    }

    /// What a call leaves, and its count, 0 where it has none.
    pub fn call(&mut self, way: Way, call: &Call<F::Sample>) -> (Outcome, usize) {
        let (mut said, mut outputs, mut wide) = (ACCEPTED, Default::default(), 0);
        match call {
            Call::Enable => self.0 = F::Sample::ENABLE(self.0),
            Call::Disable => self.0 = F::Sample::DISABLE(self.0),
            Call::Reset => self.0 = F::Sample::RESET(self.0),
            Call::Block(b) => (said, outputs, wide) = self.block(way, b),
            Call::Merged(b) => {
                (said, outputs, wide) = match way {
                    Way::Plain => self.merged_plain(b),
                    Way::Fast => self.merged(b),
                }
            }
        }
        let outcome = Outcome {
            said,
            outputs: output_words::<F>(&outputs),
            fields: self.words(),
            reads: self.reads(),
        };
        (outcome, wide)
    }
}
