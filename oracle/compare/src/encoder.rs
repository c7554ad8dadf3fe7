//! Our encoders beside the original's: one record of ours and one of each of its implementations,
//! and after each call the code or answer, the output and every field.

use numbers_oracle::answers::word_f32;
use pescrondilu_sys::encoder::*;
use stereo_oracle::answers::{Arguments, Block, Encoder, Fields, Said, Side};

use crate::part::Part;

/// An encoder of ours.
#[derive(Clone, Copy, Debug)]
pub enum Ours {
    Plain(StereoEncode),
    Rds(StereoEncodeRds),
}

impl Ours {
    /// The code, and the record that comes with it.
    fn new(a: Arguments, with_rds: bool) -> (u32, Self) {
        if with_rds {
            let made = pescrondilu_encode_rds_new(a.frequency, a.main, a.pilot, a.rds, a.rate);
            (made.code, Ours::Rds(made.encoder))
        } else {
            let made = pescrondilu_encode_new(a.frequency, a.main, a.pilot, a.rate);
            (made.code, Ours::Plain(made.encoder))
        }
    }

    pub fn by_hand(f: Fields, with_rds: bool) -> Self {
        let nco = Nco {
            phase: f.phase,
            inc: f.inc,
        };
        let enc = StereoEncode {
            nco,
            main: f.main,
            pilot: f.pilot,
        };
        if with_rds {
            Ours::Rds(StereoEncodeRds { enc, rds: f.level })
        } else {
            Ours::Plain(enc)
        }
    }

    fn fields(&self) -> Fields {
        let (e, level) = match self {
            Ours::Plain(e) => (e, 0.0),
            Ours::Rds(e) => (&e.enc, e.rds),
        };
        Fields {
            phase: e.nco.phase,
            inc: e.nco.inc,
            main: e.main,
            pilot: e.pilot,
            level,
        }
    }

    /// The code of a set call; the record that comes with it is the next one.
    fn set(&mut self, call: Call) -> u32 {
        match self {
            Ours::Plain(e) => {
                let done = match call {
                    Call::Pilot(to) => pescrondilu_encode_set_pilot(*e, to),
                    Call::Rds(_) => panic!("no level of RDS"),
                    Call::Phase(p) => CodedEncode {
                        code: 0,
                        encoder: pescrondilu_encode_set_phase(*e, p),
                    },
                    Call::Reset => CodedEncode {
                        code: 0,
                        encoder: pescrondilu_encode_reset(*e),
                    },
                };
                *e = done.encoder;
                done.code
            }
            Ours::Rds(e) => {
                let done = match call {
                    Call::Pilot(to) => pescrondilu_encode_rds_set_pilot(*e, to),
                    Call::Rds(to) => pescrondilu_encode_rds_set_rds(*e, to),
                    Call::Phase(p) => CodedEncodeRds {
                        code: 0,
                        encoder: pescrondilu_encode_rds_set_phase(*e, p),
                    },
                    Call::Reset => CodedEncodeRds {
                        code: 0,
                        encoder: pescrondilu_encode_rds_reset(*e),
                    },
                };
                *e = done.encoder;
                done.code
            }
        }
    }

    /// What a block answers; the output is left in `output`.
    fn block(&mut self, b: &Block, output: &mut [f32]) -> Said {
        match self {
            Ours::Plain(e) => {
                let reply = encode_block(*e, &b.table, &b.left, &b.right, output);
                *e = reply.encoder;
                reply.answer.numbers()
            }
            Ours::Rds(e) => {
                let reply = encode_rds_block(*e, &b.table, &b.left, &b.right, &b.rds, output);
                *e = reply.encoder;
                reply.answer.numbers()
            }
        }
    }
}

/// A call that changes fields only.
#[derive(Clone, Copy, Debug)]
pub enum Call {
    Pilot(f32),
    Rds(f32),
    Phase(u32),
    Reset,
}

fn set_theirs(e: &mut Encoder, call: Call) -> u32 {
    match call {
        Call::Pilot(to) => e.set_pilot(to),
        Call::Rds(to) => e.set_rds(to),
        Call::Phase(p) => {
            e.set_phase(p);
            0
        }
        Call::Reset => {
            e.reset();
            0
        }
    }
}

/// A number of the document as our code has it.
fn code(number: u32) -> u32 {
    if number == 0 { 0 } else { 100 + number }
}

/// One construction: the code, and every field of the record made, or zeros where there is none.
/// The two encoders, if they were made.
pub fn construct(part: &mut Part, a: Arguments, with_rds: bool) -> Option<(Ours, Encoder)> {
    let (got, ours) = Ours::new(a, with_rds);
    part.code(got);
    let theirs = Encoder::new(a, with_rds);
    let expected = match &theirs {
        Ok(e) => (0, e.fields().words()),
        Err(number) => (code(*number), [0; 5]),
    };
    part.same(expected, (got, ours.fields().words()), || format!("{a:?}"));
    theirs.ok().map(|e| (ours, e))
}

/// One set call on a record of any fields.
pub fn set(part: &mut Part, fields: Fields, with_rds: bool, call: Call) {
    let theirs = [(Side::Reference, Encoder::by_hand(fields, with_rds))];
    let ours = Ours::by_hand(fields, with_rds);
    Session::new(part, String::new(), ours, theirs).set(call);
}

/// Our encoder and the original's over one list of calls, its implementations by the blocks that
/// they carry out.
pub struct Session<'a, const N: usize> {
    part: &'a mut Part,
    /// how the session began, for a difference that is printed
    begun: String,
    ours: Ours,
    theirs: [(Side, Encoder); N],
}

impl<'a, const N: usize> Session<'a, N> {
    pub fn new(
        part: &'a mut Part,
        begun: String,
        ours: Ours,
        theirs: [(Side, Encoder); N],
    ) -> Self {
        Session {
            part,
            begun,
            ours,
            theirs,
        }
    }

    pub fn set(&mut self, call: Call) {
        let before = self.ours;
        let got = self.ours.set(call);
        self.part.code(got);
        for (_, e) in &mut self.theirs {
            let expected = (code(set_theirs(e, call)), e.fields().words());
            self.part
                .same(expected, (got, self.ours.fields().words()), || {
                    format!("{} {before:?} {call:?}", self.begun)
                });
        }
    }

    pub fn block(&mut self, b: &Block) {
        let before = self.ours;
        let mut output = b.output.clone();
        let said = self.ours.block(b, &mut output);
        self.part.said(said);
        let words: Vec<u64> = output.iter().map(|y| word_f32(*y)).collect();
        for (side, e) in &mut self.theirs {
            let (expected, left) = e.block(*side, b);
            let of = || {
                let n = [&b.table, &b.left, &b.right, &b.rds, &b.output].map(|x| x.len());
                format!("{} {before:?} {side:?} {n:?}", self.begun)
            };
            self.part.same(
                (expected, e.fields().words()),
                (said, self.ours.fields().words()),
                of,
            );
            self.part.same_words(&left, &words, |i| {
                let bits = |x: &[f32]| x.get(i).map(|y| y.to_bits());
                let [l, r, d] = [&b.left, &b.right, &b.rds].map(|x| bits(x));
                format!("{} at {i} {l:x?} {r:x?} {d:x?}", of())
            });
        }
    }
}
