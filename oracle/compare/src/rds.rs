//! The group former, compared with the model.

use pescrondilu_sys::rds::{
    self, Former, RdsWords, pescrondilu_rds_former_new, pescrondilu_rds_remainder,
};
use rds_oracle::check::Remainders;
use rds_oracle::former::{self, Words, is_version_b};
use rds_oracle::inputs::{Call, ROOM, call};
use stereo_oracle::answers::{ACCEPTED, Said};
use stereo_oracle::inputs::{Inputs, one};

use crate::part::Part;

/// Every number of 32 bits.
fn remainders() -> bool {
    let mut part = Part::new("rds_remainder");
    let expected = Remainders::divided();
    for number in 0..=u32::MAX {
        let got = pescrondilu_rds_remainder(number);
        part.same(expected.of(number), got, || format!("number {number:08x}"));
    }
    part.report()
}

fn words([one, two, three, four]: Words) -> RdsWords {
    RdsWords {
        one,
        two,
        three,
        four,
    }
}

/// A number that stands for the switch.
fn switch(r: &mut Inputs, on: bool) -> u32 {
    match (on, r.below(2)) {
        (false, _) => 0,
        (true, 0) => one(r, &[1, 2, 256, 1 << 31, u32::MAX]),
        (true, _) => r.u32().max(1),
    }
}

/// A buffer of any bytes, so that each one that a call writes shows.
fn room(r: &mut Inputs) -> [u8; ROOM] {
    std::array::from_fn(|_| r.below(256) as u8)
}

/// Our former and the model's over one list of calls.
struct Session<'a> {
    part: &'a mut Part,
    ours: Former,
    model: former::Former,
}

impl Session<'_> {
    /// The answers, with the carried bit that our record gives back, and the whole buffers.
    fn call(&mut self, call: Call, before: [u8; ROOM]) {
        let (had, n) = (self.ours, call.length);
        let (mut expected, mut got) = (before, before);
        let said = self.model.group(&call.words, &mut expected[..n]);
        let reply = rds::group(had, words(call.words), &mut got[..n]);
        self.ours = reply.former;
        self.count(&call, reply.answer.numbers());
        let of = || format!("{call:x?} of {had:x?}");
        let answers = (reply.answer.numbers(), self.ours.carried);
        let carried = self.model.carried as u32;
        self.part.same((said, carried), answers, of);
        if let Some(i) = (0..ROOM).find(|i| expected[*i] != got[*i]) {
            let text = format!("byte {i}: {}, ours {}", expected[i], got[i]);
            self.part.differ(format!("{}: {text}", of()));
        }
    }

    fn count(&mut self, call: &Call, said: Said) {
        self.part.said(said);
        self.part.version_b += (said == ACCEPTED && is_version_b(&call.words)) as u64;
    }
}

/// Calls of a session.
fn calls(r: &mut Inputs) -> u64 {
    1 + r.below(9)
}

/// Sessions of fresh formers. Our record goes from call to call as it came back.
fn fresh(count: u64) -> bool {
    let mut r = Inputs::new(21);
    let mut part = Part::new("sessions_former");
    for _ in 0..count {
        let ours = pescrondilu_rds_former_new();
        part.same(0, ours.carried, || "new".into());
        let mut session = Session {
            part: &mut part,
            ours,
            model: former::Former::default(),
        };
        for _ in 0..calls(&mut r) {
            session.call(call(&mut r), room(&mut r));
        }
    }
    part.report()
}

/// Sessions of records filled in by hand, and again before each call.
fn by_hand(count: u64) -> bool {
    let mut r = Inputs::new(22);
    let mut part = Part::new("by_hand_former");
    for _ in 0..count {
        let carried = r.below(2) == 1;
        let mut session = Session {
            part: &mut part,
            ours: Former { carried: 0 },
            model: former::Former { carried },
        };
        for _ in 0..calls(&mut r) {
            session.ours.carried = switch(&mut r, session.model.carried);
            session.call(call(&mut r), room(&mut r));
        }
    }
    part.report()
}

/// All parts; whether there was no difference.
pub fn compare(count: u64) -> bool {
    remainders() & fresh(count) & by_hand(count)
}
