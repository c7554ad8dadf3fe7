//! Writes the list that crates/test_rds_replay replays: the model's answers to the calls of
//! sessions.
//!
//!     list-rds PATH

use std::collections::BTreeMap;
use std::fmt::Write;

use rds_oracle::Former;
use rds_oracle::former::{GROUP, is_refused, is_version_b};
use rds_oracle::inputs::{Call, ROOM, call};
use stereo_oracle::answers::{ACCEPTED, Said};
use stereo_oracle::inputs::Inputs;

const SESSIONS: usize = 400;

/// What each byte of the buffer holds before a call.
const NINE: u8 = 9;

/// What the counts tell apart.
fn kind(call: &Call, said: Said) -> &'static str {
    match said[0] {
        0 if is_version_b(&call.words) => "accepted of version B",
        0 => "accepted of version A",
        111 if is_refused(&call.words) => "refused by 11, where 19 is in force too",
        111 => "refused by 11 alone",
        _ => "refused by 19",
    }
}

/// Word one highest.
fn packed_words(call: &Call) -> u64 {
    call.words.iter().fold(0, |n, w| n << 16 | *w as u64)
}

/// The bits of an accepted group in two halves, the first bit highest; zeros of a refused one.
fn halves(said: Said, output: &[u8]) -> [u64; 2] {
    if said != ACCEPTED {
        return [0, 0];
    }
    let (first, last) = output.split_at(GROUP / 2);
    [first, last].map(|half| half.iter().fold(0, |n, bit| n << 1 | *bit as u64))
}

/// A call's five answers.
fn answers(former: &mut Former, call: &Call) -> (Said, [u64; 5]) {
    let mut room = [NINE; ROOM];
    let output = &mut room[..call.length];
    let said = former.group(&call.words, output);
    let [first, last] = halves(said, output);
    let left = room.iter().filter(|byte| **byte == NINE).count() as u64;
    let [code, expected, got] = said.map(|n| n as u64);
    let words = [
        code,
        expected << 32 | got,
        first,
        last,
        2 * left + former.carried as u64,
    ];
    (said, words)
}

struct List {
    text: String,
    r: Inputs,
    counts: BTreeMap<&'static str, u64>,
}

impl List {
    fn line(&mut self, name: &str, arguments: [u64; 2], answers: [u64; 5]) {
        write!(self.text, "{name:16}").expect("a string can be written");
        for w in arguments.iter().chain(&answers) {
            write!(self.text, " {w:016x}").expect("a string can be written");
        }
        self.text.push('\n');
    }

    fn group(&mut self, former: &mut Former) {
        let call = call(&mut self.r);
        let (said, answers) = answers(former, &call);
        let arguments = [packed_words(&call), call.length as u64];
        self.line("group", arguments, answers);
        *self.counts.entry(kind(&call, said)).or_default() += 1;
    }

    fn session(&mut self) {
        let mut former = Former::default();
        self.line("new", [0; 2], [0; 5]);
        for _ in 0..1 + self.r.below(9) {
            self.group(&mut former);
        }
    }
}

fn main() {
    let Some(path) = std::env::args_os().nth(1) else {
        eprintln!("usage: list-rds PATH");
        std::process::exit(2);
    };
    let mut list = List {
        text: String::new(),
        r: Inputs::new(1),
        counts: BTreeMap::new(),
    };
    (0..SESSIONS).for_each(|_| list.session());
    if let Err(e) = std::fs::write(&path, &list.text) {
        eprintln!("{}: {e}", path.display());
        std::process::exit(1);
    }
    println!(
        "{} lines, {} bytes",
        list.text.lines().count(),
        list.text.len()
    );
    for (kind, count) in &list.counts {
        println!("{count} {kind}");
    }
}
