//! One part of the comparison: its cases, its differences, how many calls each cause refused.

use std::collections::BTreeMap;

use stereo_oracle::answers::{ACCEPTED, Said};

use crate::wide::{Counts, PLACES};

/// Differences of one part that are printed; the others are counted.
const SHOWN: u64 = 5;

pub struct Part {
    name: &'static str,
    pub cases: u64,
    // of blocks: the output samples compared
    pub samples: u64,
    // calls that are merged blocks of the decoder
    pub merged: u64,
    // decoder calls after which the decoder says stereo
    pub stereo: u64,
    // decoder blocks that the plain original does not take, so that the fast one answers alone
    pub alone: u64,
    // decoder blocks in which the two originals differ, where the plain one's rounding stops
    pub stopped: u64,
    // groups of version B that were accepted
    pub version_b: u64,
    // pilots of which the scan says that a sample is not finite
    pub not_finite: u64,
    // verdicts that are yes
    pub on_air: u64,
    // summaries that calls finished, changes between a call's samples, and calls that finished more
    // than one
    pub summaries: u64,
    pub changes: u64,
    pub several: u64,
    // summary calls that the length of one of the four further outputs refused
    pub by_column: u64,
    // lists of rounds of a rack, and the decoders that accepted rounds had
    pub sessions: u64,
    pub blocks: u64,
    // accepted rounds after which some decoder has samples left, in which one has none, and in which
    // a part is cut off
    pub unfinished: u64,
    pub empty: u64,
    pub cut: u64,
    // accepted rounds in whose lists of slices one lacks, and with slices past the number
    pub lacking: u64,
    pub past: u64,
    // rounds that a decoder's cause refused, by its place
    pub at: [u64; 8],
    // blocks of fast f32 decoders with a count above 0, the sum of the counts, how often f was at each
    // of the places, and whether that is told
    counting: u64,
    wide: u64,
    f_at: [u64; 6],
    f_told: bool,
    // how many of our answers are a refusal, by its number
    refused: BTreeMap<u64, u64>,
    differences: u64,
    // the cases up to the first difference
    first: u64,
    // the smallest call that differed, by its size
    smallest: Option<(usize, String)>,
}

impl Part {
    pub fn new(name: &'static str) -> Self {
        Part {
            name,
            cases: 0,
            samples: 0,
            merged: 0,
            stereo: 0,
            alone: 0,
            stopped: 0,
            version_b: 0,
            not_finite: 0,
            on_air: 0,
            summaries: 0,
            changes: 0,
            several: 0,
            by_column: 0,
            sessions: 0,
            blocks: 0,
            unfinished: 0,
            empty: 0,
            cut: 0,
            lacking: 0,
            past: 0,
            at: [0; 8],
            counting: 0,
            wide: 0,
            f_at: [0; 6],
            f_told: false,
            refused: BTreeMap::new(),
            differences: 0,
            first: 0,
            smallest: None,
        }
    }

    /// Counts an answer that is a refusal.
    pub fn refused(&mut self, number: u64) {
        *self.refused.entry(number).or_default() += 1;
    }

    /// Counts a block's answer if it is a refusal.
    pub fn said(&mut self, said: Said) {
        if said != ACCEPTED {
            self.refused(said[0] as u64 - 100);
        }
    }

    /// Counts the code of a construction or of a set call if it is a refusal.
    pub fn code(&mut self, code: u32) {
        if code > 0 {
            self.refused(code as u64 - 100);
        }
    }

    /// Counts what a block counted, by the model.
    pub fn counts(&mut self, counts: &Counts) {
        self.counting += (counts.wide > 0) as u64;
        self.wide += counts.wide as u64;
        for (all, at) in self.f_at.iter_mut().zip(counts.at) {
            *all += at;
        }
    }

    /// For a part that is there for the edges of the quick way: it differs where it missed one.
    pub fn reached(&mut self) {
        self.f_told = true;
        for (name, at) in PLACES.iter().zip(self.f_at) {
            if at == 0 {
                self.differ(format!("no f was {name}"));
            }
        }
    }

    pub fn differ(&mut self, text: String) {
        self.differences += 1;
        if self.differences <= SHOWN {
            println!("{}: {text}", self.name);
        }
    }

    /// A difference of which the smallest is printed at the end.
    pub fn differ_in(&mut self, size: usize, text: String) {
        self.differences += 1;
        if self.differences == 1 {
            self.first = self.cases;
        }
        if self
            .smallest
            .as_ref()
            .is_none_or(|(least, _)| size < *least)
        {
            self.smallest = Some((size, text));
        }
    }

    /// One case. `inputs` is asked only where the answers differ.
    pub fn same<T: PartialEq + std::fmt::Debug>(
        &mut self,
        expected: T,
        got: T,
        inputs: impl Fn() -> String,
    ) {
        self.cases += 1;
        if got != expected {
            self.differ(format!("{}: {expected:x?}, ours {got:x?}", inputs()));
        }
    }

    /// A block's output, word by word; no case of its own.
    pub fn same_words(&mut self, expected: &[u64], got: &[u64], inputs: impl Fn(usize) -> String) {
        if expected.len() != got.len() {
            self.differ(format!("lengths {} and {}", expected.len(), got.len()));
        }
        self.samples += expected.len() as u64;
        for (i, (e, g)) in expected.iter().zip(got).enumerate() {
            if e != g {
                self.differ(format!("{}: {e:x}, ours {g:x}", inputs(i)));
            }
        }
    }

    pub fn report(&self) -> bool {
        print!("{:16} {} cases", self.name, self.cases);
        if self.samples > 0 {
            print!(" of {} samples", self.samples);
        }
        if self.sessions > 0 {
            print!(" in {} sessions", self.sessions);
        }
        if self.blocks > 0 {
            print!(", {} blocks of decoders", self.blocks);
        }
        if self.merged > 0 {
            print!(", {} merged blocks", self.merged);
        }
        for (number, count) in &self.refused {
            print!(", {count} refused by {number}");
            if *number == 11 && self.by_column > 0 {
                print!(" ({} by a column)", self.by_column);
            }
        }
        if self.at.iter().sum::<u64>() > 0 {
            print!(", by decoders' places {:?}", self.at);
        }
        if self.unfinished > 0 {
            print!(", {} with samples left", self.unfinished);
        }
        if self.empty > 0 {
            print!(", {} with an empty wait", self.empty);
        }
        if self.cut > 0 {
            print!(", {} with a part cut off", self.cut);
        }
        if self.lacking > 0 {
            print!(", {} with a slice not there", self.lacking);
        }
        if self.past > 0 {
            print!(", {} with slices past the number", self.past);
        }
        if self.stereo > 0 {
            print!(", {} in stereo", self.stereo);
        }
        if self.alone > 0 {
            print!(", {} by Fallback alone", self.alone);
        }
        if self.stopped > 0 {
            print!(", {} where Fallback does not stop", self.stopped);
        }
        if self.not_finite > 0 {
            print!(", {} not finite", self.not_finite);
        }
        if self.on_air > 0 {
            print!(", {} on air", self.on_air);
        }
        if self.version_b > 0 {
            print!(", {} accepted of version B", self.version_b);
        }
        if self.summaries > 0 {
            print!(", {} summaries, {} changes", self.summaries, self.changes);
        }
        if self.several > 0 {
            print!(", {} calls with more than one summary", self.several);
        }
        if self.wide > 0 {
            print!(
                ", {} wide corrections in {} blocks",
                self.wide, self.counting
            );
        }
        if self.f_told {
            let told = PLACES.iter().zip(self.f_at);
            told.for_each(|(name, at)| print!(", f {at} times {name}"));
        }
        println!(", {} differences", self.differences);
        if let Some((_, text)) = &self.smallest {
            println!("{}: the first in case {}", self.name, self.first);
            println!("{}: the smallest call: {text}", self.name);
        }
        self.differences == 0
    }
}
