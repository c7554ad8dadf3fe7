//! A model of the summary by document 02's request 4. crates/summary goes from sample to sample; the
//! model keeps the raw history, which is the decision and the difference after each sample, and
//! cuts it into periods afterwards.

use pescrondilu_sys::summary::Summary;
use stereo_oracle::answers::{ACCEPTED, Said};

/// A sample whose magnitude is measured.
pub trait Measured: Copy {
    /// The magnitude as a number that grows with it; a NaN has none.
    fn size(self) -> Option<u32>;
    fn from_size(size: u32) -> Self;
    /// No NaN, and the sign bit is not set.
    fn is_plain(self) -> bool;
}

/// The bits of a float without its sign grow with its magnitude, up to those of infinity.
const INFINITY: u32 = 0x7F80_0000;

impl Measured for f32 {
    fn size(self) -> Option<u32> {
        let bits = self.to_bits() & 0x7FFF_FFFF;
        (bits <= INFINITY).then_some(bits)
    }

    fn from_size(size: u32) -> f32 {
        f32::from_bits(size)
    }

    fn is_plain(self) -> bool {
        self.to_bits() <= INFINITY
    }
}

impl Measured for i16 {
    fn size(self) -> Option<u32> {
        Some(self.unsigned_abs() as u32)
    }

    fn from_size(size: u32) -> i16 {
        i16::try_from(size).expect("no difference is -32768")
    }

    fn is_plain(self) -> bool {
        self >= 0
    }
}

/// The samples that a record holds, added in a number that does not wrap.
pub fn held<S>(s: &Summary<S>) -> u64 {
    s.stereo as u64 + s.mono as u64
}

/// Periods that end within n samples more; none of the period 0.
pub fn places<S>(s: &Summary<S>, n: usize) -> u64 {
    (held(s) + n as u64)
        .checked_div(s.period as u64)
        .unwrap_or(0)
}

/// Cause 20.
pub fn is_refused<S: Measured>(s: &Summary<S>) -> bool {
    let held = held(s);
    s.period == 0
        || held >= s.period as u64
        || s.changes as u64 > held
        || !s.magnitude.is_plain()
        || held == 0 && s.magnitude.size() != Some(0)
}

/// The answer of a call with n samples, from what the block alone answers and from the lengths of
/// the four further outputs.
pub fn said<S: Measured>(s: &Summary<S>, block: Said, n: usize, columns: [usize; 4]) -> Said {
    if is_refused(s) {
        return [120, 0, 0];
    }
    if block != ACCEPTED {
        return block;
    }
    let places = places(s, n) as usize;
    match columns.iter().find(|length| **length != places) {
        Some(length) => [111, places, *length],
        None => ACCEPTED,
    }
}

/// One sample of the raw history.
#[derive(Clone, Copy, Debug)]
pub struct Sample<S> {
    pub stereo: bool,
    pub difference: S,
}

/// One period, or what there is of it.
#[derive(Clone, Copy, Debug, PartialEq)]
pub struct Figures<S> {
    pub stereo: u32,
    pub mono: u32,
    pub changes: u32,
    pub magnitude: S,
}

/// A summary by its raw history.
#[derive(Clone)]
pub struct Model<S> {
    /// the record that it began with
    begun: Summary<S>,
    history: Vec<Sample<S>>,
}

impl<S: Measured> Model<S> {
    pub fn new(begun: Summary<S>) -> Self {
        let before = (begun.before != 0) as u32;
        Model {
            begun: Summary { before, ..begun },
            history: Vec::new(),
        }
    }

    /// The samples of an accepted call; the periods that they end.
    pub fn take(&mut self, samples: &[Sample<S>]) -> Vec<Figures<S>> {
        let earlier = self.ends().len();
        self.history.extend(samples);
        self.finished().split_off(earlier)
    }

    /// Every period that has ended.
    fn finished(&self) -> Vec<Figures<S>> {
        let mut from = 0;
        let mut figures = Vec::new();
        for to in self.ends() {
            figures.push(self.figures(from, to));
            from = to;
        }
        figures
    }

    /// Where in the history a period ends. What was held at the start is a part of the first one.
    fn ends(&self) -> Vec<usize> {
        let period = self.begun.period as usize;
        let first = period.saturating_sub(held(&self.begun) as usize);
        match first {
            0 => Vec::new(),
            _ => (first..=self.history.len()).step_by(period).collect(),
        }
    }

    /// The decision before a sample.
    fn before(&self, i: usize) -> bool {
        match i {
            0 => self.begun.before != 0,
            _ => self.history[i - 1].stereo,
        }
    }

    /// The figures of a slice of the history, and at its start of what was held then.
    fn figures(&self, from: usize, to: usize) -> Figures<S> {
        let slice = &self.history[from..to];
        let stereo = slice.iter().filter(|s| s.stereo).count() as u32;
        let changes = (from..to)
            .filter(|i| self.history[*i].stereo != self.before(*i))
            .count() as u32;
        let sizes = slice.iter().filter_map(|s| s.difference.size());
        let size = sizes.max().unwrap_or(0);
        let mono = slice.len() as u32 - stereo;
        if from > 0 {
            return Figures {
                stereo,
                mono,
                changes,
                magnitude: S::from_size(size),
            };
        }
        let begun = &self.begun;
        let held = begun.magnitude.size().unwrap_or(0);
        Figures {
            stereo: begun.stereo + stereo,
            mono: begun.mono + mono,
            changes: begun.changes + changes,
            magnitude: S::from_size(size.max(held)),
        }
    }

    /// The record that the summary stands at. A record that is refused stays as it came.
    pub fn record(&self) -> Summary<S> {
        if self.history.is_empty() {
            return self.begun;
        }
        let n = self.history.len();
        let f = self.figures(self.ends().last().copied().unwrap_or(0), n);
        Summary {
            period: self.begun.period,
            stereo: f.stereo,
            mono: f.mono,
            changes: f.changes,
            magnitude: f.magnitude,
            before: self.before(n) as u32,
        }
    }
}
