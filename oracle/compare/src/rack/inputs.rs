//! Racks and rounds for the comparison.

use sdrk_core::probe::Fields;
use stereo_oracle::answers::TABLE;
use stereo_oracle::inputs::{Inputs, one};

use super::model::{Asked, PLACES};
use crate::summary::inputs::{Tables, Varied, decoder};

/// What waits for one decoder.
#[derive(Clone)]
pub struct Queue<S> {
    pub mpx: Vec<S>,
    pub pilot: Vec<S>,
}

impl<S> Default for Queue<S> {
    fn default() -> Self {
        Queue {
            mpx: Vec::new(),
            pilot: Vec::new(),
        }
    }
}

impl<S: Copy> Queue<S> {
    /// More samples behind those that wait, the pilot for the decoder as it is.
    pub fn join<F: Varied<Sample = S>>(&mut self, r: &mut Inputs, f: &Fields<F::Value>, n: usize) {
        self.mpx.extend(F::mpx(r, n));
        self.pilot.extend(F::pilot(r, n, f));
    }

    /// The samples that a decoder took are gone; the rest is brought again.
    pub fn take(&mut self, n: usize) {
        self.mpx.drain(..n.min(self.mpx.len()));
        self.pilot.drain(..n.min(self.pilot.len()));
    }
}

pub type Queues<S> = [Queue<S>; PLACES];

/// A number of decoders that a rack may have.
pub fn number(r: &mut Inputs) -> usize {
    2 + r.below(7) as usize
}

/// Numbers outside, some of them with such low bits as a number inside has.
pub const OUTSIDE: [usize; 9] = [
    0,
    1,
    9,
    10,
    255,
    (1 << 8) + 4,
    (1 << 32) + 3,
    (1 << 63) + 8,
    usize::MAX,
];

/// A decoder that is taken.
pub fn fit<F: Varied>(r: &mut Inputs) -> Fields<F::Value> {
    loop {
        let f = decoder::<F>(r);
        if F::is_fit(&f) {
            return f;
        }
    }
}

/// How many samples join.
pub fn joining(r: &mut Inputs) -> usize {
    match r.below(512) {
        0 => 4096,
        1..=170 => one(r, &[0, 1, 2, 63, 64, 65]),
        171..=400 => r.below(20) as usize,
        _ => r.below(130) as usize,
    }
}

/// From none to more than all, often near a limit: that of cause 22, the longest wait, all waits.
fn allowance(r: &mut Inputs, number: usize, waits: &[usize]) -> u32 {
    let n = number.clamp(1, PLACES + 1) as u64;
    let longest = waits.iter().copied().max().unwrap_or(0) as u64;
    let all = waits.iter().sum::<usize>() as u64;
    let near = |r: &mut Inputs, x: u64| (x + r.below(3)).saturating_sub(1);
    let allowance = match r.below(32) {
        0 => r.below(n),
        1 => near(r, n),
        2 => u32::MAX as u64 - r.below(2),
        // large, with small lower bits
        3 => (r.u32() as u64 & !0xFFFF) + r.below(20 * n),
        4 | 5 => near(r, n * longest),
        6 | 7 => near(r, all),
        8..=15 => n * (1 + r.below(6)) + r.below(n),
        16..=23 => n * (1 + r.below(64)) + r.below(n),
        _ => n + r.below(n * longest + 1),
    };
    allowance.min(u32::MAX as u64) as u32
}

/// One length damaged.
fn damaged(r: &mut Inputs, n: usize) -> usize {
    match r.below(16) {
        0..=4 => n.saturating_sub(1),
        5..=9 => n + 1,
        10..=12 => 0,
        13 | 14 => one(r, &[1, 5, 64]),
        _ => one(r, &[usize::MAX, usize::MAX - 3, 1 << 63, 1 << 32]),
    }
}

/// The most samples that a part is brought to beyond those that are there.
const MORE: usize = 70;

/// The flat slice of the parts, each brought to its length.
fn flat<'a, S: Copy + 'a>(
    parts: impl Iterator<Item = (&'a [S], usize)>,
    mut more: impl FnMut(usize) -> Vec<S>,
) -> Vec<S> {
    let mut all = Vec::new();
    for (part, length) in parts {
        let n = length.min(part.len());
        all.extend(&part[..n]);
        all.extend(more((length - n).min(MORE)));
    }
    all
}

/// A slice's end moved: some of it cut off, or some more behind it.
fn moved(r: &mut Inputs, n: usize) -> usize {
    match r.below(4) {
        0 => n.saturating_sub(1 + r.below(3) as usize),
        1 => r.below(n as u64 + 1) as usize,
        _ => n + 1 + r.below(5) as usize,
    }
}

/// The ends of the four flat slices, given where the parts end; one round in five has moved ones,
/// half of those all alike.
fn ends(r: &mut Inputs, at: [usize; 4]) -> [usize; 4] {
    match r.below(10) {
        0 => {
            let least = at.into_iter().min().unwrap_or(0);
            [moved(r, least); 4]
        }
        1 => at.map(|n| match r.below(2) {
            0 => moved(r, n),
            _ => n,
        }),
        _ => at,
    }
}

/// A table's length, one in twenty a wrong one.
fn entries(r: &mut Inputs) -> usize {
    match r.below(20) {
        0 => one(r, &[0, 1, 4096, 4098, 8194]),
        _ => TABLE,
    }
}

/// What a round is built of beside the samples.
pub struct Shape {
    pub number: usize,
    pub allowance: u32,
    pub waiting: [[usize; 4]; PLACES],
    /// what there is of each part in the flat slices
    pub brought: [[usize; 4]; PLACES],
    pub entries: usize,
}

/// The decoders whose samples are brought: a number outside has those of at most all places.
fn used(number: usize) -> usize {
    number.min(PLACES)
}

/// The flat slices are made of the queues, each part brought to its length.
pub fn built<F: Varied>(
    r: &mut Inputs,
    shape: Shape,
    queues: &Queues<F::Sample>,
    tables: &Tables<F>,
) -> Asked<F::Sample> {
    let parts = queues.iter().zip(shape.brought).take(used(shape.number));
    let mpx = parts.clone().map(|(q, n)| (&q.mpx[..], n[0]));
    let pilot = parts.clone().map(|(q, n)| (&q.pilot[..], n[1]));
    let output = |of: usize| {
        let lengths = parts.clone().map(|(q, n)| n[of].min(q.mpx.len() + MORE));
        lengths.sum()
    };
    Asked {
        number: shape.number,
        allowance: shape.allowance,
        waiting: shape.waiting,
        table: tables.any(r)[..shape.entries].to_vec(),
        mpx: flat(mpx, |n| F::mpx(r, n)),
        pilot: flat(pilot, |n| F::samples(r, n)),
        outputs: [output(2), output(3)],
        word: r.u32(),
    }
}

/// Brings the flat slices to other ends.
fn end_at<F: Varied>(r: &mut Inputs, a: &mut Asked<F::Sample>, ends: [usize; 4]) {
    let [mpx, pilot, outputs @ ..] = ends;
    a.mpx.extend(F::mpx(r, mpx.saturating_sub(a.mpx.len())));
    a.mpx.truncate(mpx);
    a.pilot
        .extend(F::samples(r, pilot.saturating_sub(a.pilot.len())));
    a.pilot.truncate(pilot);
    a.outputs = outputs;
}

/// Some lengths of parts damaged, of any decoder: one alone, or all four of it alike.
fn damage(r: &mut Inputs, used: usize, waiting: &mut [[usize; 4]; PLACES]) {
    for _ in 0..one(r, &[1, 1, 1, 2, 3, 8]) {
        let k = r.below(used as u64) as usize;
        let n = damaged(r, waiting[k][0]);
        match r.below(3) {
            0 => waiting[k] = [n; 4],
            _ => waiting[k][r.below(4) as usize] = n,
        }
    }
}

/// A round of what waits; one in five has damaged lengths.
pub fn asked<F: Varied>(
    r: &mut Inputs,
    number: usize,
    queues: &Queues<F::Sample>,
    tables: &Tables<F>,
) -> Asked<F::Sample> {
    let used = used(number);
    let waits = queues.each_ref().map(|q| q.mpx.len());
    let mut brought = waits.map(|n| [n; 4]);
    // what is past the number is not read
    brought[used..].fill([one(r, &[0, 3, usize::MAX]); 4]);
    let mut waiting = brought;
    if used > 0 && r.below(5) == 0 {
        damage(r, used, &mut waiting);
        // the flat slices follow the damaged lengths, or stay so that the parts move
        if r.below(2) == 0 {
            brought = waiting;
        }
    }
    let shape = Shape {
        number,
        allowance: allowance(r, number, &waits[..used]),
        waiting,
        brought,
        entries: entries(r),
    };
    let mut a = built::<F>(r, shape, queues, tables);
    let at = [a.mpx.len(), a.pilot.len(), a.outputs[0], a.outputs[1]];
    let ends = ends(r, at);
    end_at::<F>(r, &mut a, ends);
    a
}

/// A round with nothing wrong, of an accepted number and of any allowance.
pub fn plain<S: Copy>(
    number: usize,
    allowance: u32,
    queues: &Queues<S>,
    table: &[S],
    word: u32,
) -> Asked<S> {
    let used = &queues[..number];
    let mut waiting = [[0; 4]; PLACES];
    for (w, q) in waiting.iter_mut().zip(used) {
        *w = [q.mpx.len(); 4];
    }
    let mpx: Vec<S> = used.iter().flat_map(|q| q.mpx.iter().copied()).collect();
    Asked {
        number,
        allowance,
        waiting,
        table: table.to_vec(),
        pilot: used.iter().flat_map(|q| q.pilot.iter().copied()).collect(),
        outputs: [mpx.len(); 2],
        mpx,
        word,
    }
}
