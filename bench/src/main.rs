//! How long our matrix and encoders take beside the original's fast ones: the ratio of the median
//! times, ours over the original's. Both sides are in this one program and take turns, so that what
//! else the machine does falls on both.

mod decoder;

use std::hint::black_box;
use std::time::Instant;

use pescrondilu_sys::Code;
use pescrondilu_sys::decoder::matrix;
use pescrondilu_sys::encoder::{
    Nco, StereoEncode, StereoEncodeRds, encode_block, encode_rds_block,
};
use sdrk_core::Fallback;
use sdrk_core::kernels::stereo::{StereoEncode as _, StereoEncodeRds as _, StereoMatrix};
use sdrk_core::probe;
use sdrk_core::tables::COS_F32;
use sdrk_core::types::{C32, CQ15, Q15};

/// What a block answers that was carried out.
const ACCEPTED: Code = Code {
    code: 0,
    expected: 0,
    got: 0,
};

/// Runs of each side; the median of them counts.
const RUNS: usize = 401;

/// Samples of one run, in as many blocks as it takes.
const SAMPLES: usize = 1 << 16;

/// A slice inside a larger buffer. Each slice begins at another place of a page, so that no two of
/// them meet in the cache.
struct Staggered<T> {
    room: Vec<T>,
    from: usize,
    n: usize,
}

impl<T: Copy> Staggered<T> {
    fn new(place: usize, n: usize, value: impl Fn(usize) -> T) -> Self {
        let from = place * 208 / size_of::<T>();
        let room: Vec<T> = (0..from + n)
            .map(|i| value(i.saturating_sub(from)))
            .collect();
        Staggered { room, from, n }
    }

    fn get(&self) -> &[T] {
        &self.room[self.from..self.from + self.n]
    }

    fn get_mut(&mut self) -> &mut [T] {
        &mut self.room[self.from..self.from + self.n]
    }
}

fn seconds(mut work: impl FnMut()) -> f64 {
    let start = Instant::now();
    work();
    start.elapsed().as_secs_f64()
}

fn median(mut times: Vec<f64>) -> f64 {
    times.sort_unstable_by(f64::total_cmp);
    times[times.len() / 2]
}

/// The ratio of the medians, the two sides taking turns and each going first half of the time.
fn ratio(n: usize, mut ours: impl FnMut(), mut original: impl FnMut()) -> f64 {
    let blocks = SAMPLES / n;
    let mut run_ours = || seconds(|| (0..blocks).for_each(|_| ours()));
    let mut run_original = || seconds(|| (0..blocks).for_each(|_| original()));
    let (mut a, mut b) = (Vec::new(), Vec::new());
    for k in 0..RUNS {
        if k % 2 == 0 {
            a.push(run_ours());
            b.push(run_original());
        } else {
            b.push(run_original());
            a.push(run_ours());
        }
    }
    median(a) / median(b)
}

fn wave(i: usize) -> f32 {
    ((i * 37 % 200) as f32 - 100.0) / 128.0
}

fn wave_q15(i: usize) -> i16 {
    (i * 3571 % 40000) as i16
}

fn matrix_f32(n: usize) -> f64 {
    let sum = Staggered::new(0, n, wave);
    let difference = Staggered::new(1, n, |i| wave(i + 11));
    let mut left = Staggered::new(2, n, |_| 0.0f32);
    let mut right = Staggered::new(3, n, |_| 0.0f32);
    let input = Staggered::new(4, n, |i| C32::new(wave(i), wave(i + 11)));
    let mut output = Staggered::new(5, n, |_| C32::new(0.0, 0.0));
    let answer = ratio(
        n,
        || {
            let (s, d) = (black_box(sum.get()), black_box(difference.get()));
            let (l, r) = (left.get_mut(), right.get_mut());
            let answer = matrix(s, d, l, r);
            assert_eq!(black_box(answer), ACCEPTED);
        },
        || {
            let done = Fallback.stereo_matrix(black_box(input.get()), output.get_mut());
            assert!(black_box(done).is_ok());
        },
    );
    let last = output.get()[n - 1];
    assert_eq!((left.get()[n - 1], right.get()[n - 1]), (last.re, last.im));
    answer
}

fn matrix_q15(n: usize) -> f64 {
    let sum = Staggered::new(0, n, wave_q15);
    let difference = Staggered::new(1, n, |i| wave_q15(i + 11));
    let mut left = Staggered::new(2, n, |_| 0i16);
    let mut right = Staggered::new(3, n, |_| 0i16);
    let pair = |re, im| CQ15 {
        re: Q15(re),
        im: Q15(im),
    };
    let input = Staggered::new(4, n, |i| pair(wave_q15(i), wave_q15(i + 11)));
    let mut output = Staggered::new(5, n, |_| pair(0, 0));
    let answer = ratio(
        n,
        || {
            let (s, d) = (black_box(sum.get()), black_box(difference.get()));
            let (l, r) = (left.get_mut(), right.get_mut());
            let answer = matrix(s, d, l, r);
            assert_eq!(black_box(answer), ACCEPTED);
        },
        || {
            let done = Fallback.stereo_matrix(black_box(input.get()), output.get_mut());
            assert!(black_box(done).is_ok());
        },
    );
    let last = output.get()[n - 1];
    let got = (left.get()[n - 1], right.get()[n - 1]);
    assert_eq!(got, (last.re.0, last.im.0));
    answer
}

/// 19000 Hz at a rate of 192000, with a station's levels.
const INC: u32 = 425022805;
const MAIN: f32 = 0.9;
const PILOT: f32 = 0.09;
const LEVEL: f32 = 0.04;

fn encoder(n: usize, with_rds: bool) -> f64 {
    // the same table on both sides
    let table = black_box(&COS_F32[..]);
    let left = Staggered::new(0, n, wave);
    let right = Staggered::new(1, n, |i| wave(i + 11));
    let rds = Staggered::new(2, n, |i| wave(i + 17));
    let mut output = Staggered::new(3, n, |_| 0.0f32);
    let input = Staggered::new(4, n, |i| C32::new(wave(i), wave(i + 11)));
    let mut theirs = Staggered::new(5, n, |_| 0.0f32);
    let mut ours = StereoEncodeRds {
        enc: StereoEncode {
            nco: Nco { phase: 0, inc: INC },
            main: MAIN,
            pilot: PILOT,
        },
        rds: LEVEL,
    };
    let mut state = probe::encoder_rds(probe::encoder(0, INC, MAIN, PILOT), LEVEL);
    let mut plain = probe::encoder(0, INC, MAIN, PILOT);
    let answer = ratio(
        n,
        || {
            let (l, r) = (black_box(left.get()), black_box(right.get()));
            let (b, o) = (black_box(rds.get()), output.get_mut());
            let answer = if with_rds {
                let reply = encode_rds_block(ours, table, l, r, b, o);
                ours = reply.encoder;
                reply.answer
            } else {
                let reply = encode_block(ours.enc, table, l, r, o);
                ours.enc = reply.encoder;
                reply.answer
            };
            assert_eq!(black_box(answer), ACCEPTED);
        },
        || {
            let i = black_box(input.get());
            let done = if with_rds {
                let b = black_box(rds.get());
                Fallback.stereo_encode_rds(&mut state, i, b, theirs.get_mut())
            } else {
                Fallback.stereo_encode(&mut plain, i, theirs.get_mut())
            };
            assert!(black_box(done).is_ok());
        },
    );
    let bits = |x: &[f32]| x.iter().map(|y| y.to_bits()).collect::<Vec<_>>();
    assert_eq!(bits(output.get()), bits(theirs.get()));
    let phase = if with_rds {
        state.phase()
    } else {
        plain.phase()
    };
    assert_eq!(ours.enc.nco.phase, phase);
    answer
}

/// The rows beside an earlier library, if one was linked.
#[cfg(before)]
use decoder::before::run as beside_earlier;

#[cfg(not(before))]
fn beside_earlier() {
    eprintln!("bench: no earlier library was named by BEFORE when this was built");
    std::process::exit(1);
}

fn beside_original() {
    for n in [64, 4096] {
        println!("matrix_f32  {n:5} {:.3}", matrix_f32(n));
        println!("matrix_q15  {n:5} {:.3}", matrix_q15(n));
        println!("encode      {n:5} {:.3}", encoder(n, false));
        println!("encode_rds  {n:5} {:.3}", encoder(n, true));
    }
    decoder::run();
    decoder::summary::run();
    decoder::rack::run();
}

fn main() {
    match std::env::args().nth(1).as_deref() {
        None => beside_original(),
        Some("before") => beside_earlier(),
        Some("summary") => decoder::summary::run(),
        Some("rack") => decoder::rack::run(),
        Some(_) => {
            eprintln!("usage: bench [before | summary | rack]");
            std::process::exit(2);
        }
    }
}
