//! Lookup, correction, oscillator, matrix, encoders and verdict, compared with the original.

use numbers_oracle::answers::{word_f32, word_i16};
use pescrondilu_sys::decoder::matrix;
use pescrondilu_sys::encoder::{Nco, pescrondilu_nco_advance, pescrondilu_nco_increment_for};
use pescrondilu_sys::numbers::{
    self, Corrected, pescrondilu_correction_fast, pescrondilu_correction_plain,
    pescrondilu_quick_serves,
};
use stereo_oracle::answers::{self, Arguments, Block, Encoder, SIDES, TABLE};
use stereo_oracle::inputs::{Inputs, Limits, corrections, limits, one};

use crate::encoder;
use crate::part::Part;
use crate::sessions;
use crate::verdict;
use crate::wide::{MOST, is_wide, v_of};

/// Lengths of the blocks.
const LENGTHS: [usize; 7] = [0, 1, 2, 63, 64, 65, 4096];

fn lookups() -> bool {
    let mut r = Inputs::new(3);
    let mut f32s = Part::new("cos_f32");
    let mut pairs = Part::new("interp_f32_pair");
    let mut plain = Part::new("cos_q15");
    let mut quick = Part::new("interp_q15");
    for k in 0..40 {
        let (tf, tq) = (r.table_f32(k % 2 == 0), r.table_q15());
        // each entry's own phase and the one before the next entry, then any
        let ends = (0..=4095u32).flat_map(|i| [i << 20, i << 20 | 0xF_FFFF]);
        let any: Vec<u32> = (0..60_000).map(|_| r.u32()).collect();
        for p in ends.chain(any) {
            let i = (p >> 20) as usize;
            let of_f32 = || {
                format!(
                    "p {p:08x}, entries {:08x} {:08x}",
                    tf[i].to_bits(),
                    tf[i + 1].to_bits()
                )
            };
            let of_q15 = || format!("p {p:08x}, entries {} {}", tq[i], tq[i + 1]);
            f32s.same(
                answers::cos_f32(&tf, p),
                word_f32(numbers::cos_f32(&tf, p)),
                of_f32,
            );
            let pair = numbers::interp_f32_pair(&tf, p);
            pairs.same(
                answers::pair_f32(&tf, p),
                [pair.c, pair.s].map(word_f32),
                of_f32,
            );
            let q = answers::cos_q15(&tq, p);
            plain.same(q, word_i16(numbers::cos_q15(&tq, p)), of_q15);
            quick.same(q, numbers::interp_q15(&tq, p) as i64 as u64, of_q15);
        }
    }
    f32s.report() & pairs.report() & plain.report() & quick.report()
}

/// Whether |v| is below 2^51, by the pattern without the sign: a NaN's is above that of infinity.
fn serves(v: f64) -> bool {
    v.to_bits() << 1 < MOST.to_bits() << 1
}

struct Corrections {
    plain: Part,
    fast: Part,
    serves: Part,
}

impl Corrections {
    fn new() -> Self {
        Corrections {
            plain: Part::new("correction_plain"),
            fast: Part::new("correction_fast"),
            serves: Part::new("quick_serves"),
        }
    }

    fn compare(&mut self, f: f32) {
        let of = || format!("f {:08x}", f.to_bits());
        let plain = pescrondilu_correction_plain(f);
        let fast = pescrondilu_correction_fast(f);
        self.plain.same(answers::correction_plain(f), plain, of);
        let expected = Corrected {
            step: answers::correction_fallback(f),
            quick: !is_wide(f),
        };
        self.fast.same(expected, fast, of);
        if plain != fast.step {
            self.fast.differ(format!("{}: plain {plain:x}", of()));
        }
        self.compare_v(v_of(f));
    }

    fn compare_v(&mut self, v: f64) {
        let of = || format!("v {:016x}", v.to_bits());
        self.serves.same(serves(v), pescrondilu_quick_serves(v), of);
    }

    fn report(&self) -> bool {
        self.plain.report() & self.fast.report() & self.serves.report()
    }
}

fn some_corrections() -> bool {
    let mut r = Inputs::new(4);
    let mut c = Corrections::new();
    corrections().into_iter().for_each(|f| c.compare(f));
    for k in 0..100_000_000u64 {
        let w = r.u32();
        c.compare(f32::from_bits(match k % 2 {
            0 => w,
            // a size from 2^-34 to 2^21, where v goes from less than 1 to above 2^51
            _ => w & 0x807F_FFFF | (93 + (w >> 23 & 0xFF) % 56) << 23,
        }));
    }
    let edges = (0..2001).map(|k| MOST.to_bits() + k - 1000);
    for bits in edges.chain([f64::INFINITY.to_bits(), f64::INFINITY.to_bits() + 1, 0]) {
        c.compare_v(f64::from_bits(bits));
        c.compare_v(-f64::from_bits(bits));
    }
    for k in 0..10_000_000u64 {
        let w = r.0.word();
        c.compare_v(f64::from_bits(match k % 4 {
            0 => r.0.nan_f64(),
            1 => w,
            // a size from 2^50 to 2^52
            _ => w & 0x800F_FFFF_FFFF_FFFF | (1073 + w % 2) << 52,
        }));
    }
    c.report()
}

/// Every f32.
pub fn every_correction() -> bool {
    let mut c = Corrections::new();
    (0..=u32::MAX).for_each(|w| c.compare(f32::from_bits(w)));
    c.report()
}

fn oscillator() -> bool {
    let mut r = Inputs::new(5);
    let mut inc = Part::new("increment_for");
    let mut compare = |freq: f64, rate: f64| {
        let got = pescrondilu_nco_increment_for(freq, rate);
        inc.code(got.code);
        let expected = match answers::increment_for(freq, rate) {
            Ok(increment) => (0, increment),
            Err(number) => (100 + number, 0),
        };
        inc.same(expected, (got.code, got.increment), || {
            format!("{:016x} {:016x}", freq.to_bits(), rate.to_bits())
        });
    };
    // ties of frac times 2^32, and fractions that round to 1
    for k in 0..20_000u64 {
        let tie = k as f64 / f64::powi(2.0, 33);
        for x in [tie.next_down(), tie, tie.next_up()] {
            compare(x, 1.0);
            compare(-x, 1.0);
            compare(x + (k % 7) as f64, 1.0);
        }
    }
    for _ in 0..4_000_000 {
        compare(r.f64(), r.f64());
        let whole = r.below(1 << 40) as f64;
        compare(whole, r.below(1 << 24) as f64);
    }
    let mut on = Part::new("advance");
    for k in 0..4_000_000 {
        let (phase, inc) = (r.u32(), r.u32());
        let n = match k % 4 {
            0 => [
                0,
                1,
                4096,
                u32::MAX as usize,
                1 << 32,
                (1 << 32) + 1,
                usize::MAX,
            ][r.below(7) as usize],
            1 => r.u32() as usize,
            _ => r.0.word() as usize,
        };
        let got = pescrondilu_nco_advance(Nco { phase, inc }, n);
        let expected = (answers::advance(phase, inc, n), inc);
        on.same(expected, (got.phase, got.inc), || {
            format!("{phase:08x} {inc:08x} {n}")
        });
    }
    inc.report() & on.report()
}

fn construction() -> bool {
    let mut r = Inputs::new(6);
    let l: Limits = limits();
    let mut new = Part::new("encode_new");
    let mut rds = Part::new("encode_rds_new");
    let mut compare = |frequency: f64, main: f32, pilot: f32, rds_level: f32, rate: f64| {
        let a = Arguments {
            frequency,
            main,
            pilot,
            rds: rds_level,
            rate,
        };
        for (part, with_rds) in [(&mut new, false), (&mut rds, true)] {
            encoder::construct(part, a, with_rds);
        }
    };
    // each argument's limits with the others good, then any of all
    l.frequency
        .iter()
        .for_each(|f| compare(*f, 0.9, 0.09, 0.04, 192000.0));
    l.main
        .iter()
        .for_each(|m| compare(19000.0, *m, 0.09, 0.04, 192000.0));
    l.level.iter().for_each(|x| {
        compare(19000.0, 0.9, *x, 0.04, 192000.0);
        compare(19000.0, 0.9, 0.09, *x, 192000.0);
    });
    l.rate
        .iter()
        .for_each(|rate| compare(19000.0, 0.9, 0.09, 0.04, *rate));
    for _ in 0..1_000_000 {
        let (f, rate) = (one(&mut r, &l.frequency), one(&mut r, &l.rate));
        let (m, p, b) = (
            one(&mut r, &l.main),
            one(&mut r, &l.level),
            one(&mut r, &l.level),
        );
        compare(f, m, p, b, rate);
        let f = 18000.0 + (r.below(2_000_000) as f64) / 1000.0;
        compare(f, 0.9, 0.09, 0.04, 120000.0 + r.below(1 << 30) as f64);
        compare(r.f64(), r.f32(), r.f32(), r.f32(), r.f64());
    }
    new.report() & rds.report()
}

fn setters() -> bool {
    let mut r = Inputs::new(7);
    let levels = limits().level;
    let mut pilot = Part::new("set_pilot");
    let mut rds_pilot = Part::new("rds_set_pilot");
    let mut rds = Part::new("set_rds");
    for k in 0..1_000_000usize {
        let fields = r.fields(false);
        let to = match levels.get(k) {
            Some(x) => *x,
            None if k % 2 == 0 => one(&mut r, &levels),
            None => r.f32(),
        };
        encoder::set(&mut pilot, fields, false, encoder::Call::Pilot(to));
        encoder::set(&mut rds_pilot, fields, true, encoder::Call::Pilot(to));
        encoder::set(&mut rds, fields, true, encoder::Call::Rds(to));
    }
    pilot.report() & rds_pilot.report() & rds.report()
}

/// Lengths for a number of slices: all equal, then each one damaged, then several.
fn lengths<const N: usize>(r: &mut Inputs) -> Vec<[usize; N]> {
    let mut all = Vec::new();
    for n in LENGTHS {
        (0..20).for_each(|_| all.push([n; N]));
        for k in 0..N {
            for m in [n.wrapping_sub(1), n + 1, 0, 2 * n + 3] {
                if m < 1 << 20 {
                    let mut damaged = [n; N];
                    damaged[k] = m;
                    all.push(damaged);
                }
            }
        }
        for _ in 0..20 {
            all.push(std::array::from_fn(|_| one(r, &[n, n, n + 1, 5])));
        }
    }
    all
}

fn matrix_f32() -> bool {
    let mut r = Inputs::new(9);
    let mut part = Part::new("matrix_f32");
    let all: Vec<[usize; 4]> = (0..20).flat_map(|_| lengths(&mut r)).collect();
    for (k, n) in all.iter().enumerate() {
        let bounded = k % 3 == 0;
        let [sum, difference, left, right] = n.map(|m| r.block_f32(m, bounded));
        let (mut l, mut ri) = (left.clone(), right.clone());
        let said = matrix(&sum, &difference, &mut l, &mut ri).numbers();
        let words = |x: &[f32]| x.iter().map(|y| word_f32(*y)).collect::<Vec<_>>();
        part.said(said);
        for side in SIDES {
            let e = answers::matrix_f32(side, &sum, &difference, &left, &right);
            part.same(e.said, said, || format!("{side:?} {n:?}"));
            let of = |i: usize| {
                let bits = |x: &[f32]| x.get(i).map(|y| y.to_bits());
                format!(
                    "{side:?} {n:?} at {i} {:x?} {:x?}",
                    bits(&sum),
                    bits(&difference)
                )
            };
            part.same_words(&e.left, &words(&l), of);
            part.same_words(&e.right, &words(&ri), of);
        }
    }
    part.report()
}

fn matrix_q15() -> bool {
    let mut r = Inputs::new(10);
    let mut part = Part::new("matrix_q15");
    let all: Vec<[usize; 4]> = (0..20).flat_map(|_| lengths(&mut r)).collect();
    for n in &all {
        let [sum, difference, left, right] = n.map(|m| r.block_i16(m));
        let (mut l, mut ri) = (left.clone(), right.clone());
        let said = matrix(&sum, &difference, &mut l, &mut ri).numbers();
        let words = |x: &[i16]| x.iter().map(|y| word_i16(*y)).collect::<Vec<_>>();
        part.said(said);
        for side in SIDES {
            let e = answers::matrix_q15(side, &sum, &difference, &left, &right);
            part.same(e.said, said, || format!("{side:?} {n:?}"));
            let of = |i: usize| {
                format!(
                    "{side:?} {n:?} at {i} {:?} {:?}",
                    sum.get(i),
                    difference.get(i)
                )
            };
            part.same_words(&e.left, &words(&l), of);
            part.same_words(&e.right, &words(&ri), of);
        }
    }
    part.report()
}

/// Every pair of i16, by blocks.
pub fn every_matrix_q15() -> bool {
    let mut part = Part::new("matrix_q15");
    let all: Vec<i16> = (i16::MIN..=i16::MAX).collect();
    let (mut left, mut right) = (all.clone(), all.clone());
    for s in i16::MIN..=i16::MAX {
        let sum = vec![s; all.len()];
        let said = matrix(&sum, &all, &mut left, &mut right).numbers();
        for side in SIDES {
            let e = answers::matrix_q15(side, &sum, &all, &left, &right);
            part.same(e.said, said, || format!("{side:?} {s}"));
            let words = |x: &[i16]| x.iter().map(|y| word_i16(*y)).collect::<Vec<_>>();
            part.same_words(&e.left, &words(&left), |i| {
                format!("{side:?} {s} {}", all[i])
            });
            part.same_words(&e.right, &words(&right), |i| {
                format!("{side:?} {s} {}", all[i])
            });
        }
    }
    part.report()
}

/// Tables' lengths that are wrong, and the one that is not.
const TABLES: [usize; 7] = [TABLE, TABLE, TABLE, 4096, 4098, 0, 8194];

/// The encoder, with RDS or without, on records of any fields.
fn encoder(name: &'static str, with_rds: bool) -> bool {
    let mut r = Inputs::new(11);
    let mut part = Part::new(name);
    let all: Vec<[usize; 4]> = (0..20).flat_map(|_| lengths(&mut r)).collect();
    for (k, n) in all.iter().enumerate() {
        let bounded = k % 3 == 0;
        let entries = if n.iter().all(|m| *m == n[0]) {
            TABLES[k % TABLES.len()]
        } else {
            one(&mut r, &[TABLE, TABLE, TABLE, 4096])
        };
        let table = r.block_f32(entries, bounded);
        let fields = r.fields(bounded);
        let [left, right, rds, output] = n.map(|m| r.block_f32(m, bounded));
        let block = Block {
            table,
            left,
            right,
            rds,
            output,
        };
        let theirs = SIDES.map(|side| (side, Encoder::by_hand(fields, with_rds)));
        let ours = encoder::Ours::by_hand(fields, with_rds);
        let begun = format!("table {entries} {n:?} {fields:?}");
        encoder::Session::new(&mut part, begun, ours, theirs).block(&block);
    }
    part.report()
}

/// All parts, with so many sessions of each kind; whether there was no difference.
pub fn compare(count: u64) -> bool {
    lookups()
        & some_corrections()
        & oscillator()
        & construction()
        & setters()
        & verdict::compare()
        & matrix_f32()
        & matrix_q15()
        & encoder("encode", false)
        & encoder("encode_rds", true)
        & sessions::oscillators("sessions_nco", count)
        & sessions::constructed("sessions_encode", false, count)
        & sessions::constructed("sessions_rds", true, count)
        & sessions::by_hand("by_hand_encode", false, count)
        & sessions::by_hand("by_hand_rds", true, count)
}
