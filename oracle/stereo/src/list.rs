//! Writes the fixed list of answers to the path that is given.

use std::fmt::Write;

use numbers_oracle::answers::{word_f32, word_f64};
use stereo_oracle::answers::{self, ACCEPTED, Arguments, Block, Encoder, Fields, SIDES, Side};
use stereo_oracle::inputs::{Inputs, corrections, limits};
use stereo_oracle::samples;

/// Samples of a block.
const BLOCK: usize = 16;

struct List {
    text: String,
    r: Inputs,
}

impl List {
    fn line(&mut self, name: &str, arguments: &[u64], answer: u64) {
        let mut a = arguments.to_vec();
        a.resize(5, 0);
        write!(self.text, "{name:16}").expect("a string grows");
        for w in a.iter().chain([&answer]) {
            write!(self.text, " {w:016x}").expect("a string grows");
        }
        self.text.push('\n');
    }

    fn lookups(&mut self) {
        let (f32s, q15s) = (samples::table_f32(), samples::table_q15());
        let mut phases: Vec<u32> = vec![
            0,
            1,
            31,
            32,
            0xF_FFFF,
            0x10_0000,
            0x3FFF_FFFF,
            0x4000_0000,
            0x7FFF_FFFF,
            0x8000_0000,
            0xC000_0000,
            0xFFFF_FFFF,
        ];
        phases.extend((0..188).map(|_| self.r.u32()));
        for p in phases {
            let [c, s] = answers::pair_f32(&f32s, p);
            self.line("cos_f32", &[p as u64], answers::cos_f32(&f32s, p));
            self.line("pair_c", &[p as u64], c);
            self.line("pair_s", &[p as u64], s);
            let q = answers::cos_q15(&q15s, p);
            self.line("cos_q15", &[p as u64], q);
            self.line("interp_q15", &[p as u64], q);
        }
    }

    fn corrections(&mut self) {
        let mut all: Vec<u32> = corrections().iter().map(|f| f.to_bits()).collect();
        // every ninth of the turns, and the neighbours of 2^51
        all = all.into_iter().step_by(9).collect();
        all.extend([
            0x48FF_FFFF,
            0x4900_0000,
            0xC900_0000,
            0xC900_0001,
            0x7F80_0000,
            0xFF80_0000,
            0x7FC0_0000,
        ]);
        all.extend((0..100).map(|_| self.r.u32()));
        all.sort_unstable();
        all.dedup();
        for w in all {
            let f = f32::from_bits(w);
            let plain = answers::correction_plain(f) as u64;
            self.line("correction_plain", &[w as u64], plain);
            let fast = answers::correction_fallback(f) as u64;
            self.line("correction_fast", &[w as u64], fast);
        }
    }

    fn oscillator(&mut self) {
        let mut all = vec![
            (-0.25, 1.0),
            (0.25, 1.0),
            (1.0, 0.0),
            (1.0, -1.0),
            (1.0, f64::NAN),
            (1.0, f64::INFINITY),
            (f64::NAN, 1.0),
            (f64::INFINITY, 1.0),
            (f64::MAX, 0.5),
            (-f64::MIN_POSITIVE, 1.0),
        ];
        for k in 0..40 {
            let tie = k as f64 / f64::powi(2.0, 33);
            all.extend([
                (tie, 1.0),
                (-tie, 1.0),
                (tie.next_up(), 1.0),
                (tie.next_down(), 1.0),
            ]);
        }
        for _ in 0..200 {
            all.push((self.r.f64(), self.r.f64()));
        }
        for (freq, rate) in all {
            let words = [word_f64(freq), word_f64(rate)];
            let answer = answers::increment_word(answers::increment_for(freq, rate));
            self.line("increment_for", &words, answer);
        }
        for k in 0..200u64 {
            let (phase, inc) = (self.r.u32(), self.r.u32());
            let n = match k {
                0..=3 => [0, 1, 1 << 32, u64::MAX][k as usize],
                _ => self.r.0.word() >> (k % 64),
            };
            let answer = answers::advance(phase, inc, n as usize) as u64;
            self.line("advance", &[phase as u64, inc as u64, n], answer);
        }
    }

    fn construct(&mut self, frequency: f64, main: f32, pilot: f32, rds: f32, rate: f64) {
        let words = [
            word_f64(frequency),
            word_f32(main),
            word_f32(pilot),
            word_f32(rds),
            word_f64(rate),
        ];
        let a = Arguments {
            frequency,
            main,
            pilot,
            rds,
            rate,
        };
        for (name, with_rds) in [("encode_new", false), ("encode_rds_new", true)] {
            let made = Encoder::new(a, with_rds).map(|e| e.fields().inc);
            self.line(name, &words, answers::increment_word(made));
        }
    }

    fn constructions(&mut self) {
        let l = limits();
        for f in &l.frequency {
            self.construct(*f, 0.9, 0.09, 0.04, 192000.0);
        }
        for m in &l.main {
            self.construct(19000.0, *m, 0.09, 0.04, 192000.0);
        }
        for x in &l.level {
            self.construct(19000.0, 0.9, *x, 0.04, 192000.0);
            self.construct(19000.0, 0.9, 0.09, *x, 192000.0);
        }
        for rate in &l.rate {
            self.construct(19000.0, 0.9, 0.09, 0.04, *rate);
        }
        for _ in 0..300 {
            let mut any = |n: usize| self.r.below(n as u64) as usize;
            let f = l.frequency[any(l.frequency.len())];
            let m = l.main[any(l.main.len())];
            let p = l.level[any(l.level.len())];
            let b = l.level[any(l.level.len())];
            let rate = l.rate[any(l.rate.len())];
            self.construct(f, m, p, b, rate);
        }
    }

    fn setters(&mut self) {
        let mut all = limits().level;
        all.extend((0..60).map(|_| self.r.f32()));
        for to in all {
            let mut fields = self.r.fields(true);
            (fields.pilot, fields.level) = (0.125, 0.0625);
            // a NaN is never set, so the pattern is the level's own
            let both = |code: u32, after: f32| (code as u64) << 32 | after.to_bits() as u64;
            let mut e = Encoder::by_hand(fields, true);
            let answer = both(e.set_pilot(to), e.fields().pilot);
            let words = [word_f32(fields.pilot), word_f32(to)];
            self.line("set_pilot", &words, answer);
            let answer = both(e.set_rds(to), e.fields().level);
            let words = [word_f32(fields.level), word_f32(to)];
            self.line("set_rds", &words, answer);
        }
    }

    fn matrices(&mut self) {
        for _ in 0..20 {
            let seed = self.r.u32() as u64;
            let second = seed + BLOCK as u64;
            let (s, d) = (
                samples::block_f32(seed, BLOCK),
                samples::block_f32(second, BLOCK),
            );
            let a = answers::matrix_f32(Side::Reference, &s, &d, &s, &s);
            let b = answers::matrix_f32(Side::Fallback, &s, &d, &s, &s);
            assert!(a.said == ACCEPTED && a.left == b.left && a.right == b.right);
            for (k, w) in a.left.iter().chain(&a.right).enumerate() {
                self.line("matrix_f32", &[seed, k as u64], *w);
            }
            let (s, d) = (
                samples::block_q15(seed, BLOCK),
                samples::block_q15(second, BLOCK),
            );
            let a = answers::matrix_q15(Side::Reference, &s, &d, &s, &s);
            let b = answers::matrix_q15(Side::Fallback, &s, &d, &s, &s);
            assert!(a.said == ACCEPTED && a.left == b.left && a.right == b.right);
            for (k, w) in a.left.iter().chain(&a.right).enumerate() {
                self.line("matrix_q15", &[seed, k as u64], *w);
            }
        }
    }

    fn encoders(&mut self) {
        let table = samples::table_f32();
        for k in 0..80 {
            let seed = self.r.u32() as u64;
            let fields = match k {
                // as a station has them: 19000 Hz at a rate of 192000
                0 => Fields {
                    phase: 0,
                    inc: 425022805,
                    main: 0.9,
                    pilot: 0.09,
                    level: 0.04,
                },
                _ => self.r.fields(k % 4 != 0),
            };
            let left = samples::block_f32(seed, BLOCK);
            let block = Block {
                table: table.clone(),
                right: samples::block_f32(seed + BLOCK as u64, BLOCK),
                rds: samples::block_f32(seed + 2 * BLOCK as u64, BLOCK),
                output: left.clone(),
                left,
            };
            for (name, with_rds) in [("encode", false), ("encode_rds", true)] {
                let [a, b] = SIDES.map(|side| {
                    let mut e = Encoder::by_hand(fields, with_rds);
                    let (said, output) = e.block(side, &block);
                    assert_eq!(said, ACCEPTED);
                    (output, e.fields().phase as u64)
                });
                assert_eq!(a, b);
                let (output, phase) = a;
                let both = |high: u64, low: u64| high << 32 | low;
                let fixed = [
                    both(fields.inc as u64, fields.phase as u64),
                    both(word_f32(fields.pilot), word_f32(fields.main)),
                    word_f32(fields.level),
                ];
                for (k, w) in output.iter().chain([&phase]).enumerate() {
                    self.line(name, &[&[seed, k as u64][..], &fixed[..]].concat(), *w);
                }
            }
        }
    }
}

fn main() {
    let Some(path) = std::env::args_os().nth(1) else {
        eprintln!("usage: list-stereo PATH");
        std::process::exit(2);
    };
    let mut list = List {
        text: String::new(),
        r: Inputs::new(1),
    };
    list.lookups();
    list.corrections();
    list.oscillator();
    list.constructions();
    list.setters();
    list.matrices();
    list.encoders();
    if let Err(e) = std::fs::write(&path, &list.text) {
        eprintln!("{}: {e}", path.display());
        std::process::exit(1);
    }
    println!(
        "{} lines, {} bytes",
        list.text.lines().count(),
        list.text.len()
    );
}
