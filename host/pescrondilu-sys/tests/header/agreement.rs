//! The calls of agreement.c, made from Rust with the same numbers, give the same bits in every
//! field of what comes back. Here a NaN is compared by its bits too: both sides call the same code.

use crate::sources::header;
use crate::support::{cc, program, root, run};
use pescrondilu_sys::Code;
use pescrondilu_sys::decoder::*;
use pescrondilu_sys::encoder::*;
use pescrondilu_sys::numbers::*;
use pescrondilu_sys::rack::*;
use pescrondilu_sys::rds::*;
use pescrondilu_sys::summary::*;
use std::collections::{BTreeMap, BTreeSet};
use std::fmt::Write;
use std::process::Command;

const CASES: u32 = 96;
const N: usize = 9;
const SLICES: usize = 10;
const TABLE: usize = 4097;
const BITS: usize = 104;

const ODD64: [u64; 12] = [
    0x0000000000000000,
    0x8000000000000000,
    0x7fffffffffffffff,
    0xffffffffffffffff,
    0x0000000000000001,
    0x7ff0000000000000,
    0xfff0000000000000,
    0x7ff0dead0000beef,
    0x3fe0000000000000,
    0xc1dfffffffc00000,
    0x8000000000000001,
    0x0000000080000000,
];
const ODD32: [u32; 12] = [
    0x00000000, 0x80000000, 0x7fffffff, 0xffffffff, 0x00000001, 0x7f800000, 0xff800000, 0x7f80beef,
    0x3f000000, 0xbf7fffff, 0x807fffff, 0x00007fff,
];
const SWITCHES: [u32; 4] = [0, 1, 2, 0xffffffff];

/// A list: how many slices are in it, and where each begins and how long it is.
#[derive(Clone, Copy, Default)]
struct List {
    count: usize,
    slices: [(usize, usize); SLICES],
}

impl List {
    fn inputs<S>(&self, from: &[S]) -> [Input<S>; SLICES] {
        self.slices.map(|(at, n)| Input::from(&from[at..at + n]))
    }

    fn outputs<S>(&self, from: &mut [S]) -> [Output<S>; SLICES] {
        let samples = from.as_mut_ptr();
        self.slices.map(|(at, n)| Output {
            samples: samples.wrapping_add(at),
            n,
        })
    }
}

/// The numbers of a case, the samples, and the lines. agreement.c says what each is.
struct Calls {
    state: u64,
    kind: u32,
    fault: u32,
    table: Vec<f32>,
    table_q: Vec<i16>,
    in1: [f32; N],
    in2: [f32; N],
    in3: [f32; N],
    out1: [f32; N],
    out2: [f32; N],
    in1_q: [i16; N],
    in2_q: [i16; N],
    out1_q: [i16; N],
    out2_q: [i16; N],
    stereo: [u32; N + 1],
    mono: [u32; N + 1],
    changes: [u32; N + 1],
    magnitude: [f32; N + 1],
    magnitude_q: [i16; N + 1],
    bits: [u8; BITS + 1],
    lines: String,
}

impl Calls {
    fn new() -> Calls {
        let mut t = Calls {
            state: 2026,
            kind: 0,
            fault: 0,
            table: Vec::new(),
            table_q: Vec::new(),
            in1: [0.0; N],
            in2: [0.0; N],
            in3: [0.0; N],
            out1: [0.0; N],
            out2: [0.0; N],
            in1_q: [0; N],
            in2_q: [0; N],
            out1_q: [0; N],
            out2_q: [0; N],
            stereo: [0; N + 1],
            mono: [0; N + 1],
            changes: [0; N + 1],
            magnitude: [0.0; N + 1],
            magnitude_q: [0; N + 1],
            bits: [0; BITS + 1],
            lines: String::new(),
        };
        for _ in 0..TABLE {
            t.kind = 3;
            let entry = t.any_float();
            t.table.push(entry);
            t.kind = 1;
            let entry = t.any16();
            t.table_q.push(entry);
        }
        t
    }

    /// A line for each case.
    fn each(&mut self, name: &str, call: fn(&mut Calls)) {
        for k in 0..CASES {
            self.kind = k % 4;
            self.fault = k / 4 % 8;
            self.lines.push_str(name);
            call(self);
            self.lines.push('\n');
        }
    }

    // ---- The numbers

    fn next(&mut self) -> u64 {
        self.state = self.state.wrapping_add(0x9e3779b97f4a7c15);
        let z = self.state;
        let z = (z ^ (z >> 30)).wrapping_mul(0xbf58476d1ce4e5b9);
        let z = (z ^ (z >> 27)).wrapping_mul(0x94d049bb133111eb);
        z ^ (z >> 31)
    }

    fn any64(&mut self) -> u64 {
        let x = self.next();
        match self.kind {
            2 => ODD64[(x % 12) as usize],
            3 => x >> (x % 64),
            _ => x,
        }
    }

    fn any_i64(&mut self) -> i64 {
        self.any64() as i64
    }

    fn any32(&mut self) -> u32 {
        let x = self.next();
        match self.kind {
            2 => ODD32[(x % 12) as usize],
            3 => ((x >> 32) >> (x % 32)) as u32,
            _ => (x >> 32) as u32,
        }
    }

    fn any16(&mut self) -> i16 {
        self.any32() as i16
    }

    fn any_float(&mut self) -> f32 {
        match self.kind {
            3 => (self.next() >> 32) as u32 as i32 as f32 / 2147483648.0,
            0 => f32::from_bits((self.next() as u32 & 0x807fffff) | 0x7f800001),
            _ => f32::from_bits(self.any32()),
        }
    }

    fn any_double(&mut self) -> f64 {
        match self.kind {
            3 => (self.next() >> 32) as u32 as i32 as f64 / 1024.0,
            0 => f64::from_bits((self.next() & 0x800fffffffffffff) | 0x7ff0000000000001),
            _ => f64::from_bits(self.any64()),
        }
    }

    fn near_double(&mut self, x: f64) -> f64 {
        match self.kind {
            3 => x + (self.next() >> 44) as f64 / 1048576.0,
            _ => self.any_double(),
        }
    }

    fn near_float(&mut self, x: f32) -> f32 {
        match self.kind {
            3 => x + (self.next() >> 48) as f32 / 1048576.0,
            _ => self.any_float(),
        }
    }

    fn any_switch(&mut self) -> u32 {
        SWITCHES[(self.next() % 4) as usize]
    }

    /// A shifted number where the record is to be fit, else any.
    fn fit_or_any(&mut self, shift: u32) -> i64 {
        match self.kind {
            3 => (self.next() >> shift) as i64,
            _ => self.any_i64(),
        }
    }

    // Rust works the fields of a literal in the order in which they stand there.

    fn any_f32(&mut self) -> Decoder<f32> {
        Decoder {
            kp: self.any_float(),
            ki: self.any_float(),
            imax: self.any_float(),
            beta: self.any_float(),
            on: self.any_float(),
            off: self.any_float(),
            integ: self.any_float(),
            level: self.any_float(),
            step0: self.any32(),
            phase: self.any32(),
            stereo: self.any_switch(),
            enabled: self.any_switch(),
        }
    }

    fn any_q15(&mut self) -> Decoder<i64> {
        let kp = self.fit_or_any(36);
        let ki = self.fit_or_any(40);
        let imax = self.fit_or_any(8);
        Decoder {
            kp,
            ki,
            imax,
            beta: self.fit_or_any(33),
            on: self.fit_or_any(4),
            off: self.fit_or_any(5),
            integ: if self.kind == 3 {
                -(imax / 2)
            } else {
                self.any_i64()
            },
            level: self.fit_or_any(4),
            step0: self.any32(),
            phase: self.any32(),
            stereo: self.any_switch(),
            enabled: self.any_switch(),
        }
    }

    /// A number below n.
    fn below(&mut self, n: u32) -> u32 {
        (self.next() % u64::from(n)) as u32
    }

    /// A summary: fit unless the fault is 1. `some` gives a magnitude that is fit, 0 where no
    /// sample is held, and `any` one of any bits.
    fn any_summary<S>(
        &mut self,
        some: fn(&mut Calls, bool) -> S,
        any: fn(&mut Calls) -> S,
    ) -> Summary<S> {
        if self.fault == 1 {
            let (period, stereo, mono) = (self.any32(), self.any32(), self.any32());
            let changes = self.any32();
            // agreement.c draws the magnitude of a fit one in any case
            self.next();
            return Summary {
                period,
                stereo,
                mono,
                changes,
                magnitude: any(self),
                before: self.any_switch(),
            };
        }
        let period = 1 + self.below(N as u32 + 3);
        let held = self.below(period);
        let stereo = self.below(held + 1);
        Summary {
            period,
            stereo,
            mono: held - stereo,
            changes: self.below(held + 1),
            magnitude: some(self, held > 0),
            before: self.any_switch(),
        }
    }

    fn any_f32_summary(&mut self) -> Summary<f32> {
        let some = |t: &mut Calls, holds: bool| {
            let bits = t.next() as u32 % 0x7f800001;
            f32::from_bits(if holds { bits } else { 0 })
        };
        self.any_summary(some, Calls::any_float)
    }

    fn any_q15_summary(&mut self) -> Summary<i16> {
        let some = |t: &mut Calls, holds: bool| {
            let x = (t.next() as u32 % 0x8000) as i16;
            if holds { x } else { 0 }
        };
        self.any_summary(some, Calls::any16)
    }

    /// A rack of two to eight decoders, unless the fault is 1.
    fn any_rack<V: Copy>(&mut self, any: fn(&mut Calls) -> Decoder<V>) -> Rack<V> {
        let decoders = [(); PLACES].map(|()| any(self));
        let number = match self.fault {
            1 => self.any64() as usize,
            _ => 2 + self.below(7) as usize,
        };
        Rack { decoders, number }
    }

    fn any_allowance(&mut self, number: usize) -> u32 {
        if self.fault < 2 {
            return self.any32();
        }
        let n = number as u32;
        let share = match self.fault {
            2 => 0,
            _ => 1 + self.below(4),
        };
        n * share + self.below(n)
    }

    fn any_waiting(&mut self) -> RackWaiting {
        let decoders = [(); PLACES].map(|()| {
            let n = 1 + self.below(4) as usize;
            let [mpx, pilot, sum, difference] = [(); 4].map(|()| match self.fault {
                3 => self.any64() as usize,
                _ => n,
            });
            Waiting {
                mpx,
                pilot,
                sum,
                difference,
            }
        });
        RackWaiting { decoders }
    }

    fn any_lists(&mut self) -> [List; 4] {
        let count = (self.next() % (SLICES as u64 + 1)) as usize;
        let mut lists = [(); 4].map(|()| List {
            count: match self.fault {
                3 => (self.next() % (SLICES as u64 + 1)) as usize,
                _ => count,
            },
            ..List::default()
        });
        let mut at = [0; 4];
        for i in 0..SLICES {
            let all = (self.next() % 3) as usize;
            for (j, list) in lists.iter_mut().enumerate() {
                let mut n = match self.fault {
                    3 => (self.next() % 3) as usize,
                    _ => all,
                };
                if i == 0 && j > 0 && self.fault as usize == 4 + j {
                    n = if n > 0 { n - 1 } else { 1 };
                }
                n = n.min(N - at[j]);
                list.slices[i] = (at[j], n);
                at[j] += n;
            }
        }
        lists
    }

    fn any_nco(&mut self) -> Nco {
        Nco {
            phase: self.any32(),
            inc: self.any32(),
        }
    }

    fn any_encode(&mut self) -> StereoEncode {
        StereoEncode {
            nco: self.any_nco(),
            main: self.any_float(),
            pilot: self.any_float(),
        }
    }

    fn any_encode_rds(&mut self) -> StereoEncodeRds {
        StereoEncodeRds {
            enc: self.any_encode(),
            rds: self.any_float(),
        }
    }

    fn any_words(&mut self) -> RdsWords {
        let one = self.any16() as u16;
        RdsWords {
            one,
            two: self.any16() as u16,
            three: if self.fault % 2 == 1 {
                one
            } else {
                self.any16() as u16
            },
            four: self.any16() as u16,
        }
    }

    fn fill(&mut self) {
        for i in 0..N {
            self.in1[i] = self.any_float();
            self.in2[i] = self.any_float();
            self.in3[i] = self.any_float();
            self.in1_q[i] = self.any16();
            self.in2_q[i] = self.any16();
            self.out1[i] = f32::from_bits(0xffa00000 + i as u32);
            self.out2[i] = f32::from_bits(0x7fb00000 + i as u32);
            self.out1_q[i] = 0x1110 + i as i16;
            self.out2_q[i] = 0x2220 + i as i16;
        }
    }

    fn fill_columns(&mut self) {
        for i in 0..=N {
            self.stereo[i] = 0xaaaaaaa0 + i as u32;
            self.mono[i] = 0xbbbbbbb0 + i as u32;
            self.changes[i] = 0xccccccc0 + i as u32;
            self.magnitude[i] = f32::from_bits(0xffd00000 + i as u32);
            self.magnitude_q[i] = 0x3330 + i as i16;
        }
    }

    fn fill_bits(&mut self) {
        for i in 0..=BITS {
            self.bits[i] = 0x80 + i as u8;
        }
    }

    fn length(&self, n: usize, which: u32) -> usize {
        if self.fault == which { n - 1 } else { n }
    }

    fn table_n(&self) -> usize {
        self.length(TABLE, 4)
    }

    /// The places of a summary's four columns.
    fn places<S>(&mut self, s: &Summary<S>) -> [usize; 4] {
        let wrong = (self.next() % 8) as usize;
        if self.fault == 1 {
            return [N; 4];
        }
        let n = ((s.stereo + s.mono) as usize + N) / s.period as usize;
        let mut places = [n; 4];
        if let Some(place) = places.get_mut(wrong) {
            *place = if n > 0 { n - 1 } else { n + 1 };
        }
        places
    }

    fn bits_n(&self) -> usize {
        match self.fault {
            7 => BITS + 1,
            _ => self.length(BITS, 4),
        }
    }

    // ---- What came back

    fn put16(&mut self, x: i16) {
        write!(self.lines, " {:04x}", x as u16).expect("a string takes it");
    }

    fn put32(&mut self, x: u32) {
        write!(self.lines, " {x:08x}").expect("a string takes it");
    }

    fn put64(&mut self, x: u64) {
        write!(self.lines, " {x:016x}").expect("a string takes it");
    }

    fn put_float(&mut self, x: f32) {
        self.put32(x.to_bits());
    }

    fn put_double(&mut self, x: f64) {
        self.put64(x.to_bits());
    }

    fn put_byte(&mut self, x: u8) {
        write!(self.lines, " {x:02x}").expect("a string takes it");
    }

    fn put_bool(&mut self, x: bool) {
        self.put_byte(x.into());
    }

    fn put_answer(&mut self, a: Code) {
        self.put32(a.code);
        self.put64(a.expected as u64);
        self.put64(a.got as u64);
    }

    /// What stands behind a decoder's numbers in both formats.
    fn put_rest<V>(&mut self, d: Decoder<V>) {
        self.put32(d.step0);
        self.put32(d.phase);
        self.put32(d.stereo);
        self.put32(d.enabled);
    }

    fn put_f32(&mut self, d: Decoder<f32>) {
        for x in [d.kp, d.ki, d.imax, d.beta, d.on, d.off, d.integ, d.level] {
            self.put_float(x);
        }
        self.put_rest(d);
    }

    fn put_q15(&mut self, d: Decoder<i64>) {
        for x in [d.kp, d.ki, d.imax, d.beta, d.on, d.off, d.integ, d.level] {
            self.put64(x as u64);
        }
        self.put_rest(d);
    }

    fn put_summary<S: Copy>(&mut self, s: Summary<S>, put: fn(&mut Calls, S)) {
        self.put32(s.period);
        self.put32(s.stereo);
        self.put32(s.mono);
        self.put32(s.changes);
        put(self, s.magnitude);
        self.put32(s.before);
    }

    fn put_count(&mut self, wide: usize) {
        self.put64(wide as u64);
    }

    /// Where nothing is counted, C has no such field.
    fn put_nothing(&mut self, (): ()) {}

    fn put_round<V: Copy, W: Copy>(
        &mut self,
        r: Round<V, W>,
        put_wide: fn(&mut Calls, W),
        put: fn(&mut Calls, Decoder<V>),
    ) {
        self.put_answer(r.answer);
        for n in r.taken {
            self.put64(n as u64);
        }
        for wide in r.wide {
            put_wide(self, wide);
        }
        for d in r.rack.decoders {
            put(self, d);
        }
        self.put64(r.rack.number as u64);
        self.put_outputs();
    }

    fn put_readout(&mut self, r: Readout) {
        self.put_double(r.integrator);
        self.put_double(r.integrator_limit);
        self.put_double(r.lock_level);
        self.put32(r.phase);
        self.put32(r.stereo);
        self.put32(r.enabled);
    }

    fn put_nco(&mut self, o: Nco) {
        self.put32(o.phase);
        self.put32(o.inc);
    }

    fn put_nco_made(&mut self, m: CodedNco) {
        self.put32(m.code);
        self.put_nco(m.nco);
    }

    fn put_encode(&mut self, e: StereoEncode) {
        self.put_nco(e.nco);
        self.put_float(e.main);
        self.put_float(e.pilot);
    }

    fn put_encode_made(&mut self, m: CodedEncode) {
        self.put32(m.code);
        self.put_encode(m.encoder);
    }

    fn put_encode_rds(&mut self, e: StereoEncodeRds) {
        self.put_encode(e.enc);
        self.put_float(e.rds);
    }

    fn put_encode_rds_made(&mut self, m: CodedEncodeRds) {
        self.put32(m.code);
        self.put_encode_rds(m.encoder);
    }

    fn put_outputs(&mut self) {
        for i in 0..N {
            self.put_float(self.out1[i]);
            self.put_float(self.out2[i]);
            self.put16(self.out1_q[i]);
            self.put16(self.out2_q[i]);
        }
    }

    fn put_columns(&mut self) {
        for i in 0..=N {
            self.put32(self.stereo[i]);
            self.put32(self.mono[i]);
            self.put32(self.changes[i]);
            self.put_float(self.magnitude[i]);
            self.put16(self.magnitude_q[i]);
        }
    }

    fn put_bits(&mut self) {
        for i in 0..=BITS {
            self.put_byte(self.bits[i]);
        }
    }

    // ---- The blocks. SAFETY, for each: no length is above that of its slice, and no output
    // overlaps another argument.

    fn f32_block<W>(&mut self, call: Block<f32, f32, W>, put_wide: fn(&mut Calls, W)) {
        self.fill();
        let d = self.any_f32();
        let r = unsafe {
            call(
                d,
                self.table.as_ptr(),
                self.table_n(),
                self.in1.as_ptr(),
                N,
                self.in2.as_ptr(),
                self.length(N, 5),
                self.out1.as_mut_ptr(),
                self.length(N, 6),
                self.out2.as_mut_ptr(),
                self.length(N, 7),
            )
        };
        self.put_answer(r.answer);
        put_wide(self, r.wide);
        self.put_f32(r.decoder);
        self.put_outputs();
    }

    fn q15_block(&mut self, call: Block<i64, i16, ()>) {
        self.fill();
        let d = self.any_q15();
        let r = unsafe {
            call(
                d,
                self.table_q.as_ptr(),
                self.table_n(),
                self.in1_q.as_ptr(),
                N,
                self.in2_q.as_ptr(),
                self.length(N, 5),
                self.out1_q.as_mut_ptr(),
                self.length(N, 6),
                self.out2_q.as_mut_ptr(),
                self.length(N, 7),
            )
        };
        self.put_answer(r.answer);
        self.put_q15(r.decoder);
        self.put_outputs();
    }

    fn f32_summary_block(&mut self) {
        self.fill();
        self.fill_columns();
        let d = self.any_f32();
        let s = self.any_f32_summary();
        let [stereo_n, mono_n, changes_n, magnitude_n] = self.places(&s);
        let r = unsafe {
            pescrondilu_f32_summary_block(
                d,
                s,
                self.table.as_ptr(),
                self.table_n(),
                self.in1.as_ptr(),
                N,
                self.in2.as_ptr(),
                self.length(N, 5),
                self.out1.as_mut_ptr(),
                self.length(N, 6),
                self.out2.as_mut_ptr(),
                self.length(N, 7),
                self.stereo.as_mut_ptr(),
                stereo_n,
                self.mono.as_mut_ptr(),
                mono_n,
                self.changes.as_mut_ptr(),
                changes_n,
                self.magnitude.as_mut_ptr(),
                magnitude_n,
            )
        };
        self.put_answer(r.answer);
        self.put_count(r.wide);
        self.put_f32(r.decoder);
        self.put_summary(r.summary, Calls::put_float);
        self.put_outputs();
        self.put_columns();
    }

    fn q15_summary_block(&mut self) {
        self.fill();
        self.fill_columns();
        let d = self.any_q15();
        let s = self.any_q15_summary();
        let [stereo_n, mono_n, changes_n, magnitude_n] = self.places(&s);
        let r = unsafe {
            pescrondilu_q15_summary_block(
                d,
                s,
                self.table_q.as_ptr(),
                self.table_n(),
                self.in1_q.as_ptr(),
                N,
                self.in2_q.as_ptr(),
                self.length(N, 5),
                self.out1_q.as_mut_ptr(),
                self.length(N, 6),
                self.out2_q.as_mut_ptr(),
                self.length(N, 7),
                self.stereo.as_mut_ptr(),
                stereo_n,
                self.mono.as_mut_ptr(),
                mono_n,
                self.changes.as_mut_ptr(),
                changes_n,
                self.magnitude_q.as_mut_ptr(),
                magnitude_n,
            )
        };
        self.put_answer(r.answer);
        self.put_q15(r.decoder);
        self.put_summary(r.summary, Calls::put16);
        self.put_outputs();
        self.put_columns();
    }

    fn f32_rack_round(&mut self) {
        self.fill();
        let rack = self.any_rack(Calls::any_f32);
        let allowance = self.any_allowance(rack.number);
        let waiting = self.any_waiting();
        let r = unsafe {
            pescrondilu_f32_rack_round(
                rack,
                allowance,
                waiting,
                self.table.as_ptr(),
                self.table_n(),
                self.in1.as_ptr(),
                N,
                self.in2.as_ptr(),
                self.length(N, 5),
                self.out1.as_mut_ptr(),
                self.length(N, 6),
                self.out2.as_mut_ptr(),
                self.length(N, 7),
            )
        };
        self.put_round(r, Calls::put_count, Calls::put_f32);
    }

    fn q15_rack_round(&mut self) {
        self.fill();
        let rack = self.any_rack(Calls::any_q15);
        let allowance = self.any_allowance(rack.number);
        let waiting = self.any_waiting();
        let r = unsafe {
            pescrondilu_q15_rack_round(
                rack,
                allowance,
                waiting,
                self.table_q.as_ptr(),
                self.table_n(),
                self.in1_q.as_ptr(),
                N,
                self.in2_q.as_ptr(),
                self.length(N, 5),
                self.out1_q.as_mut_ptr(),
                self.length(N, 6),
                self.out2_q.as_mut_ptr(),
                self.length(N, 7),
            )
        };
        self.put_round(r, Calls::put_nothing, Calls::put_q15);
    }

    fn f32_rack_round_slices(&mut self) {
        self.fill();
        let rack = self.any_rack(Calls::any_f32);
        let allowance = self.any_allowance(rack.number);
        let lists = self.any_lists();
        let (mpx, pilot) = (lists[0].inputs(&self.in1), lists[1].inputs(&self.in2));
        let mut sum = lists[2].outputs(&mut self.out1);
        let mut difference = lists[3].outputs(&mut self.out2);
        let r = unsafe {
            pescrondilu_f32_rack_round_slices(
                rack,
                allowance,
                self.table.as_ptr(),
                self.table_n(),
                mpx.as_ptr(),
                lists[0].count,
                pilot.as_ptr(),
                lists[1].count,
                sum.as_mut_ptr(),
                lists[2].count,
                difference.as_mut_ptr(),
                lists[3].count,
            )
        };
        self.put_round(r, Calls::put_count, Calls::put_f32);
        // the lists come back as they were
        assert_eq!(mpx, lists[0].inputs(&self.in1));
        assert_eq!(pilot, lists[1].inputs(&self.in2));
        assert_eq!(sum, lists[2].outputs(&mut self.out1));
        assert_eq!(difference, lists[3].outputs(&mut self.out2));
    }

    fn q15_rack_round_slices(&mut self) {
        self.fill();
        let rack = self.any_rack(Calls::any_q15);
        let allowance = self.any_allowance(rack.number);
        let lists = self.any_lists();
        let (mpx, pilot) = (lists[0].inputs(&self.in1_q), lists[1].inputs(&self.in2_q));
        let mut sum = lists[2].outputs(&mut self.out1_q);
        let mut difference = lists[3].outputs(&mut self.out2_q);
        let r = unsafe {
            pescrondilu_q15_rack_round_slices(
                rack,
                allowance,
                self.table_q.as_ptr(),
                self.table_n(),
                mpx.as_ptr(),
                lists[0].count,
                pilot.as_ptr(),
                lists[1].count,
                sum.as_mut_ptr(),
                lists[2].count,
                difference.as_mut_ptr(),
                lists[3].count,
            )
        };
        self.put_round(r, Calls::put_nothing, Calls::put_q15);
        // the lists come back as they were
        assert_eq!(mpx, lists[0].inputs(&self.in1_q));
        assert_eq!(pilot, lists[1].inputs(&self.in2_q));
        assert_eq!(sum, lists[2].outputs(&mut self.out1_q));
        assert_eq!(difference, lists[3].outputs(&mut self.out2_q));
    }

    fn f32_scan(&mut self) {
        self.fill();
        let s = unsafe { pescrondilu_f32_scan(self.in1.as_ptr(), self.length(N, 5)) };
        self.put32(s.finite);
        self.put64(s.read as u64);
    }

    fn matrix_f32(&mut self) {
        self.fill();
        let a = unsafe {
            pescrondilu_matrix_f32(
                self.in1.as_ptr(),
                N,
                self.in2.as_ptr(),
                self.length(N, 5),
                self.out1.as_mut_ptr(),
                self.length(N, 6),
                self.out2.as_mut_ptr(),
                self.length(N, 7),
            )
        };
        self.put_answer(a);
        self.put_outputs();
    }

    fn matrix_q15(&mut self) {
        self.fill();
        let a = unsafe {
            pescrondilu_matrix_q15(
                self.in1_q.as_ptr(),
                N,
                self.in2_q.as_ptr(),
                self.length(N, 5),
                self.out1_q.as_mut_ptr(),
                self.length(N, 6),
                self.out2_q.as_mut_ptr(),
                self.length(N, 7),
            )
        };
        self.put_answer(a);
        self.put_outputs();
    }

    fn encode_block(&mut self) {
        self.fill();
        let e = self.any_encode();
        let r = unsafe {
            pescrondilu_encode_block(
                e,
                self.table.as_ptr(),
                self.table_n(),
                self.in1.as_ptr(),
                N,
                self.in2.as_ptr(),
                self.length(N, 5),
                self.out1.as_mut_ptr(),
                self.length(N, 6),
            )
        };
        self.put_answer(r.answer);
        self.put_encode(r.encoder);
        self.put_outputs();
    }

    fn encode_rds_block(&mut self) {
        self.fill();
        let e = self.any_encode_rds();
        let r = unsafe {
            pescrondilu_encode_rds_block(
                e,
                self.table.as_ptr(),
                self.table_n(),
                self.in1.as_ptr(),
                N,
                self.in2.as_ptr(),
                self.length(N, 5),
                self.in3.as_ptr(),
                self.length(N, 7),
                self.out1.as_mut_ptr(),
                self.length(N, 6),
            )
        };
        self.put_answer(r.answer);
        self.put_encode_rds(r.encoder);
        self.put_outputs();
    }

    fn rds_group(&mut self) {
        self.fill_bits();
        let carried = self.any_switch();
        let words = self.any_words();
        let n = self.bits_n();
        let former = Former { carried };
        let r = unsafe { pescrondilu_rds_group(former, words, self.bits.as_mut_ptr(), n) };
        self.put_answer(r.answer);
        self.put32(r.former.carried);
        self.put_bits();
    }

    // ---- The functions, in the order of agreement.c

    fn decoders(&mut self) {
        self.each("pescrondilu_f32_new", |t| {
            let m = pescrondilu_f32_new(
                t.near_double(19000.0),
                t.near_double(20.0),
                t.near_double(0.0625),
                t.near_double(0.001),
                t.near_double(192000.0),
            );
            t.put32(m.code);
            t.put_f32(m.decoder);
        });
        self.each("pescrondilu_q15_new", |t| {
            let m = pescrondilu_q15_new(
                t.near_double(19000.0),
                t.near_double(20.0),
                t.near_double(0.0625),
                t.near_double(0.001),
                t.near_double(192000.0),
            );
            t.put32(m.code);
            t.put_q15(m.decoder);
        });
        self.each("pescrondilu_f32_enable", |t| {
            let d = pescrondilu_f32_enable(t.any_f32());
            t.put_f32(d);
        });
        self.each("pescrondilu_q15_enable", |t| {
            let d = pescrondilu_q15_enable(t.any_q15());
            t.put_q15(d);
        });
        self.each("pescrondilu_f32_disable", |t| {
            let d = pescrondilu_f32_disable(t.any_f32());
            t.put_f32(d);
        });
        self.each("pescrondilu_q15_disable", |t| {
            let d = pescrondilu_q15_disable(t.any_q15());
            t.put_q15(d);
        });
        self.each("pescrondilu_f32_reset", |t| {
            let d = pescrondilu_f32_reset(t.any_f32());
            t.put_f32(d);
        });
        self.each("pescrondilu_q15_reset", |t| {
            let d = pescrondilu_q15_reset(t.any_q15());
            t.put_q15(d);
        });
        self.each("pescrondilu_f32_read", |t| {
            let r = pescrondilu_f32_read(t.any_f32());
            t.put_readout(r);
        });
        self.each("pescrondilu_q15_read", |t| {
            let r = pescrondilu_q15_read(t.any_q15());
            t.put_readout(r);
        });
        self.each("pescrondilu_f32_block", |t| {
            t.f32_block(pescrondilu_f32_block, Calls::put_count)
        });
        self.each("pescrondilu_f32_plain_block", |t| {
            t.f32_block(pescrondilu_f32_plain_block, Calls::put_nothing)
        });
        self.each("pescrondilu_q15_block", |t| {
            t.q15_block(pescrondilu_q15_block)
        });
        self.each("pescrondilu_q15_plain_block", |t| {
            t.q15_block(pescrondilu_q15_plain_block)
        });
        self.each("pescrondilu_f32_merged_block", |t| {
            t.f32_block(pescrondilu_f32_merged_block, Calls::put_count)
        });
        self.each("pescrondilu_q15_merged_block", |t| {
            t.q15_block(pescrondilu_q15_merged_block)
        });
        self.each("pescrondilu_f32_summary_new", |t| {
            let s = pescrondilu_f32_summary_new(t.any32());
            t.put_summary(s, Calls::put_float);
        });
        self.each("pescrondilu_q15_summary_new", |t| {
            let s = pescrondilu_q15_summary_new(t.any32());
            t.put_summary(s, Calls::put16);
        });
        self.each("pescrondilu_f32_summary_block", Calls::f32_summary_block);
        self.each("pescrondilu_q15_summary_block", Calls::q15_summary_block);
        self.each("pescrondilu_f32_rack_round", Calls::f32_rack_round);
        self.each("pescrondilu_q15_rack_round", Calls::q15_rack_round);
        self.each(
            "pescrondilu_f32_rack_round_slices",
            Calls::f32_rack_round_slices,
        );
        self.each(
            "pescrondilu_q15_rack_round_slices",
            Calls::q15_rack_round_slices,
        );
        self.each("pescrondilu_f32_scan", Calls::f32_scan);
        self.each("pescrondilu_matrix_f32", Calls::matrix_f32);
        self.each("pescrondilu_matrix_q15", Calls::matrix_q15);
    }

    fn encoders(&mut self) {
        self.each("pescrondilu_on_air", |t| {
            let yes = pescrondilu_on_air(t.near_double(19001.5), t.near_float(0.0625));
            t.put32(yes);
        });
        self.each("pescrondilu_nco_increment_for", |t| {
            let i = pescrondilu_nco_increment_for(t.any_double(), t.near_double(192000.0));
            t.put32(i.code);
            t.put32(i.increment);
        });
        self.each("pescrondilu_nco_new", |t| {
            let m = pescrondilu_nco_new(t.any_double(), t.near_double(192000.0));
            t.put_nco_made(m);
        });
        self.each("pescrondilu_nco_from_increment", |t| {
            let o = pescrondilu_nco_from_increment(t.any32());
            t.put_nco(o);
        });
        self.each("pescrondilu_nco_set_frequency", |t| {
            let o = t.any_nco();
            let m = pescrondilu_nco_set_frequency(o, t.any_double(), t.near_double(192000.0));
            t.put_nco_made(m);
        });
        self.each("pescrondilu_nco_set_phase", |t| {
            let o = pescrondilu_nco_set_phase(t.any_nco(), t.any32());
            t.put_nco(o);
        });
        self.each("pescrondilu_nco_advance", |t| {
            let o = pescrondilu_nco_advance(t.any_nco(), t.any64() as usize);
            t.put_nco(o);
        });
        self.each("pescrondilu_nco_reset", |t| {
            let o = pescrondilu_nco_reset(t.any_nco());
            t.put_nco(o);
        });
        self.each("pescrondilu_encode_new", |t| {
            let m = pescrondilu_encode_new(
                t.near_double(19000.0),
                t.near_float(0.5),
                t.near_float(0.0625),
                t.near_double(192000.0),
            );
            t.put_encode_made(m);
        });
        self.each("pescrondilu_encode_set_pilot", |t| {
            let m = pescrondilu_encode_set_pilot(t.any_encode(), t.any_float());
            t.put_encode_made(m);
        });
        self.each("pescrondilu_encode_set_phase", |t| {
            let e = pescrondilu_encode_set_phase(t.any_encode(), t.any32());
            t.put_encode(e);
        });
        self.each("pescrondilu_encode_reset", |t| {
            let e = pescrondilu_encode_reset(t.any_encode());
            t.put_encode(e);
        });
        self.each("pescrondilu_encode_block", Calls::encode_block);
        self.each("pescrondilu_encode_rds_new", |t| {
            let m = pescrondilu_encode_rds_new(
                t.near_double(19000.0),
                t.near_float(0.5),
                t.near_float(0.0625),
                t.near_float(0.03125),
                t.near_double(192000.0),
            );
            t.put_encode_rds_made(m);
        });
        self.each("pescrondilu_encode_rds_set_pilot", |t| {
            let m = pescrondilu_encode_rds_set_pilot(t.any_encode_rds(), t.any_float());
            t.put_encode_rds_made(m);
        });
        self.each("pescrondilu_encode_rds_set_rds", |t| {
            let m = pescrondilu_encode_rds_set_rds(t.any_encode_rds(), t.any_float());
            t.put_encode_rds_made(m);
        });
        self.each("pescrondilu_encode_rds_set_phase", |t| {
            let e = pescrondilu_encode_rds_set_phase(t.any_encode_rds(), t.any32());
            t.put_encode_rds(e);
        });
        self.each("pescrondilu_encode_rds_reset", |t| {
            let e = pescrondilu_encode_rds_reset(t.any_encode_rds());
            t.put_encode_rds(e);
        });
        self.each("pescrondilu_encode_rds_block", Calls::encode_rds_block);
    }

    fn groups(&mut self) {
        self.each("pescrondilu_rds_remainder", |t| {
            let y = pescrondilu_rds_remainder(t.any32());
            t.put32(y);
        });
        self.each("pescrondilu_rds_former_new", |t| {
            let f = pescrondilu_rds_former_new();
            t.put32(f.carried);
        });
        self.each("pescrondilu_rds_group", Calls::rds_group);
    }

    fn numbers(&mut self) {
        self.each("pescrondilu_sat16", |t| {
            let y = pescrondilu_sat16(t.any_i64());
            t.put16(y);
        });
        self.each("pescrondilu_round_shift", |t| {
            let y = pescrondilu_round_shift(t.any_i64(), t.any32());
            t.put64(y as u64);
        });
        self.each("pescrondilu_q15_product", |t| {
            let y = pescrondilu_q15_product(t.any16(), t.any16());
            t.put64(y as u64);
        });
        self.each("pescrondilu_q15_mul", |t| {
            let y = pescrondilu_q15_mul(t.any16(), t.any16());
            t.put16(y);
        });
        self.each("pescrondilu_q15_add_sat", |t| {
            let y = pescrondilu_q15_add_sat(t.any16(), t.any16());
            t.put16(y);
        });
        self.each("pescrondilu_q15_sub_sat", |t| {
            let y = pescrondilu_q15_sub_sat(t.any16(), t.any16());
            t.put16(y);
        });
        self.each("pescrondilu_low32", |t| {
            let y = pescrondilu_low32(t.any_i64());
            t.put32(y);
        });
        self.each("pescrondilu_phase_twice", |t| {
            let y = pescrondilu_phase_twice(t.any32());
            t.put32(y);
        });
        self.each("pescrondilu_phase_thrice", |t| {
            let y = pescrondilu_phase_thrice(t.any32());
            t.put32(y);
        });
        self.each("pescrondilu_floor_f64", |t| {
            let y = pescrondilu_floor_f64(t.any_double());
            t.put_double(y);
        });
        self.each("pescrondilu_half_even_f64", |t| {
            let y = pescrondilu_half_even_f64(t.any_double());
            t.put_double(y);
        });
        self.each("pescrondilu_f64_to_f32", |t| {
            let y = pescrondilu_f64_to_f32(t.any_double());
            t.put_float(y);
        });
        self.each("pescrondilu_i64_to_f64", |t| {
            let y = pescrondilu_i64_to_f64(t.any_i64());
            t.put_double(y);
        });
        self.each("pescrondilu_f64_to_i64", |t| {
            let y = pescrondilu_f64_to_i64(t.any_double());
            t.put64(y as u64);
        });
        self.each("pescrondilu_f32_to_f64", |t| {
            let y = pescrondilu_f32_to_f64(t.any_float());
            t.put_double(y);
        });
        self.each("pescrondilu_is_finite_f32", |t| {
            let y = pescrondilu_is_finite_f32(t.any_float());
            t.put_bool(y);
        });
        self.each("pescrondilu_is_finite_f64", |t| {
            let y = pescrondilu_is_finite_f64(t.any_double());
            t.put_bool(y);
        });
        self.each("pescrondilu_flush_denormal", |t| {
            let y = pescrondilu_flush_denormal(t.any_float());
            t.put_float(y);
        });
        self.each("pescrondilu_floor_scaled", |t| {
            let y = pescrondilu_floor_scaled(t.any_double(), t.any_double());
            t.put64(y as u64);
        });
        self.each("pescrondilu_q15_from_f64", |t| {
            let y = pescrondilu_q15_from_f64(t.any_double());
            t.put16(y);
        });
        self.each("pescrondilu_q14_from_f64", |t| {
            let q = pescrondilu_q14_from_f64(t.near_double(-0.5));
            t.put32(q.code);
            t.put16(q.value);
        });
        self.each("pescrondilu_correction_plain", |t| {
            let y = pescrondilu_correction_plain(t.any_float());
            t.put32(y);
        });
        self.each("pescrondilu_correction_fast", |t| {
            let y = pescrondilu_correction_fast(t.any_float());
            t.put32(y.step);
            t.put_bool(y.quick);
        });
        self.each("pescrondilu_quick_serves", |t| {
            let y = pescrondilu_quick_serves(t.any_double());
            t.put_bool(y);
        });
        self.each("pescrondilu_cos_f32", |t| {
            let p = t.any32();
            // SAFETY, here and below: the length is not above that of the slice
            let y = unsafe { pescrondilu_cos_f32(t.table.as_ptr(), t.table_n(), p) };
            t.put_float(y);
        });
        self.each("pescrondilu_interp_f32_pair", |t| {
            let p = t.any32();
            let pair = unsafe { pescrondilu_interp_f32_pair(t.table.as_ptr(), t.table_n(), p) };
            t.put_float(pair.c);
            t.put_float(pair.s);
        });
        self.each("pescrondilu_cos_q15", |t| {
            let p = t.any32();
            let y = unsafe { pescrondilu_cos_q15(t.table_q.as_ptr(), t.table_n(), p) };
            t.put16(y);
        });
        self.each("pescrondilu_interp_q15", |t| {
            let p = t.any32();
            let y = unsafe { pescrondilu_interp_q15(t.table_q.as_ptr(), t.table_n(), p) };
            t.put32(y as u32);
        });
    }
}

fn from_rust() -> String {
    let mut calls = Calls::new();
    calls.decoders();
    calls.encoders();
    calls.groups();
    calls.numbers();
    calls.lines
}

#[test]
fn c_and_rust_get_the_same_bits() {
    let Some(cc) = cc("the agreement of C and Rust") else {
        return;
    };
    let source = root().join("host/pescrondilu-sys/tests/header/agreement.c");
    let rust = from_rust();
    for option in ["-O0", "-O2"] {
        let made = program(&cc, &source, &[option], &format!("agreement{option}"));
        let c = run(&mut Command::new(made));
        for (i, (in_c, in_rust)) in c.lines().zip(rust.lines()).enumerate() {
            assert_eq!(in_c, in_rust, "line {} (C first, {option})", i + 1);
        }
        assert_eq!(c.lines().count(), rust.lines().count());
    }
}

/// The first word after a function's name, which is the code where there is one, by function.
fn first_words(lines: &str) -> BTreeMap<&str, BTreeSet<&str>> {
    let mut found: BTreeMap<&str, BTreeSet<&str>> = BTreeMap::new();
    for line in lines.lines() {
        let mut words = line.split(' ');
        let name = words.next().expect("a line has a name");
        let word = words.next().expect("a line has an answer");
        found.entry(name).or_default().insert(word);
    }
    found
}

/// The comparison is of use only if it calls every function, and blocks are both carried out and
/// refused for each of their causes.
#[test]
fn the_calls_cover_the_library() {
    let lines = from_rust();
    let found = first_words(&lines);
    let declared = header().functions;
    assert!(found.keys().eq(declared.keys()), "{:?}", found.keys());

    let codes = |name: &str| -> Vec<u32> {
        let words = found[name].iter();
        words
            .map(|w| u32::from_str_radix(w, 16).expect("hex"))
            .collect()
    };
    for name in declared.keys() {
        let expected: &[u32] = match name.as_str() {
            "pescrondilu_q15_block"
            | "pescrondilu_q15_plain_block"
            | "pescrondilu_q15_merged_block" => &[0, 100, 109, 110, 111],
            "pescrondilu_f32_summary_block" => &[0, 109, 110, 111, 120],
            "pescrondilu_q15_summary_block" => &[0, 100, 109, 110, 111, 120],
            // it answers no code: its first word is the period
            "pescrondilu_f32_summary_new" | "pescrondilu_q15_summary_new" => continue,
            "pescrondilu_f32_rack_round" | "pescrondilu_f32_rack_round_slices" => {
                &[0, 109, 110, 111, 121, 122]
            }
            "pescrondilu_q15_rack_round" | "pescrondilu_q15_rack_round_slices" => {
                &[0, 100, 109, 110, 111, 121, 122]
            }
            "pescrondilu_matrix_f32" | "pescrondilu_matrix_q15" => &[0, 110, 111],
            _ if name.ends_with("_block") => &[0, 109, 110, 111],
            "pescrondilu_encode_set_pilot" | "pescrondilu_encode_rds_set_pilot" => &[0, 114],
            "pescrondilu_encode_rds_set_rds" => &[0, 116],
            "pescrondilu_on_air" | "pescrondilu_f32_scan" | "pescrondilu_quick_serves" => &[0, 1],
            "pescrondilu_q14_from_f64" => &[0, 118],
            "pescrondilu_rds_group" => &[0, 111, 119],
            "pescrondilu_rds_former_new" => &[0],
            _ if name.ends_with("_new") => {
                let codes = codes(name);
                assert!(codes[0] == 0 && codes.len() > 2, "{name}: {codes:?}");
                continue;
            }
            _ => continue,
        };
        assert_eq!(codes(name), expected, "{name}");
    }
}

/// .. and if a count that is 0 and one that is not stand in what accepted calls gave.
#[test]
fn the_calls_count() {
    let lines = from_rust();
    for (name, counts) in [
        ("pescrondilu_f32_block", 3..4),
        ("pescrondilu_f32_merged_block", 3..4),
        ("pescrondilu_f32_summary_block", 3..4),
        ("pescrondilu_f32_rack_round", 3 + PLACES..3 + 2 * PLACES),
        (
            "pescrondilu_f32_rack_round_slices",
            3 + PLACES..3 + 2 * PLACES,
        ),
    ] {
        let mut found = BTreeSet::new();
        for line in lines.lines() {
            let words: Vec<&str> = line.split(' ').collect();
            if words[0] == name && words[1] == "00000000" {
                found.extend(words[1..][counts.clone()].iter().copied());
            }
        }
        assert!(found.contains("0000000000000000"), "{name}: {found:?}");
        assert!(found.len() > 2, "{name}: {found:?}");
    }
}
