//! Sessions of whole records: an oscillator or an encoder over a list of calls, every field of our
//! record after each of them beside what the original's accessors say.

use pescrondilu_sys::encoder::{
    Nco, pescrondilu_nco_advance, pescrondilu_nco_from_increment, pescrondilu_nco_new,
    pescrondilu_nco_reset, pescrondilu_nco_set_frequency, pescrondilu_nco_set_phase,
};
use sdrk_core::kernels::mix;
use sdrk_core::probe;
use stereo_oracle::answers::{self, Arguments, Block, Encoder, SIDES, TABLE};
use stereo_oracle::inputs::{Inputs, Limits, limits, one};

use crate::encoder::{self, Call, Ours, Session};
use crate::part::Part;

/// Calls of a session.
fn calls(r: &mut Inputs) -> u64 {
    4 + r.below(8)
}

// ---- oscillator

/// A frequency and a rate: any, or such as a signal has, below and above the rate.
fn frequency(r: &mut Inputs) -> (f64, f64) {
    match r.below(4) {
        0 => (r.f64(), r.f64()),
        1 => (r.f64(), 192000.0),
        _ => {
            let whole = r.below(1 << 30) as f64;
            (whole - 400_000_000.0, (1 + r.below(1 << 24)) as f64)
        }
    }
}

/// How far to advance.
fn steps(r: &mut Inputs) -> usize {
    match r.below(3) {
        0 => one(r, &[0, 1, 4096, 1 << 32, usize::MAX]),
        1 => r.below(1 << 16) as usize,
        _ => r.0.word() as usize,
    }
}

fn oscillator(part: &mut Part, r: &mut Inputs) {
    let fields = |o: Nco| (o.phase, o.inc);
    let theirs_of = |o: &mix::Nco| (o.phase(), o.increment());
    let (freq, rate) = frequency(r);
    let made = pescrondilu_nco_new(freq, rate);
    part.code(made.code);
    let new = answers::new_nco(freq, rate);
    let expected = match &new {
        Ok(o) => (0, theirs_of(o)),
        Err(number) => (100 + number, (0, 0)),
    };
    part.same(expected, (made.code, fields(made.nco)), || {
        format!("new {freq:?} {rate:?}")
    });
    let (mut ours, mut theirs) = match new {
        Ok(o) if r.below(2) == 0 => (made.nco, o),
        _ => {
            let inc = r.u32();
            (
                pescrondilu_nco_from_increment(inc),
                mix::Nco::from_increment(inc),
            )
        }
    };
    part.same(theirs_of(&theirs), fields(ours), || "begun".into());
    for _ in 0..calls(r) {
        let before = ours;
        let (mut code, mut number) = (0, 0);
        let call = r.below(5);
        match call {
            0 | 1 => {
                let (freq, rate) = frequency(r);
                let done = pescrondilu_nco_set_frequency(ours, freq, rate);
                (code, ours) = (done.code, done.nco);
                number = answers::set_frequency(&mut theirs, freq, rate);
            }
            2 => {
                let p = r.u32();
                ours = pescrondilu_nco_set_phase(ours, p);
                theirs.set_phase(p);
            }
            3 => {
                let n = steps(r);
                ours = pescrondilu_nco_advance(ours, n);
                probe::advance(&mut theirs, n);
            }
            _ => {
                ours = pescrondilu_nco_reset(ours);
                theirs.reset();
            }
        }
        part.code(code);
        let expected = (
            if number == 0 { 0 } else { 100 + number },
            theirs_of(&theirs),
        );
        part.same(expected, (code, fields(ours)), || {
            format!("call {call} of {before:?}")
        });
    }
}

/// An oscillator from its frequency or from an increment.
pub fn oscillators(name: &'static str, count: u64) -> bool {
    let mut r = Inputs::new(18);
    let mut part = Part::new(name);
    (0..count).for_each(|_| oscillator(&mut part, &mut r));
    part.report()
}

// ---- encoders

/// Mostly such as a station has; else each of them at a limit, or any.
fn arguments(r: &mut Inputs, l: &Limits) -> Arguments {
    let good = Arguments {
        frequency: 18000.0 + r.below(2_000_001) as f64 / 1000.0,
        main: r.below(1001) as f32 / 1000.0,
        pilot: r.below(201) as f32 / 1000.0,
        rds: r.below(201) as f32 / 1000.0,
        rate: 120000.0 + r.below(1 << 20) as f64,
    };
    match r.below(8) {
        0 => Arguments {
            frequency: one(r, &l.frequency),
            ..good
        },
        1 => Arguments {
            main: one(r, &l.main),
            pilot: one(r, &l.level),
            rds: one(r, &l.level),
            ..good
        },
        2 => Arguments {
            rate: one(r, &l.rate),
            ..good
        },
        3 => Arguments {
            frequency: r.f64(),
            main: r.f32(),
            pilot: r.f32(),
            rds: r.f32(),
            rate: r.f64(),
        },
        _ => good,
    }
}

/// A level to set: mostly one that is allowed.
fn level(r: &mut Inputs, l: &Limits) -> f32 {
    match r.below(4) {
        0 => one(r, &l.level),
        1 => r.f32(),
        _ => r.below(201) as f32 / 1000.0,
    }
}

/// A block, one in four with a damaged length, the table's among them.
fn block(r: &mut Inputs, table: &[f32], bounded: bool) -> Block {
    let n = match r.below(3) {
        0 => one(r, &[0, 1, 2, 63, 64, 65]),
        _ => r.below(100) as usize,
    };
    let mut all = [TABLE, n, n, n, n];
    if r.below(4) == 0 {
        for _ in 0..1 + r.below(2) {
            let k = r.below(5) as usize;
            all[k] = match k {
                0 => one(r, &[0, 1, 4096, 4098]),
                _ => one(r, &[0, n + 1, n / 2, 2 * n + 3]),
            };
        }
    }
    let [entries, left, right, rds, output] = all;
    let mut table = table.to_vec();
    table.resize(entries, 1.0);
    let mut samples = |m| r.block_f32(m, bounded);
    Block {
        table,
        left: samples(left),
        right: samples(right),
        rds: samples(rds),
        output: samples(output),
    }
}

/// Some calls of a session, on a table of its own.
fn go(session: &mut Session<2>, r: &mut Inputs, l: &Limits, with_rds: bool) {
    let bounded = r.below(2) == 0;
    let table = r.table_f32(bounded);
    for _ in 0..calls(r) {
        match r.below(8) {
            0 => session.set(Call::Pilot(level(r, l))),
            1 if with_rds => session.set(Call::Rds(level(r, l))),
            2 => session.set(Call::Phase(r.u32())),
            3 => session.set(Call::Reset),
            _ => session.block(&block(r, &table, bounded)),
        }
    }
}

/// Sessions of encoders that construction returned. A construction that is refused counts too.
pub fn constructed(name: &'static str, with_rds: bool, count: u64) -> bool {
    let mut r = Inputs::new(19);
    let l = limits();
    let mut part = Part::new(name);
    let mut made = 0;
    while made < count {
        let a = arguments(&mut r, &l);
        if let Some((ours, e)) = encoder::construct(&mut part, a, with_rds) {
            made += 1;
            let theirs = SIDES.map(|side| (side, e));
            let mut session = Session::new(&mut part, format!("{a:?}"), ours, theirs);
            go(&mut session, &mut r, &l, with_rds);
        }
    }
    part.report()
}

/// Sessions of records filled in by hand, with any fields.
pub fn by_hand(name: &'static str, with_rds: bool, count: u64) -> bool {
    let mut r = Inputs::new(20);
    let l = limits();
    let mut part = Part::new(name);
    for k in 0..count {
        let fields = r.fields(k % 2 == 0);
        let ours = Ours::by_hand(fields, with_rds);
        let theirs = SIDES.map(|side| (side, Encoder::by_hand(fields, with_rds)));
        let mut session = Session::new(&mut part, format!("{fields:?}"), ours, theirs);
        go(&mut session, &mut r, &l, with_rds);
    }
    part.report()
}
