//! The scan of the pilot, compared with a model by std's `is_finite`: the original has the yes or no
//! inside its block only, and no count.

use pescrondilu_sys::decoder::scan;
use stereo_oracle::inputs::{Inputs, one};

use crate::part::Part;

const NOT_FINITE: [u32; 8] = [
    0x7F80_0000,
    0xFF80_0000,
    0x7F80_0001,
    0xFF80_0001,
    0x7FC0_0000,
    0xFFC0_0000,
    0x7FFF_FFFF,
    0xFFFF_FFFF,
];

/// What the scan has to tell of a pilot.
fn expected(pilot: &[f32]) -> (u32, usize) {
    match pilot.iter().rposition(|x| !x.is_finite()) {
        Some(last) => (0, pilot.len() - last),
        None => (1, pilot.len()),
    }
}

fn compare_one(part: &mut Part, pilot: &[f32]) {
    let got = scan(pilot);
    part.samples += pilot.len() as u64;
    part.not_finite += u64::from(got.finite == 0);
    part.same(expected(pilot), (got.finite, got.read), || {
        let bits: Vec<u32> = pilot.iter().map(|x| x.to_bits()).collect();
        format!("{bits:08x?}")
    });
}

/// Samples that are not finite at no, one or many places among finite ones.
fn block(r: &mut Inputs) -> Vec<f32> {
    let n = r.below(200) as usize;
    let mut pilot: Vec<f32> = (0..n).map(|_| finite(r)).collect();
    let many = one(r, &[0, 1, 1, 2, 3, n]);
    for _ in 0..many.min(n) {
        let at = r.below(n as u64) as usize;
        pilot[at] = f32::from_bits(match r.below(2) {
            0 => one(r, &NOT_FINITE),
            _ => r.u32() | 0x7F80_0000,
        });
    }
    pilot
}

/// Any finite float, those near the largest among them.
fn finite(r: &mut Inputs) -> f32 {
    let w = r.u32();
    f32::from_bits(match r.below(4) {
        0 => w & 0x8000_00FF | 0x7F7F_FF00,
        _ if w & 0x7F80_0000 == 0x7F80_0000 => w ^ 0x0080_0000,
        _ => w,
    })
}

pub fn compare(count: u64) -> bool {
    let mut r = Inputs::new(31);
    let mut part = Part::new("scan");
    for _ in 0..count {
        compare_one(&mut part, &block(&mut r));
    }
    part.report()
}

/// Every f32, alone and in a block of 40 samples, at each place in turn.
pub fn every() -> bool {
    let mut part = Part::new("every_scan");
    let mut pilot = [-1.0f32; 40];
    for w in 0..=u32::MAX {
        let (x, at) = (f32::from_bits(w), w as usize % 40);
        compare_one(&mut part, &[x]);
        pilot[at] = x;
        compare_one(&mut part, &pilot);
        pilot[at] = -1.0;
    }
    part.report()
}
