//! Calls from a fixed seed.

use stereo_oracle::inputs::{Inputs, one};

use crate::former::{GROUP, Words, is_version_b};

/// Bytes of the buffer whose first ones are a call's output.
pub const ROOM: usize = 2 * GROUP;

#[derive(Clone, Copy, Debug)]
pub struct Call {
    pub words: Words,
    /// the output's length
    pub length: usize,
}

/// One in four is at an edge.
fn word(r: &mut Inputs) -> u16 {
    match r.below(4) {
        0 => {
            let bit = 1 << r.below(16);
            one(r, &[0, 0xFFFF, 0x0800, 0xF7FF, bit])
        }
        _ => r.0.word() as u16,
    }
}

/// A word that is not the one given. In half of them one bit differs.
fn other(r: &mut Inputs, word: u16) -> u16 {
    match r.below(2) {
        0 => word ^ 1 << r.below(16),
        _ => word.wrapping_add(1 + r.below(65535) as u16),
    }
}

/// Words that cause 19 does not refuse.
fn accepted(r: &mut Inputs) -> Words {
    let mut words = std::array::from_fn(|_| word(r));
    if is_version_b(&words) {
        words[2] = words[0];
    }
    words
}

/// Words that cause 19 refuses.
fn refused(r: &mut Inputs) -> Words {
    let mut words = std::array::from_fn(|_| word(r));
    words[1] |= 0x0800;
    words[2] = other(r, words[0]);
    words
}

/// A length that cause 11 refuses.
fn length(r: &mut Inputs) -> usize {
    match r.below(2) {
        0 => one(r, &[0, GROUP - 1, GROUP + 1, ROOM]),
        _ => match r.below(ROOM as u64) as usize {
            n if n < GROUP => n,
            n => n + 1,
        },
    }
}

/// One call in eight has another length than a group's. A third of these has words that cause 19
/// refuses too; of the others it is one in ten.
pub fn call(r: &mut Inputs) -> Call {
    let (length, of) = match r.below(8) {
        0 => (length(r), 3),
        _ => (GROUP, 10),
    };
    let words = match r.below(of) {
        0 => refused(r),
        _ => accepted(r),
    };
    Call { words, length }
}
