//! The group former by the request's words, over lists of bits.

use stereo_oracle::answers::{ACCEPTED, Said};

use crate::check::{CHECK, WORD, bits, by_matrix};

/// The four words of a group.
pub type Words = [u16; 4];

/// Bits of a group.
pub const GROUP: usize = 4 * (WORD + CHECK);

const A: u16 = 0x0FC;
const B: u16 = 0x198;
const C: u16 = 0x168;
const C_PRIME: u16 = 0x350;
const D: u16 = 0x1B4;

/// Whether bit 11 of word two is set: then the group is of version B and block three takes C'.
pub fn is_version_b(words: &Words) -> bool {
    bits(words[1] as u32, 12)[0]
}

/// Cause 19.
pub fn is_refused(words: &Words) -> bool {
    is_version_b(words) && words[2] != words[0]
}

fn offsets(words: &Words) -> [u16; 4] {
    let third = if is_version_b(words) { C_PRIME } else { C };
    [A, B, third, D]
}

/// A word, then its check.
fn block(word: u16, offset: u16) -> Vec<bool> {
    let check = by_matrix(word) ^ offset;
    [bits(word as u32, WORD), bits(check as u32, CHECK)].concat()
}

/// The group's bits before they are coded.
fn blocks(words: &Words) -> Vec<bool> {
    words
        .iter()
        .zip(offsets(words))
        .flat_map(|(word, offset)| block(*word, offset))
        .collect()
}

/// The former with the bit that it carries from group to group.
#[derive(Clone, Copy, Debug, Default, PartialEq, Eq)]
pub struct Former {
    pub carried: bool,
}

impl Former {
    /// Each bit goes out as the exclusive-or with the output bit before it.
    fn coded(&mut self, bits: Vec<bool>) -> Vec<bool> {
        let mut output = vec![self.carried];
        for (i, bit) in bits.iter().enumerate() {
            output.push(bit ^ output[i]);
        }
        self.carried = output[bits.len()];
        output.split_off(1)
    }

    /// Forms a group in the output, a bit a byte.
    pub fn group(&mut self, words: &Words, output: &mut [u8]) -> Said {
        if output.len() != GROUP {
            return [111, GROUP, output.len()];
        }
        if is_refused(words) {
            return [119, 0, 0];
        }
        let sent = self.coded(blocks(words));
        output.copy_from_slice(&sent.into_iter().map(u8::from).collect::<Vec<_>>());
        ACCEPTED
    }
}
