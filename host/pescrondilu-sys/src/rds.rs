//! crates/c_rds.

use crate::Code;

/// The four words of a group.
#[repr(C)]
#[derive(Clone, Copy, Debug, PartialEq, Eq)]
pub struct RdsWords {
    pub one: u16,
    pub two: u16,
    pub three: u16,
    pub four: u16,
}

layout!(RdsWords, 8, one 0, two 2, three 4, four 6);

#[repr(C)]
#[derive(Clone, Copy, Debug, PartialEq, Eq)]
pub struct Former {
    pub carried: u32,
}

layout!(Former, 4, carried 0);

#[repr(C)]
#[derive(Clone, Copy, Debug, PartialEq, Eq)]
pub struct FormerReply {
    pub answer: Code,
    pub former: Former,
}

layout!(FormerReply, 32, answer 0, former 24);

unsafe extern "C" {
    pub safe fn pescrondilu_rds_remainder(number: u32) -> u32;
    pub safe fn pescrondilu_rds_former_new() -> Former;
    pub fn pescrondilu_rds_group(
        former: Former,
        words: RdsWords,
        output: *mut u8,
        output_n: usize,
    ) -> FormerReply;
}

#[inline]
pub fn group(former: Former, words: RdsWords, output: &mut [u8]) -> FormerReply {
    // SAFETY: pointer and length are those of one slice, and the other arguments are values.
    unsafe { pescrondilu_rds_group(former, words, output.as_mut_ptr(), output.len()) }
}
