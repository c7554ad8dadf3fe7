//! Slices of pairs, cut into the slices that the core takes.

use crate::error::Refusal;
use crate::types::ComplexSample;

/// Samples that go through the scratch at a time. The scratch is zeroed at each call, which takes
/// longer for a larger one, and a smaller one calls the core more often. Of 4 to 256, 64 was best
/// for blocks of 64 and of 4096.
pub(super) const LONG: usize = 64;
/// The scratch of a block that is no longer than this, where the zeroing weighs most.
pub(super) const SHORT: usize = 8;

/// Cause 10, for an input beside the first one.
pub(super) fn same_input(expected: usize, got: usize) -> Result<(), Refusal> {
    same(10, expected, got)
}

/// Cause 11, for an output.
pub(super) fn same_output(expected: usize, got: usize) -> Result<(), Refusal> {
    same(11, expected, got)
}

fn same(number: u32, expected: usize, got: usize) -> Result<(), Refusal> {
    if expected == got {
        Ok(())
    } else {
        Err(Refusal {
            number,
            expected,
            got,
        })
    }
}

pub(super) fn split<T: ComplexSample>(pairs: &[T], re: &mut [T::Real], im: &mut [T::Real]) {
    for ((x, re), im) in pairs.iter().zip(re).zip(im) {
        (*re, *im) = (x.re(), x.im());
    }
}

pub(super) fn join<T: ComplexSample>(re: &[T::Real], im: &[T::Real], pairs: &mut [T]) {
    for ((x, re), im) in pairs.iter_mut().zip(re).zip(im) {
        *x = T::new(*re, *im);
    }
}
