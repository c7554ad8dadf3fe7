//! Stand-in for `bytemuck`: the names that the original's types.rs needs, and the two casts of
//! proved.rs.

use core::slice::{from_raw_parts, from_raw_parts_mut};

pub use bytemuck_derive::{Pod, Zeroable};

pub trait Pod {}
impl<T> Pod for T {}

const fn same_layout<A, B>() {
    assert!(size_of::<A>() == size_of::<B>() && align_of::<A>() == align_of::<B>());
}

pub fn cast_slice<A: Pod, B: Pod>(a: &[A]) -> &[B] {
    const { same_layout::<A, B>() };
    // SAFETY: the layouts agree, and the only types cast are i16 and f32 and what is transparent
    // over them, which take any bits. (The real crate's `Pod` says so of its types.)
    unsafe { from_raw_parts(a.as_ptr().cast(), a.len()) }
}

pub fn cast_slice_mut<A: Pod, B: Pod>(a: &mut [A]) -> &mut [B] {
    const { same_layout::<A, B>() };
    // SAFETY: as in `cast_slice`; the borrow of `a` lasts as long as the answer.
    unsafe { from_raw_parts_mut(a.as_mut_ptr().cast(), a.len()) }
}
