//! The samples: f32 and Q15, and pairs of them.

// The casts between Q15 and i16 below are the only unsafe code of the crate.
#![allow(unsafe_code)]

use core::fmt::Debug;
use core::slice::{from_raw_parts, from_raw_parts_mut};

use pescrondilu_sys::rack::Racked;
use pescrondilu_sys::summary::Summed;

use crate::{num, tables};

/// A pair of f32: sum and difference, or left and right. It lies in memory as `[f32; 2]`.
///
/// ```
/// use pescrondilu::C32;
///
/// let x = C32::new(0.5, -0.25);
/// assert_eq!((x.re, x.im), (0.5, -0.25));
/// assert_eq!(C32::from([0.5, -0.25]), x);
/// ```
#[derive(Clone, Copy, Debug, Default, PartialEq)]
#[repr(C)]
pub struct C32 {
    /// Sum or left.
    pub re: f32,
    /// Difference or right.
    pub im: f32,
}

impl C32 {
    /// A pair of its two parts.
    pub const fn new(re: f32, im: f32) -> C32 {
        C32 { re, im }
    }
}

impl From<[f32; 2]> for C32 {
    fn from([re, im]: [f32; 2]) -> C32 {
        C32 { re, im }
    }
}

impl From<C32> for [f32; 2] {
    fn from(x: C32) -> [f32; 2] {
        [x.re, x.im]
    }
}

/// A fixed-point sample: the value is the integer divided by 32768.
///
/// It lies in memory as an i16, so slices of both are one and the same:
///
/// ```
/// use pescrondilu::Q15;
///
/// assert_eq!(Q15::from_f32(0.5), Q15(16384));
/// assert_eq!(Q15(16384).to_f32(), 0.5);
/// assert_eq!(Q15::from_i16_slice(&[1, -2]), [Q15(1), Q15(-2)]);
/// assert_eq!(Q15::as_i16_slice(&[Q15(1), Q15(-2)]), [1, -2]);
/// ```
#[derive(Clone, Copy, Debug, Default, PartialEq, Eq, PartialOrd, Ord, Hash)]
#[repr(transparent)]
pub struct Q15(pub i16);

impl Q15 {
    /// The largest value, 32767 / 32768.
    pub const MAX: Q15 = Q15(i16::MAX);
    /// The smallest value, -1.
    pub const MIN: Q15 = Q15(i16::MIN);

    /// The nearest value, limited to the range; 0 for a NaN.
    pub fn from_f32(x: f32) -> Q15 {
        num::q15_from_f32(x)
    }

    /// The value, exactly.
    pub fn to_f32(self) -> f32 {
        f32::from(self.0) / 32768.0
    }

    /// The integers as samples, without a copy.
    pub const fn from_i16_slice(raw: &[i16]) -> &[Q15] {
        // SAFETY: Q15 is transparent over i16 and takes every i16; the slice lives as long.
        unsafe { from_raw_parts(raw.as_ptr().cast(), raw.len()) }
    }

    /// The integers as samples that can be written, without a copy.
    pub const fn from_i16_slice_mut(raw: &mut [i16]) -> &mut [Q15] {
        // SAFETY: as in `from_i16_slice`; the borrow of `raw` lasts as long as the answer.
        unsafe { from_raw_parts_mut(raw.as_mut_ptr().cast(), raw.len()) }
    }

    /// The samples as integers, without a copy.
    pub const fn as_i16_slice(samples: &[Q15]) -> &[i16] {
        // SAFETY: Q15 is transparent over i16, and every Q15 holds an i16; the slice lives as long.
        unsafe { from_raw_parts(samples.as_ptr().cast(), samples.len()) }
    }

    /// The samples as integers that can be written, without a copy.
    pub const fn as_i16_slice_mut(samples: &mut [Q15]) -> &mut [i16] {
        // SAFETY: as in `as_i16_slice`; the borrow of `samples` lasts as long as the answer.
        unsafe { from_raw_parts_mut(samples.as_mut_ptr().cast(), samples.len()) }
    }
}

/// A pair of Q15. It lies in memory as `[i16; 2]`.
///
/// ```
/// use pescrondilu::{C32, CQ15, Q15};
///
/// let x = CQ15::from_c32(C32::new(0.5, -0.25));
/// assert_eq!(x, CQ15 { re: Q15(16384), im: Q15(-8192) });
/// assert_eq!(x.to_c32(), C32::new(0.5, -0.25));
/// ```
#[derive(Clone, Copy, Debug, Default, PartialEq, Eq, Hash)]
#[repr(C)]
pub struct CQ15 {
    /// Sum or left.
    pub re: Q15,
    /// Difference or right.
    pub im: Q15,
}

impl CQ15 {
    /// Each part by [`Q15::from_f32`].
    pub fn from_c32(x: C32) -> CQ15 {
        CQ15 {
            re: Q15::from_f32(x.re),
            im: Q15::from_f32(x.im),
        }
    }

    /// Each part by [`Q15::to_f32`].
    pub fn to_c32(self) -> C32 {
        C32::new(self.re.to_f32(), self.im.to_f32())
    }
}

/// Which sample a type is.
#[derive(Clone, Copy, Debug, PartialEq, Eq, Hash)]
#[non_exhaustive]
pub enum SampleType {
    /// [`struct@C32`].
    C32,
    /// [`struct@CQ15`].
    CQ15,
    /// f32.
    F32,
    /// [`struct@Q15`].
    Q15,
}

impl SampleType {
    /// Which sample `T` is.
    ///
    /// ```
    /// use pescrondilu::{Q15, SampleType};
    ///
    /// assert_eq!(SampleType::of::<Q15>(), SampleType::Q15);
    /// ```
    pub const fn of<T: Sample>() -> SampleType {
        T::TYPE
    }
}

mod sealed {
    pub trait Sealed {}
    impl Sealed for f32 {}
    impl Sealed for super::Q15 {}
    impl Sealed for super::C32 {}
    impl Sealed for super::CQ15 {}
}

/// `f32`, [`Q15`] or a pair of them. No other type can be a sample.
///
/// ```
/// use pescrondilu::{Q15, Sample};
///
/// assert_eq!(Q15::ZERO, Q15(0));
/// ```
pub trait Sample:
    Copy + Default + PartialEq + Send + Sync + Debug + sealed::Sealed + 'static
{
    /// Which one it is.
    const TYPE: SampleType;
    /// Silence.
    const ZERO: Self;
}

impl Sample for f32 {
    const TYPE: SampleType = SampleType::F32;
    const ZERO: f32 = 0.0;
}

impl Sample for Q15 {
    const TYPE: SampleType = SampleType::Q15;
    const ZERO: Q15 = Q15(0);
}

impl Sample for C32 {
    const TYPE: SampleType = SampleType::C32;
    const ZERO: C32 = C32::new(0.0, 0.0);
}

impl Sample for CQ15 {
    const TYPE: SampleType = SampleType::CQ15;
    const ZERO: CQ15 = CQ15 {
        re: Q15(0),
        im: Q15(0),
    };
}

/// `f32` or [`Q15`]: what the pilot loop and the matrix work on.
///
/// ```
/// use pescrondilu::{Q15, RealSample};
///
/// fn gain<T: RealSample>(x: T) -> T {
///     T::from_f64_round(x.to_f64() * 0.5)
/// }
/// assert_eq!((gain(0.25_f32), gain(Q15(100))), (0.125, Q15(50)));
/// ```
pub trait RealSample: Sample {
    /// The pair of it.
    type Complex: ComplexSample<Real = Self>;
    /// The number in which a decoder's record has its gains and its state: f32, and i64 for Q15.
    type Value: Copy + Debug + PartialEq + Send + Sync + 'static;
    /// The sample as the core has it.
    #[doc(hidden)]
    type Raw: Summed<Value = Self::Value> + Racked;

    /// The value, exactly.
    fn to_f64(self) -> f64;
    /// The nearest sample. [`Q15`] is limited to its range and takes a NaN for 0.
    fn from_f64_round(x: f64) -> Self;

    #[doc(hidden)]
    fn raw(samples: &[Self]) -> &[Self::Raw];
    #[doc(hidden)]
    fn raw_mut(samples: &mut [Self]) -> &mut [Self::Raw];
    /// The crate's table.
    #[doc(hidden)]
    fn table() -> &'static [Self];
    /// A record's number without its Q15 scale.
    #[doc(hidden)]
    fn unscaled(value: Self::Value, scale: f64) -> f64;
}

impl RealSample for f32 {
    type Complex = C32;
    type Value = f32;
    type Raw = f32;

    fn to_f64(self) -> f64 {
        f64::from(self)
    }

    fn from_f64_round(x: f64) -> f32 {
        x as f32
    }

    fn raw(samples: &[f32]) -> &[f32] {
        samples
    }

    fn raw_mut(samples: &mut [f32]) -> &mut [f32] {
        samples
    }

    fn table() -> &'static [f32] {
        tables::cos_f32()
    }

    fn unscaled(value: f32, _: f64) -> f64 {
        f64::from(value)
    }
}

impl RealSample for Q15 {
    type Complex = CQ15;
    type Value = i64;
    type Raw = i16;

    fn to_f64(self) -> f64 {
        f64::from(self.0) / 32768.0
    }

    fn from_f64_round(x: f64) -> Q15 {
        num::q15_from_f64(x)
    }

    fn raw(samples: &[Q15]) -> &[i16] {
        Q15::as_i16_slice(samples)
    }

    fn raw_mut(samples: &mut [Q15]) -> &mut [i16] {
        Q15::as_i16_slice_mut(samples)
    }

    fn table() -> &'static [Q15] {
        Q15::from_i16_slice(tables::cos_q15())
    }

    fn unscaled(value: i64, scale: f64) -> f64 {
        value as f64 / scale
    }
}

/// [`struct@C32`] or [`struct@CQ15`]: what sdrk's traits take.
///
/// ```
/// use pescrondilu::{C32, ComplexSample};
///
/// fn swapped<T: ComplexSample>(x: T) -> T {
///     T::new(x.im(), x.re())
/// }
/// assert_eq!(swapped(C32::new(0.5, 0.25)), C32::new(0.25, 0.5));
/// ```
pub trait ComplexSample: Sample {
    /// The sample of which it is a pair.
    type Real: RealSample<Complex = Self>;

    /// The first part.
    fn re(self) -> Self::Real;
    /// The second part.
    fn im(self) -> Self::Real;
    /// A pair of its two parts.
    fn new(re: Self::Real, im: Self::Real) -> Self;
}

impl ComplexSample for C32 {
    type Real = f32;

    fn re(self) -> f32 {
        self.re
    }

    fn im(self) -> f32 {
        self.im
    }

    fn new(re: f32, im: f32) -> C32 {
        C32 { re, im }
    }
}

impl ComplexSample for CQ15 {
    type Real = Q15;

    fn re(self) -> Q15 {
        self.re
    }

    fn im(self) -> Q15 {
        self.im
    }

    fn new(re: Q15, im: Q15) -> CQ15 {
        CQ15 { re, im }
    }
}
