//! Sum and difference to left and right.

use pescrondilu_sys::decoder as sys;

use super::pairs::{LONG, SHORT, join, same_output, split};
use crate::Proved;
use crate::error::{Refusal, Result, accepted};
use crate::types::{ComplexSample, RealSample, Sample};

/// Left is the sum and twice the difference, right is the sum less twice the difference. Q15 is
/// limited once, at the end.
///
/// # Errors
/// The causes 10 and 11; the outputs stay.
///
/// ```
/// use pescrondilu::{Q15, kernels::stereo::matrix};
///
/// let (mut left, mut right) = ([0.0], [0.0]);
/// matrix(&[0.5_f32], &[0.125], &mut left, &mut right)?;
/// assert_eq!((left, right), ([0.75], [0.25]));
///
/// let (mut left, mut right) = ([Q15(0)], [Q15(0)]);
/// matrix(&[Q15::MIN], &[Q15(20_000)], &mut left, &mut right)?;
/// assert_eq!((left, right), ([Q15(7232)], [Q15::MIN]));
/// # Ok::<(), pescrondilu::Refusal>(())
/// ```
pub fn matrix<T: RealSample>(
    sum: &[T],
    difference: &[T],
    left: &mut [T],
    right: &mut [T],
) -> core::result::Result<(), Refusal> {
    accepted(sys::matrix(
        T::raw(sum),
        T::raw(difference),
        T::raw_mut(left),
        T::raw_mut(right),
    ))
}

/// The matrix over pairs, as sdrk has it.
///
/// ```
/// use pescrondilu::{CQ15, Proved, Q15, kernels::stereo::StereoMatrix};
///
/// let input = [CQ15 { re: Q15(100), im: Q15(-30) }];
/// let mut output = [CQ15::default()];
/// Proved.stereo_matrix(&input, &mut output)?;
/// assert_eq!(output[0], CQ15 { re: Q15(40), im: Q15(160) });
/// # Ok::<(), pescrondilu::Error>(())
/// ```
pub trait StereoMatrix<T: ComplexSample> {
    /// Pairs of sum and difference to pairs of left and right.
    ///
    /// # Errors
    /// `LengthMismatch` where the lengths differ; the output stays.
    fn stereo_matrix(&self, input: &[T], output: &mut [T]) -> Result<()>;
}

impl<T: ComplexSample> StereoMatrix<T> for Proved {
    fn stereo_matrix(&self, input: &[T], output: &mut [T]) -> Result<()> {
        same_output(input.len(), output.len())?;
        let run = if input.len() <= SHORT {
            in_pieces::<T, SHORT>
        } else {
            in_pieces::<T, LONG>
        };
        Ok(run(input, output)?)
    }
}

/// Equal lengths, `N` pairs at a time.
fn in_pieces<T: ComplexSample, const N: usize>(
    input: &[T],
    output: &mut [T],
) -> core::result::Result<(), Refusal> {
    let (mut sum, mut difference) = ([T::Real::ZERO; N], [T::Real::ZERO; N]);
    let (mut left, mut right) = ([T::Real::ZERO; N], [T::Real::ZERO; N]);
    for (i, o) in input.chunks(N).zip(output.chunks_mut(N)) {
        let n = i.len();
        let (l, r) = (&mut left[..n], &mut right[..n]);
        split(i, &mut sum[..n], &mut difference[..n]);
        matrix(&sum[..n], &difference[..n], l, r)?;
        join(l, r, o);
    }
    Ok(())
}
