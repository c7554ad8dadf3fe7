//! The proved FM stereo core as a safe Rust crate, under the names of the crate `sdrk_core`.
//!
//! The pilot loop with its stereo decision, the summary of its periods, the rack of several loops,
//! the scan of the pilot, the matrix, the multiplex encoders, the oscillator, the on-air verdict
//! and the RDS group former are calls of a static library that is written in Rattle, where every
//! function is proved for every input. This crate adds what C cannot have: slices, types, errors,
//! and the cosine tables that the library wants lent.
//!
//! | Module | Has |
//! |---|---|
//! | [`kernels::stereo`] | pilot loop, its summary, rack, scan, matrix, encoders, verdict |
//! | [`kernels::mix`] | oscillator |
//! | [`kernels::rds`] | RDS groups |
//! | [`num`] | number helpers |
//! | [`tables`] | the cosine tables |
//!
//! A call that is turned back gives a [`Refusal`] with the number of its cause and two lengths, or,
//! where sdrk has the call, an [`Error`] as sdrk has it. It leaves states and outputs as they were.
//!
//! A multiplex signal is made, decoded and turned into left and right:
//!
//! ```
//! use pescrondilu::kernels::stereo::{StereoEncodeState, StereoPllState, matrix};
//!
//! let rate = 192_000.0;
//! let mut encoder = StereoEncodeState::with_rate(19_000.0, 0.9, 0.09, rate)?;
//! let (left, right) = ([0.5; 19_200], [0.25; 19_200]);
//! let mut mpx = [0.0; 19_200];
//! encoder.process(&left, &right, &mut mpx)?;
//!
//! // The loop wants the pilot by itself. A receiver has a band-pass; here silence is encoded.
//! let mut pilot = [0.0; 19_200];
//! let mut alone = StereoEncodeState::with_rate(19_000.0, 0.9, 0.09, rate)?;
//! alone.process(&[0.0; 19_200], &[0.0; 19_200], &mut pilot)?;
//!
//! let mut decoder = StereoPllState::<f32>::with_beta(19_000.0, 20.0, 0.09, 1e-3, rate)?;
//! let (mut sum, mut difference) = ([0.0; 19_200], [0.0; 19_200]);
//! decoder.process(&mpx, &pilot, &mut sum, &mut difference)?;
//! assert!(decoder.is_stereo());
//!
//! // A receiver has its audio low-pass before the matrix.
//! let (mut l, mut r) = ([0.0; 19_200], [0.0; 19_200]);
//! matrix(&sum, &difference, &mut l, &mut r)?;
//! # Ok::<(), pescrondilu::Refusal>(())
//! ```

#![deny(unsafe_code)]
#![warn(missing_docs)]

mod error;
pub mod kernels;
pub mod num;
mod rate;
pub mod tables;
mod types;

pub use error::{Error, Refusal, Result};
pub use rate::Rate;
pub use types::{C32, CQ15, ComplexSample, Q15, RealSample, Sample, SampleType};

/// The proved implementation; to sdrk's traits a backend like its `Fallback`.
///
/// ```
/// use pescrondilu::{C32, Proved, kernels::stereo::StereoMatrix};
///
/// let mut out = [C32::default()];
/// Proved.stereo_matrix(&[C32::new(0.5, 0.125)], &mut out)?;
/// assert_eq!(out[0], C32::new(0.75, 0.25));
/// # Ok::<(), pescrondilu::Error>(())
/// ```
#[derive(Clone, Copy, Debug, Default, PartialEq, Eq)]
pub struct Proved;

/// [`Proved`] under the name of sdrk's fast backend: code written for it needs another crate name
/// and nothing else.
pub use Proved as Fallback;
