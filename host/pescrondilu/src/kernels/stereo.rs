//! FM stereo: the pilot loop, the summary of its periods, the rack of several loops, the scan of its
//! pilot, the matrix, the multiplex encoders, the on-air verdict.
//!
//! The states have calls over slices: `process` with the crate's table, `process_with` with a lent
//! one; the pilot loop also `process_merged`, which gives left and right at once, and
//! `process_summary`, which gives figures of each period beside sum and difference. A rack has
//! `round`, a block for each of its loops, and `round_flat`, the same with the samples of all loops
//! one behind the other. They copy no samples and give a [`Refusal`](crate::Refusal). sdrk's traits
//! over slices of pairs stand beside them for [`Proved`](crate::Proved); these copy through a small
//! scratch and give an [`Error`](crate::Error).
//!
//! After each of these calls an f32 loop tells how many of its phase corrections left the quick path
//! ([`StereoPllState::wide_corrections`]).

mod decoder;
mod encoder;
mod matrix;
mod pairs;
mod rack;
mod scan;
mod summary;

pub use decoder::{StereoPll, StereoPllCoefficients, StereoPllState};
pub use encoder::{StereoEncode, StereoEncodeRds, StereoEncodeRdsState, StereoEncodeState, on_air};
pub use matrix::{StereoMatrix, matrix};
pub use rack::{Rack, RackQueue};
pub use scan::{Scanned, scan};
pub use summary::{Summary, SummaryColumns};

/// A decoder's record as the core has it, over f32 or, for Q15, over i64. A switch is off at 0 and
/// on at anything else.
pub use pescrondilu_sys::decoder::Decoder as DecoderRecord;
/// An encoder's record as the core has it.
pub use pescrondilu_sys::encoder::StereoEncode as EncoderRecord;
/// The record of an encoder with RDS as the core has it.
pub use pescrondilu_sys::encoder::StereoEncodeRds as EncoderRdsRecord;
/// The most decoders of a [`Rack`].
pub use pescrondilu_sys::rack::PLACES as RACK_PLACES;
/// How long a decoder's part of each of the four slices of [`Rack::round_flat`] is.
pub use pescrondilu_sys::rack::Waiting;
/// A summary's record as the core has it, over f32 or [`Q15`](crate::Q15). The switch `before` is
/// off at 0 and on at anything else.
pub use pescrondilu_sys::summary::Summary as SummaryRecord;
