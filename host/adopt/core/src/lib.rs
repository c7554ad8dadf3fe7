//! The original's stereo files, unchanged and by path, between stand-ins for the files that are not
//! at hand. `proved` is the only module that adopting the core adds.

#[path = "../../../../oracle/core/src/error.rs"]
pub mod error;
#[path = "../../../../oracle/core/src/fallback.rs"]
pub mod fallback;
pub mod kernels;
pub mod tables;
pub mod timing;

#[path = "../../proved.rs"]
mod proved;
pub use proved::Proved;

// num, types
include!(concat!(env!("OUT_DIR"), "/root.rs"));

pub use error::{Error, Result};
pub use timing::Rate;
pub use types::{C32, CQ15, ComplexSample, Q15, RealSample};

/// The fast implementation.
pub struct Fallback;
