//! Stand-in for kernels/mod.rs.

#[path = "../../../../oracle/core/src/kernels/modulate.rs"]
pub mod modulate;

include!(concat!(env!("OUT_DIR"), "/kernels.rs"));

use crate::error::{Error, Result};

/// The length rule.
pub(crate) fn check_len(expected: usize, got: usize) -> Result<()> {
    if expected == got {
        Ok(())
    } else {
        Err(Error::LengthMismatch { expected, got })
    }
}
