//! The sample rate.

use pescrondilu_sys::encoder::pescrondilu_nco_increment_for;

use crate::error::{Refusal, Result, coded};

/// A sample rate in hertz: finite and above 0.
///
/// ```
/// use pescrondilu::Rate;
///
/// assert_eq!(Rate::hz(192_000)?.as_f64(), 192_000.0);
/// assert_eq!(Rate::from_f64(44_100.5)?.as_f64(), 44_100.5);
/// assert!(Rate::hz(0).is_err() && Rate::from_f64(f64::NAN).is_err());
/// # Ok::<(), pescrondilu::Error>(())
/// ```
#[derive(Clone, Copy, Debug, PartialEq, PartialOrd)]
pub struct Rate(f64);

impl Rate {
    /// A rate of whole hertz.
    ///
    /// # Errors
    /// `InvalidParameter` at 0.
    pub fn hz(hz: u64) -> Result<Rate> {
        Rate::from_f64(hz as f64)
    }

    /// A rate of any hertz.
    ///
    /// # Errors
    /// `InvalidParameter` where the rate is not finite or not above 0 (cause 1).
    pub fn from_f64(hz: f64) -> Result<Rate> {
        Ok(checked(hz)?)
    }

    /// The rate in hertz.
    pub const fn as_f64(self) -> f64 {
        self.0
    }
}

/// The core's own test of a rate: an oscillator at 0 Hz is refused for its rate only.
fn checked(hz: f64) -> core::result::Result<Rate, Refusal> {
    coded(pescrondilu_nco_increment_for(0.0, hz).code, Rate(hz))
}
