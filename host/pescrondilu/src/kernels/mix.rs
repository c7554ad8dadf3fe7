//! The oscillator.

use pescrondilu_sys::encoder as sys;

use crate::error::{Refusal, Result, coded};
use crate::rate::Rate;

/// An oscillator: a phase, and the step by which it moves at each sample. One turn is 2^32, so a
/// negative frequency is a step above 2^31.
///
/// ```
/// use pescrondilu::{Rate, kernels::mix::Nco};
///
/// let mut nco = Nco::new(-48_000.0, Rate::hz(192_000)?)?;
/// assert_eq!(nco.increment(), 3 << 30);
/// nco.advance(2);
/// assert_eq!(nco.phase(), 1 << 31);
/// # Ok::<(), pescrondilu::Error>(())
/// ```
#[derive(Clone, Copy, Debug, PartialEq, Eq, Default)]
pub struct Nco {
    phase: u32,
    inc: u32,
}

impl Nco {
    /// An oscillator at phase 0.
    ///
    /// # Errors
    /// `InvalidParameter` where the frequency divided by the rate is not finite (cause 17).
    pub fn new(freq_hz: f64, rate: Rate) -> Result<Nco> {
        Ok(Nco::with_rate(freq_hz, rate.as_f64())?)
    }

    /// As [`Nco::new`], with the rate as a plain number.
    ///
    /// # Errors
    /// The causes 1 and 17.
    ///
    /// ```
    /// use pescrondilu::kernels::mix::Nco;
    ///
    /// assert_eq!(Nco::with_rate(3.0, 8_589_934_592.0)?.increment(), 2);
    /// assert_eq!(Nco::with_rate(3.0, f64::NAN).unwrap_err().number, 1);
    /// assert_eq!(Nco::with_rate(f64::INFINITY, 1.0).unwrap_err().number, 17);
    /// # Ok::<(), pescrondilu::Refusal>(())
    /// ```
    pub fn with_rate(freq_hz: f64, rate_hz: f64) -> core::result::Result<Nco, Refusal> {
        let answer = sys::pescrondilu_nco_new(freq_hz, rate_hz);
        coded(answer.code, Nco::from_record(answer.nco))
    }

    /// An oscillator of a given step, at phase 0.
    pub const fn from_increment(inc: u32) -> Nco {
        Nco { phase: 0, inc }
    }

    /// Another frequency from the next sample on; the phase stays.
    ///
    /// # Errors
    /// As [`Nco::new`]; the old frequency stays.
    pub fn set_frequency(&mut self, freq_hz: f64, rate: Rate) -> Result<()> {
        Ok(self.set_frequency_at(freq_hz, rate.as_f64())?)
    }

    /// As [`Nco::set_frequency`], with the rate as a plain number.
    ///
    /// # Errors
    /// The causes 1 and 17; the old frequency stays.
    ///
    /// ```
    /// use pescrondilu::kernels::mix::Nco;
    ///
    /// let mut nco = Nco::from_increment(7);
    /// nco.set_phase(5);
    /// assert_eq!(nco.set_frequency_at(1.0, 0.0).unwrap_err().number, 1);
    /// assert_eq!((nco.phase(), nco.increment()), (5, 7));
    /// nco.set_frequency_at(1.0, 2.0)?;
    /// assert_eq!((nco.phase(), nco.increment()), (5, 1 << 31));
    /// # Ok::<(), pescrondilu::Refusal>(())
    /// ```
    pub fn set_frequency_at(
        &mut self,
        freq_hz: f64,
        rate_hz: f64,
    ) -> core::result::Result<(), Refusal> {
        let answer = sys::pescrondilu_nco_set_frequency(self.record(), freq_hz, rate_hz);
        *self = coded(answer.code, Nco::from_record(answer.nco))?;
        Ok(())
    }

    /// The phase before the next sample.
    pub const fn phase(&self) -> u32 {
        self.phase
    }

    /// Sets the phase.
    pub const fn set_phase(&mut self, p: u32) {
        self.phase = p;
    }

    /// The step.
    pub const fn increment(&self) -> u32 {
        self.inc
    }

    /// Sets the phase to 0.
    pub const fn reset(&mut self) {
        self.phase = 0;
    }

    /// Moves the phase by `n` steps.
    pub fn advance(&mut self, n: usize) {
        *self = Nco::from_record(sys::pescrondilu_nco_advance(self.record(), n));
    }

    /// The oscillator as the core has it.
    pub const fn record(&self) -> sys::Nco {
        sys::Nco {
            phase: self.phase,
            inc: self.inc,
        }
    }

    /// The oscillator that the core has.
    pub const fn from_record(record: sys::Nco) -> Nco {
        Nco {
            phase: record.phase,
            inc: record.inc,
        }
    }
}
