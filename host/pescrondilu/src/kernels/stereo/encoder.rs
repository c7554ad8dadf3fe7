//! The multiplex encoders and the on-air verdict.

use pescrondilu_sys::encoder as sys;

use super::pairs::{LONG, SHORT, same_input, same_output, split};
use crate::Proved;
use crate::error::{Refusal, Result, accepted, coded};
use crate::kernels::mix::Nco;
use crate::rate::Rate;
use crate::tables;
use crate::types::C32;

/// The stereo encoder: the pilot's oscillator, the gain of sum and difference, the pilot's
/// amplitude.
///
/// ```
/// use pescrondilu::{Rate, kernels::stereo::StereoEncodeState};
///
/// let mut st = StereoEncodeState::new(19_000.0, 0.9, 0.09, Rate::hz(192_000)?)?;
/// let mut mpx = [0.0; 2];
/// st.process(&[0.5; 2], &[0.5; 2], &mut mpx)?;
/// // Left and right alike: the sum, and from the second sample the pilot.
/// assert_eq!(mpx[0], 0.45);
/// assert_eq!(st.phase(), st.increment().wrapping_mul(2));
/// # Ok::<(), pescrondilu::Error>(())
/// ```
#[derive(Clone, Copy, Debug, PartialEq)]
pub struct StereoEncodeState {
    nco: Nco,
    main: f32,
    pilot: f32,
}

impl StereoEncodeState {
    /// An encoder at phase 0: the pilot's frequency from 18000 to 20000 Hz, `main` from 0 to 1,
    /// `pilot` from 0 to 0.2, the rate 120000 Hz or more.
    ///
    /// # Errors
    /// `InvalidParameter` for the causes 12 to 15.
    pub fn new(pilot_hz: f64, main: f32, pilot: f32, rate: Rate) -> Result<Self> {
        Ok(Self::with_rate(pilot_hz, main, pilot, rate.as_f64())?)
    }

    /// As [`StereoEncodeState::new`], with the rate as a plain number.
    ///
    /// # Errors
    /// The causes 1 and 12 to 15; the first one in force.
    ///
    /// ```
    /// use pescrondilu::kernels::stereo::StereoEncodeState;
    ///
    /// let refusal = StereoEncodeState::with_rate(19_000.0, 0.9, 0.09, 119_999.0).unwrap_err();
    /// assert_eq!(refusal.number, 15);
    /// ```
    pub fn with_rate(
        pilot_hz: f64,
        main: f32,
        pilot: f32,
        rate_hz: f64,
    ) -> core::result::Result<Self, Refusal> {
        let answer = sys::pescrondilu_encode_new(pilot_hz, main, pilot, rate_hz);
        coded(answer.code, Self::from_record(answer.encoder))
    }

    /// An encoder of any record, such as one that was stored.
    pub fn from_record(record: sys::StereoEncode) -> Self {
        Self {
            nco: Nco::from_record(record.nco),
            main: record.main,
            pilot: record.pilot,
        }
    }

    /// The record as the core has it.
    pub fn record(&self) -> sys::StereoEncode {
        sys::StereoEncode {
            nco: self.nco.record(),
            main: self.main,
            pilot: self.pilot,
        }
    }

    /// Another pilot amplitude from the next sample on.
    ///
    /// # Errors
    /// `InvalidParameter` outside 0 to 0.2 (cause 14); the old one stays.
    ///
    /// ```
    /// use pescrondilu::{Rate, kernels::stereo::StereoEncodeState};
    ///
    /// let mut st = StereoEncodeState::new(19_000.0, 0.9, 0.09, Rate::hz(192_000)?)?;
    /// assert!(st.set_pilot(-0.1).is_err());
    /// assert_eq!(st.pilot(), 0.09);
    /// st.set_pilot(0.2)?;
    /// assert_eq!(st.pilot(), 0.2);
    /// # Ok::<(), pescrondilu::Error>(())
    /// ```
    pub fn set_pilot(&mut self, pilot: f32) -> Result<()> {
        let answer = sys::pescrondilu_encode_set_pilot(self.record(), pilot);
        *self = coded(answer.code, Self::from_record(answer.encoder))?;
        Ok(())
    }

    /// The pilot's amplitude.
    pub fn pilot(&self) -> f32 {
        self.pilot
    }

    /// The gain of sum and difference.
    pub fn main(&self) -> f32 {
        self.main
    }

    /// The pilot's phase before the next sample, 2^32 being one turn.
    pub fn phase(&self) -> u32 {
        self.nco.phase()
    }

    /// Sets the pilot's phase.
    pub fn set_phase(&mut self, phase: u32) {
        *self = Self::from_record(sys::pescrondilu_encode_set_phase(self.record(), phase));
    }

    /// The pilot's step.
    pub fn increment(&self) -> u32 {
        self.nco.increment()
    }

    /// Sets the pilot's phase to 0.
    pub fn reset(&mut self) {
        *self = Self::from_record(sys::pescrondilu_encode_reset(self.record()));
    }

    /// One block, with the crate's table: left and right to the multiplex signal.
    ///
    /// # Errors
    /// The causes 10 and 11; state and output stay.
    pub fn process(
        &mut self,
        left: &[f32],
        right: &[f32],
        output: &mut [f32],
    ) -> core::result::Result<(), Refusal> {
        self.process_with(tables::cos_f32(), left, right, output)
    }

    /// As [`StereoEncodeState::process`], with a table of yours: 4097 entries of any bits.
    ///
    /// # Errors
    /// The causes 9, 10 and 11; state and output stay.
    ///
    /// ```
    /// use pescrondilu::kernels::stereo::StereoEncodeState;
    ///
    /// let mut st = StereoEncodeState::with_rate(19_000.0, 1.0, 0.125, 192_000.0)?;
    /// let mut output = [0.0];
    /// st.process_with(&[1.0; 4097], &[0.5], &[0.25], &mut output)?;
    /// assert_eq!(output, [0.625]);
    /// # Ok::<(), pescrondilu::Refusal>(())
    /// ```
    pub fn process_with(
        &mut self,
        table: &[f32],
        left: &[f32],
        right: &[f32],
        output: &mut [f32],
    ) -> core::result::Result<(), Refusal> {
        let reply = sys::encode_block(self.record(), table, left, right, output);
        accepted(reply.answer)?;
        *self = Self::from_record(reply.encoder);
        Ok(())
    }
}

/// The stereo encoder over pairs, as sdrk has it.
///
/// ```
/// use pescrondilu::kernels::stereo::{StereoEncode, StereoEncodeState};
/// use pescrondilu::{C32, Proved, Rate};
///
/// let mut st = StereoEncodeState::new(19_000.0, 1.0, 0.1, Rate::hz(192_000)?)?;
/// let mut output = [9.0];
/// Proved.stereo_encode(&mut st, &[C32::new(0.5, 0.25)], &mut output)?;
/// assert_eq!(output, [0.375]);
/// # Ok::<(), pescrondilu::Error>(())
/// ```
pub trait StereoEncode {
    /// As [`StereoEncodeState::process`], with left and right as pairs.
    ///
    /// # Errors
    /// `LengthMismatch` where the lengths differ; state and output stay.
    fn stereo_encode(
        &self,
        state: &mut StereoEncodeState,
        input: &[C32],
        output: &mut [f32],
    ) -> Result<()>;
}

impl StereoEncode for Proved {
    fn stereo_encode(
        &self,
        state: &mut StereoEncodeState,
        input: &[C32],
        output: &mut [f32],
    ) -> Result<()> {
        same_output(input.len(), output.len())?;
        let run = if input.len() <= SHORT {
            in_pieces::<SHORT>
        } else {
            in_pieces::<LONG>
        };
        Ok(run(state, input, output)?)
    }
}

/// Equal lengths, `N` pairs at a time.
fn in_pieces<const N: usize>(
    state: &mut StereoEncodeState,
    input: &[C32],
    output: &mut [f32],
) -> core::result::Result<(), Refusal> {
    let (mut left, mut right) = ([0.0; N], [0.0; N]);
    for (i, o) in input.chunks(N).zip(output.chunks_mut(N)) {
        let (l, r) = (&mut left[..i.len()], &mut right[..i.len()]);
        split(i, l, r);
        state.process(l, r, o)?;
    }
    Ok(())
}

/// The stereo encoder with RDS: an encoder, and the level of the RDS subcarrier.
///
/// ```
/// use pescrondilu::{Rate, kernels::stereo::StereoEncodeRdsState};
///
/// let mut st = StereoEncodeRdsState::new(19_000.0, 0.9, 0.09, 0.04, Rate::hz(192_000)?)?;
/// let mut mpx = [9.0; 2];
/// st.process(&[0.5; 2], &[0.5; 2], &[1.0; 2], &mut mpx)?;
/// assert_eq!((mpx[0], st.rds()), (0.45, 0.04));
/// # Ok::<(), pescrondilu::Error>(())
/// ```
#[derive(Clone, Copy, Debug, PartialEq)]
pub struct StereoEncodeRdsState {
    enc: StereoEncodeState,
    rds: f32,
}

impl StereoEncodeRdsState {
    /// An encoder at phase 0, as [`StereoEncodeState::new`]; `rds` from 0 to 0.2.
    ///
    /// # Errors
    /// `InvalidParameter` for the causes 12 to 16.
    pub fn new(pilot_hz: f64, main: f32, pilot: f32, rds: f32, rate: Rate) -> Result<Self> {
        Ok(Self::with_rate(pilot_hz, main, pilot, rds, rate.as_f64())?)
    }

    /// As [`StereoEncodeRdsState::new`], with the rate as a plain number.
    ///
    /// # Errors
    /// The causes 1 and 12 to 16; the first one in force.
    ///
    /// ```
    /// use pescrondilu::kernels::stereo::StereoEncodeRdsState;
    ///
    /// let made = |rds| StereoEncodeRdsState::with_rate(19_000.0, 0.9, 0.09, rds, 192_000.0);
    /// assert_eq!(made(0.3).unwrap_err().number, 16);
    /// ```
    pub fn with_rate(
        pilot_hz: f64,
        main: f32,
        pilot: f32,
        rds: f32,
        rate_hz: f64,
    ) -> core::result::Result<Self, Refusal> {
        let answer = sys::pescrondilu_encode_rds_new(pilot_hz, main, pilot, rds, rate_hz);
        coded(answer.code, Self::from_record(answer.encoder))
    }

    /// An encoder of any record, such as one that was stored.
    pub fn from_record(record: sys::StereoEncodeRds) -> Self {
        Self {
            enc: StereoEncodeState::from_record(record.enc),
            rds: record.rds,
        }
    }

    /// The record as the core has it.
    pub fn record(&self) -> sys::StereoEncodeRds {
        sys::StereoEncodeRds {
            enc: self.enc.record(),
            rds: self.rds,
        }
    }

    /// Another RDS level from the next sample on.
    ///
    /// # Errors
    /// `InvalidParameter` outside 0 to 0.2 (cause 16); the old one stays.
    pub fn set_rds(&mut self, rds: f32) -> Result<()> {
        let answer = sys::pescrondilu_encode_rds_set_rds(self.record(), rds);
        *self = coded(answer.code, Self::from_record(answer.encoder))?;
        Ok(())
    }

    /// The RDS level.
    pub fn rds(&self) -> f32 {
        self.rds
    }

    /// Another pilot amplitude from the next sample on.
    ///
    /// # Errors
    /// `InvalidParameter` outside 0 to 0.2 (cause 14); the old one stays.
    pub fn set_pilot(&mut self, pilot: f32) -> Result<()> {
        let answer = sys::pescrondilu_encode_rds_set_pilot(self.record(), pilot);
        *self = coded(answer.code, Self::from_record(answer.encoder))?;
        Ok(())
    }

    /// The pilot's amplitude.
    pub fn pilot(&self) -> f32 {
        self.enc.pilot()
    }

    /// The gain of sum and difference.
    pub fn main(&self) -> f32 {
        self.enc.main()
    }

    /// The pilot's phase before the next sample, 2^32 being one turn.
    pub fn phase(&self) -> u32 {
        self.enc.phase()
    }

    /// Sets the pilot's phase.
    pub fn set_phase(&mut self, phase: u32) {
        *self = Self::from_record(sys::pescrondilu_encode_rds_set_phase(self.record(), phase));
    }

    /// The pilot's step.
    pub fn increment(&self) -> u32 {
        self.enc.increment()
    }

    /// The encoder without RDS.
    pub fn encoder(&self) -> &StereoEncodeState {
        &self.enc
    }

    /// Sets the pilot's phase to 0.
    pub fn reset(&mut self) {
        *self = Self::from_record(sys::pescrondilu_encode_rds_reset(self.record()));
    }

    /// One block, with the crate's table: left, right and the RDS baseband to the multiplex signal.
    ///
    /// # Errors
    /// The causes 10 and 11; state and output stay.
    pub fn process(
        &mut self,
        left: &[f32],
        right: &[f32],
        rds: &[f32],
        output: &mut [f32],
    ) -> core::result::Result<(), Refusal> {
        self.process_with(tables::cos_f32(), left, right, rds, output)
    }

    /// As [`StereoEncodeRdsState::process`], with a table of yours: 4097 entries of any bits.
    ///
    /// # Errors
    /// The causes 9, 10 and 11; state and output stay.
    pub fn process_with(
        &mut self,
        table: &[f32],
        left: &[f32],
        right: &[f32],
        rds: &[f32],
        output: &mut [f32],
    ) -> core::result::Result<(), Refusal> {
        let reply = sys::encode_rds_block(self.record(), table, left, right, rds, output);
        accepted(reply.answer)?;
        *self = Self::from_record(reply.encoder);
        Ok(())
    }
}

/// The stereo encoder with RDS over pairs, as sdrk has it.
///
/// ```
/// use pescrondilu::kernels::stereo::{StereoEncodeRds, StereoEncodeRdsState};
/// use pescrondilu::{C32, Proved, Rate};
///
/// let mut st = StereoEncodeRdsState::new(19_000.0, 1.0, 0.1, 0.04, Rate::hz(192_000)?)?;
/// let mut output = [9.0];
/// Proved.stereo_encode_rds(&mut st, &[C32::new(0.5, 0.25)], &[1.0], &mut output)?;
/// assert_eq!(output, [0.375]);
/// # Ok::<(), pescrondilu::Error>(())
/// ```
pub trait StereoEncodeRds {
    /// As [`StereoEncodeRdsState::process`], with left and right as pairs.
    ///
    /// # Errors
    /// `LengthMismatch` where the lengths differ; state and output stay.
    fn stereo_encode_rds(
        &self,
        state: &mut StereoEncodeRdsState,
        input: &[C32],
        rds: &[f32],
        output: &mut [f32],
    ) -> Result<()>;
}

impl StereoEncodeRds for Proved {
    fn stereo_encode_rds(
        &self,
        state: &mut StereoEncodeRdsState,
        input: &[C32],
        rds: &[f32],
        output: &mut [f32],
    ) -> Result<()> {
        same_input(input.len(), rds.len())?;
        same_output(input.len(), output.len())?;
        let run = if input.len() <= SHORT {
            rds_in_pieces::<SHORT>
        } else {
            rds_in_pieces::<LONG>
        };
        Ok(run(state, input, rds, output)?)
    }
}

/// Equal lengths, `N` pairs at a time.
fn rds_in_pieces<const N: usize>(
    state: &mut StereoEncodeRdsState,
    input: &[C32],
    rds: &[f32],
    output: &mut [f32],
) -> core::result::Result<(), Refusal> {
    let (mut left, mut right) = ([0.0; N], [0.0; N]);
    let inputs = input.chunks(N).zip(rds.chunks(N));
    for ((i, b), o) in inputs.zip(output.chunks_mut(N)) {
        let (l, r) = (&mut left[..i.len()], &mut right[..i.len()]);
        split(i, l, r);
        state.process(l, r, b, o)?;
    }
    Ok(())
}

/// Whether a pilot may go on air as ITU-R BS.450 has it: a frequency of 19 kHz within 2 Hz, and an
/// amplitude from 8 to 10 per cent, the ends included. The encoders take pilots from 18 to 20 kHz
/// whatever the verdict is.
///
/// ```
/// use pescrondilu::kernels::stereo::on_air;
///
/// assert!(on_air(18_998.0, 0.08) && on_air(19_002.0, 0.1));
/// assert!(!on_air(18_500.0, 0.09) && !on_air(19_000.0, 0.11));
/// assert!(!on_air(f64::NAN, 0.09) && !on_air(19_000.0, f32::NAN));
/// ```
pub fn on_air(frequency_hz: f64, amplitude: f32) -> bool {
    sys::pescrondilu_on_air(frequency_hz, amplitude) != 0
}
