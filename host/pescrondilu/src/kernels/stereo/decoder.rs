//! The pilot loop.

use core::f64::consts::PI;

use pescrondilu_sys::decoder::{self as sys, Count, Decoder, Readout, Reply, Sample as _};

use super::pairs::{LONG, SHORT, join, same_input, same_output};
use crate::Proved;
use crate::error::{Refusal, Result, accepted, coded};
use crate::rate::Rate;
use crate::types::RealSample;

/// The time in seconds over which sdrk's lock detector smooths.
const LOCK_SECONDS: f64 = 0.05;
/// The integrator's limit in hertz.
const LIMIT_HZ: f64 = 50.0;

/// The scales of a Q15 record: 2^34 for kp and ki, 2^64 for imax, 2^31 for beta, 2^61 for on, off.
const GAIN_SCALE: f64 = (1_u64 << 34) as f64;
const LIMIT_SCALE: f64 = (1_u128 << 64) as f64;
const LOCK_SCALE: f64 = (1_u64 << 31) as f64;
const LEVEL_SCALE: f64 = (1_u64 << 61) as f64;

/// The loop's gains as f64, before they are rounded to the record's f32 or integers.
///
/// The core takes the arguments of construction and keeps the rounded gains only. These are worked
/// out here by the same formulas, for display and for comparison with sdrk.
///
/// ```
/// use pescrondilu::kernels::stereo::StereoPllState;
///
/// let st = StereoPllState::<f32>::with_beta(19_000.0, 20.0, 0.1, 1e-4, 192_000.0)?;
/// let c = st.coefficients();
/// assert_eq!((c.beta, c.imax), (1e-4, 50.0 / 192_000.0));
/// assert_eq!((c.kp as f32, c.on as f32), (st.record().kp, st.record().on));
/// # Ok::<(), pescrondilu::Refusal>(())
/// ```
#[derive(Clone, Copy, Debug, PartialEq)]
pub struct StereoPllCoefficients {
    /// Proportional gain, in turns a sample for each unit of the detector.
    pub kp: f64,
    /// Integral gain, in turns a sample for each unit of the detector.
    pub ki: f64,
    /// The integrator's limit, in turns a sample.
    pub imax: f64,
    /// The lock coefficient: what part of a new sample the level takes.
    pub beta: f64,
    /// At or above this level the decision is stereo.
    pub on: f64,
    /// Below this level the decision is mono.
    pub off: f64,
    /// The pilot's nominal step, 2^32 being one turn.
    pub step0: u32,
}

impl StereoPllCoefficients {
    /// From the arguments of a construction that was accepted.
    fn new(natural_hz: f64, pilot_level: f64, beta: f64, rate_hz: f64, step0: u32) -> Self {
        let turn = 2.0 * PI;
        // The detector's gain, the damping, the natural frequency in radians a sample.
        let kd = pilot_level / 2.0;
        let zeta = 1.0 / 2.0_f64.sqrt();
        let wn = turn * natural_hz / rate_hz;
        Self {
            kp: 2.0 * zeta * wn / (kd * turn),
            ki: wn * wn / (kd * turn),
            imax: LIMIT_HZ / rate_hz,
            beta,
            on: 0.4 * kd,
            off: 0.3 * kd,
            step0,
        }
    }

    /// What a record holds; the f64 before its rounding are not known.
    fn rounded<T: RealSample>(record: &Decoder<T::Value>) -> Self {
        Self {
            kp: T::unscaled(record.kp, GAIN_SCALE),
            ki: T::unscaled(record.ki, GAIN_SCALE),
            imax: T::unscaled(record.imax, LIMIT_SCALE),
            beta: T::unscaled(record.beta, LOCK_SCALE),
            on: T::unscaled(record.on, LEVEL_SCALE),
            off: T::unscaled(record.off, LEVEL_SCALE),
            step0: record.step0,
        }
    }
}

/// The pilot loop: its gains, the phase, the integrator, the smoothed level, the stereo decision
/// and the switch for the difference. `T` is the sample, f32 or [`Q15`](crate::Q15).
///
/// A decoder that construction returned says stereo exactly when, since the start or the last
/// reset, some sample with a finite pilot ended with a level at or above `on`, and no later one
/// ended with a level below `off`. This is proved for every list of calls.
///
/// ```
/// use pescrondilu::{Q15, Rate, kernels::stereo::StereoPllState};
///
/// let mut st = StereoPllState::<Q15>::new(19_000.0, 20.0, 0.1, Rate::hz(192_000)?)?;
/// let (mpx, pilot) = ([Q15(1000); 64], [Q15(0); 64]);
/// let (mut sum, mut difference) = ([Q15(9); 64], [Q15(9); 64]);
/// st.process(&mpx, &pilot, &mut sum, &mut difference)?;
/// // No pilot: mono, and the difference is silent.
/// assert!(!st.is_stereo());
/// assert_eq!((sum, difference), (mpx, [Q15(0); 64]));
/// # Ok::<(), pescrondilu::Error>(())
/// ```
///
/// Loops are equal where their records and coefficients are. What the last call counted
/// ([`StereoPllState::wide_corrections`]) is not compared.
#[derive(Clone, Copy, Debug)]
pub struct StereoPllState<T: RealSample> {
    /// The calls of the summary and of the rack change it too.
    pub(super) record: Decoder<T::Value>,
    coefficients: StereoPllCoefficients,
    /// The wide corrections of the last accepted block, of any call; in Q15 0.
    pub(super) wide: usize,
}

// Written out, since the count tells of a call and has no part in what the loop does next.
impl<T: RealSample> PartialEq for StereoPllState<T> {
    fn eq(&self, other: &Self) -> bool {
        self.record == other.record && self.coefficients == other.coefficients
    }
}

impl<T: RealSample> StereoPllState<T> {
    /// A loop at phase 0, integrator 0, level 0, mono, with the difference switched on.
    ///
    /// `pilot_hz` is the pilot's nominal frequency, `natural_hz` the loop's natural frequency,
    /// `pilot_level` the pilot's nominal amplitude. The level is smoothed over 50 ms:
    /// `beta = 1 - exp(-1 / (rate 0.05))`.
    ///
    /// # Errors
    /// `InvalidParameter` for the causes 2, 3, 4 and 6, for Q15 also 7 and 8.
    ///
    /// ```
    /// use pescrondilu::{Rate, kernels::stereo::StereoPllState};
    ///
    /// let rate = Rate::hz(192_000)?;
    /// assert!(StereoPllState::<f32>::new(19_000.0, 190.0, 1.0, rate).is_ok());
    /// assert!(StereoPllState::<f32>::new(19_000.0, 190.1, 1.0, rate).is_err());
    /// assert!(StereoPllState::<f32>::new(48_000.0, 190.0, 1.0, rate).is_err());
    /// # Ok::<(), pescrondilu::Error>(())
    /// ```
    pub fn new(pilot_hz: f64, natural_hz: f64, pilot_level: f64, rate: Rate) -> Result<Self> {
        let rate_hz = rate.as_f64();
        let beta = 1.0 - (-1.0 / (rate_hz * LOCK_SECONDS)).exp();
        let made = Self::with_beta(pilot_hz, natural_hz, pilot_level, beta, rate_hz);
        Ok(made?)
    }

    /// As [`StereoPllState::new`] with any lock coefficient, and the rate as a plain number.
    ///
    /// # Errors
    /// The causes 1 to 6, for Q15 also 7 and 8; the first one in force.
    ///
    /// ```
    /// use pescrondilu::kernels::stereo::StereoPllState;
    ///
    /// let made = |beta| StereoPllState::<f32>::with_beta(19_000.0, 20.0, 0.1, beta, 192_000.0);
    /// assert!(made(1.0).is_ok());
    /// assert_eq!(made(1.5).unwrap_err().number, 5);
    /// ```
    pub fn with_beta(
        pilot_hz: f64,
        natural_hz: f64,
        pilot_level: f64,
        beta: f64,
        rate_hz: f64,
    ) -> core::result::Result<Self, Refusal> {
        let answer = T::Raw::NEW(pilot_hz, natural_hz, pilot_level, beta, rate_hz);
        let record = coded(answer.code, answer.decoder)?;
        let step0 = record.step0;
        Ok(Self {
            record,
            coefficients: StereoPllCoefficients::new(natural_hz, pilot_level, beta, rate_hz, step0),
            wide: 0,
        })
    }

    /// A loop of any record, such as one that was stored. An unfit Q15 record is refused by the
    /// first block (cause 0). The coefficients are those that the record holds.
    ///
    /// ```
    /// use pescrondilu::kernels::stereo::StereoPllState;
    ///
    /// let st = StereoPllState::<f32>::with_beta(19_000.0, 20.0, 0.1, 0.5, 192_000.0)?;
    /// let mut record = st.record();
    /// record.phase = 1 << 30;
    /// assert_eq!(StereoPllState::<f32>::from_record(record).phase(), 1 << 30);
    /// # Ok::<(), pescrondilu::Refusal>(())
    /// ```
    pub fn from_record(record: Decoder<T::Value>) -> Self {
        Self {
            record,
            coefficients: StereoPllCoefficients::rounded::<T>(&record),
            wide: 0,
        }
    }

    /// The record as the core has it, with all its fields.
    pub fn record(&self) -> Decoder<T::Value> {
        self.record
    }

    /// The gains as f64 (see [`StereoPllCoefficients`]).
    pub fn coefficients(&self) -> StereoPllCoefficients {
        self.coefficients
    }

    /// Switches the difference on or off. The loop and its decision go on either way.
    pub fn set_enabled(&mut self, enabled: bool) {
        self.record = if enabled {
            T::Raw::ENABLE(self.record)
        } else {
            T::Raw::DISABLE(self.record)
        };
    }

    /// Whether the difference is switched on.
    pub fn is_enabled(&self) -> bool {
        self.record.enabled != 0
    }

    /// The decision after the last sample, whether the difference is switched on or not.
    pub fn is_stereo(&self) -> bool {
        self.record.stereo != 0
    }

    /// The phase before the next sample, 2^32 being one turn.
    pub fn phase(&self) -> u32 {
        self.record.phase
    }

    /// Phase 0, integrator 0, level 0, mono. The gains and the switch stay.
    ///
    /// ```
    /// use pescrondilu::kernels::stereo::StereoPllState;
    ///
    /// let fresh = StereoPllState::<f32>::with_beta(19_000.0, 20.0, 0.1, 0.5, 192_000.0)?;
    /// let mut st = fresh;
    /// st.process(&[0.5], &[0.1], &mut [0.0], &mut [0.0])?;
    /// assert_ne!(st, fresh);
    /// st.reset();
    /// assert_eq!(st, fresh);
    /// # Ok::<(), pescrondilu::Refusal>(())
    /// ```
    pub fn reset(&mut self) {
        self.record = T::Raw::RESET(self.record);
    }

    /// The integrator in turns a sample.
    pub fn integrator(&self) -> f64 {
        self.read().integrator
    }

    /// The integrator's limit in turns a sample.
    pub fn integrator_limit(&self) -> f64 {
        self.read().integrator_limit
    }

    /// The smoothed level: half the pilot's amplitude while the loop is locked.
    ///
    /// Finite pilots alone can make it a NaN in f32, and a NaN level holds the decision until
    /// [`StereoPllState::reset`].
    pub fn lock_level(&self) -> f64 {
        self.read().lock_level
    }

    /// The core's read-outs.
    fn read(&self) -> Readout {
        T::Raw::READ(self.record)
    }

    /// One block, with the crate's table. `mpx` is the multiplex signal and `pilot` the same signal
    /// through the pilot's band-pass. `sum` becomes `mpx`; `difference` becomes `mpx` times the
    /// sine of twice the phase while the decision is stereo and the difference is on, and 0
    /// otherwise. A pilot sample that is not finite leaves the level and the decision.
    ///
    /// # Errors
    /// The causes 10 and 11, for Q15 also 0 first; state and outputs stay.
    ///
    /// ```
    /// use pescrondilu::kernels::stereo::StereoPllState;
    ///
    /// let mut st = StereoPllState::<f32>::with_beta(19_000.0, 20.0, 0.1, 0.5, 192_000.0)?;
    /// let before = st;
    /// let (mut sum, mut difference) = ([9.0; 2], [9.0; 2]);
    /// let refusal = st.process(&[0.5; 2], &[0.0; 3], &mut sum, &mut difference).unwrap_err();
    /// assert_eq!((refusal.number, refusal.expected, refusal.got), (10, 2, 3));
    /// assert_eq!((st, sum, difference), (before, [9.0; 2], [9.0; 2]));
    /// # Ok::<(), pescrondilu::Refusal>(())
    /// ```
    pub fn process(
        &mut self,
        mpx: &[T],
        pilot: &[T],
        sum: &mut [T],
        difference: &mut [T],
    ) -> core::result::Result<(), Refusal> {
        self.process_with(T::table(), mpx, pilot, sum, difference)
    }

    /// As [`StereoPllState::process`], with a table of yours: 4097 entries of any bits.
    ///
    /// # Errors
    /// The causes 9, 10 and 11, for Q15 also 0 first; state and outputs stay.
    ///
    /// ```
    /// use pescrondilu::{Q15, kernels::stereo::StereoPllState, tables};
    ///
    /// let mut st = StereoPllState::<Q15>::with_beta(19_000.0, 20.0, 0.1, 0.5, 192_000.0)?;
    /// let (mut sum, mut difference) = ([Q15(0)], [Q15(0)]);
    /// let table = tables::cos::<Q15>();
    /// st.process_with(table, &[Q15(3)], &[Q15(2)], &mut sum, &mut difference)?;
    /// assert_eq!(sum, [Q15(3)]);
    /// # Ok::<(), pescrondilu::Refusal>(())
    /// ```
    pub fn process_with(
        &mut self,
        table: &[T],
        mpx: &[T],
        pilot: &[T],
        sum: &mut [T],
        difference: &mut [T],
    ) -> core::result::Result<(), Refusal> {
        let reply = sys::block(
            self.record,
            T::raw(table),
            T::raw(mpx),
            T::raw(pilot),
            T::raw_mut(sum),
            T::raw_mut(difference),
        );
        self.take(reply)
    }

    /// As [`StereoPllState::process_with`] by the core's plain block, which is the port of sdrk's
    /// `Reference`. Both blocks are proved to agree on every input; this one is slower.
    ///
    /// # Errors
    /// As [`StereoPllState::process_with`].
    pub fn process_plain(
        &mut self,
        table: &[T],
        mpx: &[T],
        pilot: &[T],
        sum: &mut [T],
        difference: &mut [T],
    ) -> core::result::Result<(), Refusal> {
        let reply = sys::plain_block(
            self.record,
            T::raw(table),
            T::raw(mpx),
            T::raw(pilot),
            T::raw_mut(sum),
            T::raw_mut(difference),
        );
        self.take(reply)
    }

    /// Left and right from one call, with the crate's table: the [`matrix`](super::matrix()) of
    /// what [`StereoPllState::process`] gives, which is `sum` plus and minus twice `difference`,
    /// and the same state after it. The receiver's low-pass comes after. In mono the difference is
    /// +0, so that an f32 `mpx` of -0 gives left +0 and right -0.
    ///
    /// In Q15 left and right are limited before that low-pass. They can be three times as large as
    /// `mpx`, so hand it in with headroom, say at a quarter, the pilot staying as it is; or filter
    /// sum and difference and then call the matrix.
    ///
    /// # Errors
    /// The causes 10 and 11, for Q15 also 0 first; state and outputs stay.
    ///
    /// ```
    /// use pescrondilu::kernels::stereo::StereoPllState;
    ///
    /// let mut st = StereoPllState::<f32>::with_beta(19_000.0, 20.0, 0.1, 0.5, 192_000.0)?;
    /// let (mut left, mut right) = ([9.0; 2], [9.0; 2]);
    /// st.process_merged(&[0.5, 0.25], &[0.0; 2], &mut left, &mut right)?;
    /// // No pilot: mono, and both sides are the multiplex.
    /// assert_eq!((left, right), ([0.5, 0.25], [0.5, 0.25]));
    ///
    /// let before = st;
    /// let refusal = st.process_merged(&[0.1; 2], &[0.0; 3], &mut left, &mut right).unwrap_err();
    /// assert_eq!((refusal.number, refusal.expected, refusal.got), (10, 2, 3));
    /// assert_eq!((st, left, right), (before, [0.5, 0.25], [0.5, 0.25]));
    /// # Ok::<(), pescrondilu::Refusal>(())
    /// ```
    pub fn process_merged(
        &mut self,
        mpx: &[T],
        pilot: &[T],
        left: &mut [T],
        right: &mut [T],
    ) -> core::result::Result<(), Refusal> {
        self.process_merged_with(T::table(), mpx, pilot, left, right)
    }

    /// As [`StereoPllState::process_merged`], with a table of yours: 4097 entries of any bits.
    ///
    /// # Errors
    /// The causes 9, 10 and 11, for Q15 also 0 first; state and outputs stay.
    ///
    /// ```
    /// use pescrondilu::{Q15, kernels::stereo::StereoPllState, tables};
    ///
    /// let mut st = StereoPllState::<Q15>::with_beta(19_000.0, 20.0, 0.1, 0.5, 192_000.0)?;
    /// let (mut left, mut right) = ([Q15(0)], [Q15(0)]);
    /// let table = tables::cos::<Q15>();
    /// st.process_merged_with(table, &[Q15(3)], &[Q15(2)], &mut left, &mut right)?;
    /// assert_eq!((left, right), ([Q15(3)], [Q15(3)]));
    /// # Ok::<(), pescrondilu::Refusal>(())
    /// ```
    pub fn process_merged_with(
        &mut self,
        table: &[T],
        mpx: &[T],
        pilot: &[T],
        left: &mut [T],
        right: &mut [T],
    ) -> core::result::Result<(), Refusal> {
        let reply = sys::merged_block(
            self.record,
            T::raw(table),
            T::raw(mpx),
            T::raw(pilot),
            T::raw_mut(left),
            T::raw_mut(right),
        );
        self.take(reply)
    }

    /// The next record and the block's count, unless the block was turned back.
    #[inline]
    fn take<W: Count>(&mut self, reply: Reply<T::Value, W>) -> core::result::Result<(), Refusal> {
        accepted(reply.answer)?;
        self.record = reply.decoder;
        self.wide = reply.wide.number();
        Ok(())
    }

    /// The block of no samples, which is refused for the record only (cause 0).
    #[cold]
    fn empty_block(&mut self) -> core::result::Result<(), Refusal> {
        self.process(&[], &[], &mut [], &mut [])
    }
}

impl StereoPllState<f32> {
    /// How many phase corrections of the last accepted block took the wide way; 0 before any block.
    ///
    /// The loop corrects its phase once a sample, by f: kp times the detector's error, plus the
    /// integrator. From f = -524288 up to, and without, f = 524288 the quick way serves. Else, and
    /// where f is NaN, the correction takes the wide way, which gives the same and takes longer. (In
    /// exact words: the quick way serves where f times 2^32 plus 0.5, as f64, is below 2^51 in
    /// magnitude.) So a receiver sees here when its loop leaves the quick path.
    ///
    /// The count is that of the block's own samples, whichever call it was: over slices or pairs,
    /// merged, or with a summary. In a [`Rack`](super::Rack) it is that of the samples which this
    /// loop took in the last accepted round. A call that is turned back has no count, and leaves
    /// what is here. [`StereoPllState::process_plain`] does not try the quick way, and leaves 0.
    ///
    /// From a loop that construction returned, it is 0 after every block as long as kp + imax of its
    /// record, added in f32, is at most 262144 and, since the start or the last reset, each pilot
    /// sample and each table entry of every block is in -1 to 1. This is proved.
    ///
    /// ```
    /// use pescrondilu::kernels::stereo::StereoPllState;
    ///
    /// let mut st = StereoPllState::<f32>::with_beta(19_000.0, 20.0, 0.1, 0.5, 192_000.0)?;
    /// let (mut sum, mut difference) = ([0.0; 3], [0.0; 3]);
    /// st.process(&[0.5; 3], &[0.1; 3], &mut sum, &mut difference)?;
    /// assert_eq!(st.wide_corrections(), 0);
    ///
    /// // A demodulator fails after one good sample.
    /// st.process(&[0.5; 3], &[0.1, 1e30, 1e30], &mut sum, &mut difference)?;
    /// assert_eq!(st.wide_corrections(), 2);
    /// # Ok::<(), pescrondilu::Refusal>(())
    /// ```
    ///
    /// A Q15 loop has one way only, and no count:
    ///
    /// ```compile_fail,E0599
    /// use pescrondilu::{Q15, kernels::stereo::StereoPllState};
    ///
    /// let st = StereoPllState::<Q15>::with_beta(19_000.0, 20.0, 0.1, 0.5, 192_000.0)?;
    /// st.wide_corrections();
    /// # Ok::<(), pescrondilu::Refusal>(())
    /// ```
    pub fn wide_corrections(&self) -> usize {
        self.wide
    }
}

/// The pilot loop over pairs, as sdrk has it.
///
/// ```
/// use pescrondilu::{C32, Proved, Rate, kernels::stereo::{StereoPll, StereoPllState}};
///
/// let mut st = StereoPllState::<f32>::new(19_000.0, 20.0, 0.1, Rate::hz(192_000)?)?;
/// let mut output = [C32::default(); 2];
/// Proved.stereo_pll(&mut st, &[0.5, 0.25], &[0.0; 2], &mut output)?;
/// assert_eq!(output, [C32::new(0.5, 0.0), C32::new(0.25, 0.0)]);
/// # Ok::<(), pescrondilu::Error>(())
/// ```
pub trait StereoPll<T: RealSample> {
    /// As [`StereoPllState::process`], with sum and difference as pairs.
    ///
    /// # Errors
    /// `LengthMismatch` where the lengths differ, `InvalidParameter` for an unfit Q15 record; state
    /// and output stay.
    fn stereo_pll(
        &self,
        state: &mut StereoPllState<T>,
        mpx: &[T],
        pilot: &[T],
        output: &mut [T::Complex],
    ) -> Result<()>;
}

impl<T: RealSample> StereoPll<T> for Proved {
    fn stereo_pll(
        &self,
        state: &mut StereoPllState<T>,
        mpx: &[T],
        pilot: &[T],
        output: &mut [T::Complex],
    ) -> Result<()> {
        let n = mpx.len();
        if n == 0 || pilot.len() != n || output.len() != n {
            // No piece reaches the core here, and the record's cause comes before the lengths'.
            let mut next = *state;
            next.empty_block()?;
            same_input(n, pilot.len())?;
            same_output(n, output.len())?;
            *state = next;
            return Ok(());
        }
        let run = if n <= SHORT {
            in_pieces::<T, SHORT>
        } else {
            in_pieces::<T, LONG>
        };
        Ok(run(state, mpx, pilot, output)?)
    }
}

/// A block of equal lengths, `N` samples at a time, which is counted as one. Only the first piece can
/// be refused, for the record: a block leaves it fit.
fn in_pieces<T: RealSample, const N: usize>(
    state: &mut StereoPllState<T>,
    mpx: &[T],
    pilot: &[T],
    output: &mut [T::Complex],
) -> core::result::Result<(), Refusal> {
    let (mut sum, mut difference) = ([T::ZERO; N], [T::ZERO; N]);
    let mut wide = 0;
    let inputs = mpx.chunks(N).zip(pilot.chunks(N));
    for ((m, p), o) in inputs.zip(output.chunks_mut(N)) {
        let (s, d) = (&mut sum[..m.len()], &mut difference[..m.len()]);
        state.process(m, p, s, d)?;
        wide += state.wide;
        join(s, d, o);
    }
    state.wide = wide;
    Ok(())
}
