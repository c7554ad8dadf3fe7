//! A summary beside sum and difference: figures for each period of a chosen number of samples.

use core::slice::{from_mut, from_ref};

use pescrondilu_sys::decoder::Count as _;
use pescrondilu_sys::summary::{self as sys, Summary as SummaryRecord, Summed as _};

use super::StereoPllState;
use crate::error::{Refusal, accepted};
use crate::types::RealSample;

/// The cause of a summary that no call takes.
const UNFIT: u32 = 20;

/// A summary of a decoder's samples, in periods of a chosen number of them. `T` is the sample, f32
/// or [`Q15`](crate::Q15).
///
/// [`StereoPllState::process_summary`] gives the figures of each period that ends in its block:
/// stereo samples, mono samples, changes of the decision from one sample to the next, and the
/// largest magnitude of the difference. What belongs to the period that has not ended stays here,
/// and the next block goes on with it. How a signal is cut into blocks makes no difference.
///
/// The figures go by the decision after each sample. So stereo samples are counted while the
/// difference is switched off too; it is 0 then, and with it the magnitude. The magnitude begins
/// each period at 0, passes over a NaN and counts an infinity.
///
/// The decision of the sample before is kept here and not in the decoder: after a
/// [`StereoPllState::reset`] in stereo the first sample in mono is a change.
///
/// ```
/// use pescrondilu::kernels::stereo::{StereoPllState, Summary, SummaryColumns};
///
/// let mut st = StereoPllState::<f32>::with_beta(19_000.0, 20.0, 0.1, 0.5, 192_000.0)?;
/// let mut summary = Summary::<f32>::new(4)?;
/// let (mut sum, mut difference) = ([0.0; 6], [0.0; 6]);
///
/// // One period ends within six samples more: one place in each column.
/// assert_eq!(summary.periods_in(6), 1);
/// let (mut stereo, mut mono, mut changes, mut magnitude) = ([9], [9], [9], [9.0]);
/// let columns = SummaryColumns {
///     stereo: &mut stereo,
///     mono: &mut mono,
///     changes: &mut changes,
///     magnitude: &mut magnitude,
/// };
/// st.process_summary(&mut summary, &[0.5; 6], &[0.0; 6], &mut sum, &mut difference, columns)?;
///
/// // No pilot: four samples in mono, and two more of the period that has not ended.
/// assert_eq!((stereo, mono, changes, magnitude), ([0], [4], [0], [0.0]));
/// assert_eq!((summary.stereo(), summary.mono(), summary.changes()), (0, 2, 0));
/// assert_eq!(summary.periods_in(1), 0);
/// assert_eq!(summary.periods_in(2), 1);
/// # Ok::<(), pescrondilu::Refusal>(())
/// ```
#[derive(Clone, Copy, Debug, PartialEq)]
pub struct Summary<T: RealSample> {
    record: SummaryRecord<T>,
}

/// Where [`StereoPllState::process_summary`] puts the figures of the periods that end in its block,
/// those of the first at place 0. Each slice has [`Summary::periods_in`] places, often none.
#[derive(Debug, Default, PartialEq)]
pub struct SummaryColumns<'a, T> {
    /// Stereo samples.
    pub stereo: &'a mut [u32],
    /// Mono samples.
    pub mono: &'a mut [u32],
    /// Changes of the decision.
    pub changes: &'a mut [u32],
    /// The largest magnitude of the difference.
    pub magnitude: &'a mut [T],
}

impl<T: RealSample> Summary<T> {
    /// A summary that holds nothing, with periods of this many samples. Mono stands before its
    /// first sample.
    ///
    /// # Errors
    /// Cause 20 for a period of 0, with which the core would refuse every block.
    ///
    /// ```
    /// use pescrondilu::{Q15, kernels::stereo::Summary};
    ///
    /// let summary = Summary::<Q15>::new(19_200)?;
    /// assert_eq!((summary.period(), summary.magnitude()), (19_200, Q15(0)));
    /// assert!(!summary.is_stereo_before());
    /// assert_eq!(Summary::<Q15>::new(0).unwrap_err().number, 20);
    /// # Ok::<(), pescrondilu::Refusal>(())
    /// ```
    pub fn new(period: u32) -> Result<Self, Refusal> {
        if period == 0 {
            return Err(Refusal::of(UNFIT));
        }
        let record = from_core(T::Raw::SUMMARY_NEW(period));
        Ok(Self { record })
    }

    /// A summary of any record, such as one that was stored. An unfit one is refused by the first
    /// block (cause 20): where the period is 0, or the samples held reach it, or more changes are
    /// held than samples; where the magnitude is NaN, has its sign bit set, or is not 0 and no
    /// sample is held.
    ///
    /// ```
    /// use pescrondilu::kernels::stereo::Summary;
    ///
    /// let mut record = Summary::<f32>::new(64)?.record();
    /// record.before = 1;
    /// assert!(Summary::from_record(record).is_stereo_before());
    /// # Ok::<(), pescrondilu::Refusal>(())
    /// ```
    pub fn from_record(record: SummaryRecord<T>) -> Self {
        Self { record }
    }

    /// The record as the core has it, with all its fields.
    pub fn record(&self) -> SummaryRecord<T> {
        self.record
    }

    /// The samples of a period.
    pub fn period(&self) -> u32 {
        self.record.period
    }

    /// Stereo samples of the period that has not ended.
    pub fn stereo(&self) -> u32 {
        self.record.stereo
    }

    /// Mono samples of the period that has not ended.
    pub fn mono(&self) -> u32 {
        self.record.mono
    }

    /// Changes of the decision in the period that has not ended.
    pub fn changes(&self) -> u32 {
        self.record.changes
    }

    /// The largest magnitude of the difference in the period that has not ended.
    pub fn magnitude(&self) -> T {
        self.record.magnitude
    }

    /// The decision of the sample before the next one.
    pub fn is_stereo_before(&self) -> bool {
        self.record.before != 0
    }

    /// How many periods end within `n` samples more: as many places each column of that block has.
    /// With a period of 0, which no block takes, none does.
    ///
    /// ```
    /// use pescrondilu::kernels::stereo::Summary;
    ///
    /// let summary = Summary::<f32>::new(7)?;
    /// assert_eq!([6, 7, 13, 14].map(|n| summary.periods_in(n)), [0, 1, 1, 2]);
    /// # Ok::<(), pescrondilu::Refusal>(())
    /// ```
    pub fn periods_in(&self, n: usize) -> usize {
        let r = &self.record;
        let samples = u128::from(r.stereo) + u128::from(r.mono) + n as u128;
        let ending = samples.checked_div(r.period.into()).unwrap_or(0);
        // It is above n only where the samples held reach the period, and no block takes that.
        usize::try_from(ending).unwrap_or(usize::MAX)
    }
}

impl<T: RealSample> StereoPllState<T> {
    /// As [`StereoPllState::process`], with a summary beside it: the figures of each period that
    /// ends in the block go to the columns, in order (see [`Summary`]).
    ///
    /// # Errors
    /// Cause 20 for a summary that no block takes; then the causes of
    /// [`StereoPllState::process`]; then 11 for a column whose length is not
    /// [`Summary::periods_in`] the block, in the order of [`SummaryColumns`]. State, summary and
    /// all outputs stay.
    ///
    /// ```
    /// use pescrondilu::kernels::stereo::{StereoPllState, Summary, SummaryColumns};
    ///
    /// let mut st = StereoPllState::<f32>::with_beta(19_000.0, 20.0, 0.1, 0.5, 192_000.0)?;
    /// let mut summary = Summary::<f32>::new(2)?;
    /// let before = (st, summary);
    /// let (mut sum, mut difference) = ([9.0; 4], [9.0; 4]);
    /// let (mut stereo, mut mono, mut changes, mut magnitude) = ([9; 2], [9; 1], [9; 2], [9.0; 2]);
    /// let columns = SummaryColumns {
    ///     stereo: &mut stereo,
    ///     mono: &mut mono,
    ///     changes: &mut changes,
    ///     magnitude: &mut magnitude,
    /// };
    /// let refusal = st
    ///     .process_summary(&mut summary, &[0.5; 4], &[0.0; 4], &mut sum, &mut difference, columns)
    ///     .unwrap_err();
    /// // Two periods end, and the column of mono has one place.
    /// assert_eq!((refusal.number, refusal.expected, refusal.got), (11, 2, 1));
    /// assert_eq!((st, summary), before);
    /// assert_eq!((sum, stereo, mono), ([9.0; 4], [9; 2], [9; 1]));
    /// # Ok::<(), pescrondilu::Refusal>(())
    /// ```
    pub fn process_summary(
        &mut self,
        summary: &mut Summary<T>,
        mpx: &[T],
        pilot: &[T],
        sum: &mut [T],
        difference: &mut [T],
        columns: SummaryColumns<'_, T>,
    ) -> Result<(), Refusal> {
        self.process_summary_with(T::table(), summary, mpx, pilot, sum, difference, columns)
    }

    /// As [`StereoPllState::process_summary`], with a table of yours: 4097 entries of any bits.
    ///
    /// # Errors
    /// As [`StereoPllState::process_summary`], with cause 9 before 10.
    ///
    /// ```
    /// use pescrondilu::kernels::stereo::{StereoPllState, Summary, SummaryColumns};
    /// use pescrondilu::{Q15, tables};
    ///
    /// let mut st = StereoPllState::<Q15>::with_beta(19_000.0, 20.0, 0.1, 0.5, 192_000.0)?;
    /// let mut summary = Summary::<Q15>::new(100)?;
    /// let (mut sum, mut difference) = ([Q15(0)], [Q15(0)]);
    /// let table = tables::cos::<Q15>();
    /// let (mpx, pilot) = ([Q15(3)], [Q15(2)]);
    /// // No period ends with this sample, so that the columns have no place.
    /// let none = SummaryColumns::default();
    /// let (s, d) = (&mut sum, &mut difference);
    /// st.process_summary_with(table, &mut summary, &mpx, &pilot, s, d, none)?;
    /// assert_eq!((sum, summary.mono()), ([Q15(3)], 1));
    /// # Ok::<(), pescrondilu::Refusal>(())
    /// ```
    // A block has these, and the summary and its columns are two more.
    #[allow(clippy::too_many_arguments)]
    pub fn process_summary_with(
        &mut self,
        table: &[T],
        summary: &mut Summary<T>,
        mpx: &[T],
        pilot: &[T],
        sum: &mut [T],
        difference: &mut [T],
        columns: SummaryColumns<'_, T>,
    ) -> Result<(), Refusal> {
        let reply = sys::summary_block(
            self.record,
            to_core(summary.record),
            T::raw(table),
            T::raw(mpx),
            T::raw(pilot),
            T::raw_mut(sum),
            T::raw_mut(difference),
            columns.stereo,
            columns.mono,
            columns.changes,
            T::raw_mut(columns.magnitude),
        );
        accepted(reply.answer)?;
        self.record = reply.decoder;
        self.wide = reply.wide.number();
        summary.record = from_core(reply.summary);
        Ok(())
    }
}

/// The record with another magnitude.
fn with<A, B>(record: SummaryRecord<A>, magnitude: B) -> SummaryRecord<B> {
    let SummaryRecord {
        period,
        stereo,
        mono,
        changes,
        before,
        ..
    } = record;
    SummaryRecord {
        period,
        stereo,
        mono,
        changes,
        magnitude,
        before,
    }
}

/// The core's record has the magnitude as the core has a sample: an i16 for Q15.
fn to_core<T: RealSample>(record: SummaryRecord<T>) -> SummaryRecord<T::Raw> {
    with(record, T::raw(from_ref(&record.magnitude))[0])
}

fn from_core<T: RealSample>(record: SummaryRecord<T::Raw>) -> SummaryRecord<T> {
    let mut magnitude = T::ZERO;
    T::raw_mut(from_mut(&mut magnitude))[0] = record.magnitude;
    with(record, magnitude)
}
