//! A rack: several decoders in one box, which share a table and an allowance of samples.

use core::fmt;

use pescrondilu_sys::decoder::{Count as _, Sample};
use pescrondilu_sys::rack::{self as sys, RackWaiting, Waiting};

use super::{RACK_PLACES, StereoPllState};
use crate::error::{Refusal, accepted};
use crate::types::RealSample;

/// What a round of the core replies.
type Round<T> = sys::Round<<T as RealSample>::Value, <<T as RealSample>::Raw as Sample>::Wide>;

/// The cause of a rack with too few or too many decoders.
const NUMBER: u32 = 21;

/// Two to eight decoders in one box, which share the table and, in each round, an allowance of
/// samples. `T` is the sample, f32 or [`Q15`](crate::Q15).
///
/// In a round each decoder takes its share of the samples that wait for it, or all of them where
/// fewer wait. The share is the allowance divided by the number of decoders, rounded down; the rest
/// of the allowance lapses. A decoder's outputs and its next state are those that
/// [`StereoPllState::process`] gives it alone, over the samples that it took. So what it leaves
/// depends on its own state, its samples and its share alone, however busy the others are.
///
/// What was not taken is brought again in the next round, from the first untaken sample on. While
/// allowance and table stay the same, `w` samples that wait for a decoder are then all worked after
/// `w / share` accepted rounds, rounded up, and no sooner, and its state is that of one block over
/// the `w` samples. This is proved for every list of rounds.
///
/// [`Rack::round`] is for decoders that have slices of their own, [`Rack::round_flat`] for those
/// whose samples lie one behind the other. Both leave the same. In f32 each decoder then tells by
/// [`wide_corrections`](StereoPllState::wide_corrections) how many of its own corrections took the
/// wide way in the round.
///
/// ```
/// use pescrondilu::kernels::stereo::{Rack, RackQueue, StereoPllState};
///
/// let st = StereoPllState::<f32>::with_beta(19_000.0, 20.0, 0.1, 0.5, 192_000.0)?;
/// let mut rack = Rack::new(&[st; 3])?;
///
/// // Five samples wait for the first decoder, none for the second and one for the third.
/// let (mpx, pilot) = ([0.1, 0.2, 0.3, 0.4, 0.5], [0.0; 5]);
/// let (mut sum, mut difference) = ([9.0; 5], [9.0; 5]);
/// let (mut third_sum, mut third_difference) = ([9.0], [9.0]);
/// let first = RackQueue {
///     mpx: &mpx,
///     pilot: &pilot,
///     sum: &mut sum,
///     difference: &mut difference,
/// };
/// let third = RackQueue {
///     mpx: &[0.9],
///     pilot: &[0.0],
///     sum: &mut third_sum,
///     difference: &mut third_difference,
/// };
/// // With an allowance of 11 the share is 3.
/// let taken = rack.round(11, &mut [first, RackQueue::default(), third])?;
/// assert_eq!(taken[..3], [3, 0, 1]);
/// assert_eq!((sum, third_sum), ([0.1, 0.2, 0.3, 9.0, 9.0], [0.9]));
///
/// // Two samples are left for the first one. The others need no queue where nothing waits.
/// let left = RackQueue {
///     mpx: &mpx[3..],
///     pilot: &pilot[3..],
///     sum: &mut sum[3..],
///     difference: &mut difference[3..],
/// };
/// let taken = rack.round(11, &mut [left])?;
/// assert_eq!((taken[0], sum), (2, mpx));
///
/// // Now it is where one block over its five samples leaves it.
/// let mut alone = st;
/// alone.process(&mpx, &pilot, &mut [0.0; 5], &mut [0.0; 5])?;
/// assert_eq!(rack.decoders()[..2], [alone, st]);
/// # Ok::<(), pescrondilu::Refusal>(())
/// ```
#[derive(Clone, Copy)]
pub struct Rack<T: RealSample> {
    /// Those past the number are never seen.
    decoders: [StereoPllState<T>; RACK_PLACES],
    number: usize,
}

/// What waits for a decoder of a [`Rack`], and where its outputs go: four slices, equally long. The
/// default has nothing waiting.
#[derive(Debug, Default, PartialEq)]
pub struct RackQueue<'a, T> {
    /// The multiplex.
    pub mpx: &'a [T],
    /// The same signal after the pilot filter, in step with it.
    pub pilot: &'a [T],
    /// Becomes the sum, for the samples that are taken.
    pub sum: &'a mut [T],
    /// Becomes the difference, for the samples that are taken.
    pub difference: &'a mut [T],
}

impl<T: RealSample> Rack<T> {
    /// A rack of these decoders, in this order.
    ///
    /// # Errors
    /// Cause 21 for fewer than two or more than [`RACK_PLACES`] of them, with
    /// which the core would refuse every round.
    ///
    /// ```
    /// use pescrondilu::{Q15, kernels::stereo::{Rack, StereoPllState}};
    ///
    /// let st = StereoPllState::<Q15>::with_beta(19_000.0, 20.0, 0.1, 0.5, 192_000.0)?;
    /// assert_eq!(Rack::new(&[st; 8])?.number(), 8);
    /// assert_eq!(Rack::new(&[st; 1]).unwrap_err().number, 21);
    /// assert_eq!(Rack::new(&[st; 9]).unwrap_err().number, 21);
    /// # Ok::<(), pescrondilu::Refusal>(())
    /// ```
    pub fn new(decoders: &[StereoPllState<T>]) -> Result<Self, Refusal> {
        let number = decoders.len();
        if !(2..=RACK_PLACES).contains(&number) {
            return Err(Refusal::of(NUMBER));
        }
        let mut all = [decoders[0]; RACK_PLACES];
        all[..number].copy_from_slice(decoders);
        Ok(Self {
            decoders: all,
            number,
        })
    }

    /// How many decoders there are.
    pub fn number(&self) -> usize {
        self.number
    }

    /// The decoders.
    pub fn decoders(&self) -> &[StereoPllState<T>] {
        &self.decoders[..self.number]
    }

    /// The decoders, to be reset, switched or replaced between rounds. The others do not change.
    ///
    /// ```
    /// use pescrondilu::kernels::stereo::{Rack, StereoPllState};
    ///
    /// let st = StereoPllState::<f32>::with_beta(19_000.0, 20.0, 0.1, 0.5, 192_000.0)?;
    /// let mut rack = Rack::new(&[st; 2])?;
    /// rack.decoders_mut()[0].set_enabled(false);
    /// rack.decoders_mut()[1] = StereoPllState::with_beta(19_000.0, 10.0, 0.1, 0.5, 192_000.0)?;
    /// assert!(!rack.decoders()[0].is_enabled() && rack.decoders()[1].is_enabled());
    /// # Ok::<(), pescrondilu::Refusal>(())
    /// ```
    pub fn decoders_mut(&mut self) -> &mut [StereoPllState<T>] {
        &mut self.decoders[..self.number]
    }

    /// One round, with the crate's table. Gives how many samples each decoder took, 0 past their
    /// number.
    ///
    /// The first queue is the first decoder's, and so on. A decoder without a queue has nothing
    /// waiting. Queues past the number of decoders are not touched. What of an output belongs to
    /// samples that were not taken is left.
    ///
    /// # Errors
    /// Cause 22 for an allowance smaller than the number of decoders; then the earliest decoder's
    /// cause, which is 10 or 11, for Q15 also 0 first, with the lengths of its slices and not of its
    /// share. All decoders and outputs stay, also those before the one at fault.
    ///
    /// ```
    /// use pescrondilu::kernels::stereo::{Rack, RackQueue, StereoPllState};
    ///
    /// let st = StereoPllState::<f32>::with_beta(19_000.0, 20.0, 0.1, 0.5, 192_000.0)?;
    /// let mut rack = Rack::new(&[st; 2])?;
    /// let before = rack;
    /// let (mpx, pilot) = ([[0.5; 3]; 2], [0.0; 3]);
    /// let (mut sums, mut differences) = ([[9.0; 3]; 2], [[9.0; 3]; 2]);
    /// // Each receiver has buffers of its own; the second one's pilot is a sample short.
    /// let outputs = sums.iter_mut().zip(&mut differences);
    /// let each = mpx.iter().zip([&pilot[..], &pilot[1..]]).zip(outputs);
    /// let mut queues: Vec<_> = each
    ///     .map(|((mpx, pilot), (sum, difference))| RackQueue { mpx, pilot, sum, difference })
    ///     .collect();
    /// let refusal = rack.round(64, &mut queues).unwrap_err();
    /// assert_eq!((refusal.number, refusal.expected, refusal.got), (10, 3, 2));
    /// assert_eq!((rack, sums, differences), (before, [[9.0; 3]; 2], [[9.0; 3]; 2]));
    /// # Ok::<(), pescrondilu::Refusal>(())
    /// ```
    pub fn round(
        &mut self,
        allowance: u32,
        queues: &mut [RackQueue<'_, T>],
    ) -> Result<[usize; RACK_PLACES], Refusal> {
        self.round_with(T::table(), allowance, queues)
    }

    /// As [`Rack::round`], with a table of yours: 4097 entries of any bits.
    ///
    /// # Errors
    /// As [`Rack::round`], with a decoder's cause 9 before its 10.
    ///
    /// ```
    /// use pescrondilu::kernels::stereo::{Rack, RackQueue, StereoPllState};
    /// use pescrondilu::{Q15, tables};
    ///
    /// let st = StereoPllState::<Q15>::with_beta(19_000.0, 20.0, 0.1, 0.5, 192_000.0)?;
    /// let mut rack = Rack::new(&[st; 2])?;
    /// let (mut sum, mut difference) = ([Q15(0)], [Q15(0)]);
    /// let queue = RackQueue {
    ///     mpx: &[Q15(3)],
    ///     pilot: &[Q15(2)],
    ///     sum: &mut sum,
    ///     difference: &mut difference,
    /// };
    /// rack.round_with(tables::cos::<Q15>(), 2, &mut [queue])?;
    /// assert_eq!(sum, [Q15(3)]);
    /// # Ok::<(), pescrondilu::Refusal>(())
    /// ```
    pub fn round_with(
        &mut self,
        table: &[T],
        allowance: u32,
        queues: &mut [RackQueue<'_, T>],
    ) -> Result<[usize; RACK_PLACES], Refusal> {
        // a place without a queue has empty slices
        let [mut mpx, mut pilot] = [[T::raw(&[]); RACK_PLACES]; 2];
        let [mut sum, mut difference] =
            [(); 2].map(|()| [(); RACK_PLACES].map(|()| T::raw_mut(&mut [])));
        for (k, queue) in queues.iter_mut().take(RACK_PLACES).enumerate() {
            mpx[k] = T::raw(queue.mpx);
            pilot[k] = T::raw(queue.pilot);
            sum[k] = T::raw_mut(queue.sum);
            difference[k] = T::raw_mut(queue.difference);
        }
        let round = sys::rack_round_slices(
            self.core(),
            allowance,
            T::raw(table),
            &mpx,
            &pilot,
            &mut sum,
            &mut difference,
        );
        self.after(round)
    }

    /// [`Rack::round`] for samples that lie one behind the other, with the crate's table. Gives how
    /// many samples each decoder took, 0 past their number.
    ///
    /// Each of the four slices has the parts of all decoders, one behind the other: a decoder's
    /// part begins where that of the one before ends, and its entry of `waiting` has the four
    /// lengths. A decoder without an entry has nothing waiting; entries past the number of decoders
    /// are not read. A part that would pass the end of its slice is cut off there. What lies past
    /// the parts, and what of an output belongs to samples that were not taken, is left.
    ///
    /// # Errors
    /// Cause 22 for an allowance smaller than the number of decoders; then the earliest decoder's
    /// cause, which is 10 or 11, for Q15 also 0 first, with the lengths of its part and not of its
    /// share. A slice that is too short so shows as 10 or 11 of the first decoder that it cuts,
    /// unless all four are cut alike. All decoders and outputs stay, also those before the one at
    /// fault.
    ///
    /// ```
    /// use pescrondilu::kernels::stereo::{Rack, StereoPllState, Waiting};
    ///
    /// let st = StereoPllState::<f32>::with_beta(19_000.0, 20.0, 0.1, 0.5, 192_000.0)?;
    /// let mut rack = Rack::new(&[st; 2])?;
    /// // Two samples wait for the first decoder and three for the second; the share is 2.
    /// let waiting = [2, 3].map(Waiting::samples);
    /// let (mpx, pilot) = ([0.1, 0.2, 0.7, 0.8, 0.9], [0.0; 5]);
    /// let (mut sum, mut difference) = ([9.0; 5], [9.0; 5]);
    /// let taken = rack.round_flat(4, &waiting, &mpx, &pilot, &mut sum, &mut difference)?;
    /// assert_eq!((taken[0], taken[1], sum), (2, 2, [0.1, 0.2, 0.7, 0.8, 9.0]));
    ///
    /// // A pilot that is a sample short cuts the second decoder's part.
    /// let before = (rack, sum, difference);
    /// let refusal = rack
    ///     .round_flat(4, &waiting, &mpx, &pilot[1..], &mut sum, &mut difference)
    ///     .unwrap_err();
    /// assert_eq!((refusal.number, refusal.expected, refusal.got), (10, 3, 2));
    /// assert_eq!((rack, sum, difference), before);
    /// # Ok::<(), pescrondilu::Refusal>(())
    /// ```
    pub fn round_flat(
        &mut self,
        allowance: u32,
        waiting: &[Waiting],
        mpx: &[T],
        pilot: &[T],
        sum: &mut [T],
        difference: &mut [T],
    ) -> Result<[usize; RACK_PLACES], Refusal> {
        self.round_flat_with(T::table(), allowance, waiting, mpx, pilot, sum, difference)
    }

    /// As [`Rack::round_flat`], with a table of yours: 4097 entries of any bits.
    ///
    /// # Errors
    /// As [`Rack::round_flat`], with a decoder's cause 9 before its 10.
    ///
    /// ```
    /// use pescrondilu::kernels::stereo::{Rack, StereoPllState, Waiting};
    /// use pescrondilu::{Q15, tables};
    ///
    /// let st = StereoPllState::<Q15>::with_beta(19_000.0, 20.0, 0.1, 0.5, 192_000.0)?;
    /// let mut rack = Rack::new(&[st; 2])?;
    /// let waiting = [1, 1].map(Waiting::samples);
    /// let (mut sum, mut difference) = ([Q15(0); 2], [Q15(0); 2]);
    /// let table = tables::cos::<Q15>();
    /// let (mpx, pilot) = ([Q15(3), Q15(4)], [Q15(2); 2]);
    /// rack.round_flat_with(table, 2, &waiting, &mpx, &pilot, &mut sum, &mut difference)?;
    /// assert_eq!(sum, mpx);
    /// # Ok::<(), pescrondilu::Refusal>(())
    /// ```
    // A block has these, and the allowance and what waits are two more.
    #[allow(clippy::too_many_arguments)]
    pub fn round_flat_with(
        &mut self,
        table: &[T],
        allowance: u32,
        waiting: &[Waiting],
        mpx: &[T],
        pilot: &[T],
        sum: &mut [T],
        difference: &mut [T],
    ) -> Result<[usize; RACK_PLACES], Refusal> {
        let mut parts = RackWaiting::default();
        for (part, given) in parts.decoders.iter_mut().zip(waiting) {
            *part = *given;
        }
        let round = sys::rack_round(
            self.core(),
            allowance,
            parts,
            T::raw(table),
            T::raw(mpx),
            T::raw(pilot),
            T::raw_mut(sum),
            T::raw_mut(difference),
        );
        self.after(round)
    }

    /// The rack as the core has it.
    fn core(&self) -> sys::Rack<T::Value> {
        sys::Rack {
            decoders: self.decoders.map(|st| st.record),
            number: self.number,
        }
    }

    /// Goes on with what a round left, and gives what was taken.
    fn after(&mut self, round: Round<T>) -> Result<[usize; RACK_PLACES], Refusal> {
        accepted(round.answer)?;
        let left = round.rack.decoders.into_iter().zip(round.wide);
        for (st, (record, wide)) in self.decoders.iter_mut().zip(left) {
            (st.record, st.wide) = (record, wide.number());
        }
        Ok(round.taken)
    }
}

// Written out, since the places past the number are no part of a rack.

impl<T: RealSample> PartialEq for Rack<T> {
    fn eq(&self, other: &Self) -> bool {
        self.decoders() == other.decoders()
    }
}

impl<T: RealSample> fmt::Debug for Rack<T> {
    fn fmt(&self, f: &mut fmt::Formatter<'_>) -> fmt::Result {
        f.debug_struct("Rack")
            .field("decoders", &self.decoders())
            .finish()
    }
}
