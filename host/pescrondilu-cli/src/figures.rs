//! The figures of the log's periods, by the core's summary.

use pescrondilu::Refusal;
use pescrondilu::kernels::stereo::{StereoPllState, Summary, SummaryColumns, matrix};

use crate::format::Format;

/// What the core says of a period.
#[derive(Clone, Copy, Debug, PartialEq)]
pub struct Figures {
    pub stereo: u32,
    pub mono: u32,
    /// Of the decision, from one sample to the next.
    pub changes: u32,
    /// The largest magnitude of the difference, at the capture's scale.
    pub difference: f32,
}

/// The core's summary, and room for the block's sum and difference.
pub struct Counter<T: Format> {
    summary: Summary<T>,
    sum: Vec<T>,
    difference: Vec<T>,
}

impl<T: Format> Counter<T> {
    /// With periods of this many samples.
    pub fn new(period: u32) -> Result<Counter<T>, Refusal> {
        Ok(Counter {
            summary: Summary::new(period)?,
            sum: Vec::new(),
            difference: Vec::new(),
        })
    }

    /// Decodes a block in which one period ends at most, and gives the figures of that one. Left
    /// and right are those of the merged block: it is proved to be the matrix of what this gives.
    pub fn decode(
        &mut self,
        pll: &mut StereoPllState<T>,
        mpx: &[T],
        pilot: &[T],
        left: &mut [T],
        right: &mut [T],
    ) -> Result<Option<Figures>, Refusal> {
        let (mut stereo, mut mono, mut changes, mut magnitude) = ([0], [0], [0], [T::ZERO]);
        let ending = self.summary.periods_in(mpx.len());
        let (sum, difference) = (&mut self.sum, &mut self.difference);
        sum.resize(mpx.len(), T::ZERO);
        difference.resize(mpx.len(), T::ZERO);
        let columns = SummaryColumns {
            stereo: &mut stereo[..ending],
            mono: &mut mono[..ending],
            changes: &mut changes[..ending],
            magnitude: &mut magnitude[..ending],
        };
        pll.process_summary(&mut self.summary, mpx, pilot, sum, difference, columns)?;
        matrix(sum, difference, left, right)?;
        Ok((ending > 0).then(|| Figures {
            stereo: stereo[0],
            mono: mono[0],
            changes: changes[0],
            difference: at_scale(magnitude[0]),
        }))
    }

    /// Of the period that has not ended, as far as it went.
    pub fn unfinished(&self) -> Figures {
        Figures {
            stereo: self.summary.stereo(),
            mono: self.summary.mono(),
            changes: self.summary.changes(),
            difference: at_scale(self.summary.magnitude()),
        }
    }
}

/// Without the headroom that the core was given.
fn at_scale<T: Format>(magnitude: T) -> f32 {
    magnitude.to_f32() * T::HEADROOM
}

#[cfg(test)]
mod tests {
    use super::*;
    use crate::format::fill_multiplex;
    use pescrondilu::{Q15, Rate};

    fn pll<T: Format>() -> StereoPllState<T> {
        StereoPllState::new(19_000.0, 20.0, 0.1, Rate::hz(192_000).unwrap()).unwrap()
    }

    /// A second of a pilot, and of a multiplex with a NaN and an infinity in it.
    fn capture<T: Format>() -> (Vec<T>, Vec<T>) {
        let turns = |i: u32| f64::from(i * 95 % 960) / 960.0;
        let sine = |i| (turns(i) * std::f64::consts::TAU).sin() as f32;
        let mut mpx: Vec<f32> = (0..192_000).map(|i| sine(7 * i) * 0.9).collect();
        mpx[150_000] = f32::NAN;
        mpx[170_000] = f32::NEG_INFINITY;
        let mut out = Vec::new();
        fill_multiplex(&mut out, &mpx);
        let pilot = (0..192_000).map(|i| T::from_f32(sine(i) * 0.1)).collect();
        (out, pilot)
    }

    /// Left and right by the summary's call are those of the merged one, and so is the decoder.
    fn same_audio<T: Format>() {
        let (mpx, pilot) = capture::<T>();
        let (mut merged, mut counted) = (pll::<T>(), pll::<T>());
        let mut counter = Counter::new(19_200).unwrap();
        let mut rows = Vec::new();
        for (m, p) in mpx.chunks(192).zip(pilot.chunks(192)) {
            let [mut left, mut right, mut l, mut r] = [[T::ZERO; 192]; 4];
            merged.process_merged(m, p, &mut left, &mut right).unwrap();
            let row = counter.decode(&mut counted, m, p, &mut l, &mut r).unwrap();
            rows.extend(row);
            let bits = |x: &[T]| x.iter().map(|x| x.to_f32().to_bits()).collect::<Vec<_>>();
            assert_eq!((bits(&l), bits(&r)), (bits(&left), bits(&right)));
            assert_eq!(counted, merged);
        }
        assert!(merged.is_stereo());
        assert_eq!(rows.len(), 10);
        assert!(rows.iter().all(|row| row.stereo + row.mono == 19_200));
        assert_eq!(rows.iter().map(|row| row.changes).sum::<u32>(), 1);
        // mono at first, then stereo throughout
        assert!(rows[0].stereo > 10_000 && rows[0].mono > 1_000);
        assert!(rows[1..].iter().all(|row| row.stereo == 19_200));
        // at the capture's scale; Q15 works at a quarter of it
        for row in &rows[1..8] {
            assert!((0.87..0.901).contains(&row.difference), "{row:?}");
        }
        let empty = Figures {
            stereo: 0,
            mono: 0,
            changes: 0,
            difference: 0.0,
        };
        assert_eq!(counter.unfinished(), empty);
    }

    #[test]
    fn left_and_right_are_those_of_the_merged_call() {
        same_audio::<f32>();
        same_audio::<Q15>();
    }

    #[test]
    fn an_unfinished_period_goes_as_far_as_it_went() {
        let (mpx, pilot) = capture::<f32>();
        let (mut pll, mut counter) = (pll::<f32>(), Counter::new(1_000).unwrap());
        let [mut left, mut right] = [[0.0; 300]; 2];
        let mut rows = 0;
        for (m, p) in mpx.chunks(300).zip(pilot.chunks(300)).take(4) {
            let row = counter.decode(&mut pll, m, p, &mut left, &mut right);
            rows += usize::from(row.unwrap().is_some());
        }
        let last = counter.unfinished();
        assert_eq!((rows, last.stereo, last.mono, last.changes), (1, 0, 200, 0));
    }

    #[test]
    fn a_period_has_samples() {
        assert!(Counter::<f32>::new(0).is_err());
    }
}
