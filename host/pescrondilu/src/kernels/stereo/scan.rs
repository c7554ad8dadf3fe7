//! The scan of the pilot.

use pescrondilu_sys::decoder as sys;

/// What a [`scan`] of a pilot tells.
#[derive(Clone, Copy, Debug, PartialEq, Eq)]
pub struct Scanned {
    /// Whether every sample is finite; so it is where there is none.
    pub finite: bool,
    /// How many samples were read from the end: those from the last one that is not finite on, or
    /// all where every sample is finite.
    pub read: usize,
}

/// Reads a pilot from its end, until a sample that is NaN or infinite.
///
/// [`StereoPllState::process`](super::StereoPllState::process) passes over such a sample and does
/// not tell of it. A receiver that wants to know calls this beside it, with the same pilot. A
/// [`Q15`](crate::Q15) pilot has no such sample.
///
/// ```
/// use pescrondilu::kernels::stereo::{Scanned, scan};
///
/// let mut pilot = [0.1; 64];
/// assert_eq!(scan(&pilot), Scanned { finite: true, read: 64 });
///
/// pilot[40] = f32::NEG_INFINITY;
/// pilot[41] = f32::NAN;
/// let scanned = scan(&pilot);
/// assert_eq!(scanned, Scanned { finite: false, read: 23 });
/// // Where the last one stands; after it the pilot is finite.
/// let last = pilot.len() - scanned.read;
/// assert_eq!(last, 41);
/// assert!(scan(&pilot[last + 1..]).finite);
/// ```
pub fn scan(pilot: &[f32]) -> Scanned {
    let sys::Scanned { finite, read } = sys::scan(pilot);
    Scanned {
        finite: finite != 0,
        read,
    }
}
