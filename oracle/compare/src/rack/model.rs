//! A model of a round by document 02's request 6. Each flat slice is dealt out place by place, and
//! each decoder is the original's own, which runs by itself on the samples that the share gives it.

use decoder_oracle::answers::{self, Block};
use sdrk_core::kernels::stereo::StereoPllState;
use stereo_oracle::answers::{ACCEPTED, Said};

use crate::record::Ours;
use crate::wide::Counts;

/// The places of a rack.
pub const PLACES: usize = 8;

/// What a round is asked with, but for the decoders.
pub struct Asked<S> {
    pub number: usize,
    pub allowance: u32,
    /// of each decoder how much it has of mpx, pilot, sum and difference
    pub waiting: [[usize; 4]; PLACES],
    pub table: Vec<S>,
    pub mpx: Vec<S>,
    pub pilot: Vec<S>,
    /// the lengths of sum and difference
    pub outputs: [usize; 2],
    /// the word that the outputs' places are made from
    pub word: u32,
}

impl<S> Asked<S> {
    /// The lengths of the parts of mpx, pilot, sum or difference. A number outside has at most those
    /// of all places.
    pub fn lengths(&self, of: usize) -> impl ExactSizeIterator<Item = usize> {
        let used = self.number.min(PLACES);
        self.waiting[..used].iter().map(move |w| w[of])
    }
}

/// What a round answers beside the outputs and the decoders.
pub struct Answer {
    pub said: Said,
    pub taken: [usize; PLACES],
    /// what each decoder's samples counted
    pub counts: [Counts; PLACES],
    /// of an accepted round how many samples each decoder had
    pub waited: [usize; PLACES],
    /// the decoder whose cause refused the round
    pub refused: Option<usize>,
}

impl Answer {
    fn refused(said: Said, refused: Option<usize>) -> Self {
        Answer {
            said,
            taken: [0; PLACES],
            counts: Default::default(),
            waited: [0; PLACES],
            refused,
        }
    }
}

/// As many as the first length says to the first, then to the next, as long as there are any.
pub fn dealt<T>(
    mut all: impl Iterator<Item = T>,
    lengths: impl Iterator<Item = usize>,
) -> Vec<Vec<T>> {
    lengths.map(|n| all.by_ref().take(n).collect()).collect()
}

/// What one decoder has: its samples, and where its outputs are in the flat ones.
struct Own<S> {
    block: Block<S>,
    places: [Vec<usize>; 2],
}

/// What each decoder of an allowed number has.
fn own<S: Copy>(a: &Asked<S>, [sum, difference]: [&[S]; 2]) -> Vec<Own<S>> {
    let samples = |slice: &[S], of| dealt(slice.iter().copied(), a.lengths(of)).into_iter();
    let places = |slice: &[S], of| dealt(0..slice.len(), a.lengths(of)).into_iter();
    let inputs = samples(&a.mpx, 0).zip(samples(&a.pilot, 1));
    let outputs = samples(sum, 2).zip(samples(difference, 3));
    let places = places(sum, 2).zip(places(difference, 3));
    let each = inputs.zip(outputs).zip(places);
    each.map(|(((mpx, pilot), (sum, difference)), places)| Own {
        block: Block {
            table: a.table.clone(),
            mpx,
            pilot,
            outputs: [sum, difference],
        },
        places: places.into(),
    })
    .collect()
}

/// A round. The outputs and the decoders change only where it is accepted.
pub fn round<F: Ours>(
    states: &mut [StereoPllState<F>; PLACES],
    a: &Asked<F::Sample>,
    sum: &mut [F::Sample],
    difference: &mut [F::Sample],
) -> Answer {
    if !(2..=PLACES).contains(&a.number) {
        return Answer::refused([121, 0, 0], None);
    }
    let allowance = a.allowance as usize;
    if allowance < a.number {
        return Answer::refused([122, 0, 0], None);
    }
    let own = own(a, [sum, difference]);
    for (k, has) in own.iter().enumerate() {
        let said = answers::refusal::<F>(&states[k], &has.block);
        if said != ACCEPTED {
            return Answer::refused(said, Some(k));
        }
    }
    let share = allowance / a.number;
    let (mut taken, mut waited) = ([0; PLACES], [0; PLACES]);
    let mut counts = [Counts::default(); PLACES];
    for (k, has) in own.iter().enumerate() {
        let (mpx, pilot) = (&has.block.mpx, &has.block.pilot);
        let n = mpx.len().min(share);
        counts[k] = F::counts(&states[k], &a.table, &mpx[..n], &pilot[..n]);
        let pairs = block::<F>(&mut states[k], &a.table, &mpx[..n], &pilot[..n]);
        let [sums, differences] = &has.places;
        for (i, (s, d)) in pairs.into_iter().enumerate() {
            sum[sums[i]] = s;
            difference[differences[i]] = d;
        }
        (taken[k], waited[k]) = (n, mpx.len());
    }
    Answer {
        said: ACCEPTED,
        taken,
        counts,
        waited,
        refused: None,
    }
}

/// A block that is accepted, by the original alone.
pub fn block<F: Ours>(
    state: &mut StereoPllState<F>,
    table: &[F::Sample],
    mpx: &[F::Sample],
    pilot: &[F::Sample],
) -> Vec<(F::Sample, F::Sample)> {
    let side = answers::side::<F>(&F::fields(state));
    let (answer, pairs) = F::run(side, state, table, mpx, pilot, mpx.len());
    assert_eq!(answer, Ok(()));
    pairs
}
