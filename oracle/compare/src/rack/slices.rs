//! A round over slices of each decoder's own, which are the parts of the flat slices.

use pescrondilu_sys::rack::{Rack, rack_round_slices};
use stereo_oracle::inputs::Inputs;

use super::model::{Asked, PLACES, dealt};
use super::{Compared, Told};
use crate::record::Record;
use crate::room::Room;
use crate::summary::inputs::word_at;

/// A list: how many of the parts are in it, and how long the slices behind them are, which are past
/// the number.
struct List {
    parts: usize,
    past: Vec<usize>,
}

/// The lists of a round.
pub struct Lists([List; 4]);

impl Lists {
    /// A list has the parts of all decoders, lacks some at the end that are empty, or has more.
    pub fn new<S>(a: &Asked<S>) -> Self {
        // from the round's word, so that the sessions are the same without it
        let mut r = Inputs::new(a.word.into());
        let flat = [a.mpx.len(), a.pilot.len(), a.outputs[0], a.outputs[1]];
        Lists(std::array::from_fn(|of| {
            let parts = dealt(0..flat[of], a.lengths(of));
            let all = parts.len();
            let full = parts.iter().rposition(|part| !part.is_empty());
            let least = full.map_or(0, |k| k + 1);
            let (parts, past) = match r.below(3) {
                0 => (all, 0),
                1 => (least + r.below((all - least) as u64 + 1) as usize, 0),
                _ => (all, 1 + r.below(9)),
            };
            List {
                parts,
                past: (0..past).map(|_| r.below(6) as usize).collect(),
            }
        }))
    }

    /// Whether a list lacks a decoder's slice.
    pub fn lack<S>(&self, a: &Asked<S>) -> bool {
        self.0.iter().any(|list| list.parts < a.lengths(0).len())
    }

    /// Whether a list has a slice past the number.
    pub fn pass(&self) -> bool {
        self.0.iter().any(|list| !list.past.is_empty())
    }

    /// The slices of a list, from the flat slice; those past the number hold a pattern.
    fn slices<S, T: Copy>(
        &self,
        a: &Asked<S>,
        of: usize,
        flat: &[T],
        pattern: impl Fn(u32) -> T,
    ) -> Vec<Vec<T>> {
        let List { parts, past } = &self.0[of];
        let mut slices = dealt(flat.iter().copied(), a.lengths(of));
        slices.truncate(*parts);
        slices.extend(past.iter().enumerate().map(|(k, n)| {
            let place = |i| pattern(word_at(a.word, (64 + 16 * of + k) as u32, i));
            (0..*n).map(place).collect()
        }));
        slices
    }

    /// The outputs of a list, each with places around it.
    pub fn rooms<S, T: Copy>(
        &self,
        a: &Asked<S>,
        of: usize,
        flat: &[T],
        pattern: impl Fn(u32) -> T,
    ) -> Vec<Room<T>> {
        let slices = self.slices(a, of, flat, &pattern);
        let room = |(k, slice): (usize, Vec<T>)| {
            let place = |i| pattern(word_at(a.word, (128 + 32 * of + k) as u32, i));
            Room::new(slice.len(), Some(&slice), place)
        };
        slices.into_iter().enumerate().map(room).collect()
    }
}

/// Our round over slices.
pub fn ours<F: Compared>(
    records: &mut [Record<F>; PLACES],
    a: &Asked<F::Sample>,
    lists: &Lists,
    rooms: &mut [Vec<Room<F::Sample>>; 2],
) -> Told {
    let rack = Rack {
        decoders: records.map(|record| record.0),
        number: a.number,
    };
    let mpx = lists.slices(a, 0, &a.mpx, F::pattern);
    let pilot = lists.slices(a, 1, &a.pilot, F::pattern);
    let inputs = [mpx, pilot];
    let [mpx, pilot] = inputs.each_ref().map(|x| x.iter().map(Vec::as_slice));
    let [sum, difference] = rooms.each_mut().map(|x| x.iter_mut().map(Room::get_mut));
    let round = rack_round_slices(
        rack,
        a.allowance,
        &a.table,
        &mpx.collect::<Vec<_>>(),
        &pilot.collect::<Vec<_>>(),
        &mut sum.collect::<Vec<_>>(),
        &mut difference.collect::<Vec<_>>(),
    );
    Told::after(records, round)
}
