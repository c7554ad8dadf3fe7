//! Outputs with places around them that no call may write.

/// Places on either side of each output.
pub const GUARD: usize = 2;

/// An output inside a larger room.
pub struct Room<T>(pub Vec<T>);

impl<T: Copy> Room<T> {
    /// The places hold a pattern before the call, and `output` where it is given.
    pub fn new(n: usize, output: Option<&[T]>, pattern: impl Fn(usize) -> T) -> Self {
        let mut places: Vec<T> = (0..n + 2 * GUARD).map(pattern).collect();
        if let Some(output) = output {
            places[GUARD..GUARD + n].copy_from_slice(output);
        }
        Room(places)
    }

    pub fn get_mut(&mut self) -> &mut [T] {
        let end = self.0.len() - GUARD;
        &mut self.0[GUARD..end]
    }
}
