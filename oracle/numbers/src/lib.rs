//! The answers of the original and of std for the number helpers, and the inputs to ask them on.

pub mod answers;
pub mod edges;
pub mod random;

pub use answers::{FUNCTIONS, Function, Kind};
