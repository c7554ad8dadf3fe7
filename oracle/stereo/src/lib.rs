//! The original's answers for lookup, correction, oscillator, matrix and encoders, and the inputs
//! to ask it on.

pub mod answers;
pub mod inputs;
pub mod samples;
