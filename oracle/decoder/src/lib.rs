//! The original's answers for the decoder, and the sessions to ask it on.

pub mod answers;
pub mod inputs;
pub mod samples;
