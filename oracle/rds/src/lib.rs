//! A model of the RDS group former, and the sessions to ask it on. The original has no former, so
//! the model is written from the request's words and from the standard's generator matrix.

pub mod check;
pub mod former;
pub mod inputs;

pub use former::Former;
