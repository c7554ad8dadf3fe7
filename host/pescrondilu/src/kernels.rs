//! The calls of the core, in the modules in which sdrk has them; sdrk has no RDS groups, no scan of
//! the pilot, no summary and no rack.

pub mod mix;
pub mod rds;
pub mod stereo;
