//! The original files, unchanged, between stand-ins for the files that are not at hand.

pub mod error;
pub mod fallback;
pub mod kernels;
pub mod probe;
pub mod reference;
#[cfg(not(feature = "fixed-tables"))]
pub mod tables;
#[cfg(feature = "fixed-tables")]
#[path = "fixed_tables.rs"]
pub mod tables;
pub mod timing;

// num, types
include!(concat!(env!("OUT_DIR"), "/root.rs"));

/// The plain implementation.
pub struct Reference;

/// The fast implementation.
pub struct Fallback;
