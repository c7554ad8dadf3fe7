//! Stand-in for reference/mod.rs.

include!(concat!(env!("OUT_DIR"), "/reference.rs"));
