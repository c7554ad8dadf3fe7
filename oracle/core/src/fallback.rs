//! Stand-in for fallback/mod.rs, with the lookups that are visible only from here.

include!(concat!(env!("OUT_DIR"), "/fallback.rs"));

pub fn interp_f32(p: u32) -> Option<f32> {
    mix::interp_f32(p)
}

pub fn interp_q15(p: u32) -> Option<i32> {
    mix::interp_q15(p)
}
