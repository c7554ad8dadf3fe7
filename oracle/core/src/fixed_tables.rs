//! Stand-in for tables.rs where time is measured: constants of 4097 entries, so that the compiler
//! knows their length. What they hold does not matter there.

const ENTRIES: usize = 4097;

pub static COS_F32: [f32; ENTRIES] = ramp_f32();
pub static COS_Q15: [i16; ENTRIES] = ramp_q15();

const fn ramp_f32() -> [f32; ENTRIES] {
    let mut table = [0.0; ENTRIES];
    let mut i = 0;
    while i < ENTRIES {
        table[i] = (i as f32 - 2048.0) / 2048.0;
        i += 1;
    }
    table
}

const fn ramp_q15() -> [i16; ENTRIES] {
    let mut table = [0; ENTRIES];
    let mut i = 0;
    while i < ENTRIES {
        table[i] = 8 * (i as i16 - 2048);
        i += 1;
    }
    table
}
