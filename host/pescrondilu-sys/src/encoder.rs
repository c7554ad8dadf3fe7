//! crates/c_oscillator, crates/c_encoder and crates/c_encoder_rds.

use crate::Code;

#[repr(C)]
#[derive(Clone, Copy, Debug, PartialEq, Eq)]
pub struct Nco {
    pub phase: u32,
    pub inc: u32,
}

layout!(Nco, 8, phase 0, inc 4);

#[repr(C)]
#[derive(Clone, Copy, Debug, PartialEq)]
pub struct StereoEncode {
    pub nco: Nco,
    pub main: f32,
    pub pilot: f32,
}

layout!(StereoEncode, 16, nco 0, main 8, pilot 12);

#[repr(C)]
#[derive(Clone, Copy, Debug, PartialEq)]
pub struct StereoEncodeRds {
    pub enc: StereoEncode,
    pub rds: f32,
}

layout!(StereoEncodeRds, 20, enc 0, rds 16);

#[repr(C)]
#[derive(Clone, Copy, Debug, PartialEq, Eq)]
pub struct CodedIncrement {
    pub code: u32,
    pub increment: u32,
}

layout!(CodedIncrement, 8, code 0, increment 4);

#[repr(C)]
#[derive(Clone, Copy, Debug, PartialEq, Eq)]
pub struct CodedNco {
    pub code: u32,
    pub nco: Nco,
}

layout!(CodedNco, 12, code 0, nco 4);

#[repr(C)]
#[derive(Clone, Copy, Debug, PartialEq)]
pub struct CodedEncode {
    pub code: u32,
    pub encoder: StereoEncode,
}

layout!(CodedEncode, 20, code 0, encoder 4);

#[repr(C)]
#[derive(Clone, Copy, Debug, PartialEq)]
pub struct CodedEncodeRds {
    pub code: u32,
    pub encoder: StereoEncodeRds,
}

layout!(CodedEncodeRds, 24, code 0, encoder 4);

#[repr(C)]
#[derive(Clone, Copy, Debug, PartialEq)]
pub struct EncodeReply {
    pub answer: Code,
    pub encoder: StereoEncode,
}

layout!(EncodeReply, 40, answer 0, encoder 24);

#[repr(C)]
#[derive(Clone, Copy, Debug, PartialEq)]
pub struct EncodeRdsReply {
    pub answer: Code,
    pub encoder: StereoEncodeRds,
}

layout!(EncodeRdsReply, 48, answer 0, encoder 24);

unsafe extern "C" {
    pub safe fn pescrondilu_nco_increment_for(freq: f64, rate: f64) -> CodedIncrement;
    pub safe fn pescrondilu_nco_new(freq: f64, rate: f64) -> CodedNco;
    pub safe fn pescrondilu_nco_from_increment(inc: u32) -> Nco;
    pub safe fn pescrondilu_nco_set_frequency(o: Nco, freq: f64, rate: f64) -> CodedNco;
    pub safe fn pescrondilu_nco_set_phase(o: Nco, p: u32) -> Nco;
    pub safe fn pescrondilu_nco_advance(o: Nco, n: usize) -> Nco;
    pub safe fn pescrondilu_nco_reset(o: Nco) -> Nco;

    pub safe fn pescrondilu_encode_new(
        frequency: f64,
        main: f32,
        pilot: f32,
        rate: f64,
    ) -> CodedEncode;
    pub safe fn pescrondilu_encode_set_pilot(e: StereoEncode, pilot: f32) -> CodedEncode;
    pub safe fn pescrondilu_encode_set_phase(e: StereoEncode, p: u32) -> StereoEncode;
    pub safe fn pescrondilu_encode_reset(e: StereoEncode) -> StereoEncode;
    pub fn pescrondilu_encode_block(
        e: StereoEncode,
        table: *const f32,
        table_n: usize,
        left: *const f32,
        left_n: usize,
        right: *const f32,
        right_n: usize,
        output: *mut f32,
        output_n: usize,
    ) -> EncodeReply;

    pub safe fn pescrondilu_encode_rds_new(
        frequency: f64,
        main: f32,
        pilot: f32,
        rds: f32,
        rate: f64,
    ) -> CodedEncodeRds;
    pub safe fn pescrondilu_encode_rds_set_pilot(e: StereoEncodeRds, pilot: f32) -> CodedEncodeRds;
    pub safe fn pescrondilu_encode_rds_set_rds(e: StereoEncodeRds, rds: f32) -> CodedEncodeRds;
    pub safe fn pescrondilu_encode_rds_set_phase(e: StereoEncodeRds, p: u32) -> StereoEncodeRds;
    pub safe fn pescrondilu_encode_rds_reset(e: StereoEncodeRds) -> StereoEncodeRds;
    pub fn pescrondilu_encode_rds_block(
        e: StereoEncodeRds,
        table: *const f32,
        table_n: usize,
        left: *const f32,
        left_n: usize,
        right: *const f32,
        right_n: usize,
        rds: *const f32,
        rds_n: usize,
        output: *mut f32,
        output_n: usize,
    ) -> EncodeRdsReply;

    pub safe fn pescrondilu_on_air(frequency: f64, amplitude: f32) -> u32;
}

// SAFETY, for both calls below: a pointer and a length are those of one slice, and no output
// overlaps another argument.

#[inline]
pub fn encode_block(
    e: StereoEncode,
    table: &[f32],
    left: &[f32],
    right: &[f32],
    output: &mut [f32],
) -> EncodeReply {
    unsafe {
        pescrondilu_encode_block(
            e,
            table.as_ptr(),
            table.len(),
            left.as_ptr(),
            left.len(),
            right.as_ptr(),
            right.len(),
            output.as_mut_ptr(),
            output.len(),
        )
    }
}

#[inline]
pub fn encode_rds_block(
    e: StereoEncodeRds,
    table: &[f32],
    left: &[f32],
    right: &[f32],
    rds: &[f32],
    output: &mut [f32],
) -> EncodeRdsReply {
    unsafe {
        pescrondilu_encode_rds_block(
            e,
            table.as_ptr(),
            table.len(),
            left.as_ptr(),
            left.len(),
            right.as_ptr(),
            right.len(),
            rds.as_ptr(),
            rds.len(),
            output.as_mut_ptr(),
            output.len(),
        )
    }
}
