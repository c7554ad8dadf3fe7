//! The backend `Proved`: the stereo kernels by the proved core. States, errors and tables stay
//! sdrk's. Put it beside the module `fallback`, with `mod proved; pub use proved::Proved;`.

use bytemuck::{cast_slice, cast_slice_mut};
use pescrondilu_sys::decoder::{self, Decoder};
use pescrondilu_sys::{Code, encoder};

use crate::error::{Error, Result};
use crate::kernels::check_len;
use crate::kernels::stereo::{
    StereoEncode, StereoEncodeRds, StereoEncodeRdsState, StereoEncodeState, StereoMatrix,
    StereoPll, StereoPllState,
};
use crate::tables::{COS_F32, COS_Q15};
use crate::types::{C32, CQ15, ComplexSample, Q15, RealSample, Sample};

/// The proved implementation.
#[derive(Clone, Copy, Debug, Default)]
pub struct Proved;

/// The core takes two slices where sdrk has pairs; this many samples are copied at a time.
const PIECE: usize = 64;

/// The lengths are tested before and sdrk's states are fit, so no block is turned back.
fn accepted(answer: Code) -> Result<()> {
    match answer.code {
        0 => Ok(()),
        _ => Err(Error::Internal("the proved core turned a block back")),
    }
}

fn split<T: ComplexSample>(pairs: &[T], re: &mut [T::Real], im: &mut [T::Real]) {
    for ((x, re), im) in pairs.iter().zip(re).zip(im) {
        (*re, *im) = (x.re(), x.im());
    }
}

fn join<T: ComplexSample>(re: &[T::Real], im: &[T::Real], pairs: &mut [T]) {
    for ((x, re), im) in pairs.iter_mut().zip(re).zip(im) {
        *x = T::new(*re, *im);
    }
}

macro_rules! stereo_pll {
    (
        $sample:ty, $table:ident, $kp:ident, $ki:ident, $imax:ident, $beta:ident, $on:ident,
        $off:ident, $integ:ident, $level:ident
    ) => {
        impl StereoPll<$sample> for Proved {
            fn stereo_pll(
                &self,
                state: &mut StereoPllState<$sample>,
                mpx: &[$sample],
                pilot: &[$sample],
                output: &mut [<$sample as RealSample>::Complex],
            ) -> Result<()> {
                check_len(mpx.len(), pilot.len())?;
                check_len(mpx.len(), output.len())?;
                let g = state.parts_mut();
                let mut record = Decoder {
                    kp: g.$kp,
                    ki: g.$ki,
                    imax: g.$imax,
                    beta: g.$beta,
                    on: g.$on,
                    off: g.$off,
                    integ: *g.$integ,
                    level: *g.$level,
                    step0: g.step0,
                    phase: *g.phase,
                    stereo: u32::from(*g.stereo),
                    enabled: u32::from(g.enabled),
                };
                let (mut sum, mut difference) =
                    ([<$sample>::ZERO; PIECE], [<$sample>::ZERO; PIECE]);
                let inputs = mpx.chunks(PIECE).zip(pilot.chunks(PIECE));
                for ((m, p), o) in inputs.zip(output.chunks_mut(PIECE)) {
                    let (s, d) = (&mut sum[..m.len()], &mut difference[..m.len()]);
                    let (raw_s, raw_d) = (cast_slice_mut(s), cast_slice_mut(d));
                    let (m, p) = (cast_slice(m), cast_slice(p));
                    let reply = decoder::block(record, &$table[..], m, p, raw_s, raw_d);
                    accepted(reply.answer)?;
                    record = reply.decoder;
                    join(s, d, o);
                }
                (*g.phase, *g.stereo) = (record.phase, record.stereo != 0);
                (*g.$integ, *g.$level) = (record.integ, record.level);
                Ok(())
            }
        }
    };
}

stereo_pll!(f32, COS_F32, kp, ki, imax, beta, on, off, integ, level);
stereo_pll!(
    Q15, COS_Q15, kp_q, ki_q, imax_q, beta_q31, on_q61, off_q61, integ_q, level_q61
);

macro_rules! stereo_matrix {
    ($pair:ty, $zero:expr) => {
        impl StereoMatrix<$pair> for Proved {
            fn stereo_matrix(&self, input: &[$pair], output: &mut [$pair]) -> Result<()> {
                check_len(input.len(), output.len())?;
                let (mut sum, mut difference) = ([$zero; PIECE], [$zero; PIECE]);
                let (mut left, mut right) = ([$zero; PIECE], [$zero; PIECE]);
                for (i, o) in input.chunks(PIECE).zip(output.chunks_mut(PIECE)) {
                    let (s, d) = (&mut sum[..i.len()], &mut difference[..i.len()]);
                    let (l, r) = (&mut left[..i.len()], &mut right[..i.len()]);
                    split(i, cast_slice_mut(s), cast_slice_mut(d));
                    accepted(decoder::matrix(s, d, l, r))?;
                    join(cast_slice(l), cast_slice(r), o);
                }
                Ok(())
            }
        }
    };
}

stereo_matrix!(C32, 0.0_f32);
stereo_matrix!(CQ15, 0_i16);

/// The encoder's record of a state.
fn record_of(state: &StereoEncodeState) -> encoder::StereoEncode {
    encoder::StereoEncode {
        nco: encoder::Nco {
            phase: state.phase(),
            inc: state.increment(),
        },
        main: state.main(),
        pilot: state.pilot(),
    }
}

impl StereoEncode for Proved {
    fn stereo_encode(
        &self,
        state: &mut StereoEncodeState,
        input: &[C32],
        output: &mut [f32],
    ) -> Result<()> {
        check_len(input.len(), output.len())?;
        let mut record = record_of(state);
        let (mut left, mut right) = ([0.0; PIECE], [0.0; PIECE]);
        for (i, o) in input.chunks(PIECE).zip(output.chunks_mut(PIECE)) {
            let (l, r) = (&mut left[..i.len()], &mut right[..i.len()]);
            split(i, l, r);
            let reply = encoder::encode_block(record, &COS_F32[..], l, r, o);
            accepted(reply.answer)?;
            record = reply.encoder;
        }
        state.set_phase(record.nco.phase);
        Ok(())
    }
}

impl StereoEncodeRds for Proved {
    fn stereo_encode_rds(
        &self,
        state: &mut StereoEncodeRdsState,
        input: &[C32],
        rds: &[f32],
        output: &mut [f32],
    ) -> Result<()> {
        check_len(input.len(), rds.len())?;
        check_len(input.len(), output.len())?;
        let mut record = encoder::StereoEncodeRds {
            enc: record_of(state.encoder()),
            rds: state.rds(),
        };
        let (mut left, mut right) = ([0.0; PIECE], [0.0; PIECE]);
        let inputs = input.chunks(PIECE).zip(rds.chunks(PIECE));
        for ((i, b), o) in inputs.zip(output.chunks_mut(PIECE)) {
            let (l, r) = (&mut left[..i.len()], &mut right[..i.len()]);
            split(i, l, r);
            let reply = encoder::encode_rds_block(record, &COS_F32[..], l, r, b, o);
            accepted(reply.answer)?;
            record = reply.encoder;
        }
        state.set_phase(record.enc.nco.phase);
        Ok(())
    }
}
