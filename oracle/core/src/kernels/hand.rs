//! A decoder's record filled in by hand. It stands inside kernels/stereo.rs, whose fields are
//! private to it.

use core::marker::PhantomData;

use super::{StereoPllCoefficients, StereoPllState};
use crate::probe::Fields;
use crate::types::{Q15, RealSample};

/// A record whose numbers are 0.
fn empty<T: RealSample>(step0: u32, phase: u32, stereo: bool, enabled: bool) -> StereoPllState<T> {
    StereoPllState {
        coef: StereoPllCoefficients {
            kp: 0.0,
            ki: 0.0,
            imax: 0.0,
            beta: 0.0,
            on: 0.0,
            off: 0.0,
            step0,
        },
        kp: 0.0,
        ki: 0.0,
        imax: 0.0,
        beta: 0.0,
        on: 0.0,
        off: 0.0,
        kp_q: 0,
        ki_q: 0,
        imax_q: 0,
        beta_q31: 0,
        on_q61: 0,
        off_q61: 0,
        phase,
        integ: 0.0,
        level: 0.0,
        integ_q: 0,
        level_q61: 0,
        stereo,
        enabled,
        marker: PhantomData,
    }
}

pub fn state_f32(f: Fields<f32>) -> StereoPllState<f32> {
    StereoPllState {
        kp: f.kp,
        ki: f.ki,
        imax: f.imax,
        beta: f.beta,
        on: f.on,
        off: f.off,
        integ: f.integ,
        level: f.level,
        ..empty(f.step0, f.phase, f.stereo, f.enabled)
    }
}

pub fn state_q15(f: Fields<i64>) -> StereoPllState<Q15> {
    StereoPllState {
        kp_q: f.kp,
        ki_q: f.ki,
        imax_q: f.imax,
        beta_q31: f.beta,
        on_q61: f.on,
        off_q61: f.off,
        integ_q: f.integ,
        level_q61: f.level,
        ..empty(f.step0, f.phase, f.stereo, f.enabled)
    }
}
