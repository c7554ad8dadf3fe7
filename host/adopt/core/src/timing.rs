//! Stand-in for timing.rs: a rate in hertz.

use sdrk_device::Ratio;

use crate::error::{Error, Result};

#[derive(Clone, Copy, Debug, PartialEq)]
pub struct Rate(pub f64);

impl Rate {
    pub fn hz(hz: u64) -> Result<Rate> {
        match hz {
            0 => Err(Error::InvalidParameter("a rate of 0")),
            _ => Ok(Rate(hz as f64)),
        }
    }

    pub fn as_f64(self) -> f64 {
        self.0
    }
}

#[derive(Clone, Copy, Debug, PartialEq, Eq)]
pub struct Delay;

impl Delay {
    pub const ZERO: Delay = Delay;
}

pub trait Timing {
    fn ratio(&self) -> Ratio;
    fn group_delay(&self) -> Delay;
}
