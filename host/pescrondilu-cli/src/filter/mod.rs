//! What stands around the proved core. All but the emphasis has a finite memory, so that a NaN in
//! the capture is gone after the filter's length.

pub mod design;
pub mod dot;
pub mod emphasis;
pub mod fir;
pub mod interpolate;
