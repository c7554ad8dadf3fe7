//! The core's two formats, and the way between them and f32.

use pescrondilu::kernels::stereo::StereoPllState;
use pescrondilu::{Q15, RealSample};

/// f32 or Q15.
pub trait Format: RealSample {
    const NAME: &'static str;
    /// The core gets the multiplex divided by this, and the audio is multiplied by it after the
    /// low-pass. Q15 limits left and right before the low-pass, and they can be three times as large
    /// as the multiplex.
    const HEADROOM: f32;

    /// For Q15 the nearest value: it saturates, and a NaN becomes 0.
    fn from_f32(value: f32) -> Self;
    fn to_f32(self) -> f32;
    /// A sample of the multiplex for the core, with the headroom.
    fn multiplex(value: f32) -> Self;
    /// How many phase corrections of the last block left the quick path; Q15 has one path only.
    fn wide(pll: &StereoPllState<Self>) -> usize;
}

impl Format for f32 {
    const NAME: &'static str = "f32";
    const HEADROOM: f32 = 1.0;

    fn from_f32(value: f32) -> f32 {
        value
    }

    fn to_f32(self) -> f32 {
        self
    }

    fn multiplex(value: f32) -> f32 {
        value
    }

    fn wide(pll: &StereoPllState<f32>) -> usize {
        pll.wide_corrections()
    }
}

impl Format for Q15 {
    const NAME: &'static str = "Q15";
    const HEADROOM: f32 = 4.0;

    fn from_f32(value: f32) -> Q15 {
        Q15::from_f32(value)
    }

    fn to_f32(self) -> f32 {
        Q15::to_f32(self)
    }

    /// It saturates where `from_f32` does, so that an infinity is full scale here too.
    fn multiplex(value: f32) -> Q15 {
        Q15::from_f32(value.clamp(-1.0, 1.0) / Self::HEADROOM)
    }

    fn wide(_: &StereoPllState<Q15>) -> usize {
        0
    }
}

pub fn fill<T: Format>(out: &mut Vec<T>, values: &[f32]) {
    out.clear();
    out.extend(values.iter().map(|&value| T::from_f32(value)));
}

pub fn fill_multiplex<T: Format>(out: &mut Vec<T>, values: &[f32]) {
    out.clear();
    out.extend(values.iter().map(|&value| T::multiplex(value)));
}

pub fn fill_f32<T: Format>(out: &mut Vec<f32>, values: &[T]) {
    out.clear();
    out.extend(values.iter().map(|value| value.to_f32()));
}

#[cfg(test)]
mod tests {
    use super::*;

    #[test]
    fn q15_saturates_and_takes_a_nan_for_0() {
        let nan = f32::from_bits(0xFFC0_0000);
        let mut out: Vec<Q15> = Vec::new();
        fill(
            &mut out,
            &[0.5, 2.0, -2.0, nan, f32::INFINITY, f32::NEG_INFINITY],
        );
        assert_eq!(
            out.iter().map(|q| q.0).collect::<Vec<_>>(),
            [16_384, 32_767, -32_768, 0, 32_767, -32_768]
        );
        let mut back = Vec::new();
        fill_f32(&mut back, &out);
        assert_eq!(back[..2], [0.5, 32_767.0 / 32_768.0]);
    }

    #[test]
    fn the_multiplex_has_room_for_three_times_itself_in_q15() {
        let nan = f32::from_bits(0xFFC0_0000);
        let mut out: Vec<Q15> = Vec::new();
        fill_multiplex(
            &mut out,
            &[0.5, 1.0, -1.0, 2.0, nan, f32::INFINITY, f32::NEG_INFINITY],
        );
        assert_eq!(
            out.iter().map(|q| q.0).collect::<Vec<_>>(),
            [4_096, 8_192, -8_192, 8_192, 0, 8_192, -8_192]
        );
        assert!(out.iter().all(|q| q.0.checked_mul(3).is_some()));
    }

    #[test]
    fn f32_passes_every_bit() {
        let mut out: Vec<f32> = Vec::new();
        fill(&mut out, &[f32::from_bits(0xFFC0_0000), f32::INFINITY]);
        assert_eq!(out[0].to_bits(), 0xFFC0_0000);
        assert_eq!(out[1], f32::INFINITY);
        fill_multiplex(&mut out, &[f32::from_bits(0xFFC0_0000), 3e38]);
        assert_eq!(out[0].to_bits(), 0xFFC0_0000);
        assert_eq!(out[1], 3e38);
    }
}
