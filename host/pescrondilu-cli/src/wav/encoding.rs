//! How one sample stands in a file. Integers count as parts of full scale.

use std::fmt;

#[derive(Clone, Copy, Debug, PartialEq, Eq)]
pub enum Encoding {
    U8,
    S16,
    S24,
    S32,
    F32,
    F64,
}

impl Encoding {
    /// PCM of this many bits. A sample of odd width stands in the upper bits of whole bytes.
    pub fn pcm(bits: u16) -> Option<Encoding> {
        match bits {
            1..=8 => Some(Encoding::U8),
            9..=16 => Some(Encoding::S16),
            17..=24 => Some(Encoding::S24),
            25..=32 => Some(Encoding::S32),
            _ => None,
        }
    }

    pub fn float(bits: u16) -> Option<Encoding> {
        match bits {
            32 => Some(Encoding::F32),
            64 => Some(Encoding::F64),
            _ => None,
        }
    }

    pub fn bytes(self) -> usize {
        match self {
            Encoding::U8 => 1,
            Encoding::S16 => 2,
            Encoding::S24 => 3,
            Encoding::S32 | Encoding::F32 => 4,
            Encoding::F64 => 8,
        }
    }

    /// Samples that stand side by side.
    pub fn decode(self, bytes: &[u8], out: &mut Vec<f32>) {
        match self {
            Encoding::U8 => out.extend(bytes.iter().map(|&b| (f32::from(b) - 128.0) / 128.0)),
            Encoding::S16 => each(bytes, out, |b| f32::from(i16::from_le_bytes(b)) / 32_768.0),
            Encoding::S24 => each(bytes, out, |[a, b, c]| {
                (i32::from_le_bytes([0, a, b, c]) >> 8) as f32 / 8_388_608.0
            }),
            Encoding::S32 => each(bytes, out, |b| {
                (f64::from(i32::from_le_bytes(b)) / 2_147_483_648.0) as f32
            }),
            Encoding::F32 => each(bytes, out, f32::from_le_bytes),
            Encoding::F64 => each(bytes, out, |b| f64::from_le_bytes(b) as f32),
        }
    }
}

fn each<const N: usize>(bytes: &[u8], out: &mut Vec<f32>, value: impl Fn([u8; N]) -> f32) {
    out.extend(bytes.as_chunks::<N>().0.iter().map(|&sample| value(sample)));
}

/// The integer nearest to a part of full scale; a NaN becomes 0.
pub fn to_i16(value: f32) -> i16 {
    (value * 32_768.0).round() as i16
}

impl fmt::Display for Encoding {
    fn fmt(&self, f: &mut fmt::Formatter<'_>) -> fmt::Result {
        f.write_str(match self {
            Encoding::U8 => "PCM 8 bits",
            Encoding::S16 => "PCM 16 bits",
            Encoding::S24 => "PCM 24 bits",
            Encoding::S32 => "PCM 32 bits",
            Encoding::F32 => "f32",
            Encoding::F64 => "f64",
        })
    }
}

#[cfg(test)]
mod tests {
    use super::*;

    fn decoded(encoding: Encoding, bytes: &[u8]) -> Vec<f32> {
        let mut out = Vec::new();
        encoding.decode(bytes, &mut out);
        out
    }

    #[test]
    fn integers_are_parts_of_full_scale() {
        assert_eq!(decoded(Encoding::U8, &[0, 128, 192]), [-1.0, 0.0, 0.5]);
        assert_eq!(
            decoded(Encoding::S16, &[0, 0x80, 0, 0x40, 1, 0]),
            [-1.0, 0.5, 1.0 / 32_768.0]
        );
        assert_eq!(
            decoded(Encoding::S24, &[0, 0, 0x80, 0, 0, 0x40]),
            [-1.0, 0.5]
        );
        assert_eq!(
            decoded(Encoding::S32, &[0, 0, 0, 0x80, 0, 0, 0, 0xC0]),
            [-1.0, -0.5]
        );
    }

    #[test]
    fn floats_keep_what_is_not_finite() {
        let negative_nan = f32::from_bits(0xFFC0_0000);
        let out = decoded(Encoding::F32, &negative_nan.to_le_bytes());
        assert_eq!(out[0].to_bits(), 0xFFC0_0000);
        let out = decoded(
            Encoding::F64,
            &[1e300f64, 0.25].map(f64::to_le_bytes).concat(),
        );
        assert_eq!(out, [f32::INFINITY, 0.25]);
    }

    #[test]
    fn a_piece_of_a_sample_is_left_out() {
        assert_eq!(decoded(Encoding::S24, &[0, 0, 0x40, 9, 9]), [0.5]);
    }

    #[test]
    fn odd_widths_stand_in_whole_bytes() {
        let sizes = [8, 12, 16, 20, 24, 32].map(|bits| Encoding::pcm(bits).unwrap().bytes());
        assert_eq!(sizes, [1, 2, 2, 3, 3, 4]);
        assert_eq!(
            (Encoding::pcm(0), Encoding::pcm(33), Encoding::float(16)),
            (None, None, None)
        );
    }

    #[test]
    fn sixteen_bits_saturate() {
        let given = [0.5, 1.0, -1.0, 3.0, -3.0, f32::NAN, f32::INFINITY];
        assert_eq!(
            given.map(to_i16),
            [16_384, 32_767, -32_768, 32_767, -32_768, 0, 32_767]
        );
    }
}
