//! Both formats, with the original's types beside the crate's.

use pescrondilu::{ComplexSample, Q15, RealSample};
use sdrk_core::kernels::stereo::{StereoMatrix, StereoPll};
use sdrk_core::types::{ComplexSample as _, RealSample as TheirReal};
use sdrk_core::{Fallback, Proved};

/// splitmix64.
pub struct Random(pub u64);

impl Random {
    pub fn word(&mut self) -> u64 {
        self.0 = self.0.wrapping_add(0x9e37_79b9_7f4a_7c15);
        let mut z = self.0;
        z = (z ^ (z >> 30)).wrapping_mul(0xbf58_476d_1ce4_e5b9);
        z = (z ^ (z >> 27)).wrapping_mul(0x94d0_49bb_1331_11eb);
        z ^ (z >> 31)
    }

    pub fn below(&mut self, n: usize) -> usize {
        (self.word() % n as u64) as usize
    }

    /// From -1 to 1.
    pub fn unit(&mut self) -> f64 {
        (self.word() >> 11) as f64 / (1_u64 << 52) as f64 - 1.0
    }
}

/// What the original's two backends are for a format.
pub trait Backend<T: TheirReal>: StereoPll<T> + StereoMatrix<T::Complex> {}
impl<T: TheirReal, B: StereoPll<T> + StereoMatrix<T::Complex>> Backend<T> for B {}

/// A format of the crate, with the original's sample beside it.
pub trait Format: RealSample {
    type Theirs: TheirReal;
    const NAME: &str;
    /// The original's two backends; types of their own, so that a call is a plain call.
    type Fallback: Backend<Self::Theirs>;
    type Proved: Backend<Self::Theirs>;
    const FALLBACK: Self::Fallback;
    const PROVED: Self::Proved;
    fn theirs(self) -> Self::Theirs;
    /// Any NaN is one NaN.
    fn bits(self) -> u64;
    fn their_bits(x: Self::Theirs) -> u64;
    fn any(random: &mut Random) -> Self;
}

impl Format for f32 {
    type Theirs = f32;
    const NAME: &str = "f32";
    type Fallback = Fallback;
    type Proved = Proved;
    const FALLBACK: Fallback = Fallback;
    const PROVED: Proved = Proved;

    fn theirs(self) -> f32 {
        self
    }

    fn bits(self) -> u64 {
        let x = if self.is_nan() { f32::NAN } else { self };
        x.to_bits().into()
    }

    fn their_bits(x: f32) -> u64 {
        x.bits()
    }

    fn any(random: &mut Random) -> f32 {
        f32::from_bits(random.word() as u32)
    }
}

impl Format for Q15 {
    type Theirs = sdrk_core::types::Q15;
    const NAME: &str = "Q15";
    type Fallback = Fallback;
    type Proved = Proved;
    const FALLBACK: Fallback = Fallback;
    const PROVED: Proved = Proved;

    fn theirs(self) -> Self::Theirs {
        sdrk_core::types::Q15(self.0)
    }

    fn bits(self) -> u64 {
        self.0 as u64
    }

    fn their_bits(x: Self::Theirs) -> u64 {
        x.0 as u64
    }

    fn any(random: &mut Random) -> Q15 {
        Q15(random.word() as i16)
    }
}

pub type TheirPair<F> = <<F as Format>::Theirs as TheirReal>::Complex;

/// A pair of the original.
pub fn their_pair<F: Format>(re: F, im: F) -> TheirPair<F> {
    TheirPair::<F>::new(re.theirs(), im.theirs())
}

pub fn theirs<F: Format>(samples: &[F]) -> Vec<F::Theirs> {
    samples.iter().map(|x| x.theirs()).collect()
}

pub fn their_pairs<F: Format>(re: &[F], im: &[F]) -> Vec<TheirPair<F>> {
    let pairs = re.iter().zip(im);
    pairs.map(|(re, im)| their_pair(*re, *im)).collect()
}

pub fn pairs<F: Format>(re: &[F], im: &[F]) -> Vec<F::Complex> {
    let pairs = re.iter().zip(im);
    pairs.map(|(re, im)| F::Complex::new(*re, *im)).collect()
}

/// The bits of two slices, of pairs, and of the original's pairs, in one form.
pub type Bits = Vec<(u64, u64)>;

pub fn slice_bits<F: Format>(re: &[F], im: &[F]) -> Bits {
    let pairs = re.iter().zip(im);
    pairs.map(|(re, im)| (re.bits(), im.bits())).collect()
}

pub fn pair_bits<F: Format>(pairs: &[F::Complex]) -> Bits {
    let bits = |x: &F::Complex| (x.re().bits(), x.im().bits());
    pairs.iter().map(bits).collect()
}

pub fn their_pair_bits<F: Format>(pairs: &[TheirPair<F>]) -> Bits {
    let bits = |x: &TheirPair<F>| (F::their_bits(x.re()), F::their_bits(x.im()));
    pairs.iter().map(bits).collect()
}
