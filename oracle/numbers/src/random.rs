//! Random inputs from a fixed seed: uniform bits, and values near the places where a rounding
//! turns.

use crate::answers::{Function, Kind};

/// The generator splitmix64.
pub struct Random(u64);

impl Random {
    pub fn new(seed: u64) -> Self {
        Random(seed)
    }

    pub fn word(&mut self) -> u64 {
        self.0 = self.0.wrapping_add(0x9E37_79B9_7F4A_7C15);
        let mut z = self.0;
        z = (z ^ (z >> 30)).wrapping_mul(0xBF58_476D_1CE4_E5B9);
        z = (z ^ (z >> 27)).wrapping_mul(0x94D0_49BB_1331_11EB);
        z ^ (z >> 31)
    }

    /// One of 0..n.
    fn below(&mut self, n: u64) -> u64 {
        self.word() % n
    }

    /// One of low..=high.
    fn between(&mut self, low: i64, high: i64) -> i64 {
        low + self.below((high - low + 1) as u64) as i64
    }

    fn sign(&mut self) -> u64 {
        self.word() & 1 << 63
    }

    /// An i64 of any width.
    fn i64(&mut self) -> i64 {
        let width = self.below(64);
        (self.word() as i64) >> width
    }

    /// An f64 with an exponent in low..=high and any fraction.
    fn f64_between(&mut self, low: i64, high: i64) -> u64 {
        let e = self.between(low, high);
        self.sign() | ((e + 1023) as u64) << 52 | self.word() >> 12
    }

    /// An f64 with the exponent e, halfway between two multiples of 2^unit, or next to such a one.
    fn f64_near_half(&mut self, e: i64, unit: i64) -> u64 {
        let half = 51 - e + unit;
        let fraction = match half {
            0..=51 => (self.word() >> 12) & !((2 << half) - 1) | 1 << half,
            _ => 0,
        };
        let exact = self.sign() | ((e + 1023) as u64) << 52 | fraction;
        exact.wrapping_add(self.below(3)).wrapping_sub(1)
    }

    /// An f64 near a half, as a rounding to a whole number meets it.
    fn f64_near_whole_half(&mut self) -> u64 {
        let e = self.between(-1, 53);
        self.f64_near_half(e, 0)
    }

    /// An f64 near the middle of two f32.
    fn f64_near_f32_half(&mut self) -> u64 {
        let e = self.between(-150, 127);
        self.f64_near_half(e, (e - 23).max(-149))
    }

    /// An f64 that becomes nearly a half when it is multiplied by 2^shift.
    fn f64_near_scaled_half(&mut self, shift: i64, high: i64) -> u64 {
        let e = self.between(-1, high);
        let near = f64::from_bits(self.f64_near_half(e, 0));
        (near * f64::powi(2.0, -shift as i32)).to_bits()
    }

    /// An i64 near the middle of two f64.
    fn i64_near_half(&mut self) -> i64 {
        let width = self.between(54, 63) as u32;
        let half = 1u64 << (width - 54);
        let top = (self.word() >> 11 | 1 << 52) << (width - 53);
        let near = (top | half).wrapping_add(self.below(3)).wrapping_sub(1) as i64;
        if self.word() & 1 == 0 { near } else { -near }
    }

    /// A NaN's pattern of an f64: either sign, quiet or signalling, any payload.
    pub fn nan_f64(&mut self) -> u64 {
        let payload = self.word() >> (12 + self.below(52));
        self.sign() | 0x7FF << 52 | payload.max(1)
    }

    /// A NaN's pattern of an f32: either sign, quiet or signalling, any payload.
    pub fn nan_f32(&mut self) -> u64 {
        let payload = self.word() >> (41 + self.below(23));
        self.sign() >> 32 | 0xFF << 23 | payload.max(1)
    }

    fn f32_any(&mut self) -> u64 {
        self.word() >> 32
    }

    /// An f32 with an exponent near that of 1e-30.
    fn f32_near_flush(&mut self) -> u64 {
        let e = self.between(-102, -98);
        self.sign() >> 32 | ((e + 127) as u64) << 23 | self.word() >> 41
    }

    /// One input of a function. A quarter of them has uniform bits, the others lie near its turns.
    pub fn input(&mut self, f: &Function) -> (u64, u64) {
        if self.below(4) == 0 {
            (self.uniform(f.a), self.uniform(f.b))
        } else {
            self.near_a_turn(f)
        }
    }

    fn uniform(&mut self, kind: Kind) -> u64 {
        match kind {
            Kind::Nothing => 0,
            Kind::I16 => self.word() as i16 as i64 as u64,
            Kind::U32 | Kind::F32 => self.f32_any(),
            Kind::I64 | Kind::F64 => self.word(),
        }
    }

    fn near_a_turn(&mut self, f: &Function) -> (u64, u64) {
        match f.name {
            "sat16" => (self.between(-70000, 70000) as u64, 0),
            "round_shift" => self.near_shift(),
            "q15_mul" | "q15_product" => self.near_product(),
            "q15_add_sat" | "q15_sub_sat" => self.near_sum(),
            "low32" => (self.i64() as u64, 0),
            "i64_to_f64" => match self.below(3) {
                0 => (self.i64() as u64, 0),
                _ => (self.i64_near_half() as u64, 0),
            },
            "floor_f64" | "half_even_f64" | "f64_to_i64" => match self.below(3) {
                0 => (self.f64_between(-3, 66), 0),
                _ => (self.f64_near_whole_half(), 0),
            },
            "f64_to_f32" => match self.below(3) {
                0 => (self.f64_between(-152, 129), 0),
                _ => (self.f64_near_f32_half(), 0),
            },
            "q15_from_f64" => (self.f64_near_scaled_half(15, 15), 0),
            "q14_from_f64" => (self.f64_near_scaled_half(14, 15), 0),
            "floor_scaled" => {
                let shift = self.between(-4, 66);
                let scale = f64::powi(2.0, shift as i32).to_bits();
                (self.f64_near_scaled_half(shift, 64), scale)
            }
            "flush_denormal" => (self.f32_near_flush(), 0),
            "is_finite_f64" => (self.f64_between(1020, 1024), 0),
            _ => (self.uniform(f.a), self.uniform(f.b)),
        }
    }

    /// Any number with a small shift, or one near the half of a multiple of 2^s.
    fn near_shift(&mut self) -> (u64, u64) {
        let s = self.between(0, 64) as u64;
        let any = self.word();
        if !(1..=62).contains(&s) || self.below(4) == 0 {
            return (any, s);
        }
        let half = (any >> s << s) | 1 << (s - 1);
        (half.wrapping_add(self.below(3)).wrapping_sub(1), s)
    }

    /// Two Q15 numbers whose product is near the half of a multiple of 2^15.
    fn near_product(&mut self) -> (u64, u64) {
        let place = self.below(15);
        let odd = |w: u64, k: u64| ((w >> 48 | 1) << k) as i16;
        let a = odd(self.word(), place);
        let b = odd(self.word(), 14 - place);
        let near = (b as i64 + self.between(-1, 1)).clamp(-32768, 32767);
        (a as i64 as u64, near as u64)
    }

    /// Two Q15 numbers whose sum or difference is near an end of the range.
    fn near_sum(&mut self) -> (u64, u64) {
        let a = self.between(-32768, 32767);
        let end = if self.word() & 1 == 0 { 32767 } else { -32768 };
        let other = end - a + self.between(-2, 2);
        let b = if self.word() & 1 == 0 { other } else { -other };
        (a as u64, b.clamp(-32768, 32767) as u64)
    }
}
