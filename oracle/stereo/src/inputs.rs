//! Inputs from a fixed seed.

use numbers_oracle::random::Random;

use crate::answers::{Fields, TABLE};

const SPECIAL: [u32; 14] = [
    0,
    0x8000_0000,
    1,
    0x8000_0001,
    0x007F_FFFF,
    0x0080_0000,
    0x3F00_0000,
    0x3F80_0000,
    0xBF80_0000,
    0x7F7F_FFFF,
    0xFF7F_FFFF,
    0x7F80_0000,
    0xFF80_0000,
    0x7FC0_0000,
];

/// Inputs of the blocks: of any bits, and often of a size that a signal has.
pub struct Inputs(pub Random);

impl Inputs {
    pub fn new(seed: u64) -> Self {
        Inputs(Random::new(seed))
    }

    pub fn below(&mut self, n: u64) -> u64 {
        self.0.word() % n
    }

    pub fn u32(&mut self) -> u32 {
        (self.0.word() >> 32) as u32
    }

    pub fn i16(&mut self) -> i16 {
        match self.below(4) {
            0 => [-32768, -32767, -1, 0, 1, 32766, 32767][self.below(7) as usize],
            _ => self.0.word() as i16,
        }
    }

    /// A size from 2^-8 to 2, either sign, any fraction.
    fn ordinary(&mut self) -> u32 {
        let w = self.u32();
        let e = 119 + self.below(9) as u32;
        w & 0x807F_FFFF | e << 23
    }

    pub fn f32(&mut self) -> f32 {
        f32::from_bits(match self.below(16) {
            0 => self.0.nan_f32() as u32,
            1 => SPECIAL[self.below(14) as usize],
            2..=5 => self.u32(),
            _ => self.ordinary(),
        })
    }

    /// A value that no operation turns into a NaN, so that the bits are compared.
    pub fn ordinary_f32(&mut self) -> f32 {
        f32::from_bits(self.ordinary())
    }

    pub fn f64(&mut self) -> f64 {
        match self.below(8) {
            0 => f64::from_bits(self.0.nan_f64()),
            1 => f64::from_bits(self.0.word()),
            2 => [
                0.0,
                -0.0,
                f64::INFINITY,
                f64::NEG_INFINITY,
                f64::MAX,
                f64::MIN_POSITIVE,
            ][self.below(6) as usize],
            _ => self.f32() as f64 * f64::powi(2.0, self.below(40) as i32),
        }
    }

    /// `bounded` leaves out NaNs and infinities.
    pub fn block_f32(&mut self, n: usize, bounded: bool) -> Vec<f32> {
        (0..n)
            .map(|_| {
                if bounded {
                    self.ordinary_f32()
                } else {
                    self.f32()
                }
            })
            .collect()
    }

    pub fn block_i16(&mut self, n: usize) -> Vec<i16> {
        (0..n).map(|_| self.i16()).collect()
    }

    pub fn table_f32(&mut self, bounded: bool) -> Vec<f32> {
        self.block_f32(TABLE, bounded)
    }

    pub fn table_q15(&mut self) -> Vec<i16> {
        self.block_i16(TABLE)
    }

    pub fn fields(&mut self, bounded: bool) -> Fields {
        let mut f32 = || {
            if bounded {
                self.ordinary_f32()
            } else {
                self.f32()
            }
        };
        let (main, pilot, level) = (f32(), f32(), f32());
        Fields {
            phase: self.u32(),
            inc: self.u32(),
            main,
            pilot,
            level,
        }
    }
}

/// Any of a list.
pub fn one<T: Copy>(r: &mut Inputs, list: &[T]) -> T {
    list[r.below(list.len() as u64) as usize]
}

/// The f32 from two below to two above one, and their negatives.
fn around_f32(x: f32) -> Vec<f32> {
    let b = x.to_bits();
    (0..5)
        .map(|k| f32::from_bits(b.wrapping_sub(2).wrapping_add(k)))
        .flat_map(|y| [y, -y])
        .collect()
}

/// The f32 at which the correction turns: both sides of 2^51 as v, ties, negative halves, the ends
/// of i64, infinities, NaN.
pub fn corrections() -> Vec<f32> {
    let turn = f32::powi(2.0, -32);
    let mut all = Vec::new();
    for e in [
        -149, -127, -126, -50, -33, -32, -31, -1, 0, 1, 18, 19, 20, 21, 30, 31, 32, 127,
    ] {
        all.extend(around_f32(f32::powi(2.0, e)));
    }
    // f times 2^32 near a half or a whole number
    for k in 0..400 {
        all.extend(around_f32(k as f32 * 0.5 * turn));
    }
    // the same where the f32 are a half or a quarter apart
    for e in [20, 21, 22, 23] {
        for k in 0..200 {
            all.extend(around_f32((f32::powi(2.0, e) + k as f32 * 0.5) * turn));
        }
    }
    all.extend([0.0, -0.0, f32::INFINITY, f32::NEG_INFINITY, f32::NAN]);
    all.extend([0x7F80_0001, 0xFF80_0001, 0xFFFF_FFFF].map(f32::from_bits));
    all
}

/// The frequencies, gains, amplitudes and rates around each limit of the constructors.
pub struct Limits {
    pub frequency: Vec<f64>,
    pub main: Vec<f32>,
    pub level: Vec<f32>,
    pub rate: Vec<f64>,
}

fn around_f64(x: f64) -> [f64; 3] {
    [x.next_down(), x, x.next_up()]
}

pub fn limits() -> Limits {
    let ends = [
        0.0,
        -0.0,
        f64::INFINITY,
        f64::NEG_INFINITY,
        f64::NAN,
        f64::MAX,
        -1.0,
        f64::from_bits(1),
    ];
    let ends_f32 = [
        0.0,
        -0.0,
        f32::INFINITY,
        f32::NEG_INFINITY,
        f32::NAN,
        -1.0,
        f32::from_bits(1),
        -f32::from_bits(1),
        0.5,
    ];
    let f64s = |places: &[f64]| {
        let near = places.iter().flat_map(|x| around_f64(*x));
        near.chain(ends).collect::<Vec<_>>()
    };
    let f32s = |top: f32| {
        let near = [top.next_down(), top, top.next_up(), top * 0.5];
        near.into_iter().chain(ends_f32).collect::<Vec<_>>()
    };
    Limits {
        frequency: f64s(&[18000.0, 19000.0, 20000.0]),
        main: f32s(1.0),
        level: f32s(0.2),
        rate: f64s(&[120000.0, 192000.0, 1e22]),
    }
}
