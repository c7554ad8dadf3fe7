//! The inputs at the boundaries of each function.

use crate::answers::{Function, Kind};

/// The boundary inputs of a function, without repeats.
pub fn edges(f: &Function) -> Vec<(u64, u64)> {
    let mut all = match (f.name, f.a, f.b) {
        ("round_shift", ..) => shifts(),
        ("floor_scaled", ..) => scaled(),
        ("q15_from_f64", ..) => alone(with_halves(floats_f64(), 32768.0)),
        ("q14_from_f64", ..) => alone(with_halves(floats_f64(), 16384.0)),
        (_, Kind::I16, _) => pairs(&small_i16(), &small_i16()),
        (_, Kind::I64, _) => alone(whole_i64()),
        (_, Kind::U32, _) => alone(whole_u32()),
        (_, Kind::F32, _) => alone(floats_f32()),
        (_, Kind::F64, _) => alone(floats_f64()),
        (_, Kind::Nothing, _) => Vec::new(),
    };
    all.sort_unstable();
    all.dedup();
    all
}

fn alone(a: Vec<u64>) -> Vec<(u64, u64)> {
    a.into_iter().map(|w| (w, 0)).collect()
}

fn pairs(a: &[u64], b: &[u64]) -> Vec<(u64, u64)> {
    a.iter().flat_map(|x| b.iter().map(|y| (*x, *y))).collect()
}

/// The words from `by` below to `by` above each one.
fn around(words: &[u64], by: u64) -> Vec<u64> {
    words
        .iter()
        .flat_map(|w| (0..=2 * by).map(|k| w.wrapping_sub(by).wrapping_add(k)))
        .collect()
}

/// The words with the bit `sign` clear and set.
fn both_signs(words: &[u64], sign: u64) -> Vec<u64> {
    words.iter().flat_map(|w| [w & !sign, w | sign]).collect()
}

fn small_i16() -> Vec<u64> {
    [
        -32768i64, -32767, -32766, -23171, -23170, -16385, -16384, -16383, -182, -181, -128, -3,
        -2, -1, 0, 1, 2, 3, 128, 181, 182, 16383, 16384, 16385, 23170, 23171, 32765, 32766, 32767,
    ]
    .map(|x| x as u64)
    .to_vec()
}

/// Powers of two of both signs, with the numbers around each; so the ends of i16, i32 and i64 too.
fn whole_i64() -> Vec<u64> {
    let powers: Vec<u64> = (0..64).map(|k| 1u64 << k).collect();
    let negative: Vec<u64> = powers.iter().map(|p| p.wrapping_neg()).collect();
    let mut all = around(&[powers, negative].concat(), 3);
    // halfway between two f64, the lower one even or odd
    for width in 54..=63 {
        let half = 1u64 << (width - 54);
        for top in [1u64 << 52, (1 << 52) + 1, (1 << 53) - 2, (1 << 53) - 1] {
            let tie = (top << (width - 53)) | half;
            all.extend(around(&[tie, tie.wrapping_neg()], 1));
        }
    }
    all
}

fn whole_u32() -> Vec<u64> {
    let powers: Vec<u64> = (0..32).map(|k| 1u64 << k).collect();
    let thirds = [0x5555_5555, 0x5555_5556, 0xAAAA_AAAA, 0xAAAA_AAAB];
    around(&[&powers[..], &thirds[..], &[0]].concat(), 2)
        .into_iter()
        .map(|w| w & 0xFFFF_FFFF)
        .collect()
}

/// The boundaries of the format and of the flush, some powers of two, and NaNs.
fn floats_f32() -> Vec<u64> {
    let sign = 1 << 31;
    let exponents = (0..4)
        .chain(24..32)
        .chain(102..106)
        .chain(124..132)
        .chain(148..154);
    let mut places: Vec<u64> = exponents.chain(252..256).map(|e| e << 23).collect();
    places.push(1 << 22);
    places.push(1e-30f32.to_bits() as u64);
    let near = around(&places, 2);
    let nans = [
        0x7F80_0001,
        0x7FBF_FFFF,
        0x7FC0_0000,
        0x7FC0_0001,
        0x7FFF_FFFF,
    ];
    both_signs(&[&near[..], &nans[..]].concat(), sign)
        .into_iter()
        .map(|w| w & 0xFFFF_FFFF)
        .collect()
}

fn floats_f64() -> Vec<u64> {
    let sign = 1 << 63;
    let bits = |x: f64| x.to_bits();
    let power = |e: i32| f64::powi(2.0, e);
    let mut places: Vec<u64> = Vec::new();
    // the ends of the format: zero, subnormal, normal, largest, infinity
    places.extend([0, 1 << 51, 1 << 52, 0x7FE << 52, 0x7FF << 52]);
    // around 1 and up to what i64 and u64 hold
    places.extend((-3..=65).map(|e| bits(power(e))));
    // the ends of f32 and each binade of its subnormal values
    places.extend((-152..=-124).map(|e| bits(power(e))));
    places.extend((120..=129).map(|e| bits(power(e))));
    places.push(bits(f32::MAX as f64));
    // the middle between the largest f32 and 2^128
    places.push(bits(power(128) - power(103)));
    // the middle between the largest subnormal f32 and the smallest normal one
    places.push(bits(power(-126) - power(-150)));
    // halves, at each parity of the whole part
    for k in 0..20 {
        places.push(bits(k as f64 + 0.5));
    }
    for e in 48..=52 {
        for k in [-2.5, -1.5, -1.0, -0.5, 0.5, 1.0, 1.5, 2.5] {
            places.push(bits(power(e) + k));
        }
    }
    // halfway between two f32, the lower one even or odd
    for e in [-126, -125, -1, 0, 1, 23, 24, 126, 127] {
        for fraction in [0u64, 1, 2, 0x7F_FFFD, 0x7F_FFFE, 0x7F_FFFF] {
            places.push(((e + 1023) as u64) << 52 | fraction << 29 | 1 << 28);
        }
    }
    // halfway between two subnormal f32, the lower one even or odd
    for k in [0, 1, 2, 3, 0x3F_FFFF, 0x40_0000, 0x7F_FFFD, 0x7F_FFFE] {
        places.push(bits((k as f64 + 0.5) * power(-149)));
    }
    let near = around(&places, 2);
    let nans = [1, (1 << 51) - 1, 1 << 51, (1 << 51) + 1, (1 << 52) - 1].map(|p| 0x7FF << 52 | p);
    both_signs(&[&near[..], &nans[..]].concat(), sign)
}

/// The same, and what becomes a half near the ends of i16 when it is multiplied by the scale.
fn with_halves(mut floats: Vec<u64>, scale: f64) -> Vec<u64> {
    let mut places = vec![(0.49999999999999994 / scale).to_bits()];
    for k in [
        0i64, 1, 2, 3, 16383, 16384, 32765, 32766, 32767, 32768, 32769, 65535,
    ] {
        for x in [k as f64 - 0.5, k as f64, k as f64 + 0.5] {
            places.push((x / scale).to_bits());
            places.push((-x / scale).to_bits());
        }
    }
    floats.extend(around(&places, 1));
    floats
}

/// Floats and scales: the powers of two that the decoder's gains use, and the ends of the format.
fn scaled() -> Vec<(u64, u64)> {
    let mut all = Vec::new();
    for shift in [0, 14, 15, 30, 31, 32, 34, 61, 64] {
        let scale = f64::powi(2.0, shift);
        for k in [
            0i64,
            1,
            2,
            3,
            1 << 30,
            1 << 51,
            1 << 52,
            1 << 53,
            1 << 62,
            i64::MAX,
        ] {
            for x in [k as f64 - 0.5, k as f64, k as f64 + 0.5] {
                let near = around(&[(x / scale).to_bits(), (-x / scale).to_bits()], 1);
                all.extend(pairs(&near, &[scale.to_bits()]));
            }
        }
        all.extend(pairs(
            &[(0.49999999999999994 / scale).to_bits()],
            &[scale.to_bits()],
        ));
    }
    let ends = [
        0.0,
        -0.0,
        f64::from_bits(1),
        f64::MIN_POSITIVE,
        1.0,
        -1.0,
        f64::MAX,
        f64::MIN,
        f64::INFINITY,
        f64::NEG_INFINITY,
        f64::NAN,
    ]
    .map(f64::to_bits);
    all.extend(pairs(&ends, &ends));
    all
}

/// Numbers and shifts: each shift with the ends of i64, with its halves and with the place where
/// the sum stops.
fn shifts() -> Vec<(u64, u64)> {
    let mut all = Vec::new();
    let ends = around(&[0, 1 << 63], 2);
    let few: Vec<u64> = (0..=66)
        .chain([127, 128, 1 << 31, u32::MAX as u64])
        .collect();
    all.extend(pairs(&ends, &few));
    for s in 1..=62u64 {
        let half = 1u64 << (s - 1);
        let stop = (i64::MAX as u64).wrapping_sub(half);
        let places = [half, half.wrapping_neg(), half.wrapping_mul(3), stop];
        all.extend(pairs(&around(&places, 1), &[s]));
    }
    all
}
