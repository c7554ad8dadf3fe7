//! Stand-in for tables.rs: the cosine as constants of 4097 entries, so that the compiler knows the
//! length as it does in the original. The program compares them with the crate's tables, so both
//! sides work with the same numbers.

const ENTRIES: usize = 4097;
const QUARTER: usize = 1024;

pub static COS_F32: [f32; ENTRIES] = single();
pub static COS_Q15: [i16; ENTRIES] = fixed();

const fn single() -> [f32; ENTRIES] {
    let mut table = [0.0; ENTRIES];
    let mut i = 0;
    while i < ENTRIES {
        table[i] = cosine(i) as f32;
        i += 1;
    }
    table
}

/// floor(32768 x + 0.5), limited.
const fn fixed() -> [i16; ENTRIES] {
    let mut table = [0; ENTRIES];
    let mut i = 0;
    while i < ENTRIES {
        let x = cosine(i) * 32768.0 + 0.5;
        let down = if x < x as i32 as f64 { 1 } else { 0 };
        let floor = x as i32 - down;
        table[i] = if floor > 32767 { 32767 } else { floor as i16 };
        i += 1;
    }
    table
}

/// cos(2 pi i / 4096).
const fn cosine(i: usize) -> f64 {
    let k = if i > 2 * QUARTER { 4 * QUARTER - i } else { i };
    if k <= QUARTER {
        in_quarter(k)
    } else {
        -in_quarter(2 * QUARTER - k)
    }
}

/// The cosine's series up to an eighth of a turn, and the sine's of the rest beyond.
const fn in_quarter(k: usize) -> f64 {
    if k <= QUARTER / 2 {
        series(1.0, 0, turned(k))
    } else {
        let x = turned(QUARTER - k);
        series(x, 1, x)
    }
}

const fn turned(k: usize) -> f64 {
    k as f64 / 4096.0 * core::f64::consts::TAU
}

/// The sum of the terms from `first` = x^n / n! on, each with the other sign.
const fn series(first: f64, n: usize, x: f64) -> f64 {
    let (mut term, mut n) = (first, n);
    let mut sum = 0.0;
    while n < 24 {
        sum += term;
        term = -term * x * x / ((n + 1) * (n + 2)) as f64;
        n += 2;
    }
    sum
}
