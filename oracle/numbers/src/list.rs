//! Writes the fixed list of answers to the path that is given.

use numbers_oracle::random::Random;
use numbers_oracle::{FUNCTIONS, Function, edges::edges};
use std::fmt::Write;

/// Lines of each function: its boundaries, and random inputs up to this number.
fn lines(f: &Function) -> usize {
    match f.name {
        "f64_to_f32" => 5500,
        "round_shift" | "floor_f64" | "half_even_f64" => 4500,
        "i64_to_f64" | "floor_scaled" => 4000,
        "f64_to_i64" | "q15_from_f64" | "q14_from_f64" => 3500,
        "q15_mul" | "flush_denormal" | "is_finite_f64" => 2500,
        "f32_to_f64" => 2000,
        "is_finite_f32" => 1000,
        "phase_twice" | "phase_thrice" => 500,
        _ => 1500,
    }
}

fn write_line(text: &mut String, f: &Function, (a, b): (u64, u64)) {
    let answer = (f.answer)(a, b);
    writeln!(text, "{:16} {a:016x} {b:016x} {answer:016x}", f.name).expect("a string grows");
}

fn main() {
    let Some(path) = std::env::args_os().nth(1) else {
        eprintln!("usage: list PATH");
        std::process::exit(2);
    };
    let mut random = Random::new(1);
    let mut text = String::new();
    for f in FUNCTIONS {
        let known = edges(f);
        let left = lines(f).saturating_sub(known.len());
        println!("{:16} {} boundaries, {left} random", f.name, known.len());
        known
            .iter()
            .for_each(|case| write_line(&mut text, f, *case));
        (0..left).for_each(|_| write_line(&mut text, f, random.input(f)));
    }
    if let Err(e) = std::fs::write(&path, &text) {
        eprintln!("{}: {e}", path.display());
        std::process::exit(1);
    }
    println!("{} lines, {} bytes", text.lines().count(), text.len());
}
