//! Compares our static libraries with the original, with std and, where the original has nothing,
//! with a model, input by input.
//!
//!     compare               all that follows but `every`
//!     compare numbers [N]   for each number helper the boundaries, N random inputs and, of a
//!                           float, N NaNs; N is 4000000 where it is not given
//!     compare stereo [N]    lookup, correction, oscillator, matrix, encoders and verdict, and N
//!                           sessions of each record (20000)
//!     compare decoder [N]   the decoder: constructions, N sessions of each kind (20000), with the
//!                           count of wide corrections, and the scan of the pilot
//!     compare rds [N]       every block of 26 bits, and N sessions of each kind of the group
//!                           former (200000)
//!     compare summary [N]   the summary beside the pairs: N sessions of each kind (100000)
//!     compare rack [N]      a round of a rack of decoders: N sessions of rounds (150000)
//!     compare every         every input of each function whose arguments have 32 bits in all
//!     compare every-stereo  every f32 of the corrections, of the scan and of the verdict, every
//!                           pair of the Q15 matrix

mod decoder;
mod encoder;
mod numbers;
mod part;
mod rack;
mod rds;
mod record;
mod room;
mod scan;
mod sessions;
mod stereo;
mod summary;
mod verdict;
mod wide;

use numbers_oracle::edges::edges;
use numbers_oracle::random::Random;
use numbers_oracle::{FUNCTIONS, Function, Kind};

/// Differences of one function that are printed; the others are counted.
const SHOWN: u64 = 5;

struct Comparison {
    function: &'static Function,
    ours: fn(u64, u64) -> u64,
    inputs: u64,
    differences: u64,
}

impl Comparison {
    fn new(function: &'static Function) -> Self {
        let Some(ours) = numbers::function(function.name) else {
            eprintln!("{}: not in the static library", function.name);
            std::process::exit(1);
        };
        Comparison {
            function,
            ours,
            inputs: 0,
            differences: 0,
        }
    }

    fn compare(&mut self, (a, b): (u64, u64)) {
        self.inputs += 1;
        let expected = (self.function.answer)(a, b);
        let got = (self.ours)(a, b);
        if got == expected {
            return;
        }
        self.differences += 1;
        if self.differences <= SHOWN {
            let name = self.function.name;
            println!("{name:16} {a:016x} {b:016x} {expected:016x}, ours {got:016x}");
        }
    }

    /// Prints the counts and answers whether there was no difference.
    fn report(&self) -> bool {
        println!(
            "{:16} {} inputs, {} differences",
            self.function.name, self.inputs, self.differences
        );
        self.differences == 0
    }
}

fn is_float(kind: Kind) -> bool {
    matches!(kind, Kind::F32 | Kind::F64)
}

fn nan(random: &mut Random, kind: Kind) -> u64 {
    match kind {
        Kind::F32 => random.nan_f32(),
        _ => random.nan_f64(),
    }
}

/// Inputs with a NaN of chosen bits in the first argument, the second or both.
fn compare_nans(c: &mut Comparison, random: &mut Random, count: u64) {
    let f = c.function;
    for k in 0..count {
        let (mut a, mut b) = random.input(f);
        if is_float(f.a) && (k % 3 != 1 || !is_float(f.b)) {
            a = nan(random, f.a);
        }
        if is_float(f.b) && k % 3 != 0 {
            b = nan(random, f.b);
        }
        c.compare((a, b));
    }
}

fn compare_some(function: &'static Function, count: u64) -> bool {
    let mut random = Random::new(2);
    let mut c = Comparison::new(function);
    edges(function).into_iter().for_each(|case| c.compare(case));
    (0..count).for_each(|_| c.compare(random.input(function)));
    if is_float(function.a) {
        compare_nans(&mut c, &mut random, count);
    }
    c.report()
}

fn compare_every(function: &'static Function) -> bool {
    let signed = |w: u32| w as u16 as i16 as i64 as u64;
    let mut c = Comparison::new(function);
    match (function.a, function.b) {
        (Kind::F32 | Kind::U32, Kind::Nothing) => {
            (0..=u32::MAX).for_each(|w| c.compare((w as u64, 0)))
        }
        (Kind::I16, Kind::I16) => {
            (0..=u32::MAX).for_each(|w| c.compare((signed(w), signed(w >> 16))))
        }
        _ => return true,
    }
    c.report()
}

/// Whether no number helper differed.
fn helpers(compare: impl Fn(&'static Function) -> bool) -> bool {
    FUNCTIONS.iter().fold(true, |equal, f| equal & compare(f))
}

fn usage() -> ! {
    eprintln!(
        "usage: compare [numbers [N] | stereo [N] | decoder [N] | rds [N] | summary [N] | \
         rack [N] | every | every-stereo]"
    );
    std::process::exit(2);
}

fn main() {
    let mut arguments = std::env::args().skip(1);
    let (what, count) = (arguments.next(), arguments.next());
    let count = match count.map(|n| n.parse::<u64>()) {
        None => None,
        Some(Ok(n)) => Some(n),
        Some(Err(_)) => usage(),
    };
    let some = |f| compare_some(f, count.unwrap_or(4_000_000));
    let stereo = || stereo::compare(count.unwrap_or(20_000));
    let decoder = || {
        let count = count.unwrap_or(20_000);
        decoder::compare(count) & scan::compare(200 * count)
    };
    let rds = || rds::compare(count.unwrap_or(200_000));
    let summary = || summary::compare(count.unwrap_or(100_000));
    let rack = || rack::compare(count.unwrap_or(150_000));
    let equal = match what.as_deref() {
        None => helpers(some) & stereo() & decoder() & rds() & summary() & rack(),
        Some("numbers") => helpers(some),
        Some("stereo") => stereo(),
        Some("decoder") => decoder(),
        Some("rds") => rds(),
        Some("summary") => summary(),
        Some("rack") => rack(),
        Some("every") => helpers(compare_every),
        Some("every-stereo") => {
            stereo::every_correction()
                & stereo::every_matrix_q15()
                & scan::every()
                & verdict::every()
        }
        Some(_) => usage(),
    };
    if !equal {
        std::process::exit(1);
    }
}
