//! The two ways of docs/ADOPT.md, tried: `Proved` inside sdrk-core (host/adopt/proved.rs) and the
//! crate `pescrondilu` by itself. `adopt compare` runs both beside the original's `Fallback` and
//! counts the differences; `adopt time` says what a call costs.

mod compare;
mod format;
mod time;

/// The stage by sdrk.
mod before {
    use sdrk_core as sdr;
    include!("stage.rs");
}

/// The same text by this crate.
mod after {
    use pescrondilu as sdr;
    include!("stage.rs");
}

use std::process::ExitCode;

use sdrk_core::tables::{COS_F32, COS_Q15};

/// The crate's tables and those between which the original runs are the same numbers.
fn same_tables() {
    assert_eq!(pescrondilu::tables::cos_f32(), &COS_F32[..]);
    assert_eq!(pescrondilu::tables::cos_q15(), &COS_Q15[..]);
}

fn main() -> ExitCode {
    same_tables();
    let arguments: Vec<String> = std::env::args().skip(1).collect();
    match arguments.first().map(String::as_str) {
        Some("compare") => compare::run(),
        Some("time") => time::run(),
        _ => {
            eprintln!("usage: adopt compare | adopt time");
            ExitCode::from(2)
        }
    }
}
