//! Finds the original files and writes the module lines that include them.
//!
//! SDRK_SRC is the folder that holds `crates/`. There is no default: the original is not part of
//! this repository.

use std::env;
use std::fs;
use std::path::{Path, PathBuf};

/// The original files of each stand-in module: (file with the lines, module and file of each line).
const FILES: &[(&str, &[(&str, &str)])] = &[
    ("root.rs", &[("num", "num.rs"), ("types", "types.rs")]),
    (
        "kernels.rs",
        &[("mix", "kernels/mix.rs"), ("stereo", "kernels/stereo.rs")],
    ),
    ("reference.rs", &[("stereo", "reference/stereo.rs")]),
    (
        "fallback.rs",
        &[
            ("mix", "fallback/mix.rs"),
            ("modulate", "fallback/modulate.rs"),
            ("stereo", "fallback/stereo.rs"),
        ],
    ),
];

fn main() {
    println!("cargo:rerun-if-changed=build.rs");
    println!("cargo:rerun-if-env-changed=SDRK_SRC");
    let Ok(given) = env::var("SDRK_SRC") else {
        eprintln!("SDRK_SRC is not set: give the folder of the original Rust (it holds crates/)");
        std::process::exit(1);
    };
    let root = original(&given);
    let out = PathBuf::from(env::var("OUT_DIR").expect("cargo sets OUT_DIR"));
    for (name, modules) in FILES {
        let lines: String = modules.iter().map(|m| module(&root, m)).collect();
        fs::write(out.join(name), lines).expect("OUT_DIR can be written");
    }
}

/// The folder of the original's core sources, as an absolute path: `#[path]` in an included file
/// is relative to that file.
fn original(given: &str) -> PathBuf {
    let root = Path::new(given).join("crates/core/sdrk-core/src");
    match root.canonicalize() {
        Ok(path) => path,
        Err(e) => {
            eprintln!("SDRK_SRC: {}: {e}", root.display());
            std::process::exit(1);
        }
    }
}

fn module(root: &Path, (name, file): &(&str, &str)) -> String {
    let path = root.join(file);
    if !path.is_file() {
        eprintln!("SDRK_SRC: no file {}", path.display());
        std::process::exit(1);
    }
    println!("cargo:rerun-if-changed={}", path.display());
    let path = if *file == HAND {
        with_hand(&path)
    } else {
        path
    };
    format!("#[path = {path:?}]\n#[rustfmt::skip]\npub mod {name};\n")
}

/// The file whose record's fields are private to it.
const HAND: &str = "kernels/stereo.rs";

/// A copy of that file with one line after it, which names src/kernels/hand.rs as a module inside
/// it, so that a record can be filled in by hand. Nothing above the line changes.
fn with_hand(path: &Path) -> PathBuf {
    let here = PathBuf::from(env::var("CARGO_MANIFEST_DIR").expect("cargo sets it"));
    let out = PathBuf::from(env::var("OUT_DIR").expect("cargo sets OUT_DIR"));
    let hand = here.join("src/kernels/hand.rs");
    println!("cargo:rerun-if-changed={}", hand.display());
    let text = fs::read_to_string(path).expect("the file is there");
    let copy = out.join("stereo_with_hand.rs");
    fs::write(
        &copy,
        format!("{text}\n#[path = {hand:?}]\npub mod hand;\n"),
    )
    .expect("OUT_DIR can be written");
    copy
}
