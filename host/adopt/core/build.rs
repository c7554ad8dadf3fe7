//! Writes the module lines that include the original's files from the folder that SDRK_SRC names.

use std::env;
use std::fs;
use std::path::{Path, PathBuf};
use std::process::exit;

/// The file with the lines; the original's files of its modules.
const FILES: [(&str, &[&str]); 3] = [
    ("root.rs", &["num.rs", "types.rs"]),
    ("kernels.rs", &["kernels/mix.rs", "kernels/stereo.rs"]),
    (
        "fallback.rs",
        &[
            "fallback/mix.rs",
            "fallback/modulate.rs",
            "fallback/stereo.rs",
        ],
    ),
];

fn fail(why: &str) -> ! {
    eprintln!("SDRK_SRC: {why}");
    exit(1)
}

fn module(root: &Path, file: &str) -> String {
    let path = match root.join(file).canonicalize() {
        Ok(path) => path,
        Err(why) => fail(&format!("{}: {why}", root.join(file).display())),
    };
    println!("cargo:rerun-if-changed={}", path.display());
    let name = path.file_stem().expect("a file").to_string_lossy();
    format!("#[path = {path:?}]\n#[rustfmt::skip]\npub mod {name};\n")
}

fn main() {
    println!("cargo:rerun-if-env-changed=SDRK_SRC");
    let Some(given) = env::var_os("SDRK_SRC") else {
        fail("not set: give the folder of the original's sources (it holds crates/)")
    };
    let root = Path::new(&given).join("crates/core/sdrk-core/src");
    let out = PathBuf::from(env::var_os("OUT_DIR").expect("cargo sets it"));
    for (name, files) in FILES {
        let lines: String = files.iter().map(|file| module(&root, file)).collect();
        fs::write(out.join(name), lines).expect("OUT_DIR can be written");
    }
}
