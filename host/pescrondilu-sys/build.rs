//! Links libpescrondilu.a. Where the variable PESCRONDILU_LIB_DIR names a folder, the archive is
//! taken from there; otherwise host/library proves and builds it, which takes some minutes the
//! first time. Cargo shows nothing of that until it ends, so run host/library by itself first.

use std::env;
use std::path::PathBuf;
use std::process::{Command, exit};

fn fail(why: &str) -> ! {
    eprintln!("pescrondilu-sys: {why}");
    exit(1)
}

/// Runs host/library, which answers at once where nothing changed.
fn proved() -> PathBuf {
    let here = PathBuf::from(env::var("CARGO_MANIFEST_DIR").expect("cargo sets it"));
    let root = here.join("../..");
    for part in ["crates", "crates.txt", "host/library"] {
        println!("cargo:rerun-if-changed={}", root.join(part).display());
    }
    let script = root.join("host/library");
    match Command::new("bash").arg(&script).output() {
        Ok(said) if said.status.success() => root.join("target/staticlib"),
        Ok(said) => fail(&format!(
            "host/library failed ({})\n{}{}",
            said.status,
            String::from_utf8_lossy(&said.stdout),
            String::from_utf8_lossy(&said.stderr)
        )),
        Err(why) => fail(&format!("{} cannot be run: {why}", script.display())),
    }
}

fn main() {
    println!("cargo:rerun-if-env-changed=PESCRONDILU_LIB_DIR");
    let of = |name: &str| env::var(name).unwrap_or_default();
    if of("CARGO_CFG_TARGET_ARCH") != "x86_64" || of("CARGO_CFG_TARGET_OS") != "linux" {
        fail("the Rattle kit compiles for x86-64 Linux only");
    }
    let folder = env::var("PESCRONDILU_LIB_DIR").map_or_else(|_| proved(), PathBuf::from);
    let library = folder.join("libpescrondilu.a");
    if !library.is_file() {
        fail(&format!("{} is missing", library.display()));
    }
    println!("cargo:rerun-if-changed={}", library.display());
    println!("cargo:rustc-link-search=native={}", folder.display());
    println!("cargo:rustc-link-lib=static=pescrondilu");
}
