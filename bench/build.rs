//! Where the variable BEFORE names a folder with an earlier libpescrondilu.a, its fast blocks are
//! linked beside ours under other names, so that one run times both.

use std::env;
use std::path::{Path, PathBuf};
use std::process::Command;

/// The earlier blocks' names, and what they are called here.
const NAMES: [(&str, &str); 2] = [
    ("pescrondilu_f32_block", "before_f32_block"),
    ("pescrondilu_q15_block", "before_q15_block"),
];

fn run(command: &mut Command) {
    let done = command
        .status()
        .unwrap_or_else(|why| panic!("{command:?}: {why}"));
    assert!(done.success(), "{command:?}: {done}");
}

/// The objects that may have the decoders' names: an earlier library has both formats in the first.
const OBJECTS: [&str; 2] = ["c_decoder.o", "c_decoder_q15.o"];

/// What the archive lists.
fn listed(library: &Path) -> String {
    let list = Command::new("ar").arg("t").arg(library).output();
    let list = list.unwrap_or_else(|why| panic!("ar t: {why}"));
    String::from_utf8(list.stdout).expect("names of objects")
}

/// The objects with the decoders' names, all others hidden, as an archive.
fn renamed(library: &Path, out: &Path) {
    let listed = listed(library);
    let archive = out.join("libbefore.a");
    let mut join = Command::new("ar");
    join.arg("rcsD").arg(archive);
    for object in OBJECTS {
        if !listed.lines().any(|name| name == object) {
            continue;
        }
        run(Command::new("ar").current_dir(out).arg("x").arg(library).arg(object));
        let mut copy = Command::new("objcopy");
        for (name, here) in NAMES {
            copy.arg("--redefine-sym").arg(format!("{name}={here}"));
            copy.arg(format!("--keep-global-symbol={here}"));
        }
        run(copy.arg(out.join(object)));
        join.arg(out.join(object));
    }
    run(&mut join);
}

fn main() {
    println!("cargo:rerun-if-changed=build.rs");
    println!("cargo:rerun-if-env-changed=BEFORE");
    println!("cargo:rustc-check-cfg=cfg(before)");
    let Ok(folder) = env::var("BEFORE") else {
        return;
    };
    let library = Path::new(&folder).join("libpescrondilu.a");
    let library = library
        .canonicalize()
        .unwrap_or_else(|why| panic!("{}: {why}", library.display()));
    println!("cargo:rerun-if-changed={}", library.display());
    let out = PathBuf::from(env::var("OUT_DIR").expect("cargo sets it"));
    renamed(&library, &out);
    println!("cargo:rustc-link-search=native={}", out.display());
    println!("cargo:rustc-link-lib=static=before");
    println!("cargo:rustc-cfg=before");
}
