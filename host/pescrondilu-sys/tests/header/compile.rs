//! The header and the layouts compile as C and as C++, and the example runs.

use crate::sources::header;
use crate::support::{cc, cxx, library_folder, program, root, run, scratch, strict, tool};
use std::fs;
use std::process::Command;

fn compiles(compiler: &str, standard: &str, language: &str, file: &str) {
    run(strict(compiler, standard)
        .args(["-fsyntax-only", "-x", language])
        .arg(root().join(file)));
}

#[test]
fn header_alone_as_c() {
    if let Some(cc) = cc("the header as C") {
        for standard in ["c99", "c11", "c17"] {
            compiles(&cc, standard, "c", "include/pescrondilu.h");
        }
    }
}

#[test]
fn header_alone_as_cxx() {
    if let Some(cxx) = cxx("the header as C++") {
        for standard in ["c++11", "c++17", "c++20"] {
            compiles(&cxx, standard, "c++", "include/pescrondilu.h");
        }
    }
}

#[test]
fn layouts_as_c() {
    if let Some(cc) = cc("the layouts as C") {
        compiles(&cc, "c11", "c", "host/c/layout.c");
    }
}

#[test]
fn layouts_as_cxx() {
    if let Some(cxx) = cxx("the layouts as C++") {
        compiles(&cxx, "c++17", "c++", "host/c/layout.c");
    }
}

/// A program in C++ that takes the address of every function. It would not link, were one of them
/// declared outside of extern "C".
#[test]
fn links_from_cxx() {
    let Some(cxx) = cxx("a C++ program") else {
        return;
    };
    let functions = header().functions;
    let address = |name: &String| format!("    reinterpret_cast<const void *>(&{name}),\n");
    let addresses: String = functions.keys().map(address).collect();
    let text = format!(
        "#include \"pescrondilu.h\"\n#include <cstdio>\n\
         static const void *const all[] = {{\n{addresses}}};\n\
         int main() {{ std::printf(\"%zu %d\\n\", sizeof all / sizeof *all, !all[0]); }}\n"
    );
    let source = scratch("links.cpp");
    fs::write(&source, text).expect("the folder can be written");
    let made = scratch("links");
    run(strict(&cxx, "c++17")
        .arg(&source)
        .arg("-o")
        .arg(&made)
        .arg("-L")
        .arg(library_folder())
        .arg("-lpescrondilu"));
    let expected = format!("{} 0\n", functions.len());
    assert_eq!(run(&mut Command::new(made)), expected);
}

#[test]
fn receiver_runs() {
    let Some(cc) = cc("the receiver in C") else {
        return;
    };
    let source = root().join("host/c/receiver.c");
    let made = program(&cc, &source, &["-g"], "receiver");
    let said = run(&mut Command::new(&made));
    for line in [
        "on air: 1 with the pilot at 0.09, 0 at 0.075, 0 at 18.5 kHz",
        "f32 after  10 ms: level 0.0082, lamp off",
        "f32 at the end:   level 0.0450, lamp on",
        "Q15 at the end:   level 0.0450, lamp on",
        "summary: 25 periods of 20 ms, 1 change, in period 2",
        "rack: 4 rounds, 1920, 700 and 0 samples taken",
        "an allowance of 2 for 3: code 122",
        "slices: 1 round, 1920, 700 and 0 samples taken",
        "pilot one short: code 110, expected 1920, got 1919",
        "record and outputs: as they were",
        "a rate of 0: code 101",
        "a large pilot: 960 corrections took the wide way",
        "after a reset: 0",
        "a switch of 2: comes back as 1",
        "disabled: difference 0, lamp on",
        "all is as expected",
    ] {
        assert!(
            said.lines().any(|l| l == line),
            "no line {line:?} in\n{said}"
        );
    }

    if let Some(valgrind) = tool("VALGRIND", "valgrind", "the receiver under valgrind") {
        let watched = run(Command::new(valgrind)
            .args(["--quiet", "--error-exitcode=9", "--leak-check=full"])
            .arg(&made));
        assert_eq!(watched, said);
    }
}
