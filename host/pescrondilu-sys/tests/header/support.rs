//! Paths, compilers, and programs that are run.

use std::env;
use std::fs;
use std::io::{Write, stderr};
use std::path::{Path, PathBuf};
use std::process::{Command, Output};

/// The repository's folder.
pub fn root() -> PathBuf {
    Path::new(env!("CARGO_MANIFEST_DIR")).join("../..")
}

pub fn read(path: &Path) -> String {
    fs::read_to_string(path).unwrap_or_else(|why| panic!("{}: {why}", path.display()))
}

/// The folder of the archive that cargo linked, by the rule of build.rs.
pub fn library_folder() -> PathBuf {
    env::var_os("PESCRONDILU_LIB_DIR")
        .map_or_else(|| root().join("target/staticlib"), PathBuf::from)
}

/// A file for what a test makes.
pub fn scratch(name: &str) -> PathBuf {
    Path::new(env!("CARGO_TARGET_TMPDIR")).join(name)
}

/// The program that the variable names, or else `usual`. Where it is not found, says on stderr that
/// `what` is skipped. (Not by eprintln, which cargo hides where the test passes.)
pub fn tool(variable: &str, usual: &str, what: &str) -> Option<String> {
    let name = env::var(variable).unwrap_or_else(|_| usual.to_string());
    match Command::new(&name).arg("--version").output() {
        Ok(_) => Some(name),
        Err(why) => {
            writeln!(stderr(), "skipped: {what}: {name}: {why}").expect("stderr takes it");
            None
        }
    }
}

pub fn cc(what: &str) -> Option<String> {
    tool("CC", "cc", what)
}

pub fn cxx(what: &str) -> Option<String> {
    tool("CXX", "c++", what)
}

/// Runs a command that has to succeed, and gives what it wrote.
pub fn run(command: &mut Command) -> String {
    let Output {
        status,
        stdout,
        stderr,
    } = command
        .output()
        .unwrap_or_else(|why| panic!("{command:?}: {why}"));
    let stdout = String::from_utf8_lossy(&stdout).into_owned();
    assert!(
        status.success(),
        "{command:?}: {status}\n{stdout}{}",
        String::from_utf8_lossy(&stderr)
    );
    stdout
}

/// A compiler with every warning an error, and the header's folder.
pub fn strict(compiler: &str, standard: &str) -> Command {
    let mut command = Command::new(compiler);
    command
        .arg(format!("-std={standard}"))
        .args(["-Wall", "-Wextra", "-Werror", "-pedantic", "-I"])
        .arg(root().join("include"));
    command
}

/// Compiles a C program, links it with the archive, and gives the program's file.
pub fn program(compiler: &str, source: &Path, options: &[&str], name: &str) -> PathBuf {
    let made = scratch(name);
    run(strict(compiler, "c99")
        .args(options)
        .arg(source)
        .arg("-o")
        .arg(&made)
        .arg("-L")
        .arg(library_folder())
        .args(["-lpescrondilu", "-lm"]));
    made
}
