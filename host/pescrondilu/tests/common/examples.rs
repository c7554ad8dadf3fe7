//! The original's own examples as tests.
//!
//! They are taken from the original's sources when a test runs, from the folder that SDRK_SRC names
//! (the one with `crates/` in it), and become the tests of a small cargo project under the target
//! folder. No line of them stands in this repository.

use std::env;
use std::fs;
use std::io::{self, Write};
use std::path::{Path, PathBuf};
use std::process::{Command, Output};

/// What is run, and against what.
pub struct Suite {
    /// The original's files.
    pub files: &'static [&'static str],
    /// The examples that are left out, by the name that each is about, in their order.
    pub left_out: &'static [&'static str],
    /// The crate that stands in for `sdrk_core`: its name in sources, in manifests, its folder.
    pub krate: (&'static str, &'static str, &'static str),
    /// The backend that stands in for `Fallback`.
    pub backend: &'static str,
    /// A folder that may be written.
    pub folder: PathBuf,
}

struct Example {
    /// A name for its test: the file and the line.
    name: String,
    lines: Vec<String>,
}

impl Suite {
    /// Runs the examples, or says why not. All that are not left out have to pass.
    pub fn run(&self) {
        let Some(root) = env::var_os("SDRK_SRC") else {
            say("skipped: SDRK_SRC does not name the folder of the original's sources");
            return;
        };
        let found = self.found(Path::new(&root));
        let (out, taken): (Vec<_>, Vec<_>) = found.iter().partition(|e| self.name_of(e).is_some());
        let out: Vec<_> = out.iter().filter_map(|e| self.name_of(e)).collect();
        // Each name stands for one example, so that none hides another.
        assert_eq!(out, self.left_out);

        let tests: String = taken.iter().map(|e| self.test(e)).collect();
        self.write_project(&tests);
        let answer = self.run_project();
        let said = String::from_utf8_lossy(&answer.stdout);
        let why = String::from_utf8_lossy(&answer.stderr);
        assert!(answer.status.success(), "{said}{why}");
        let (n, passed) = (found.len(), taken.len());
        let all = format!("test result: ok. {passed} passed; 0 failed; 0 ignored");
        assert!(said.contains(&all), "{said}{why}");
        let out = out.join(", ");
        say(&format!("{passed} of {n} examples passed; left out: {out}"));
    }

    fn found(&self, root: &Path) -> Vec<Example> {
        let read = |file: &&str| {
            let path = root.join("crates/core/sdrk-core/src").join(file);
            match fs::read_to_string(&path) {
                Ok(source) => examples(file, &source),
                Err(why) => panic!("SDRK_SRC: {}: {why}", path.display()),
            }
        };
        self.files.iter().flat_map(read).collect()
    }

    /// The name by which an example is left out.
    fn name_of(&self, example: &Example) -> Option<&'static str> {
        let about = |name: &&&str| example.lines.iter().any(|line| line.contains(**name));
        self.left_out.iter().find(about).copied()
    }

    /// A test function. Some examples end with a result and some with a statement.
    fn test(&self, Example { name, lines }: &Example) -> String {
        let krate = self.krate.0;
        let body = lines.join("\n").replace("sdrk_core", krate);
        let body = body.replace("Fallback", self.backend);
        let end = if body.contains("Ok::<") { "" } else { "Ok(())" };
        format!("#[test]\nfn {name}() -> {krate}::Result<()> {{\n{body}\n{end}\n}}\n\n")
    }

    fn write_project(&self, tests: &str) {
        let (_, name, path) = self.krate;
        let manifest = format!(
            "[workspace]\n\n[package]\nname = \"original-examples\"\nversion = \"0.1.0\"\n\
             edition = \"2024\"\n\n[dependencies]\n{name} = {{ path = {path:?} }}\n"
        );
        let folder = &self.folder;
        fs::create_dir_all(folder.join("src")).expect("the folder can be written");
        fs::write(folder.join("Cargo.toml"), manifest).expect("a file can be written");
        fs::write(folder.join("src/lib.rs"), tests).expect("a file can be written");
    }

    /// Runs the project's tests. PESCRONDILU_LIB_DIR and SDRK_SRC go on with the environment.
    fn run_project(&self) -> Output {
        Command::new(env::var_os("CARGO").unwrap_or("cargo".into()))
            .args(["test", "--offline", "--lib", "--target-dir"])
            .arg(self.folder.join("target"))
            .current_dir(&self.folder)
            .output()
            .expect("cargo can be run")
    }
}

/// The text of a line of a doc comment.
fn doc(line: &str) -> Option<&str> {
    let text = line.trim_start();
    let text = text.strip_prefix("///").or(text.strip_prefix("//!"))?;
    Some(text.strip_prefix(' ').unwrap_or(text))
}

/// The examples of one file: what stands between two fences. A line that the documentation hides
/// begins with `# `.
fn examples(file: &str, source: &str) -> Vec<Example> {
    let name = file.trim_end_matches(".rs").replace('/', "_");
    let mut found = Vec::new();
    let mut open: Option<Example> = None;
    for (number, line) in source.lines().enumerate() {
        let Some(text) = doc(line) else { continue };
        if text.trim() == "```" {
            match open.take() {
                Some(done) => found.push(done),
                None => {
                    open = Some(Example {
                        name: format!("{name}_{}", number + 1),
                        lines: Vec::new(),
                    });
                }
            }
        } else if let Some(example) = &mut open {
            let text = text.strip_prefix("# ").unwrap_or(text);
            example.lines.push(text.to_string());
        }
    }
    assert!(open.is_none(), "{file}: a fence that does not close");
    found
}

/// A test's own messages are held back while it passes; this one is not.
fn say(message: &str) {
    writeln!(io::stderr(), "original examples: {message}").expect("stderr takes a line");
}
