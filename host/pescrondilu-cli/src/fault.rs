//! Why a command ends early, and the exit code for it.

use std::fmt::Display;
use std::io;

#[derive(Debug)]
pub enum Fault {
    /// Called wrongly.
    Usage(String),
    /// Called rightly, but it cannot be done.
    Failed(String),
    /// Whoever read our standard output has gone. That is no failure: `| head` does it.
    PipeClosed,
}

pub type Outcome<T> = Result<T, Fault>;

impl Fault {
    pub fn usage(why: impl Display) -> Fault {
        Fault::Usage(why.to_string())
    }

    pub fn failed(name: &str, why: impl Display) -> Fault {
        Fault::Failed(format!("{name}: {why}"))
    }

    /// An error of the file `name`.
    pub fn io(name: &str, why: io::Error) -> Fault {
        match why.kind() {
            io::ErrorKind::BrokenPipe => Fault::PipeClosed,
            io::ErrorKind::NotFound => Fault::failed(name, "there is no such file or folder"),
            io::ErrorKind::PermissionDenied => Fault::failed(name, "permission denied"),
            _ => Fault::failed(name, why),
        }
    }
}

#[cfg(test)]
impl Fault {
    /// The words, for tests.
    pub fn text(&self) -> &str {
        match self {
            Fault::Usage(text) | Fault::Failed(text) => text,
            Fault::PipeClosed => "",
        }
    }
}
