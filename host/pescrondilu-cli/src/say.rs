//! Words to the two standard streams. `println!` panics where the reader has gone; these do not.

use std::io::{self, IsTerminal, Write};
use std::time::{Duration, Instant};

use crate::fault::{Fault, Outcome};

/// Where the report goes: not among the audio.
#[derive(Clone, Copy, Debug, PartialEq, Eq)]
pub enum Stream {
    Output,
    Error,
}

pub fn say(stream: Stream, text: &str) -> Outcome<()> {
    let written = match stream {
        Stream::Output => {
            let mut out = io::stdout().lock();
            out.write_all(text.as_bytes()).and_then(|()| out.flush())
        }
        Stream::Error => io::stderr().lock().write_all(text.as_bytes()),
    };
    written.map_err(|why| Fault::io("standard output", why))
}

/// To standard error, where nobody may be left to read it.
pub fn complain(text: &str) {
    let _ = say(Stream::Error, &format!("pescrondilu: {text}\n"));
}

/// A line on the terminal that is written over, five times a second.
pub struct Progress {
    what: &'static str,
    total: Option<u64>,
    rate: f64,
    began: Instant,
    said: Option<Instant>,
    on: bool,
}

impl Progress {
    pub fn new(what: &'static str, total: Option<u64>, rate: f64) -> Progress {
        let on = io::stderr().is_terminal();
        Progress {
            what,
            total,
            rate,
            began: Instant::now(),
            said: None,
            on,
        }
    }

    pub fn at(&mut self, samples: u64) {
        let fresh = self.said.unwrap_or(self.began).elapsed() < Duration::from_millis(200);
        if self.on && !fresh {
            self.said = Some(Instant::now());
            let text = self.line(samples, self.began.elapsed().as_secs_f64());
            let _ = say(Stream::Error, &format!("\r{text:<76}"));
        }
    }

    fn line(&self, samples: u64, spent: f64) -> String {
        let seconds = samples as f64 / self.rate;
        let speed = seconds / spent.max(1e-9);
        let part = match self.total {
            Some(total) if total >= samples && total > 0 => {
                let percent = 100.0 * samples as f64 / total as f64;
                format!("{percent:.0} % of {:.0} s", total as f64 / self.rate)
            }
            _ => format!("{seconds:.0} s"),
        };
        format!(
            "{}: {part}, {speed:.0} times as fast as it plays",
            self.what
        )
    }
}

impl Drop for Progress {
    fn drop(&mut self) {
        if self.said.is_some() {
            let _ = say(Stream::Error, &format!("\r{:76}\r", ""));
        }
    }
}

#[cfg(test)]
mod tests {
    use super::*;

    #[test]
    fn progress_says_how_much_of_how_much() {
        let line = |total, samples| Progress::new("decoding", total, 100.0).line(samples, 0.5);
        let fast = "times as fast as it plays";
        assert_eq!(
            line(Some(1_000), 250),
            format!("decoding: 25 % of 10 s, 5 {fast}")
        );
        assert_eq!(line(None, 250), format!("decoding: 2 s, 5 {fast}"));
        assert_eq!(line(Some(0), 250), format!("decoding: 2 s, 5 {fast}"));
    }
}
