//! FM stereo multiplex for broadcast engineers, decoded and encoded by the proved core.

mod args;
mod audio;
mod decode;
mod demo;
mod draft;
mod encode;
mod fault;
mod figures;
mod filter;
mod format;
mod help;
mod history;
mod log;
mod plot;
mod rds;
mod receiver;
mod report;
mod say;
mod source;
mod svg;
mod tone;
mod transmitter;
mod verdict;
mod wav;

use std::process::ExitCode;

use fault::{Fault, Outcome};
use say::{Stream, complain, say};

fn main() -> ExitCode {
    match words().and_then(|words| run(&words)) {
        Ok(()) | Err(Fault::PipeClosed) => ExitCode::SUCCESS,
        Err(Fault::Failed(why)) => {
            complain(&why);
            ExitCode::from(1)
        }
        Err(Fault::Usage(why)) => {
            complain(&format!("{why}\nTry: pescrondilu help"));
            ExitCode::from(2)
        }
    }
}

/// The command line. A word that is no text is refused rather than changed.
fn words() -> Outcome<Vec<String>> {
    let word = |word: std::ffi::OsString| {
        word.into_string().map_err(|word| {
            let shown = word.to_string_lossy().into_owned();
            Fault::usage(format!("{shown}: the name is not UTF-8"))
        })
    };
    std::env::args_os().skip(1).map(word).collect()
}

fn run(words: &[String]) -> Outcome<()> {
    let Some((command, rest)) = words.split_first() else {
        return Err(Fault::usage("what shall be done? decode, encode or demo"));
    };
    let options = rest.iter().take_while(|word| *word != "--");
    let asks = options
        .into_iter()
        .any(|word| word == "--help" || word == "-h");
    match (command.as_str(), asks) {
        ("--version" | "-V", _) => say(Stream::Output, VERSION),
        ("--help" | "-h", _) => say(Stream::Output, help::MAIN),
        ("help", false) => help(rest),
        (command, true) if help::of(command).is_some() => help(&words[..1]),
        ("decode", _) => decode::command(rest),
        ("encode", _) => encode::command(rest),
        ("demo", _) => demo::command(rest),
        (other, _) => Err(Fault::usage(format!("unknown command {other}"))),
    }
}

const VERSION: &str = concat!("pescrondilu ", env!("CARGO_PKG_VERSION"), "\n");

fn help(words: &[String]) -> Outcome<()> {
    let command = words.first().map_or("help", String::as_str);
    match help::of(command) {
        Some(text) => say(Stream::Output, text),
        None => Err(Fault::usage(format!("unknown command {command}"))),
    }
}
