//! What `decode` is asked to do.

use crate::args::Args;
use crate::draft::same_file;
use crate::fault::{Fault, Outcome};
use crate::wav::encoding::Encoding;
use crate::wav::write::Samples;

/// What the command line asks for.
#[derive(Clone, Debug)]
pub struct Order {
    pub input: String,
    pub output: Option<String>,
    pub raw: Option<Encoding>,
    pub rate: Option<f64>,
    pub channel: Option<usize>,
    pub core: Core,
    pub samples: Samples,
    /// In seconds.
    pub deemphasis: Option<f64>,
    pub natural: f64,
    pub level: f64,
    pub gain: f64,
    /// Of log and plot, in seconds.
    pub period: f64,
    pub log: Option<String>,
    pub plot: Option<String>,
    pub title: Option<String>,
}

#[derive(Clone, Copy, Debug, PartialEq, Eq)]
pub enum Core {
    F32,
    Q15,
}

const OPTIONS: [&str; 15] = [
    "-o",
    "--output",
    "--raw",
    "--rate",
    "--channel",
    "--format",
    "--samples",
    "--deemphasis",
    "--natural",
    "--level",
    "--gain",
    "--period",
    "--log",
    "--plot",
    "--title",
];

impl Order {
    pub fn new(input: &str) -> Order {
        Order {
            input: input.to_string(),
            output: None,
            raw: None,
            rate: None,
            channel: None,
            core: Core::F32,
            samples: Samples::F32,
            deemphasis: Some(50e-6),
            natural: 20.0,
            level: 0.1,
            gain: 1.0,
            period: 0.1,
            log: None,
            plot: None,
            title: None,
        }
    }

    pub fn parse(words: &[String]) -> Outcome<Order> {
        let args = Args::parse(&OPTIONS, words)?;
        let [input] = args.words() else {
            return Err(Fault::usage(
                "decode wants one capture, a file or - for standard input",
            ));
        };
        let text = |name: &str| args.text(name).map(String::from);
        let raw = || args.choice("--raw", &[("f32", Encoding::F32), ("s16", Encoding::S16)]);
        let deemphasis = [("50", Some(50e-6)), ("75", Some(75e-6)), ("none", None)];
        let order = Order {
            output: text("-o").or_else(|| text("--output")),
            raw: args.text("--raw").map(|_| raw()).transpose()?,
            rate: args.number("--rate")?,
            channel: channel(&args)?,
            core: args.choice("--format", &[("f32", Core::F32), ("q15", Core::Q15)])?,
            samples: args.choice("--samples", &[("f32", Samples::F32), ("s16", Samples::S16)])?,
            deemphasis: args.choice("--deemphasis", &deemphasis)?,
            natural: args.within("--natural", 20.0, 0.01..=190.0)?,
            level: args.within("--level", 0.1, 0.0001..=1.0)?,
            gain: args.number("--gain")?.unwrap_or(1.0),
            period: args.within("--period", 100.0, 0.01..=3_600_000.0)? / 1_000.0,
            log: text("--log"),
            plot: text("--plot"),
            title: text("--title"),
            ..Order::new(input)
        };
        order.check()?;
        Ok(order)
    }

    fn check(&self) -> Outcome<()> {
        if self.raw.is_some() && self.rate.is_none() {
            return Err(Fault::usage("--raw wants --rate HZ"));
        }
        let files = [&self.log, &self.plot];
        if files.into_iter().flatten().any(|name| name == "-") {
            return Err(Fault::usage(
                "only the audio goes to standard output (-o -)",
            ));
        }
        let outputs = [&self.output, &self.log, &self.plot];
        let names: Vec<&String> = outputs.into_iter().flatten().collect();
        for (at, name) in names.iter().enumerate() {
            if names[..at].contains(name) {
                return Err(Fault::usage(format!("{name} is named for two outputs")));
            }
            if same_file(name, &self.input) {
                let why = "is the capture itself and would be written over";
                return Err(Fault::usage(format!("{name} {why}")));
            }
        }
        Ok(())
    }
}

/// The channel, counted from 1.
fn channel(args: &Args) -> Outcome<Option<usize>> {
    match args.number("--channel")? {
        None => Ok(None),
        Some(n) if (1.0..=65_535.0).contains(&n) && n.fract() == 0.0 => Ok(Some(n as usize)),
        Some(n) => Err(Fault::usage(format!(
            "--channel counts from 1, so it cannot be {n}"
        ))),
    }
}

#[cfg(test)]
mod tests {
    use super::*;

    fn parse(line: &str) -> Outcome<Order> {
        let words: Vec<String> = line.split_whitespace().map(String::from).collect();
        Order::parse(&words)
    }

    #[test]
    fn the_options_are_taken() {
        let line = "x.raw -o a.wav --raw s16 --rate 250000 --format q15 --samples s16 \
                    --deemphasis none --natural 5 --level 0.04 --gain 2 --period 20 --log l.csv \
                    --plot p.svg --channel 2";
        let order = parse(line).unwrap();
        assert_eq!(
            (order.raw, order.rate),
            (Some(Encoding::S16), Some(250_000.0))
        );
        assert_eq!((order.core, order.samples), (Core::Q15, Samples::S16));
        assert_eq!(
            (order.deemphasis, order.natural, order.level),
            (None, 5.0, 0.04)
        );
        assert_eq!(
            (order.gain, order.period, order.channel),
            (2.0, 0.02, Some(2))
        );
        assert_eq!(order.log.as_deref(), Some("l.csv"));
    }

    #[test]
    fn wrong_orders_are_refused_before_any_work() {
        for (line, words) in [
            ("", "wants one capture"),
            ("a b", "wants one capture"),
            ("a --raw f32", "--raw wants --rate"),
            ("a --raw f64 --rate 1", "none of f32, s16"),
            ("a --deemphasis 60", "none of 50, 75, none"),
            ("a --format f64", "none of f32, q15"),
            ("a --natural 0", "--natural wants"),
            ("a --level 1.1", "--level wants"),
            ("a --period -1", "--period wants"),
            ("a --channel 0", "counts from 1"),
            ("a --channel 1.5", "counts from 1"),
            ("a --log -", "only the audio"),
            ("a -o b --log b", "named for two outputs"),
        ] {
            let fault = parse(line).unwrap_err();
            assert!(matches!(fault, Fault::Usage(_)), "{line}");
            assert!(fault.text().contains(words), "{line}: {}", fault.text());
        }
    }
}
