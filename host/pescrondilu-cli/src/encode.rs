//! `pescrondilu encode`.

use crate::args::Args;
use crate::draft::same_file;
use crate::fault::{Fault, Outcome};
use crate::rds::{Groups, Rds};
use crate::receiver::PILOT_HZ;
use crate::say::{Progress, Stream, say};
use crate::source::{self, Source};
use crate::transmitter::{HIGHEST_RATE, Settings, Transmitter};
use crate::verdict::pilot_words;
use crate::wav::write::{Samples, Shape, Writer};

/// What the command line asks for.
#[derive(Debug)]
struct Order {
    inputs: Vec<String>,
    output: String,
    samples: Samples,
    rate: u32,
    main: f32,
    pilot: f32,
    preemphasis: Option<f64>,
    /// The file of groups, and the level.
    rds: Option<(String, f32)>,
}

const OPTIONS: [&str; 9] = [
    "-o",
    "--output",
    "--samples",
    "--rate",
    "--main",
    "--pilot",
    "--preemphasis",
    "--rds",
    "--rds-level",
];
/// The level of RDS if none is named. IEC 62106 has a deviation of 1.0 to 7.5 kHz, which is 0.013
/// to 0.1 of 75 kHz, and recommends 2.0 kHz. This is 2.25 kHz.
const RDS_LEVEL: f64 = 0.03;
/// Audio samples that are read at a time.
const PIECE: usize = 1 << 12;

impl Order {
    fn parse(words: &[String]) -> Outcome<Order> {
        let args = Args::parse(&OPTIONS, words)?;
        let inputs = args.words().to_vec();
        if !(1..=2).contains(&inputs.len()) {
            return Err(Fault::usage(
                "encode wants one stereo file, or a left and a right one",
            ));
        }
        let output = args.text("-o").or(args.text("--output"));
        let output = output
            .ok_or_else(|| Fault::usage("encode wants -o FILE"))?
            .to_string();
        let rds = rds_of(&args)?;
        let mut read = inputs.iter().chain(rds.iter().map(|(name, _)| name));
        if let Some(input) = read.find(|input| same_file(input, &output)) {
            return Err(Fault::usage(format!("{input} would be written over")));
        }
        let rate = args.within("--rate", 192_000.0, 120_000.0..=f64::from(HIGHEST_RATE))?;
        if rate.fract() != 0.0 {
            return Err(Fault::usage(format!(
                "--rate wants whole hertz, not {rate}"
            )));
        }
        let preemphasis = [("50", Some(50e-6)), ("75", Some(75e-6)), ("none", None)];
        Ok(Order {
            inputs,
            output,
            samples: args.choice("--samples", &[("f32", Samples::F32), ("s16", Samples::S16)])?,
            rate: rate as u32,
            main: args.within("--main", 0.9, 0.0..=1.0)? as f32,
            pilot: args.within("--pilot", 0.09, 0.0..=0.2)? as f32,
            preemphasis: args.choice("--preemphasis", &preemphasis)?,
            rds,
        })
    }

    /// Reads the file of groups.
    fn rds(&self) -> Outcome<Option<Rds>> {
        let Some((name, level)) = &self.rds else {
            return Ok(None);
        };
        let (groups, level) = (Groups::read(name)?, *level);
        Ok(Some(Rds { groups, level }))
    }
}

fn rds_of(args: &Args) -> Outcome<Option<(String, f32)>> {
    let level = args.within("--rds-level", RDS_LEVEL, 0.0..=0.2)? as f32;
    match args.text("--rds") {
        Some(name) => Ok(Some((name.to_string(), level))),
        None if args.text("--rds-level").is_some() => Err(Fault::usage("--rds-level wants --rds")),
        None => Ok(None),
    }
}

/// Left and right from one file or two.
struct Programme {
    sources: Vec<Source>,
    rate: u32,
    left: Vec<f32>,
    right: Vec<f32>,
}

impl Programme {
    fn open(names: &[String]) -> Outcome<Programme> {
        let opened = names.iter().map(|name| source::open(name, None));
        let sources: Vec<Source> = opened.collect::<Outcome<_>>()?;
        let rate = sources[0].rate().unwrap_or_default();
        let most = if sources.len() == 1 { 2 } else { 1 };
        for source in &sources {
            let (name, channels) = (source.name(), source.channels());
            if channels > most {
                let wanted = if most == 2 {
                    "left and right are two"
                } else {
                    "a side has one"
                };
                return Err(Fault::failed(
                    name,
                    format!("has {channels} channels; {wanted}"),
                ));
            }
            if source.rate() != Some(rate) {
                let other = source.rate().unwrap_or_default();
                let why = format!("has a rate of {other} Hz, and the left side {rate} Hz");
                return Err(Fault::failed(name, why));
            }
        }
        Ok(Programme {
            sources,
            rate,
            left: Vec::new(),
            right: Vec::new(),
        })
    }

    fn frames(&self) -> Option<u64> {
        self.sources.iter().map(Source::frames).max()?
    }

    /// The next piece; 0 is the end. The shorter of two files ends in silence.
    fn read(&mut self) -> Outcome<usize> {
        let channels = self.sources[0].channels();
        let mut both = [
            std::mem::take(&mut self.left),
            std::mem::take(&mut self.right),
        ];
        let mut frames = self.sources[0].read(PIECE, &mut both[..channels])?;
        if let [_, right] = &mut self.sources[..] {
            frames = frames.max(right.read(PIECE, &mut both[1..])?);
        } else if channels == 1 {
            both[1] = both[0].clone();
        }
        both.iter_mut().for_each(|side| side.resize(frames, 0.0));
        [self.left, self.right] = both;
        Ok(frames)
    }
}

/// What the report says of the multiplex.
#[derive(Default)]
struct Meter {
    samples: u64,
    peak: f32,
    over: u64,
    bad: u64,
}

impl Meter {
    fn see(&mut self, mpx: &[f32]) {
        self.samples += mpx.len() as u64;
        for x in mpx.iter().map(|x| x.abs()) {
            if x.is_finite() {
                self.peak = self.peak.max(x);
                self.over += u64::from(x > 1.0);
            } else {
                self.bad += 1;
            }
        }
    }
}

pub fn command(words: &[String]) -> Outcome<()> {
    let order = Order::parse(words)?;
    let rds = order.rds()?;
    let mut programme = Programme::open(&order.inputs)?;
    let name = programme.sources[0].name().to_string();
    let Order {
        rate,
        main,
        pilot,
        preemphasis,
        ..
    } = order;
    let audio_rate = programme.rate;
    let settings = Settings {
        audio_rate,
        rate,
        main,
        pilot,
        preemphasis,
    };
    let mut transmitter =
        Transmitter::new(settings, rds.as_ref()).map_err(|why| Fault::failed(&name, why))?;
    let shape = Shape {
        samples: order.samples,
        channels: 1,
        rate,
    };
    let mut writer = Writer::create(&order.output, shape)?;
    let meter = transmit(&mut programme, &mut transmitter, &mut writer)?;
    if meter.samples == 0 {
        return Err(Fault::failed(&name, "has no samples"));
    }
    writer.finish()?;
    let to_output = order.output == "-";
    let stream = if to_output {
        Stream::Error
    } else {
        Stream::Output
    };
    let rds = rds.map(|rds| rds.words(transmitter.groups_sent()));
    say(stream, &report(&order, &programme, &meter, rds))
}

fn transmit(
    programme: &mut Programme,
    transmitter: &mut Transmitter,
    writer: &mut Writer,
) -> Outcome<Meter> {
    let (mut meter, mut mpx, mut done) = (Meter::default(), Vec::new(), 0);
    let mut progress = Progress::new("encoding", programme.frames(), programme.rate.into());
    loop {
        let frames = programme.read()?;
        mpx.clear();
        match frames {
            0 if done == 0 => return Ok(meter),
            0 => transmitter.finish(&mut mpx)?,
            _ => transmitter.run(&programme.left, &programme.right, &mut mpx)?,
        }
        meter.see(&mpx);
        writer.write(&[&mpx])?;
        if frames == 0 {
            return Ok(meter);
        }
        done += frames as u64;
        progress.at(done);
    }
}

fn report(order: &Order, programme: &Programme, meter: &Meter, rds: Option<String>) -> String {
    let name = if order.output == "-" {
        "standard output, raw"
    } else {
        &order.output
    };
    let seconds = meter.samples as f64 / f64::from(order.rate);
    let emphasis = match order.preemphasis {
        Some(seconds) => format!("pre-emphasis {:.0} us", seconds * 1e6),
        None => "no pre-emphasis".to_string(),
    };
    let samples = order.samples.name();
    let mut text = format!(
        "{name}: {seconds:.3} s at {} Hz, {samples}, {emphasis}\n",
        order.rate
    );
    let mut entry = |name: &str, words: String| text += &format!("  {name:<11}{words}\n");
    entry("audio", format!("{} Hz", programme.rate));
    entry("pilot", pilot_words(PILOT_HZ, 1, order.pilot.into()));
    if let Some(words) = rds {
        entry("rds", words);
    }
    entry("peak", format!("{:.3} of full deviation", meter.peak));
    if meter.over > 0 {
        let over = format!("{} samples are beyond full deviation", meter.over);
        entry("over", format!("{over}: lower --main or the audio"));
    }
    if meter.bad > 0 {
        entry("not finite", format!("{} samples", meter.bad));
    }
    for source in &programme.sources {
        if let Some(words) = source.complaint() {
            entry("file", format!("{}: {words}", source.name()));
        }
    }
    text
}

#[cfg(test)]
mod tests {
    use super::*;

    fn parse(line: &str) -> Outcome<Order> {
        let words: Vec<String> = line.split_whitespace().map(String::from).collect();
        Order::parse(&words)
    }

    #[test]
    fn the_options_are_taken() {
        let line = "l.wav r.wav -o m.wav --rate 250000 --main 0.8 --pilot 0 --preemphasis 75";
        let order = parse(line).unwrap();
        assert_eq!(order.inputs, ["l.wav", "r.wav"]);
        assert_eq!((order.rate, order.main, order.pilot), (250_000, 0.8, 0.0));
        assert_eq!(order.preemphasis, Some(75e-6));
        assert_eq!(parse("a.wav -o b.wav").unwrap().preemphasis, Some(50e-6));
    }

    #[test]
    fn rds_has_a_file_and_a_level() {
        let rds = |line: &str| parse(&format!("a.wav -o b.wav {line}")).unwrap().rds;
        assert_eq!(rds(""), None);
        assert_eq!(rds("--rds g.txt"), Some(("g.txt".into(), 0.03)));
        let named = rds("--rds-level 0.1 --rds g.txt");
        assert_eq!(named, Some(("g.txt".into(), 0.1)));
    }

    #[test]
    fn wrong_orders_are_refused_before_any_work() {
        for (line, words) in [
            ("-o a", "wants one stereo file"),
            ("a b c -o d", "wants one stereo file"),
            ("a", "wants -o FILE"),
            ("a -o b --rate 96000", "from 120000"),
            ("a -o b --rate 192000.5", "whole hertz"),
            ("a -o b --pilot 0.3", "--pilot wants"),
            ("a -o b --main -1", "--main wants"),
            ("a -o b --preemphasis 60", "none of 50, 75, none"),
            (
                "a -o b --rds c --rds-level 0.21",
                "--rds-level wants a number",
            ),
            ("a -o b --rds-level 0.1", "--rds-level wants --rds"),
        ] {
            let fault = parse(line).unwrap_err();
            assert!(matches!(fault, Fault::Usage(_)), "{line}");
            assert!(fault.text().contains(words), "{line}: {}", fault.text());
        }
    }

    #[test]
    fn the_meter_counts_what_is_too_much() {
        let mut meter = Meter::default();
        meter.see(&[0.5, -1.5, f32::NAN, f32::INFINITY]);
        assert_eq!(
            (meter.samples, meter.peak, meter.over, meter.bad),
            (4, 1.5, 1, 2)
        );
    }
}
