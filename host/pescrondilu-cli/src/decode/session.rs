//! One capture on its way through the receiver, and what is written of it.

use super::order::{Core, Order};
use crate::audio::Stereo;
use crate::draft::write_text;
use crate::fault::{Fault, Outcome};
use crate::figures::Figures;
use crate::format::Format;
use crate::history::History;
use crate::log::Log;
use crate::plot::Plot;
use crate::receiver::{Receiver, Settings, Sight};
use crate::report::Report;
use crate::say::{Progress, Stream, say};
use crate::source::{self, Source};
use crate::wav::write::{Shape, Writer};

/// How finely the lamp is looked at.
const BLOCK_SECONDS: f64 = 0.001;
/// Samples that are read at a time.
const PIECE: usize = 1 << 14;

/// Everything that is open meanwhile.
pub struct Session<'a, T: Format> {
    order: &'a Order,
    source: Source,
    channel: usize,
    rate: f64,
    receiver: Receiver<T>,
    watch: Watch,
    output: Option<Writer>,
}

/// The history, and the log that is written along.
struct Watch {
    history: History,
    log: Option<Log>,
}

impl Watch {
    /// A period of the history and one of the core's summary end with the same block.
    fn see(&mut self, sight: Sight) -> Outcome<()> {
        let ended = self.history.see(sight);
        let Some(log) = &mut self.log else {
            return Ok(());
        };
        debug_assert_eq!(ended.is_some(), sight.figures.is_some());
        match ended.zip(sight.figures) {
            Some((period, figures)) => log.write(&period, &figures),
            None => Ok(()),
        }
    }

    /// `unfinished` has the figures of the last period, which may be short.
    fn finish(&mut self, unfinished: Option<Figures>) -> Outcome<()> {
        let last = self.history.finish();
        let Some(mut log) = self.log.take() else {
            return Ok(());
        };
        if let Some((period, figures)) = last.zip(unfinished) {
            log.write(&period, &figures)?;
        }
        log.finish()
    }
}

impl<T: Format> Session<'_, T> {
    pub fn open(order: &Order) -> Outcome<Session<'_, T>> {
        let source = source::open(&order.input, order.raw)?;
        let name = source.name().to_string();
        let channel = choose(&source, order.channel)?;
        let rate = order
            .rate
            .or(source.rate().map(f64::from))
            .unwrap_or_default();
        let (period, block) = lengths(rate, order.period);
        let Order {
            natural,
            level,
            deemphasis,
            ..
        } = *order;
        let receiver = Receiver::new(Settings {
            rate,
            natural,
            level,
            deemphasis,
            block,
            period: log_period(order, period, rate)?,
        })
        .map_err(|why| Fault::failed(&name, why))?;
        let audio_rate = rate / receiver.decimation() as f64;
        let shape = Shape {
            samples: order.samples,
            channels: 2,
            rate: audio_rate.round() as u32,
        };
        let log = order
            .log
            .as_ref()
            .map(|name| Log::create(name, rate))
            .transpose()?;
        let output = order
            .output
            .as_ref()
            .map(|name| Writer::create(name, shape))
            .transpose()?;
        let watch = Watch {
            history: History::new(period),
            log,
        };
        Ok(Session {
            order,
            source,
            channel,
            rate,
            receiver,
            watch,
            output,
        })
    }

    pub fn run(mut self) -> Outcome<()> {
        let mut channels = vec![Vec::new(); self.source.channels()];
        let mut audio = Stereo::default();
        let mut progress = Progress::new("decoding", self.source.frames(), self.rate);
        while self.source.read(PIECE, &mut channels)? > 0 {
            let mpx = &mut channels[self.channel];
            amplify(mpx, self.order.gain);
            self.receiver
                .run(mpx, &mut |sight| self.watch.see(sight), &mut audio)?;
            write(&mut self.output, &mut audio)?;
            progress.at(self.watch.history.totals().samples);
        }
        self.receiver
            .finish(&mut |sight| self.watch.see(sight), &mut audio)?;
        write(&mut self.output, &mut audio)?;
        drop(progress);
        if self.watch.history.totals().samples == 0 {
            return Err(Fault::failed(self.source.name(), "has no samples"));
        }
        self.finish()
    }

    fn finish(mut self) -> Outcome<()> {
        self.watch.finish(self.receiver.unfinished())?;
        if let Some(output) = self.output.take() {
            output.finish()?;
        }
        self.plot()?;
        let to_output = self.order.output.as_deref() == Some("-");
        say(
            if to_output {
                Stream::Error
            } else {
                Stream::Output
            },
            &self.report(),
        )
    }

    fn report(&self) -> String {
        let (on, off) = self.receiver.thresholds();
        let audio = self
            .order
            .output
            .as_ref()
            .map(|name| self.audio_words(name));
        Report {
            capture: &self.capture_words(),
            audio: audio.as_deref(),
            history: &self.watch.history,
            rate: self.rate,
            on,
            off,
            q15: self.order.core == Core::Q15,
            tone: self.receiver.tone(),
            complaint: self.source.complaint(),
        }
        .text()
    }

    fn capture_words(&self) -> String {
        let seconds = self.watch.history.totals().samples as f64 / self.rate;
        let encoding = self.source.encoding();
        let (name, rate, core) = (self.source.name(), self.rate, T::NAME);
        format!("{name}: {seconds:.3} s at {rate} Hz ({encoding}), decoded by the {core} core")
    }

    fn audio_words(&self, name: &str) -> String {
        let step = self.receiver.decimation();
        let rate = self.rate / step as f64;
        let name = if name == "-" {
            "standard output, raw"
        } else {
            name
        };
        let emphasis = match self.order.deemphasis {
            Some(seconds) => format!("de-emphasis {:.0} us", seconds * 1e6),
            None => "no de-emphasis".to_string(),
        };
        let exact = if rate.fract() == 0.0 {
            ""
        } else {
            ", rounded in the header"
        };
        let samples = self.order.samples.name();
        format!("{name}: {rate} Hz (one sample in {step}{exact}), {samples}, {emphasis}")
    }

    fn plot(&self) -> Outcome<()> {
        let Some(name) = &self.order.plot else {
            return Ok(());
        };
        let (on, off) = self.receiver.thresholds();
        let history = &self.watch.history;
        let period = history.period_samples() as f64 / self.rate * 1_000.0;
        let rate = self.rate / 1_000.0;
        let subtitle = format!(
            "{} at {rate} kHz, {} core, nominal pilot {}, periods of {period:.0} ms",
            file_name(self.source.name()),
            T::NAME,
            self.order.level,
        );
        let title = self
            .order
            .title
            .as_deref()
            .unwrap_or("Pilot level and stereo lamp");
        let (subtitle, periods) = (&subtitle, history.periods());
        write_text(
            name,
            &Plot {
                title,
                subtitle,
                rate: self.rate,
                periods,
                on,
                off,
            }
            .draw(),
        )
    }
}

fn file_name(path: &str) -> &str {
    path.rsplit('/').next().unwrap_or(path)
}

fn choose(source: &Source, channel: Option<usize>) -> Outcome<usize> {
    let (name, there) = (source.name(), source.channels());
    match channel {
        Some(n) if n <= there => Ok(n - 1),
        Some(n) => Err(Fault::failed(
            name,
            format!("has {there} channels and no channel {n}"),
        )),
        None if there == 1 => Ok(0),
        None => {
            let choose = "a multiplex has one; choose it with --channel";
            Err(Fault::failed(
                name,
                format!("has {there} channels, and {choose}"),
            ))
        }
    }
}

/// Samples of a period, and of the blocks into which it goes without a rest.
fn lengths(rate: f64, period: f64) -> (u64, usize) {
    let samples = (rate * period).round().max(1.0);
    let blocks = (period / BLOCK_SECONDS).ceil().max(1.0);
    let block = (samples / blocks).round().max(1.0);
    let whole = (samples / block).round().max(1.0) * block;
    (whole as u64, block as usize)
}

/// Samples of a period of the log, where there is one. The core counts them in 32 bits.
fn log_period(order: &Order, period: u64, rate: f64) -> Outcome<Option<u32>> {
    if order.log.is_none() {
        return Ok(None);
    }
    let most = (f64::from(u32::MAX) / rate).floor();
    let why = || format!("--period: at {rate} Hz a period of the log lasts {most} s at most");
    let period = u32::try_from(period).map_err(|_| Fault::usage(why()))?;
    Ok(Some(period))
}

fn amplify(samples: &mut [f32], gain: f64) {
    if gain != 1.0 {
        samples
            .iter_mut()
            .for_each(|sample| *sample = (f64::from(*sample) * gain) as f32);
    }
}

fn write(output: &mut Option<Writer>, audio: &mut Stereo) -> Outcome<()> {
    let [left, right] = audio;
    if let Some(output) = output {
        output.write(&[left, right])?;
    }
    left.clear();
    right.clear();
    Ok(())
}

#[cfg(test)]
mod tests {
    use super::*;

    #[test]
    fn periods_are_whole_numbers_of_blocks() {
        assert_eq!(lengths(192_000.0, 0.1), (19_200, 192));
        assert_eq!(lengths(250_000.0, 0.1), (25_000, 250));
        assert_eq!(lengths(192_000.0, 0.000_001), (1, 1));
        for rate in [171_000.0, 176_400.0, 192_007.0] {
            let (period, block) = lengths(rate, 0.0237);
            assert_eq!(period % block as u64, 0);
            assert!((period as f64 / rate - 0.0237).abs() < 0.001);
        }
    }

    #[test]
    fn a_period_of_the_log_has_32_bits() {
        let with = |log: Option<&str>| Order {
            log: log.map(String::from),
            ..Order::new("x.wav")
        };
        let (most, rate) = (u64::from(u32::MAX), 4e6);
        let log = with(Some("log.csv"));
        assert_eq!(log_period(&log, most, rate).unwrap(), Some(u32::MAX));
        let fault = log_period(&log, most + 1, rate).unwrap_err();
        assert!(matches!(&fault, Fault::Usage(_)));
        assert!(fault.text().contains("1073 s at most"), "{}", fault.text());
        assert_eq!(log_period(&with(None), most + 1, rate).unwrap(), None);
    }
}
