//! `pescrondilu demo`: makes a programme, encodes it, damages it, decodes it.

use std::f64::consts::TAU;
use std::fs;
use std::path::Path;

use crate::args::Args;
use crate::decode::{self, Order};
use crate::fault::{Fault, Outcome};
use crate::say::{Stream, say};
use crate::transmitter::{Settings, Transmitter};
use crate::wav::write::{Samples, Shape, Writer};

const AUDIO_RATE: u32 = 48_000;
const RATE: u32 = 192_000;
const SECONDS: u32 = 12;
const FOLDER: &str = "pescrondilu-demo";

/// The story, in seconds. The whole signal fades into noise and comes back.
const FADE: [f64; 4] = [2.5, 3.3, 3.9, 4.7];
/// A retune: a burst that is not finite, then noise until the next station.
const RETUNE: f64 = 6.0;
const BURST_END: f64 = 6.02;
const STATION: f64 = 6.8;
/// The pilot alone fades, as before a mono programme, and comes back.
const PILOT_FADE: [f64; 4] = [8.5, 9.5, 10.1, 10.3];

pub fn command(words: &[String]) -> Outcome<()> {
    let args = Args::parse(&[], words)?;
    let folder = match args.words() {
        [] => FOLDER,
        [folder] => folder,
        _ => return Err(Fault::usage("demo wants one folder at most")),
    };
    fs::create_dir_all(folder).map_err(|why| Fault::io(folder, why))?;
    let file = |name: &str| Path::new(folder).join(name).to_string_lossy().into_owned();
    let [left, right] = programme();
    let shape = Shape {
        samples: Samples::F32,
        channels: 2,
        rate: AUDIO_RATE,
    };
    write(&file("programme.wav"), shape, &[&left, &right])?;
    let mpx = damaged(
        &encoded(0.09, &left, &right)?,
        &encoded(0.0, &left, &right)?,
    );
    let shape = Shape {
        samples: Samples::F32,
        channels: 1,
        rate: RATE,
    };
    write(&file("multiplex.wav"), shape, &[&mpx])?;
    decode::run(&Order {
        output: Some(file("audio.wav")),
        log: Some(file("log.csv")),
        plot: Some(file("lamp.svg")),
        title: Some("Pilot level and stereo lamp: a fade, a retune, a mono programme".into()),
        period: 0.02,
        ..Order::new(&file("multiplex.wav"))
    })?;
    say(Stream::Output, &farewell(folder))
}

fn farewell(folder: &str) -> String {
    format!(
        "\nLook at {folder}/lamp.svg: the level with both thresholds, and the lamp below it.\n\
         {folder}/log.csv has the same in numbers; the retune at {RETUNE:.1} s begins with \
         negative NaN and infinities.\n\
         Hear {folder}/audio.wav beside programme.wav: left and right stay apart while the lamp \
         says stereo.\n"
    )
}

/// Left and right: a tune above, a slower one below.
fn programme() -> [Vec<f32>; 2] {
    let high = [
        523.25, 659.26, 783.99, 1046.5, 987.77, 783.99, 659.26, 587.33,
    ];
    let low = [261.63, 220.0, 174.61, 196.0];
    [tune(&high, 0.25), tune(&low, 1.5)]
}

/// Notes of equal length, each with a soft start and end and a second harmonic.
fn tune(notes: &[f64], seconds: f64) -> Vec<f32> {
    let samples = SECONDS * AUDIO_RATE;
    let value = |i: u32| {
        let t = f64::from(i) / f64::from(AUDIO_RATE);
        let turns = notes[(t / seconds) as usize % notes.len()] * t;
        let within = t % seconds;
        let soft = (within.min(seconds - within) / 0.01).min(1.0);
        (0.4 * soft * ((TAU * turns).sin() + 0.3 * (2.0 * TAU * turns).sin())) as f32
    };
    (0..samples).map(value).collect()
}

fn encoded(pilot: f32, left: &[f32], right: &[f32]) -> Outcome<Vec<f32>> {
    let (audio_rate, rate, main) = (AUDIO_RATE, RATE, 0.8);
    let settings = Settings {
        audio_rate,
        rate,
        main,
        pilot,
        preemphasis: Some(50e-6),
    };
    let mut transmitter =
        Transmitter::new(settings, None).map_err(|why| Fault::failed("the demo", why))?;
    let mut mpx = Vec::with_capacity((SECONDS * RATE) as usize);
    transmitter.run(left, right, &mut mpx)?;
    transmitter.finish(&mut mpx)?;
    Ok(mpx)
}

/// What is on the air while it fades: 1 outside, 0 between the inner times.
fn strength(t: f64, [from, gone, back, whole]: [f64; 4]) -> f64 {
    let falling = (gone - t) / (gone - from);
    let rising = (t - back) / (whole - back);
    falling.max(rising).clamp(0.0, 1.0)
}

/// The same multiplex with and without its pilot becomes one with a history.
fn damaged(with: &[f32], without: &[f32]) -> Vec<f32> {
    let mut noise = Noise(0x9E37_79B9);
    let pairs = with.iter().zip(without).enumerate();
    let each = pairs.map(|(i, (&with, &without))| {
        let t = i as f64 / f64::from(RATE);
        if (RETUNE..BURST_END).contains(&t) {
            return burst(i);
        }
        let station = if (BURST_END..STATION).contains(&t) {
            0.0
        } else {
            strength(t, FADE)
        };
        let pilot = strength(t, PILOT_FADE) as f32;
        let clean = without + pilot * (with - without);
        let hiss = 0.004 + 0.25 * (1.0 - station);
        station as f32 * clean + hiss as f32 * noise.next()
    });
    each.collect()
}

/// Negative NaN, with an infinity now and then.
fn burst(i: usize) -> f32 {
    match i % 16 {
        5 => f32::INFINITY,
        11 => f32::NEG_INFINITY,
        _ => f32::from_bits(0xFFC0_0000),
    }
}

/// Even noise from -1 to 1, the same at each run.
struct Noise(u32);

impl Noise {
    fn next(&mut self) -> f32 {
        self.0 ^= self.0 << 13;
        self.0 ^= self.0 >> 17;
        self.0 ^= self.0 << 5;
        self.0 as f32 / 2_147_483_648.0 - 1.0
    }
}

fn write(name: &str, shape: Shape, channels: &[&[f32]]) -> Outcome<()> {
    let mut writer = Writer::create(name, shape)?;
    writer.write(channels)?;
    writer.finish()
}

#[cfg(test)]
mod tests {
    use super::*;

    #[test]
    fn a_fade_goes_down_and_up_again() {
        let at = |t| strength(t, [1.0, 2.0, 3.0, 5.0]);
        assert_eq!(
            [0.0, 1.0, 1.5, 2.5, 4.0, 9.0].map(at),
            [1.0, 1.0, 0.5, 0.0, 0.5, 1.0]
        );
    }

    #[test]
    fn the_burst_is_not_finite_and_mostly_negative_nan() {
        let burst: Vec<f32> = (0..32).map(burst).collect();
        assert!(burst.iter().all(|x| !x.is_finite()));
        assert_eq!(
            burst.iter().filter(|x| x.to_bits() == 0xFFC0_0000).count(),
            28
        );
    }

    #[test]
    fn noise_is_even() {
        let mut noise = Noise(1);
        let values: Vec<f64> = (0..10_000).map(|_| f64::from(noise.next())).collect();
        assert!(values.iter().all(|x| x.abs() <= 1.0));
        assert!((values.iter().sum::<f64>() / 10_000.0).abs() < 0.02);
    }
}
