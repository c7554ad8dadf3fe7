//! What the tests of the program share: files made and read without the program's own code.

// each test file uses some of it
#![allow(dead_code)]

pub mod rds;

use std::f64::consts::TAU;
use std::fs;
use std::io::Write;
use std::path::{Path, PathBuf};
use std::process::{Command, Output, Stdio};

pub const RATE: u32 = 192_000;

/// A folder of its own for each test, which goes at the end.
pub struct Folder(PathBuf);

impl Folder {
    pub fn new(name: &str) -> Folder {
        let name = format!("pescrondilu-test-{}-{name}", std::process::id());
        let path = std::env::temp_dir().join(name);
        fs::create_dir_all(&path).unwrap();
        Folder(path)
    }

    pub fn path(&self) -> &Path {
        &self.0
    }

    pub fn file(&self, name: &str) -> String {
        self.0.join(name).to_str().unwrap().to_string()
    }

    /// The names of what is in it.
    pub fn names(&self) -> Vec<String> {
        let entries = fs::read_dir(&self.0).unwrap();
        let name = |entry: std::io::Result<fs::DirEntry>| entry.unwrap().file_name();
        let mut names: Vec<String> = entries
            .map(|entry| name(entry).into_string().unwrap())
            .collect();
        names.sort();
        names
    }
}

impl Drop for Folder {
    fn drop(&mut self) {
        let _ = fs::remove_dir_all(&self.0);
    }
}

pub struct Said {
    pub code: i32,
    pub out: Vec<u8>,
    pub err: String,
}

impl Said {
    pub fn text(&self) -> String {
        String::from_utf8_lossy(&self.out).into_owned()
    }

    /// It ended well.
    pub fn done(self) -> Said {
        assert_eq!(self.code, 0, "{}", self.err);
        self
    }

    /// It ended with this code and these words among its complaints.
    pub fn refused(&self, code: i32, words: &str) {
        assert_eq!(self.code, code, "{}", self.err);
        assert!(self.err.starts_with("pescrondilu: "), "{}", self.err);
        assert!(self.err.contains(words), "{words}: {}", self.err);
        assert!(!self.err.contains("panicked"), "{}", self.err);
    }
}

fn said(output: Output) -> Said {
    Said {
        code: output.status.code().expect("no signal ended it"),
        out: output.stdout,
        err: String::from_utf8_lossy(&output.stderr).into_owned(),
    }
}

pub fn program() -> Command {
    Command::new(env!("CARGO_BIN_EXE_pescrondilu"))
}

pub fn run(words: &[&str]) -> Said {
    said(program().args(words).stdin(Stdio::null()).output().unwrap())
}

/// With `input` on standard input.
pub fn run_with(words: &[&str], input: &[u8]) -> Said {
    let mut child = program()
        .args(words)
        .stdin(Stdio::piped())
        .stdout(Stdio::piped())
        .stderr(Stdio::piped())
        .spawn()
        .unwrap();
    let mut pipe = child.stdin.take().unwrap();
    let input = input.to_vec();
    let feeder = std::thread::spawn(move || drop(pipe.write_all(&input)));
    let output = child.wait_with_output().unwrap();
    feeder.join().unwrap();
    said(output)
}

pub fn tone(frequency: f64, rate: u32, seconds: f64, amplitude: f64) -> Vec<f32> {
    let samples = (seconds * f64::from(rate)) as u32;
    let turn = TAU * frequency / f64::from(rate);
    let value = |i: u32| (amplitude * (turn * f64::from(i)).sin()) as f32;
    (0..samples).map(value).collect()
}

/// A multiplex by BS.450's formula, at [`RATE`].
pub struct Multiplex {
    pub left: f64,
    pub right: f64,
    /// Frequencies of the tones on both sides.
    pub tones: [f64; 2],
    pub pilot: f64,
    pub pilot_hz: f64,
    pub seconds: f64,
}

impl Default for Multiplex {
    fn default() -> Multiplex {
        Multiplex {
            left: 0.5,
            right: 0.0,
            tones: [1_000.0, 1_000.0],
            pilot: 0.09,
            pilot_hz: 19_000.0,
            seconds: 1.0,
        }
    }
}

impl Multiplex {
    pub fn make(&self) -> Vec<f32> {
        let samples = (self.seconds * f64::from(RATE)) as u32;
        let value = |i: u32| {
            let t = f64::from(i) / f64::from(RATE);
            let left = self.left * (TAU * self.tones[0] * t).sin();
            let right = self.right * (TAU * self.tones[1] * t).sin();
            let pilot = TAU * self.pilot_hz * t;
            let main = (left + right) / 2.0 + (left - right) / 2.0 * (2.0 * pilot).sin();
            (0.9 * main + self.pilot * pilot.sin()) as f32
        };
        (0..samples).map(value).collect()
    }
}

/// A WAV file's bytes: `tag` 1 is PCM and 3 floats.
pub fn wav(tag: u16, bits: u16, channels: u16, rate: u32, data: &[u8]) -> Vec<u8> {
    let frame = channels * bits / 8;
    let mut b = b"RIFF".to_vec();
    b.extend((36 + data.len() as u32).to_le_bytes());
    b.extend(b"WAVEfmt \x10\0\0\0");
    b.extend([tag, channels].map(u16::to_le_bytes).concat());
    b.extend(rate.to_le_bytes());
    b.extend((rate * u32::from(frame)).to_le_bytes());
    b.extend([frame, bits].map(u16::to_le_bytes).concat());
    b.extend(b"data");
    b.extend((data.len() as u32).to_le_bytes());
    b.extend(data);
    b
}

pub fn f32_bytes(samples: &[f32]) -> Vec<u8> {
    samples.iter().flat_map(|x| x.to_le_bytes()).collect()
}

pub fn s16_bytes(samples: &[f32]) -> Vec<u8> {
    let value = |x: &f32| (x * 32_768.0).round() as i16;
    samples
        .iter()
        .flat_map(|x| value(x).to_le_bytes())
        .collect()
}

/// A WAV file of f32, one slice a channel.
pub fn write_wav(path: &str, rate: u32, channels: &[&[f32]]) {
    let frames = 0..channels[0].len();
    let all: Vec<f32> = frames
        .flat_map(|i| channels.iter().map(move |channel| channel[i]))
        .collect();
    let bytes = wav(3, 32, channels.len() as u16, rate, &f32_bytes(&all));
    fs::write(path, bytes).unwrap();
}

/// The samples of a multiplex as the program writes it.
pub fn read_multiplex(path: &str) -> Vec<f32> {
    let bytes = fs::read(path).unwrap();
    let data = bytes.windows(4).position(|w| w == b"data").unwrap() + 8;
    floats(&bytes[data..])
}

pub struct Audio {
    pub rate: u32,
    pub left: Vec<f32>,
    pub right: Vec<f32>,
}

/// Stereo audio as the program writes it, of f32 or of 16 bits.
pub fn read_audio(path: &str) -> Audio {
    let bytes = fs::read(path).unwrap();
    let at = |name: &[u8]| bytes.windows(4).position(|w| w == name).unwrap() + 8;
    let u16_at = |i: usize| u16::from_le_bytes([bytes[i], bytes[i + 1]]);
    let u32_at = |i: usize| u32::from_le_bytes(bytes[i..i + 4].try_into().unwrap());
    let (format, data) = (at(b"fmt "), at(b"data"));
    assert_eq!(u16_at(format + 2), 2, "channels");
    assert_eq!(u32_at(4) as usize, bytes.len() - 8, "length in the header");
    assert_eq!(
        u32_at(data - 4) as usize,
        bytes.len() - data,
        "length of the samples"
    );
    let both: Vec<f32> = match u16_at(format) {
        3 => floats(&bytes[data..]),
        _ => sixteen(&bytes[data..]),
    };
    let side = |at: usize| both.iter().skip(at).step_by(2).copied().collect();
    Audio {
        rate: u32_at(format + 4),
        left: side(0),
        right: side(1),
    }
}

pub fn floats(bytes: &[u8]) -> Vec<f32> {
    let each = bytes.chunks_exact(4);
    each.map(|b| f32::from_le_bytes(b.try_into().unwrap()))
        .collect()
}

fn sixteen(bytes: &[u8]) -> Vec<f32> {
    let value = |b: &[u8]| f32::from(i16::from_le_bytes(b.try_into().unwrap())) / 32_768.0;
    bytes.chunks_exact(2).map(value).collect()
}

/// The amplitude of a tone by correlation, under a window so that its ends do not count.
pub fn amplitude(samples: &[f32], frequency: f64, rate: u32) -> f64 {
    let n = samples.len() as f64;
    let turn = TAU * frequency / f64::from(rate);
    let (mut cos, mut sin, mut all) = (0.0, 0.0, 0.0);
    for (i, x) in samples.iter().enumerate() {
        let i = i as f64;
        let window = 0.42 - 0.5 * (TAU * i / n).cos() + 0.08 * (2.0 * TAU * i / n).cos();
        cos += window * f64::from(*x) * (turn * i).cos();
        sin += window * f64::from(*x) * (turn * i).sin();
        all += window;
    }
    2.0 * f64::hypot(cos, sin) / all
}

/// By how many decibels a tone is stronger on the left than on the right, from `from` seconds on.
pub fn separation(audio: &Audio, frequency: f64, from: f64) -> f64 {
    let first = (from * f64::from(audio.rate)) as usize;
    let side = |samples: &[f32]| amplitude(&samples[first..], frequency, audio.rate);
    20.0 * (side(&audio.left) / side(&audio.right)).log10()
}
