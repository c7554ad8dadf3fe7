//! Writes a WAV file, or raw samples to standard output.

use std::io::{self, BufWriter, IsTerminal, Stdout, Write};

use super::encoding::to_i16;
use crate::draft::Draft;
use crate::fault::{Fault, Outcome};

/// How samples are written.
#[derive(Clone, Copy, Debug, PartialEq, Eq)]
pub enum Samples {
    F32,
    S16,
}

impl Samples {
    fn bytes(self) -> u16 {
        match self {
            Samples::F32 => 4,
            Samples::S16 => 2,
        }
    }

    pub fn name(self) -> &'static str {
        match self {
            Samples::F32 => "f32",
            Samples::S16 => "s16",
        }
    }
}

/// What the header says beside the length.
#[derive(Clone, Copy, Debug)]
pub struct Shape {
    pub samples: Samples,
    pub channels: u16,
    pub rate: u32,
}

enum Target {
    Wav(Draft),
    Raw(BufWriter<Stdout>),
}

pub struct Writer {
    target: Target,
    shape: Shape,
    bytes: u64,
    packed: Vec<u8>,
}

impl Writer {
    /// A WAV file, or raw samples where the name is `-`.
    pub fn create(name: &str, shape: Shape) -> Outcome<Writer> {
        let target = if name == "-" {
            if io::stdout().is_terminal() {
                return Err(Fault::usage(
                    "raw samples do not go to a terminal; name a file",
                ));
            }
            Target::Raw(BufWriter::with_capacity(1 << 16, io::stdout()))
        } else {
            let mut draft = Draft::create(name)?;
            draft.write(&header(shape, None))?;
            Target::Wav(draft)
        };
        Ok(Writer {
            target,
            shape,
            bytes: 0,
            packed: Vec::new(),
        })
    }

    /// One slice a channel, all of one length.
    pub fn write(&mut self, channels: &[&[f32]]) -> Outcome<()> {
        self.packed.clear();
        for i in 0..channels[0].len() {
            for channel in channels {
                match self.shape.samples {
                    Samples::F32 => self.packed.extend(channel[i].to_le_bytes()),
                    Samples::S16 => self.packed.extend(to_i16(channel[i]).to_le_bytes()),
                }
            }
        }
        self.bytes += self.packed.len() as u64;
        match &mut self.target {
            Target::Wav(draft) => draft.write(&self.packed),
            Target::Raw(out) => out.write_all(&self.packed).map_err(stdout_fault),
        }
    }

    /// Writes the length into the header and gives the file its name.
    pub fn finish(self) -> Outcome<()> {
        match self.target {
            Target::Wav(mut draft) => {
                if draft.can_seek() {
                    draft.rewrite_start(&header(self.shape, Some(self.bytes)))?;
                }
                draft.finish()
            }
            Target::Raw(mut out) => out.flush().map_err(stdout_fault),
        }
    }
}

fn stdout_fault(why: io::Error) -> Fault {
    Fault::io("standard output", why)
}

/// Bytes of the header from after the first eight.
const AFTER: u64 = HEADER - 8;
const HEADER: u64 = 80;

/// The header of a file with this many bytes of samples. It keeps a place free, so that a file
/// which grows above 4 GiB becomes RF64 without being moved.
fn header(shape: Shape, bytes: Option<u64>) -> Vec<u8> {
    let short = bytes.and_then(|n| u32::try_from(n + AFTER).ok().map(|all| (all, n as u32)));
    let (all, data) = short.unwrap_or((u32::MAX, u32::MAX));
    let long = bytes.filter(|_| short.is_none());
    let mut h = Vec::with_capacity(HEADER as usize);
    h.extend(if long.is_some() { b"RF64" } else { b"RIFF" });
    h.extend(all.to_le_bytes());
    h.extend(b"WAVE");
    h.extend(if long.is_some() { b"ds64" } else { b"JUNK" });
    h.extend(28u32.to_le_bytes());
    let frame = u64::from(shape.channels * shape.samples.bytes());
    let lengths = long.map_or([0; 3], |n| [n + AFTER, n, n / frame]);
    h.extend(lengths.map(u64::to_le_bytes).concat());
    h.extend([0; 4]);
    h.extend(format_chunk(shape));
    h.extend(b"data");
    h.extend(data.to_le_bytes());
    h
}

fn format_chunk(shape: Shape) -> Vec<u8> {
    let tag: u16 = if shape.samples == Samples::F32 { 3 } else { 1 };
    let frame = shape.channels * shape.samples.bytes();
    let mut f = b"fmt \x10\0\0\0".to_vec();
    f.extend([tag, shape.channels].map(u16::to_le_bytes).concat());
    f.extend(shape.rate.to_le_bytes());
    f.extend(shape.rate.saturating_mul(frame.into()).to_le_bytes());
    f.extend(
        [frame, 8 * shape.samples.bytes()]
            .map(u16::to_le_bytes)
            .concat(),
    );
    f
}

#[cfg(test)]
mod tests {
    use super::super::encoding::Encoding;
    use super::super::header::{self as reader, START};
    use super::*;

    const SHAPE: Shape = Shape {
        samples: Samples::F32,
        channels: 2,
        rate: 48_000,
    };

    fn read_back(bytes: Option<u64>) -> (bool, reader::Header) {
        let made = header(SHAPE, bytes);
        assert_eq!(made.len() as u64, HEADER);
        assert!(reader::is_wav(&made));
        (
            made.starts_with(b"RF64"),
            reader::read(&mut &made[START..]).unwrap(),
        )
    }

    #[test]
    fn the_reader_takes_the_header() {
        let (long, read) = read_back(Some(800));
        assert!(!long);
        assert_eq!(
            (read.encoding, read.channels, read.rate),
            (Encoding::F32, 2, 48_000)
        );
        assert_eq!(read.bytes, Some(800));
        assert_eq!(read_back(None).1.bytes, None);
    }

    #[test]
    fn above_four_gib_it_is_rf64() {
        let limit = u64::from(u32::MAX) - AFTER;
        for (bytes, wanted) in [(limit, false), (limit + 1, true), (1 << 33, true)] {
            let (long, read) = read_back(Some(bytes));
            assert_eq!((long, read.bytes), (wanted, Some(bytes)));
        }
    }
}
