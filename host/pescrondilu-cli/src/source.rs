//! Samples from a WAV file or raw, from a file or standard input, in pieces.

use std::fs::File;
use std::io::{self, BufReader, Read};

use crate::fault::{Fault, Outcome};
use crate::wav::encoding::Encoding;
use crate::wav::header::{self, START};

pub struct Source {
    name: String,
    reader: Box<dyn Read>,
    encoding: Encoding,
    channels: usize,
    /// The rate that the header has; a raw file has none.
    rate: Option<u32>,
    frames: Option<u64>,
    read: u64,
    bytes: Vec<u8>,
    ended: bool,
    torn: bool,
}

/// Opens a file, or standard input for `-`. Raw samples have one channel.
pub fn open(name: &str, raw: Option<Encoding>) -> Outcome<Source> {
    if name == "-" {
        return from_reader("standard input", Box::new(io::stdin()), None, raw);
    }
    let file = File::open(name).map_err(|why| Fault::io(name, why))?;
    let there = file.metadata().map_err(|why| Fault::io(name, why))?;
    if there.is_dir() {
        return Err(Fault::failed(name, "is a folder"));
    }
    let size = there.is_file().then_some(there.len());
    from_reader(
        name,
        Box::new(BufReader::with_capacity(1 << 16, file)),
        size,
        raw,
    )
}

fn from_reader(
    name: &str,
    reader: Box<dyn Read>,
    size: Option<u64>,
    raw: Option<Encoding>,
) -> Outcome<Source> {
    match raw {
        Some(encoding) => {
            let frames = size.map(|bytes| bytes / encoding.bytes() as u64);
            Ok(Source::new(name, reader, encoding, 1, None, frames))
        }
        None => wav(name, reader),
    }
}

fn wav(name: &str, mut reader: Box<dyn Read>) -> Outcome<Source> {
    let mut start = Vec::new();
    let begun = (&mut reader).take(START as u64).read_to_end(&mut start);
    begun.map_err(|why| Fault::io(name, why))?;
    if start.is_empty() {
        return Err(Fault::failed(name, "is empty"));
    }
    if !header::is_wav(&start) {
        let raw = "raw samples need --raw f32 or --raw s16, and --rate";
        return Err(Fault::failed(name, format!("is no WAV file; {raw}")));
    }
    let found = header::read(&mut reader).map_err(|why| Fault::failed(name, why))?;
    let frame = (found.channels * found.encoding.bytes()) as u64;
    let frames = found.bytes.map(|bytes| bytes / frame);
    let samples: Box<dyn Read> = match found.bytes {
        Some(bytes) => Box::new(reader.take(bytes)),
        None => reader,
    };
    let rate = Some(found.rate);
    Ok(Source::new(
        name,
        samples,
        found.encoding,
        found.channels,
        rate,
        frames,
    ))
}

impl Source {
    fn new(
        name: &str,
        reader: Box<dyn Read>,
        encoding: Encoding,
        channels: usize,
        rate: Option<u32>,
        frames: Option<u64>,
    ) -> Source {
        let name = name.to_string();
        let (bytes, ended, torn, read) = (Vec::new(), false, false, 0);
        Source {
            name,
            reader,
            encoding,
            channels,
            rate,
            frames,
            read,
            bytes,
            ended,
            torn,
        }
    }

    pub fn name(&self) -> &str {
        &self.name
    }

    pub fn channels(&self) -> usize {
        self.channels
    }

    pub fn encoding(&self) -> Encoding {
        self.encoding
    }

    pub fn rate(&self) -> Option<u32> {
        self.rate
    }

    /// How many frames there should be, where one can know.
    pub fn frames(&self) -> Option<u64> {
        self.frames
    }

    /// Up to `frames` frames, one vector a channel. It answers how many; 0 is the end.
    pub fn read(&mut self, frames: usize, channels: &mut [Vec<f32>]) -> Outcome<usize> {
        let frame = self.channels * self.encoding.bytes();
        // a header may name 65535 channels: the piece stays small
        let frames = frames.min((1 << 20) / frame).max(1);
        self.fill(frames * frame)?;
        let whole = self.bytes.len() / frame;
        self.torn |= !self.bytes.len().is_multiple_of(frame);
        self.read += whole as u64;
        for (at, channel) in channels.iter_mut().enumerate() {
            channel.clear();
            self.pick(at, whole, channel);
        }
        Ok(whole)
    }

    fn fill(&mut self, wanted: usize) -> Outcome<()> {
        self.bytes.clear();
        if self.ended {
            return Ok(());
        }
        let piece = (&mut self.reader).take(wanted as u64);
        let got = { piece }.read_to_end(&mut self.bytes);
        got.map_err(|why| Fault::io(&self.name, why))?;
        self.ended = self.bytes.len() < wanted;
        Ok(())
    }

    fn pick(&self, channel: usize, frames: usize, out: &mut Vec<f32>) {
        let width = self.encoding.bytes();
        let frame = self.channels * width;
        if self.channels == 1 {
            self.encoding.decode(&self.bytes[..frames * frame], out);
            return;
        }
        for bytes in self.bytes.chunks_exact(frame) {
            self.encoding
                .decode(&bytes[channel * width..][..width], out);
        }
    }

    /// What was odd about the file, once it is read to its end.
    pub fn complaint(&self) -> Option<String> {
        match self.frames {
            Some(frames) if self.read < frames => {
                let early = "the header says that there are";
                Some(format!(
                    "the samples end early: {} were read, {early} {frames}",
                    self.read
                ))
            }
            _ if self.torn => Some("the last sample is not whole and was left out".into()),
            _ => None,
        }
    }
}

/// A source in memory.
#[cfg(test)]
pub fn from_bytes(bytes: Vec<u8>, raw: Option<Encoding>) -> Outcome<Source> {
    let size = Some(bytes.len() as u64);
    from_reader("test", Box::new(io::Cursor::new(bytes)), size, raw)
}

#[cfg(test)]
mod tests {
    use super::*;

    fn all(source: &mut Source, piece: usize) -> Vec<Vec<f32>> {
        let mut whole = vec![Vec::new(); source.channels()];
        let mut part = whole.clone();
        while source.read(piece, &mut part).unwrap() > 0 {
            for (whole, part) in whole.iter_mut().zip(&part) {
                whole.extend(part);
            }
        }
        whole
    }

    fn wav_bytes(channels: u16, claimed: u32, samples: &[i16]) -> Vec<u8> {
        let mut b = b"RIFF\0\0\0\0WAVEfmt \x10\0\0\0\x01\0".to_vec();
        b.extend(channels.to_le_bytes());
        b.extend(48_000u32.to_le_bytes());
        b.extend([0; 4]);
        b.extend((2 * channels).to_le_bytes());
        b.extend(16u16.to_le_bytes());
        b.extend(b"data");
        b.extend(claimed.to_le_bytes());
        b.extend(samples.iter().flat_map(|s| s.to_le_bytes()));
        b
    }

    #[test]
    fn channels_come_apart_in_pieces_of_any_size() {
        let bytes = wav_bytes(2, 12, &[16_384, 0, -16_384, 8_192, 0, -8_192]);
        for piece in 1..5 {
            let mut source = from_bytes(bytes.clone(), None).unwrap();
            assert_eq!((source.rate(), source.frames()), (Some(48_000), Some(3)));
            assert_eq!(
                all(&mut source, piece),
                [[0.5, -0.5, 0.0], [0.0, 0.25, -0.25]]
            );
            assert_eq!(source.complaint(), None);
        }
    }

    #[test]
    fn a_piece_stays_small_whatever_the_header_says() {
        let mut source = from_bytes(wav_bytes(1_000, u32::MAX, &[7; 1_000_000]), None).unwrap();
        let mut channels = vec![Vec::new(); 2];
        assert_eq!(source.read(1 << 14, &mut channels).unwrap(), 524);
        assert_eq!(channels[1].len(), 524);
        let mut wide = from_bytes(wav_bytes(30_000, u32::MAX, &[7; 60_000]), None).unwrap();
        assert_eq!(wide.read(1 << 14, &mut channels).unwrap(), 2);
    }

    #[test]
    fn what_follows_the_samples_is_not_read() {
        let mut source = from_bytes(wav_bytes(1, 4, &[16_384, 16_384, 1, 2]), None).unwrap();
        assert_eq!(all(&mut source, 8), [[0.5, 0.5]]);
    }

    #[test]
    fn samples_that_end_early_are_taken_and_said() {
        let mut source = from_bytes(wav_bytes(1, 4000, &[16_384; 3]), None).unwrap();
        assert_eq!(all(&mut source, 8)[0].len(), 3);
        assert!(source.complaint().unwrap().contains("3 were read"));
    }

    #[test]
    fn without_a_length_it_reads_to_the_end() {
        for claimed in [0, u32::MAX] {
            let mut bytes = wav_bytes(1, claimed, &[16_384; 3]);
            bytes.push(1);
            let mut source = from_bytes(bytes, None).unwrap();
            assert_eq!((source.frames(), all(&mut source, 2)[0].len()), (None, 3));
            assert!(source.complaint().unwrap().contains("not whole"));
        }
    }

    #[test]
    fn raw_samples_are_taken_as_they_are() {
        let bytes = [0.5f32, -0.25].map(f32::to_le_bytes).concat();
        let mut source = from_bytes(bytes, Some(Encoding::F32)).unwrap();
        assert_eq!((source.rate(), source.frames()), (None, Some(2)));
        assert_eq!(all(&mut source, 64), [[0.5, -0.25]]);
        let mut source = from_bytes(vec![0, 0x40, 7], Some(Encoding::S16)).unwrap();
        assert_eq!(all(&mut source, 64), [[0.5]]);
        assert!(source.complaint().unwrap().contains("not whole"));
    }

    #[test]
    fn what_is_no_wav_says_how_raw_is_given() {
        let said = |bytes: &[u8]| {
            let fault = from_bytes(bytes.to_vec(), None).err().unwrap();
            fault.text().to_string()
        };
        assert_eq!(said(b""), "test: is empty");
        assert!(said(b"RIFF").contains("--raw f32"));
        assert!(said(&[0; 400]).contains("--raw f32"));
        assert!(said(b"RIFF\0\0\0\0WAVE").contains("ends before its samples"));
    }
}
