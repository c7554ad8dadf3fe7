//! Reads a WAV file up to its samples.

use std::io::{self, Read};

use super::encoding::Encoding;

/// What stands before the samples.
#[derive(Clone, Copy, Debug, PartialEq)]
pub struct Header {
    pub encoding: Encoding,
    pub channels: usize,
    pub rate: u32,
    /// Bytes of samples; none where the writer did not know.
    pub bytes: Option<u64>,
}

/// The first twelve bytes of a WAV file.
pub const START: usize = 12;

pub fn is_wav(start: &[u8]) -> bool {
    let kinds: [&[u8]; 3] = [b"RIFF", b"RF64", b"BW64"];
    start.len() >= START && kinds.contains(&&start[..4]) && &start[8..START] == b"WAVE"
}

struct Chunk {
    name: [u8; 4],
    bytes: u32,
}

/// Reads from after the first twelve bytes to the first sample. An error is its reason in words.
pub fn read(reader: &mut impl Read) -> Result<Header, String> {
    let (mut format, mut long) = (None, None);
    loop {
        let chunk = next_chunk(reader)?;
        match &chunk.name {
            b"data" => return finish(format, chunk.bytes, long),
            b"fmt " => format = Some(read_format(&start_of::<40>(reader, chunk.bytes)?)?),
            b"ds64" => long = read_long(&start_of::<28>(reader, chunk.bytes)?),
            _ => drop(start_of::<0>(reader, chunk.bytes)?),
        }
    }
}

fn next_chunk(reader: &mut impl Read) -> Result<Chunk, String> {
    let mut head = Vec::new();
    reader
        .take(8)
        .read_to_end(&mut head)
        .map_err(|why| why.to_string())?;
    let Ok([a, b, c, d, n0, n1, n2, n3]) = <[u8; 8]>::try_from(head) else {
        return Err("the WAV file ends before its samples".into());
    };
    Ok(Chunk {
        name: [a, b, c, d],
        bytes: u32::from_le_bytes([n0, n1, n2, n3]),
    })
}

/// The first `N` bytes of a chunk, or all of a shorter one. The rest is skipped without keeping it;
/// a chunk of odd length has one byte more.
fn start_of<const N: usize>(reader: &mut impl Read, bytes: u32) -> Result<Vec<u8>, String> {
    let mut start = Vec::new();
    let whole = u64::from(bytes) + u64::from(bytes % 2);
    let wanted = u64::from(bytes).min(N as u64);
    let copied = (|| {
        reader.take(wanted).read_to_end(&mut start)?;
        io::copy(&mut reader.take(whole - wanted), &mut io::sink())
    })();
    copied.map_err(|why| why.to_string())?;
    Ok(start)
}

fn u16_at(bytes: &[u8], at: usize) -> Option<u16> {
    Some(u16::from_le_bytes(*bytes.get(at..)?.first_chunk()?))
}

fn u32_at(bytes: &[u8], at: usize) -> Option<u32> {
    Some(u32::from_le_bytes(*bytes.get(at..)?.first_chunk()?))
}

/// The length of the samples, in the chunk of RF64 that has it in 64 bits.
fn read_long(chunk: &[u8]) -> Option<u64> {
    Some(u64::from_le_bytes(*chunk.get(8..)?.first_chunk()?))
}

const PCM: u16 = 1;
const FLOAT: u16 = 3;
const EXTENSIBLE: u16 = 0xFFFE;

fn read_format(chunk: &[u8]) -> Result<Header, String> {
    let short = || "the WAV format chunk is too short".to_string();
    let mut tag = u16_at(chunk, 0).ok_or_else(short)?;
    let channels = u16_at(chunk, 2).ok_or_else(short)?;
    let rate = u32_at(chunk, 4).ok_or_else(short)?;
    let frame = usize::from(u16_at(chunk, 12).ok_or_else(short)?);
    let bits = u16_at(chunk, 14).ok_or_else(short)?;
    if tag == EXTENSIBLE {
        tag = u16_at(chunk, 24).ok_or_else(short)?;
    }
    let encoding = match tag {
        PCM => Encoding::pcm(bits),
        FLOAT => Encoding::float(bits),
        _ => None,
    };
    let encoding = encoding.ok_or_else(|| {
        let read = "PCM of 8, 16, 24 and 32 bits, f32 and f64 are read";
        format!("WAV format {tag} with {bits} bits is not read; {read}")
    })?;
    let channels = usize::from(channels);
    if channels == 0 {
        return Err("the WAV file has 0 channels".into());
    }
    if rate == 0 {
        return Err("the WAV file has a rate of 0 Hz".into());
    }
    if frame != channels * encoding.bytes() {
        let given = format!("{channels} channels of {encoding}");
        return Err(format!("a WAV frame of {frame} bytes cannot hold {given}"));
    }
    Ok(Header {
        encoding,
        channels,
        rate,
        bytes: None,
    })
}

/// A writer to a pipe leaves 0 or the highest number as length, since it cannot know it.
fn finish(format: Option<Header>, bytes: u32, long: Option<u64>) -> Result<Header, String> {
    let header = format.ok_or("the WAV file has its samples before its format")?;
    let bytes = match (bytes, long) {
        (u32::MAX, Some(long)) => Some(long),
        (0 | u32::MAX, _) => None,
        (bytes, _) => Some(u64::from(bytes)),
    };
    Ok(Header { bytes, ..header })
}

#[cfg(test)]
mod tests {
    use super::*;

    fn chunk(name: &[u8; 4], body: &[u8]) -> Vec<u8> {
        let mut bytes = name.to_vec();
        bytes.extend((body.len() as u32).to_le_bytes());
        bytes.extend(body);
        bytes.extend(vec![0; body.len() % 2]);
        bytes
    }

    fn format(tag: u16, channels: u16, rate: u32, bits: u16) -> Vec<u8> {
        let frame = channels * bits.div_ceil(8);
        let mut body = [tag, channels].map(u16::to_le_bytes).concat();
        body.extend(rate.to_le_bytes());
        body.extend((rate.wrapping_mul(frame.into())).to_le_bytes());
        body.extend([frame, bits].map(u16::to_le_bytes).concat());
        body
    }

    fn read_all(parts: &[Vec<u8>]) -> Result<Header, String> {
        read(&mut parts.concat().as_slice())
    }

    #[test]
    fn the_usual_formats() {
        for (tag, bits, encoding) in [
            (1, 8, Encoding::U8),
            (1, 16, Encoding::S16),
            (1, 24, Encoding::S24),
            (1, 32, Encoding::S32),
            (3, 32, Encoding::F32),
            (3, 64, Encoding::F64),
        ] {
            let parts = [
                chunk(b"fmt ", &format(tag, 2, 192_000, bits)),
                chunk(b"data", &[0; 64]),
            ];
            let header = read_all(&parts).unwrap();
            let wanted = Header {
                encoding,
                channels: 2,
                rate: 192_000,
                bytes: Some(64),
            };
            assert_eq!(header, wanted);
        }
    }

    #[test]
    fn extensible_names_its_format_later() {
        let mut body = format(EXTENSIBLE, 1, 250_000, 32);
        body.extend([22, 0, 32, 0, 0, 0, 0, 0]);
        body.extend(FLOAT.to_le_bytes());
        body.extend(b"\x00\x00\x00\x00\x10\x00\x80\x00\x00\xAA\x00\x38\x9B\x71");
        let header = read_all(&[chunk(b"fmt ", &body), chunk(b"data", &[0; 8])]).unwrap();
        assert_eq!(header.encoding, Encoding::F32);
        let cut = read_all(&[chunk(b"fmt ", &body[..18]), chunk(b"data", &[0; 8])]);
        assert_eq!(cut.unwrap_err(), "the WAV format chunk is too short");
    }

    #[test]
    fn other_chunks_are_skipped_with_their_padding() {
        let parts = [
            chunk(b"LIST", b"odd"),
            chunk(b"fmt ", &format(1, 1, 192_000, 16)),
            chunk(b"bext", &[7; 100_001]),
            chunk(b"data", &[0; 10]),
        ];
        assert_eq!(read_all(&parts).unwrap().bytes, Some(10));
    }

    #[test]
    fn rf64_has_its_length_in_a_chunk_of_its_own() {
        let long: u64 = 5_000_000_000;
        let ds64 = [long + 72, long, long / 4].map(u64::to_le_bytes).concat();
        let mut data = chunk(b"data", &[]);
        data[4..8].fill(0xFF);
        let fmt = chunk(b"fmt ", &format(3, 1, 192_000, 32));
        let header = read_all(&[chunk(b"ds64", &ds64), fmt.clone(), data.clone()]).unwrap();
        assert_eq!(header.bytes, Some(long));
        assert_eq!(read_all(&[fmt, data]).unwrap().bytes, None);
        assert!(is_wav(b"RF64\xFF\xFF\xFF\xFFWAVE") && !is_wav(b"RIFF\0\0\0\0AVI "));
        assert!(!is_wav(b"RIFF"));
    }

    #[test]
    fn damaged_headers_are_named() {
        let fmt = |tag, channels, rate, bits| chunk(b"fmt ", &format(tag, channels, rate, bits));
        let data = || chunk(b"data", &[0; 8]);
        let mut wrong_frame = fmt(1, 2, 48_000, 16);
        wrong_frame[8 + 12] = 3;
        for (parts, reason) in [
            (vec![], "ends before"),
            (vec![b"fmt ".to_vec()], "ends before"),
            (vec![fmt(1, 1, 48_000, 16)], "ends before"),
            (vec![data()], "before its format"),
            (vec![chunk(b"fmt ", &[1, 0, 1]), data()], "too short"),
            (vec![fmt(1, 0, 48_000, 16), data()], "0 channels"),
            (vec![fmt(1, 1, 0, 16), data()], "rate of 0 Hz"),
            (vec![fmt(1, 1, 48_000, 0), data()], "is not read"),
            (
                vec![fmt(7, 1, 48_000, 8), data()],
                "WAV format 7 with 8 bits is not read",
            ),
            (vec![wrong_frame, data()], "frame of 3 bytes"),
        ] {
            let said = read_all(&parts).unwrap_err();
            assert!(said.contains(reason), "{said} for {reason}");
        }
    }

    #[test]
    fn a_length_that_nobody_knew() {
        let fmt = chunk(b"fmt ", &format(3, 1, 192_000, 32));
        assert_eq!(read_all(&[fmt, chunk(b"data", &[])]).unwrap().bytes, None);
    }
}
