//! WAV files: RIFF, and RF64 where they are longer than 4 GiB.

pub mod encoding;
pub mod header;
pub mod write;
