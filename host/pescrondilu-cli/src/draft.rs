//! An output file that takes its name only when it is whole. Until then it stands beside it as
//! `NAME.part`, which goes when the work fails. Devices and named pipes are written directly.

use std::fs::{self, File};
use std::io::{self, BufWriter, Seek, SeekFrom, Write};
use std::path::{Path, PathBuf};

use crate::fault::{Fault, Outcome};

pub struct Draft {
    name: String,
    writer: BufWriter<File>,
    /// None where the file is written directly.
    part: Option<PathBuf>,
    whole: PathBuf,
}

impl Draft {
    pub fn create(name: &str) -> Outcome<Draft> {
        let whole = fs::canonicalize(name).unwrap_or_else(|_| PathBuf::from(name));
        let part = match fs::metadata(&whole) {
            Ok(there) if there.is_dir() => return Err(Fault::failed(name, "is a folder")),
            Ok(there) if !there.is_file() => None,
            _ => Some(part_of(&whole)),
        };
        let file = File::create(part.as_ref().unwrap_or(&whole));
        let file = file.map_err(|why| Fault::io(name, why))?;
        let writer = BufWriter::with_capacity(1 << 16, file);
        Ok(Draft {
            name: name.to_string(),
            writer,
            part,
            whole,
        })
    }

    /// Whether one can go back and write the header again.
    pub fn can_seek(&self) -> bool {
        self.part.is_some()
    }

    pub fn write(&mut self, bytes: &[u8]) -> Outcome<()> {
        self.writer
            .write_all(bytes)
            .map_err(|why| Fault::io(&self.name, why))
    }

    /// Writes over the first bytes.
    pub fn rewrite_start(&mut self, bytes: &[u8]) -> Outcome<()> {
        let written = self
            .writer
            .seek(SeekFrom::Start(0))
            .and_then(|_| self.writer.write_all(bytes));
        written.map_err(|why| Fault::io(&self.name, why))
    }

    /// The file is whole: it takes its name.
    pub fn finish(mut self) -> Outcome<()> {
        let done = self.writer.flush().and_then(|()| self.take_name());
        done.map_err(|why| Fault::io(&self.name, why))
    }

    fn take_name(&mut self) -> io::Result<()> {
        if let Some(part) = &self.part {
            fs::rename(part, &self.whole)?;
            self.part = None;
        }
        Ok(())
    }
}

impl Drop for Draft {
    fn drop(&mut self) {
        if let Some(part) = &self.part {
            // nothing more can be done where even this fails
            let _ = fs::remove_file(part);
        }
    }
}

fn part_of(whole: &Path) -> PathBuf {
    let mut name = whole.as_os_str().to_os_string();
    name.push(".part");
    PathBuf::from(name)
}

/// A whole text file.
pub fn write_text(name: &str, text: &str) -> Outcome<()> {
    let mut draft = Draft::create(name)?;
    draft.write(text.as_bytes())?;
    draft.finish()
}

/// Whether both names are one file, so that the output would end the input.
pub fn same_file(one: &str, other: &str) -> bool {
    match (fs::canonicalize(one), fs::canonicalize(other)) {
        (Ok(one), Ok(other)) => one == other && one.is_file(),
        _ => false,
    }
}

#[cfg(test)]
mod tests {
    use super::*;

    fn place(name: &str) -> PathBuf {
        let folder = std::env::temp_dir().join(format!("pescrondilu-{}", std::process::id()));
        fs::create_dir_all(&folder).unwrap();
        folder.join(name)
    }

    #[test]
    fn an_unfinished_file_leaves_the_old_one() {
        let path = place("draft");
        let name = path.to_str().unwrap();
        write_text(name, "old").unwrap();
        let mut draft = Draft::create(name).unwrap();
        draft.write(b"half").unwrap();
        assert!(part_of(&path).exists());
        drop(draft);
        assert_eq!(fs::read_to_string(&path).unwrap(), "old");
        assert!(!part_of(&path).exists());
    }

    #[test]
    fn a_finished_file_has_its_first_bytes_written_again() {
        let path = place("again");
        let name = path.to_str().unwrap();
        let mut draft = Draft::create(name).unwrap();
        draft.write(b"----, then more").unwrap();
        draft.rewrite_start(b"head").unwrap();
        draft.finish().unwrap();
        assert_eq!(fs::read_to_string(&path).unwrap(), "head, then more");
        assert!(same_file(name, name) && !same_file(name, "no such file"));
    }

    #[test]
    fn a_folder_is_no_file() {
        let path = place("folder");
        fs::create_dir_all(&path).unwrap();
        let fault = Draft::create(path.to_str().unwrap()).err().unwrap();
        assert!(fault.text().ends_with("is a folder"));
    }
}
