//! Groups from a text file: one a line, four words of four hexadecimal digits each, with blanks
//! between them. `#` begins a comment.

use std::fs;

use pescrondilu::kernels::rds::{GROUP_BITS, RdsFormer};

use crate::fault::{Fault, Outcome};

pub type Words = [u16; 4];

/// One group at least, and each is one that the core takes.
#[derive(Clone, Debug)]
pub struct Groups {
    words: Vec<Words>,
}

impl Groups {
    pub fn read(name: &str) -> Outcome<Groups> {
        let bytes = fs::read(name).map_err(|why| Fault::io(name, why))?;
        let text = String::from_utf8(bytes).map_err(|_| Fault::failed(name, "is no text"))?;
        Groups::parse(&text).map_err(|why| Fault::failed(name, why))
    }

    /// An error is its line and its reason in words.
    pub fn parse(text: &str) -> Result<Groups, String> {
        let mut words = Vec::new();
        for (at, line) in text.lines().enumerate() {
            let found = group(line).map_err(|why| format!("line {}: {why}", at + 1))?;
            words.extend(found);
        }
        if words.is_empty() {
            return Err("has no groups".into());
        }
        Ok(Groups { words })
    }

    pub fn words(&self) -> &[Words] {
        &self.words
    }
}

/// The group of a line, if there is one.
fn group(line: &str) -> Result<Option<Words>, String> {
    let before = line.split('#').next().unwrap_or_default();
    let found = before.split_whitespace().map(word);
    let found: Vec<u16> = found.collect::<Result<_, _>>()?;
    match found[..] {
        [] => Ok(None),
        [one, two, three, four] => formed([one, two, three, four]).map(Some),
        _ => Err(format!("a group has four words, not {}", found.len())),
    }
}

fn word(text: &str) -> Result<u16, String> {
    let digits = text.len() == 4 && text.bytes().all(|byte| byte.is_ascii_hexdigit());
    let number = u16::from_str_radix(text, 16).ok().filter(|_| digits);
    number.ok_or_else(|| format!("{text} is no word of four hexadecimal digits"))
}

/// The words, if the core forms a group of them. What it carries has no part in that.
fn formed(words: Words) -> Result<Words, String> {
    let formed = RdsFormer::new().group(words, &mut [0; GROUP_BITS]);
    formed
        .map(|()| words)
        .map_err(|why| format!("the core refused the group: {why}"))
}

#[cfg(test)]
mod tests {
    use super::*;

    fn refused(text: &str) -> String {
        Groups::parse(text).unwrap_err()
    }

    #[test]
    fn groups_stand_one_a_line() {
        let text = "# name\n\nD318 0408 e0cd 5065\n  \t0001\t0800  0001 ffff # version B\r\n#";
        let groups = Groups::parse(text).unwrap();
        assert_eq!(
            groups.words(),
            [[0xD318, 0x0408, 0xE0CD, 0x5065], [1, 0x0800, 1, 0xFFFF]]
        );
        let last = Groups::parse("0000 0000 0000 000A").unwrap();
        assert_eq!(last.words(), [[0, 0, 0, 10]]);
    }

    #[test]
    fn a_wrong_line_is_named() {
        let good = "0000 0000 0000 0000\n# comment\n\n";
        for (line, reason) in [
            ("0000", "a group has four words, not 1"),
            ("0000 0000 0000", "a group has four words, not 3"),
            ("0000 0000 # 0000 0000", "a group has four words, not 2"),
            ("0 0 0 0", "0 is no word"),
            ("0000 0000 0000 0000 0000", "a group has four words, not 5"),
            ("0000 0000 00G0 0000", "00G0 is no word of four hexadecimal"),
            ("0000 +123 0000 0000", "+123 is no word"),
            ("0000 12345 0000 0000", "12345 is no word"),
            ("0x00 0000 0000 0000", "0x00 is no word"),
            ("0000 0000 0000 000é", "000é is no word"),
            ("0000,0000,0000,0000", "0000,0000,0000,0000 is no word"),
        ] {
            let said = refused(&format!("{good}{line}\nnonsense\n"));
            assert!(said.starts_with(&format!("line 4: {reason}")), "{said}");
        }
    }

    #[test]
    fn a_group_that_the_core_refuses_is_named() {
        let said = refused("0001 0800 0001 0000\n\n0001 0800 0002 0000\n");
        assert!(
            said.starts_with("line 3: the core refused the group: cause 19: word three"),
            "{said}"
        );
    }

    #[test]
    fn a_file_without_groups_is_refused() {
        for text in ["", "\n\n", "# 0000 0000 0000 0000\n"] {
            assert_eq!(refused(text), "has no groups");
        }
    }
}
