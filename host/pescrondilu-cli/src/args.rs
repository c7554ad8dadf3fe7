//! The words of the command line: options with one value each, and the rest.

use std::ops::RangeInclusive;

use crate::fault::{Fault, Outcome};

#[derive(Debug, Default)]
pub struct Args {
    words: Vec<String>,
    options: Vec<(String, String)>,
}

impl Args {
    /// `--name value` and `--name=value` are options, `-` is a word, and so is all after `--`.
    pub fn parse(known: &[&str], given: &[String]) -> Outcome<Args> {
        let mut args = Args::default();
        let mut rest = given.iter();
        while let Some(word) = rest.next() {
            if word == "--" {
                args.words.extend(rest.cloned());
                break;
            }
            if word == "-" || !word.starts_with('-') {
                args.words.push(word.clone());
                continue;
            }
            let (name, value) = match word.split_once('=') {
                Some((name, value)) => (name, Some(value.to_string())),
                None => (word.as_str(), None),
            };
            if !known.contains(&name) {
                return Err(Fault::usage(unknown(name, known)));
            }
            let value = value
                .or_else(|| rest.next().cloned())
                .ok_or_else(|| Fault::usage(format!("{name} wants a value")))?;
            args.options.push((name.to_string(), value));
        }
        Ok(args)
    }

    pub fn words(&self) -> &[String] {
        &self.words
    }

    /// The option's value; the last one where it is given twice.
    pub fn text(&self, name: &str) -> Option<&str> {
        let given = self.options.iter().rev().find(|option| option.0 == name);
        given.map(|option| option.1.as_str())
    }

    /// A finite number.
    pub fn number(&self, name: &str) -> Outcome<Option<f64>> {
        let Some(text) = self.text(name) else {
            return Ok(None);
        };
        match text.parse::<f64>() {
            Ok(value) if value.is_finite() => Ok(Some(value)),
            _ => Err(Fault::usage(format!("{name}: {text} is no number"))),
        }
    }

    /// A number in `range`, or `default` where none is given.
    pub fn within(&self, name: &str, default: f64, range: RangeInclusive<f64>) -> Outcome<f64> {
        let value = self.number(name)?.unwrap_or(default);
        if range.contains(&value) {
            return Ok(value);
        }
        let (least, most) = (range.start(), range.end());
        Err(Fault::usage(format!(
            "{name} wants a number from {least} to {most}, not {value}"
        )))
    }

    /// One of `choices`, the first where none is given.
    pub fn choice<T: Copy>(&self, name: &str, choices: &[(&str, T)]) -> Outcome<T> {
        let Some(text) = self.text(name) else {
            return Ok(choices[0].1);
        };
        let found = choices.iter().find(|choice| choice.0 == text);
        found.map(|choice| choice.1).ok_or_else(|| {
            let names: Vec<&str> = choices.iter().map(|choice| choice.0).collect();
            Fault::usage(format!("{name}: {text} is none of {}", names.join(", ")))
        })
    }
}

/// Says which known option begins alike, if one does.
fn unknown(name: &str, known: &[&str]) -> String {
    let begins = |option: &&&str| {
        let n = name.len().min(4);
        name.len() > 2 && option.as_bytes().starts_with(&name.as_bytes()[..n])
    };
    match known.iter().find(begins) {
        Some(like) => format!("unknown option {name}; is {like} meant?"),
        None => format!("unknown option {name}"),
    }
}

#[cfg(test)]
mod tests {
    use super::*;

    fn parse(line: &str) -> Outcome<Args> {
        let words: Vec<String> = line.split_whitespace().map(String::from).collect();
        Args::parse(&["-o", "--rate", "--deemphasis"], &words)
    }

    #[test]
    fn options_and_words_stand_in_any_order() {
        let args = parse("a.wav --rate 192000 - -o=b.wav -- -o").unwrap();
        assert_eq!(args.words(), ["a.wav", "-", "-o"]);
        assert_eq!(args.number("--rate").unwrap(), Some(192_000.0));
        assert_eq!(args.text("-o"), Some("b.wav"));
        assert_eq!(args.text("--deemphasis"), None);
    }

    #[test]
    fn the_last_of_two_wins_and_a_value_may_be_negative() {
        let args = parse("--rate 1 --rate -2.5").unwrap();
        assert_eq!(args.number("--rate").unwrap(), Some(-2.5));
    }

    #[test]
    fn wrong_words_are_named() {
        let said = |line: &str| parse(line).unwrap_err().text().to_string();
        assert_eq!(said("--nonsense 1"), "unknown option --nonsense");
        assert_eq!(
            said("--demphasis 1"),
            "unknown option --demphasis; is --deemphasis meant?"
        );
        assert_eq!(said("a.wav --rate"), "--rate wants a value");
        assert_eq!(said("--é 1"), "unknown option --é");
    }

    #[test]
    fn numbers_are_finite_and_in_range() {
        for text in ["ten", "nan", "inf", "1e999", ""] {
            let args = parse(&format!("--rate={text}")).unwrap();
            assert!(
                matches!(args.number("--rate"), Err(Fault::Usage(_))),
                "{text}"
            );
        }
        let args = parse("--rate 5").unwrap();
        assert_eq!(args.within("--rate", 1.0, 0.0..=5.0).unwrap(), 5.0);
        assert_eq!(args.within("-o", 2.0, 0.0..=5.0).unwrap(), 2.0);
        let said = args.within("--rate", 1.0, 5.1..=9.0).unwrap_err();
        assert_eq!(said.text(), "--rate wants a number from 5.1 to 9, not 5");
    }

    #[test]
    fn a_choice_is_one_of_its_names() {
        let choices = [("50", 5), ("75", 7)];
        assert_eq!(parse("").unwrap().choice("--rate", &choices).unwrap(), 5);
        assert_eq!(
            parse("--rate 75")
                .unwrap()
                .choice("--rate", &choices)
                .unwrap(),
            7
        );
        let wrong = parse("--rate 60")
            .unwrap()
            .choice("--rate", &choices)
            .unwrap_err();
        assert_eq!(wrong.text(), "--rate: 60 is none of 50, 75");
    }
}
