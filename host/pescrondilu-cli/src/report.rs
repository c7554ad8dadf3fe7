//! What an engineer asks after a capture is decoded.

use std::fmt::Write;

use crate::history::{History, MOST_CHANGES, Totals};
use crate::log::lamp;
use crate::receiver::{INTEGRATOR_LIMIT_HZ, PILOT_HZ};
use crate::verdict::{USUAL_AMPLITUDE, number, pilot_words};

pub struct Report<'a> {
    /// The capture in words: its name, length, rate and encoding.
    pub capture: &'a str,
    /// The audio in words, where there is some.
    pub audio: Option<&'a str>,
    pub history: &'a History,
    pub rate: f64,
    pub on: f64,
    pub off: f64,
    /// Whether the core is Q15, which takes a NaN for 0.
    pub q15: bool,
    /// Frequency and amplitude of a tone near 19 kHz, where the lamp never lit.
    pub tone: Option<(f64, f64)>,
    /// What was odd about the file.
    pub complaint: Option<String>,
}

/// Where the offset is the integrator's limit.
const AT_LIMIT: &str = "the integrator stands at its limit, and the pilot may be further away";
/// A level below this is that of no pilot.
const NO_PILOT: f64 = 1e-4;

impl Report<'_> {
    pub fn text(&self) -> String {
        let mut lines = vec![self.capture.to_string()];
        let mut entry = |name: &str, words: String| lines.push(format!("  {name:<11}{words}"));
        if let Some(audio) = self.audio {
            entry("audio", audio.to_string());
        }
        entry("lamp", self.lamp());
        if self.history.totals().changes == 0 {
            entry("", self.never_lit());
        } else {
            entry("pilot", self.pilot());
        }
        entry("level", self.level());
        if let Some(words) = self.not_finite() {
            entry("not finite", words);
        }
        if let Some(words) = self.wide() {
            entry("loop", words);
        }
        if let Some(words) = &self.complaint {
            entry("file", words.clone());
        }
        lines.join("\n") + "\n"
    }

    fn seconds(&self, samples: u64) -> f64 {
        samples as f64 / self.rate
    }

    fn lamp(&self) -> String {
        let totals = self.history.totals();
        let (stereo, all) = (
            self.seconds(totals.stereo_samples),
            self.seconds(totals.samples),
        );
        let changes = totals.changes;
        let word = if changes == 1 { "change" } else { "changes" };
        let mut text = format!("stereo for {stereo:.3} s of {all:.3} s, {changes} {word}");
        for change in self.history.changes() {
            let (at, name) = (self.seconds(change.at), lamp(change.stereo));
            let level = number(change.level);
            let _ = write!(text, "\n{at:>22.3} s  {name:<6}  level {level}");
        }
        if changes > MOST_CHANGES as u64 {
            let more = changes - MOST_CHANGES as u64;
            let _ = write!(text, "\n{:>22} more changes, which --log counts", more);
        }
        text
    }

    /// Why, and what to set.
    fn never_lit(&self) -> String {
        let highest = self.history.totals().highest;
        let on = self.on;
        if let Some((frequency, amplitude)) = self.beyond_limit() {
            let words = pilot_words(frequency, 0, amplitude);
            return format!(
                "no pilot was found within {INTEGRATOR_LIMIT_HZ} Hz of 19 kHz, the limit of the loop's \
                 integrator.\n{:13}A tone stands at {words}",
                ""
            );
        }
        if highest < NO_PILOT {
            return format!("no pilot was found: the highest level is {highest:.4}");
        }
        let amplitude = 2.0 * highest;
        let gain = USUAL_AMPLITUDE / amplitude;
        let (level, gain) = (digits(amplitude.min(1.0)), digits(gain));
        format!(
            "the level never reached {on:.4}: its highest is {highest:.4}.\n{:13}\
             If this is stereo, the capture is scaled down: set --level {level}, or --gain {gain}",
            ""
        )
    }

    /// A tone further from 19 kHz than the integrator goes.
    fn beyond_limit(&self) -> Option<(f64, f64)> {
        let beside = |hz: f64| (hz - PILOT_HZ).abs();
        self.tone
            .filter(|(hz, amplitude)| beside(*hz) > INTEGRATOR_LIMIT_HZ && *amplitude > NO_PILOT)
    }

    fn pilot(&self) -> String {
        let Some((level, offset)) = self.history.pilot() else {
            return "no period was stereo throughout; a shorter --period may have some".into();
        };
        let words = pilot_words(PILOT_HZ + offset, 1, 2.0 * level);
        match offset.abs() < 0.999 * INTEGRATOR_LIMIT_HZ {
            true => words,
            false => format!("{words};\n{:13}{AT_LIMIT}", ""),
        }
    }

    fn level(&self) -> String {
        let totals = self.history.totals();
        let end = match totals.nan_since {
            Some(at) => self.level_lost(at),
            None => format!("{} at the end", number(totals.level)),
        };
        let (highest, on, off) = (number(totals.highest), self.on, self.off);
        format!("highest {highest}, {end}; stereo from {on:.4}, mono below {off:.4}")
    }

    fn level_lost(&self, at: u64) -> String {
        let (at, lamp) = (self.seconds(at), lamp(self.history.totals().stereo));
        format!("NaN since {at:.3} s: the decision ({lamp}) holds until a reset")
    }

    fn not_finite(&self) -> Option<String> {
        let totals = self.history.totals();
        if totals.bad == 0 && totals.bad_pilot == 0 {
            return None;
        }
        let capture = format!("{} samples of the capture", totals.bad);
        if self.q15 {
            return Some(format!(
                "{capture}; in Q15 a NaN is 0 and an infinity full scale"
            ));
        }
        let mut text = format!("{capture}, {} of the pilot", totals.bad_pilot);
        if let Some(at) = totals.last_bad_pilot {
            let _ = write!(text, ", the last at {:.3} s", self.seconds(at));
        }
        Some(text + "; they move neither level nor lamp")
    }

    /// There is one correction a sample, and with a pilot of ordinary size each takes the quick path.
    fn wide(&self) -> Option<String> {
        let Totals { wide, samples, .. } = *self.history.totals();
        let words = format!("{wide} of {samples} phase corrections left the quick path");
        (wide > 0).then_some(words)
    }
}

/// Three digits that count.
fn digits(value: f64) -> String {
    let places = (2.0 - value.abs().log10().floor()).clamp(0.0, 12.0);
    format!("{value:.*}", places as usize)
}

#[cfg(test)]
mod tests {
    use super::*;
    use crate::receiver::Sight;

    fn report(levels: &[(f64, bool)], bad: usize, q15: bool) -> String {
        with_tone(levels, bad, q15, None)
    }

    fn with_tone(
        levels: &[(f64, bool)],
        bad: usize,
        q15: bool,
        tone: Option<(f64, f64)>,
    ) -> String {
        let mut history = History::new(100);
        for &(level, stereo) in levels {
            let (samples, bad_pilot, wide) = (100, 3 * bad, bad / 5);
            let last_bad_pilot = (bad > 0).then_some(23);
            history.see(Sight {
                samples,
                level,
                offset_hz: 1.5,
                stereo,
                bad,
                bad_pilot,
                last_bad_pilot,
                wide,
                figures: None,
            });
        }
        history.finish();
        let (on, off, rate) = (0.02, 0.015, 1_000.0);
        let (audio, complaint) = (Some("audio.wav"), Some("torn".to_string()));
        let (capture, history) = ("capture.wav", &history);
        Report {
            capture,
            audio,
            history,
            rate,
            on,
            off,
            q15,
            tone,
            complaint,
        }
        .text()
    }

    #[test]
    fn a_good_capture() {
        let text = report(&[(0.01, false), (0.045, true), (0.045, true)], 0, false);
        for words in [
            "capture.wav\n",
            "audio      audio.wav",
            "stereo for 0.200 s of 0.300 s, 1 change\n",
            "0.200 s  stereo  level 0.0450",
            "19001.5 Hz, amplitude 0.0900: within BS.450 (18998 to 19002 Hz, 0.08 to 0.1)\n",
            "highest 0.0450, 0.0450 at the end",
            "file       torn",
        ] {
            assert!(text.contains(words), "{words} in\n{text}");
        }
        assert!(!text.contains("not finite") && !text.contains("quick path"));
    }

    #[test]
    fn a_capture_scaled_down_says_what_to_set() {
        let text = report(&[(0.0176, false)], 0, false);
        assert!(
            text.contains("never reached 0.0200: its highest is 0.0176"),
            "{text}"
        );
        assert!(text.contains("--level 0.0352, or --gain 2.56"), "{text}");
        let text = report(&[(0.000_01, false)], 0, false);
        assert!(
            text.contains("no pilot was found") && !text.contains("--level"),
            "{text}"
        );
    }

    #[test]
    fn what_is_not_finite_is_counted_and_the_last_dated() {
        let text = report(&[(0.03, true)], 5, false);
        let words = "  not finite 5 samples of the capture, 15 of the pilot, the last at 0.023 s; \
                     they move neither level nor lamp\n";
        assert!(text.contains(words), "{text}");
        let text = report(&[(0.03, true), (0.03, true)], 5, false);
        assert!(
            text.contains("30 of the pilot, the last at 0.123 s;"),
            "{text}"
        );
        let text = report(&[(0.03, true)], 5, true);
        assert!(
            text.contains("in Q15 a NaN is 0") && !text.contains("the last at"),
            "{text}"
        );
    }

    #[test]
    fn corrections_off_the_quick_path_are_counted() {
        let text = report(&[(0.03, true)], 5, false);
        let words = "  loop       1 of 100 phase corrections left the quick path\n";
        assert!(text.contains(words), "{text}");
        let text = report(&[(0.03, true), (0.03, true)], 500, false);
        assert!(text.contains(" 200 of 200 phase corrections"), "{text}");
        let text = report(&[(0.03, true)], 4, false);
        assert!(!text.contains("quick path"), "{text}");
    }

    #[test]
    fn a_nan_level_holds_the_decision() {
        let text = report(&[(0.03, true), (f64::NAN, true)], 0, false);
        assert!(text.contains("NaN since 0.100 s: the decision (stereo) holds until a reset"));
    }

    #[test]
    fn many_changes_are_counted_and_some_listed() {
        let many: Vec<(f64, bool)> = (0..100).map(|i| (0.02, i % 2 == 0)).collect();
        let text = report(&many, 0, false);
        assert!(text.contains("60 more changes"));
        assert_eq!(text.matches("  level 0.0200\n").count(), 40);
        assert!(text.contains("outside BS.450") || text.contains("no period was stereo"));
    }

    #[test]
    fn a_tone_beyond_the_limit_is_no_weak_pilot() {
        let text = with_tone(&[(0.0003, false)], 0, false, Some((18_500.2, 0.09)));
        let words =
            "A tone stands at 18500 Hz, amplitude 0.0900: outside BS.450 (18998 to 19002 Hz)\n";
        assert!(text.contains("within 50 Hz of 19 kHz"), "{text}");
        assert!(text.contains(words) && !text.contains("--gain"), "{text}");
        for tone in [(19_049.0, 0.03), (18_500.0, 0.000_01)] {
            let text = with_tone(&[(0.015, false)], 0, false, Some(tone));
            assert!(
                text.contains("--gain") && !text.contains("A tone"),
                "{text}"
            );
        }
    }

    #[test]
    fn three_digits_count() {
        let texts = [0.035_149, 2.5608, 25.608, 256.08, 25_608.0].map(digits);
        assert_eq!(texts, ["0.0351", "2.56", "25.6", "256", "25608"]);
    }
}
