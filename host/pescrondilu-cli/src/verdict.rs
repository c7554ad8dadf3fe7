//! A pilot in words, with the core's on-air verdict.

use pescrondilu::kernels::stereo::on_air;

use crate::receiver::PILOT_HZ;

/// The pilot of BS.450, in the middle of its range.
pub const USUAL_AMPLITUDE: f64 = 0.09;
/// BS.450's ranges, as the core's verdict has them.
const FREQUENCIES: &str = "18998 to 19002 Hz";
const AMPLITUDES: &str = "0.08 to 0.1";

/// Whether the core's verdict has nothing against the frequency, and against the amplitude: each is
/// asked for beside a good value of the other.
fn frequency_good(frequency: f64) -> bool {
    on_air(frequency, USUAL_AMPLITUDE as f32)
}

fn amplitude_good(amplitude: f64) -> bool {
    on_air(PILOT_HZ, amplitude as f32)
}

/// A pilot, its frequency with so many decimals, and the core's verdict with the range that it is
/// out of.
pub fn pilot_words(frequency: f64, decimals: usize, amplitude: f64) -> String {
    let verdict = match (frequency_good(frequency), amplitude_good(amplitude)) {
        (true, true) => format!("within BS.450 ({FREQUENCIES}, {AMPLITUDES})"),
        (false, true) => format!("outside BS.450 ({FREQUENCIES})"),
        (true, false) => format!("outside BS.450 ({AMPLITUDES} of full deviation)"),
        (false, false) => format!("outside BS.450 ({FREQUENCIES}, {AMPLITUDES})"),
    };
    let frequency = with_verdict(frequency, decimals, frequency_good);
    let amplitude = match amplitude.abs() < 1e4 {
        true => with_verdict(amplitude, 4, amplitude_good),
        false => number(amplitude),
    };
    format!("{frequency} Hz, amplitude {amplitude}: {verdict}")
}

/// With so many decimals, or with more where the rounded number would have another verdict.
fn with_verdict(value: f64, decimals: usize, good: fn(f64) -> bool) -> String {
    let texts = (decimals..=12).map(|places| format!("{value:.places$}"));
    let mut same = texts.filter(|text| text.parse().map(good) == Ok(good(value)));
    same.next().unwrap_or_else(|| value.to_string())
}

/// A level or an amplitude. A capture of floats may hold anything.
pub fn number(value: f64) -> String {
    if value.abs() < 1e4 {
        format!("{value:.4}")
    } else {
        format!("{value:.3e}")
    }
}

#[cfg(test)]
mod tests {
    use super::*;

    #[test]
    fn the_verdict_says_which_range_is_left() {
        let within = "within BS.450 (18998 to 19002 Hz, 0.08 to 0.1)";
        let frequency = "outside BS.450 (18998 to 19002 Hz)";
        let amplitude = "outside BS.450 (0.08 to 0.1 of full deviation)";
        let both = "outside BS.450 (18998 to 19002 Hz, 0.08 to 0.1)";
        for (hz, size, begin, verdict) in [
            (19_000.0, 0.09, "19000.0 Hz, amplitude 0.0900", within),
            (18_998.0, 0.08, "18998.0 Hz, amplitude 0.0800", within),
            (18_500.0, 0.09, "18500.0 Hz, amplitude 0.0900", frequency),
            (19_001.96, 0.12, "19002.0 Hz, amplitude 0.1200", amplitude),
            (20_000.0, 1e5, "20000.0 Hz, amplitude 1.000e5", both),
        ] {
            assert_eq!(pilot_words(hz, 1, size), format!("{begin}: {verdict}"));
        }
    }

    #[test]
    fn a_number_is_not_written_with_another_verdict() {
        assert_eq!(with_verdict(19_002.003, 1, frequency_good), "19002.003");
        assert_eq!(with_verdict(18_997.96, 1, frequency_good), "18997.96");
        assert_eq!(with_verdict(0.100_004, 4, amplitude_good), "0.100004");
        assert_eq!(with_verdict(0.079_96, 4, amplitude_good), "0.07996");
        let next = 19_002.0_f64.next_up();
        assert_eq!(with_verdict(next, 1, frequency_good), "19002.000000000004");
        assert_eq!(with_verdict(f64::NAN, 1, frequency_good), "NaN");
    }
}
