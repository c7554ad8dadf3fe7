//! The lamp's history as CSV, written line by line so that a long capture needs no memory. Stereo
//! and mono samples, changes and the difference are those of the core's summary.

use crate::draft::Draft;
use crate::fault::Outcome;
use crate::figures::Figures;
use crate::history::Period;

pub struct Log {
    draft: Draft,
    rate: f64,
}

const COLUMNS: &str = "start_s,end_s,level_least,level_highest,lamp,changes,non_finite,\
                       non_finite_pilot,offset_hz,stereo_samples,mono_samples,difference_largest\n";

impl Log {
    pub fn create(name: &str, rate: f64) -> Outcome<Log> {
        let mut draft = Draft::create(name)?;
        draft.write(COLUMNS.as_bytes())?;
        Ok(Log { draft, rate })
    }

    pub fn write(&mut self, period: &Period, figures: &Figures) -> Outcome<()> {
        self.draft
            .write(line(period, figures, self.rate).as_bytes())
    }

    pub fn finish(self) -> Outcome<()> {
        self.draft.finish()
    }
}

pub fn lamp(stereo: bool) -> &'static str {
    if stereo { "stereo" } else { "mono" }
}

fn line(period: &Period, figures: &Figures, rate: f64) -> String {
    let seconds = |samples: u64| samples as f64 / rate;
    let level = |value: f64| match period.has_level() {
        true => format!("{value:.7}"),
        false => "NaN".to_string(),
    };
    format!(
        "{:.6},{:.6},{},{},{},{},{},{},{:.4},{},{},{:.7}\n",
        seconds(period.start),
        seconds(period.start + period.samples),
        level(period.least),
        level(period.highest),
        lamp(period.stereo),
        figures.changes,
        period.bad,
        period.bad_pilot,
        period.offset_hz,
        figures.stereo,
        figures.mono,
        figures.difference,
    )
}

#[cfg(test)]
mod tests {
    use super::*;

    const PERIOD: Period = Period {
        start: 19_200,
        samples: 19_200,
        least: 0.01,
        highest: 0.045,
        stereo: true,
        changes: 1,
        bad: 3,
        bad_pilot: 300,
        level_nan: false,
        offset_hz: -1.25,
    };

    const FIGURES: Figures = Figures {
        stereo: 19_000,
        mono: 200,
        changes: 3,
        difference: 0.75,
    };

    #[test]
    fn a_line_has_as_many_fields_as_the_head() {
        let text = line(&PERIOD, &FIGURES, 192_000.0);
        assert_eq!(
            text,
            "0.100000,0.200000,0.0100000,0.0450000,stereo,3,3,300,-1.2500,19000,200,0.7500000\n"
        );
        assert_eq!(text.split(',').count(), COLUMNS.split(',').count());
    }

    #[test]
    fn a_period_without_a_level_says_nan() {
        let least = f64::INFINITY;
        let none = Period {
            least,
            highest: f64::NEG_INFINITY,
            level_nan: true,
            ..PERIOD
        };
        assert!(line(&none, &FIGURES, 192_000.0).contains(",NaN,NaN,stereo,"));
    }

    #[test]
    fn an_infinite_difference_is_told() {
        let difference = f32::INFINITY;
        let figures = Figures {
            difference,
            ..FIGURES
        };
        assert!(line(&PERIOD, &figures, 192_000.0).ends_with(",19000,200,inf\n"));
    }
}
