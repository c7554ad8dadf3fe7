//! The lamp's history as a picture: the level with both thresholds, and the lamp below it.

mod scale;

use crate::history::Period;
use crate::log::lamp;
use crate::svg::{Canvas, Style};
use scale::{Scale, ticks};

/// What the picture shows.
pub struct Plot<'a> {
    pub title: &'a str,
    pub subtitle: &'a str,
    pub rate: f64,
    pub periods: &'a [Period],
    pub on: f64,
    pub off: f64,
}

const WIDTH: f64 = 1120.0;
const HEIGHT: f64 = 500.0;
const LEFT: f64 = 92.0;
const RIGHT: f64 = 1012.0;
const TOP: f64 = 104.0;
const BOTTOM: f64 = 364.0;
const STRIP: f64 = 382.0;
const STRIP_HEIGHT: f64 = 34.0;
const STRIP_END: f64 = STRIP + STRIP_HEIGHT;

const INK: &str = "#1f2933";
const FAINT: &str = "#52606d";
const GRID: &str = "#e4e7eb";
const LEVEL: &str = "#1d4ed8";
const ON: &str = "#15803d";
const OFF: &str = "#c2410c";
const BAD: &str = "#dc2626";
const NAN: &str = "#a21caf";
const STEREO: &str = "#16a34a";
const MONO: &str = "#cbd2d9";
const FLICKER: &str = "#f59e0b";

impl Plot<'_> {
    pub fn draw(&self) -> String {
        let scale = Scale::new(self);
        let mut canvas = Canvas::new(WIDTH, HEIGHT);
        canvas.text(LEFT, 38.0, self.title, Style::new(INK).size(21.0).bold());
        canvas.text(LEFT, 62.0, self.subtitle, Style::new(FAINT).size(14.0));
        self.legend(&mut canvas);
        level_axis(&mut canvas, &scale);
        time_axis(&mut canvas, &scale);
        self.bad_periods(&mut canvas, &scale);
        self.thresholds(&mut canvas, &scale);
        self.levels(&mut canvas, &scale);
        self.lamp(&mut canvas, &scale);
        canvas.frame(LEFT, TOP, RIGHT - LEFT, BOTTOM - TOP, FAINT);
        canvas.finish()
    }

    /// Names what is to be seen, and only that.
    fn legend(&self, canvas: &mut Canvas) {
        let any = |test: fn(&Period) -> bool| self.periods.iter().any(test);
        let entries = [
            (true, LEVEL, 0.85, "level, least to highest in a period"),
            (any(bad), BAD, 0.4, "NaN or infinity in the capture"),
            (any(|p| p.level_nan), NAN, 1.0, "the level is NaN"),
            (any(flickers), FLICKER, 1.0, "lamp changed more than once"),
        ];
        let mut x = LEFT;
        for (_, colour, opacity, text) in entries.iter().filter(|entry| entry.0) {
            canvas.rect(x, TOP - 24.0, 18.0, 11.0, colour, *opacity);
            canvas.text(x + 25.0, TOP - 14.0, text, Style::new(INK).size(13.5));
            x += 52.0 + 6.9 * text.len() as f64;
        }
    }

    /// Each stretch of periods for which `test` holds, as places from left to right.
    fn stretches(&self, scale: &Scale, test: impl Fn(&Period) -> bool) -> Vec<(f64, f64)> {
        let runs = self.periods.chunk_by(|one, other| test(one) == test(other));
        let found = runs.filter(|run| test(&run[0]));
        let ends = found.filter_map(|run| Some((run.first()?, run.last()?)));
        ends.map(|(a, b)| (scale.x(a.start), scale.x(b.start + b.samples)))
            .collect()
    }

    fn bad_periods(&self, canvas: &mut Canvas, scale: &Scale) {
        for (from, to) in self.stretches(scale, bad) {
            let width = (to - from).max(3.0);
            canvas.rect(from, TOP, width, STRIP - TOP - 4.0, BAD, 0.4);
        }
        for (from, to) in self.stretches(scale, |p| p.level_nan) {
            canvas.rect(from, TOP, (to - from).max(3.0), 9.0, NAN, 1.0);
        }
    }

    fn thresholds(&self, canvas: &mut Canvas, scale: &Scale) {
        for (level, name, colour, down) in [(self.on, "on", ON, -2.0), (self.off, "off", OFF, 12.0)]
        {
            let y = scale.y(level);
            canvas.dashed(LEFT, y, RIGHT, y, colour);
            let label = format!("{name} {level:.4}");
            canvas.text(
                RIGHT + 8.0,
                y + down,
                &label,
                Style::new(colour).size(13.5).bold(),
            );
        }
    }

    /// A band from least to highest for each stretch that has levels.
    fn levels(&self, canvas: &mut Canvas, scale: &Scale) {
        let middle = |p: &Period| scale.x(p.start) / 2.0 + scale.x(p.start + p.samples) / 2.0;
        for run in self
            .periods
            .chunk_by(|one, other| one.has_level() == other.has_level())
        {
            if !run[0].has_level() {
                continue;
            }
            let upper = run.iter().map(|p| (middle(p), scale.y(p.highest)));
            let lower = run.iter().rev().map(|p| (middle(p), scale.y(p.least)));
            canvas.band(&upper.chain(lower).collect::<Vec<_>>(), LEVEL);
        }
    }

    fn lamp(&self, canvas: &mut Canvas, scale: &Scale) {
        let base = STRIP + STRIP_HEIGHT / 2.0 + 5.0;
        canvas.text(LEFT - 12.0, base, "lamp", Style::new(INK).size(14.0).end());
        for stereo in [false, true] {
            let (colour, ink) = if stereo {
                (STEREO, "#ffffff")
            } else {
                (MONO, INK)
            };
            for (from, to) in self.stretches(scale, |p| p.stereo == stereo) {
                canvas.rect(from, STRIP, to - from, STRIP_HEIGHT, colour, 1.0);
                if to - from > 56.0 {
                    let style = Style::new(ink).size(14.0).bold().middle();
                    canvas.text((from + to) / 2.0, base, lamp(stereo), style);
                }
            }
        }
        for (from, to) in self.stretches(scale, flickers) {
            canvas.rect(
                from,
                STRIP,
                (to - from).max(2.0),
                STRIP_HEIGHT,
                FLICKER,
                1.0,
            );
        }
    }
}

fn bad(period: &Period) -> bool {
    period.bad + period.bad_pilot > 0
}

fn flickers(period: &Period) -> bool {
    period.changes > 1
}

fn level_axis(canvas: &mut Canvas, scale: &Scale) {
    for level in ticks(scale.low, scale.top, 6.0) {
        let y = scale.y(level.0);
        canvas.line(LEFT, y, RIGHT, y, GRID);
        canvas.text(
            LEFT - 10.0,
            y + 4.5,
            &level.1,
            Style::new(FAINT).size(13.5).end(),
        );
    }
    let middle = (TOP + BOTTOM) / 2.0;
    let style = Style::new(INK).size(14.0).middle();
    canvas.text_up(26.0, middle, "level (half the pilot's amplitude)", style);
}

fn time_axis(canvas: &mut Canvas, scale: &Scale) {
    for (seconds, label) in ticks(0.0, scale.end, 12.0) {
        let x = scale.x_at(seconds);
        canvas.line(x, TOP, x, BOTTOM, GRID);
        canvas.line(x, STRIP_END, x, STRIP_END + 6.0, FAINT);
        canvas.text(
            x,
            STRIP_END + 22.0,
            &label,
            Style::new(FAINT).size(13.5).middle(),
        );
    }
    let style = Style::new(INK).size(14.0).middle();
    canvas.text(
        (LEFT + RIGHT) / 2.0,
        STRIP_END + 50.0,
        "time in seconds",
        style,
    );
}

#[cfg(test)]
mod tests {
    use super::*;
    use crate::svg::tests::well_formed;

    fn period(i: u64, level: f64, stereo: bool) -> Period {
        Period {
            start: i * 100,
            samples: 100,
            least: level,
            highest: level * 1.1,
            stereo,
            changes: 0,
            bad: 0,
            bad_pilot: 0,
            level_nan: false,
            offset_hz: 0.0,
        }
    }

    fn drawn(periods: &[Period]) -> String {
        let (title, subtitle) = ("a <b> & \"c\"", "f32\u{7}");
        Plot {
            title,
            subtitle,
            rate: 1_000.0,
            periods,
            on: 0.02,
            off: 0.015,
        }
        .draw()
    }

    /// In attributes; the legend has the words.
    fn all_numbers_are_finite(text: &str) {
        let mut attributes = text.split('"').skip(1).step_by(2);
        let odd = |value: &&str| value.contains("NaN") || value.contains("inf");
        assert_eq!(attributes.find(odd), None);
    }

    #[test]
    fn every_kind_of_period_is_drawn_and_the_text_is_well_formed() {
        let mut periods: Vec<Period> = (0..50).map(|i| period(i, 0.04, i > 10)).collect();
        periods[20].bad_pilot = 7;
        periods[30] = Period {
            least: 1.0,
            highest: -1.0,
            level_nan: true,
            ..periods[30]
        };
        periods[40].changes = 3;
        let text = drawn(&periods);
        well_formed(&text);
        assert!(text.contains("a &lt;b&gt; &amp; &quot;c&quot;"));
        for colour in [LEVEL, ON, OFF, BAD, NAN, STEREO, MONO, FLICKER] {
            assert!(text.contains(colour), "{colour}");
        }
        for word in [
            "on 0.0200",
            "off 0.0150",
            "time in seconds",
            ">stereo<",
            ">mono<",
        ] {
            assert!(text.contains(word), "{word}");
        }
        all_numbers_are_finite(&text);
        // each once in the legend and once where it was
        for mark in [BAD, NAN, FLICKER] {
            assert_eq!(text.matches(mark).count(), 2, "{mark}");
        }
        // the NaN parts the level in two
        assert_eq!(text.matches("<path").count(), 2);
    }

    #[test]
    fn a_clean_plot_names_nothing_else() {
        let text = drawn(&[period(0, 0.04, true), period(1, 0.045, true)]);
        well_formed(&text);
        assert!(!text.contains(BAD) && !text.contains(NAN) && !text.contains(FLICKER));
    }

    #[test]
    fn odd_levels_do_not_break_it() {
        for level in [f64::INFINITY, -1e30, 0.0, 1e-30, 3e38] {
            let text = drawn(&[period(0, 0.01, false), period(1, level, false)]);
            well_formed(&text);
            all_numbers_are_finite(&text);
        }
        well_formed(&drawn(&[]));
    }
}
