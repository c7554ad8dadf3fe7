//! From time and level to places in the picture, and the round values on its axes.

use super::{BOTTOM, LEFT, Plot, RIGHT, TOP};

pub struct Scale {
    pub end: f64,
    pub top: f64,
    pub low: f64,
    rate: f64,
}

impl Scale {
    pub fn new(plot: &Plot) -> Scale {
        let last = plot.periods.last();
        let end = last.map_or(1.0, |p| (p.start + p.samples) as f64 / plot.rate);
        let levels = plot.periods.iter().filter(|p| p.has_level());
        let finite = levels
            .flat_map(|p| [p.least, p.highest])
            .filter(|level| level.is_finite());
        let (low, top) = finite.fold((0.0, 1.3 * plot.on), |(low, top): (f64, f64), level| {
            (low.min(level), top.max(level))
        });
        Scale {
            end,
            top: top + 0.06 * (top - low),
            low: 1.06 * low,
            rate: plot.rate,
        }
    }

    pub fn x(&self, sample: u64) -> f64 {
        self.x_at(sample as f64 / self.rate)
    }

    pub fn x_at(&self, seconds: f64) -> f64 {
        LEFT + (RIGHT - LEFT) * seconds / self.end
    }

    pub fn y(&self, level: f64) -> f64 {
        let part = (level - self.low) / (self.top - self.low);
        BOTTOM - (BOTTOM - TOP) * part.clamp(0.0, 1.0)
    }
}

/// Round values from `low` to `top`, about `parts` of them, with their text.
pub fn ticks(low: f64, top: f64, parts: f64) -> Vec<(f64, String)> {
    let rough = (top - low) / parts;
    let ten = 10f64.powf(rough.log10().floor());
    let steps = [1.0, 2.0, 5.0, 10.0];
    let step = ten
        * steps
            .into_iter()
            .find(|step| step * ten >= rough)
            .unwrap_or(10.0);
    let digits = (-(step.log10() + 1e-9).floor()).clamp(0.0, 12.0) as usize;
    let (first, last) = ((low / step).ceil() as i64, (top / step).floor() as i64);
    let value = |n: i64| n as f64 * step;
    // a bound on the number, should the values be so great that they are no longer apart
    let places = (first..=last).take(100);
    places
        .map(|n| (value(n), label(value(n), step, digits)))
        .collect()
}

fn label(value: f64, step: f64, digits: usize) -> String {
    if step < 1e6 {
        format!("{value:.digits$}")
    } else {
        format!("{value:.0e}")
    }
}

#[cfg(test)]
mod tests {
    use super::*;

    #[test]
    fn ticks_are_round() {
        let text = |low, top, parts| -> Vec<String> {
            ticks(low, top, parts)
                .into_iter()
                .map(|tick| tick.1)
                .collect()
        };
        assert_eq!(
            text(0.0, 0.05, 6.0),
            ["0.00", "0.01", "0.02", "0.03", "0.04", "0.05"]
        );
        assert_eq!(text(0.0, 12.0, 12.0).len(), 13);
        assert_eq!(text(0.0, 3_600.0, 12.0)[1], "500");
        assert_eq!(text(-0.5, 1.0, 3.0), ["-0.5", "0.0", "0.5", "1.0"]);
    }
}
