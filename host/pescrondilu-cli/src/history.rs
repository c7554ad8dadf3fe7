//! The lamp's history: one line a period, bounded for the plot, and what the report wants.

use crate::receiver::Sight;

/// A stretch of time.
#[derive(Clone, Copy, Debug, PartialEq)]
pub struct Period {
    /// First sample.
    pub start: u64,
    pub samples: u64,
    /// Of the levels that are numbers; above `highest` where none was.
    pub least: f64,
    pub highest: f64,
    /// The lamp at the end.
    pub stereo: bool,
    /// Of the lamp, as it was seen after each block.
    pub changes: u64,
    /// Capture samples that are NaN or infinite.
    pub bad: u64,
    /// Pilot samples that are.
    pub bad_pilot: u64,
    /// Whether the level was NaN at some time.
    pub level_nan: bool,
    /// At the end.
    pub offset_hz: f64,
}

impl Period {
    fn begin(start: u64) -> Period {
        Period {
            start,
            samples: 0,
            least: f64::INFINITY,
            highest: f64::NEG_INFINITY,
            stereo: false,
            changes: 0,
            bad: 0,
            bad_pilot: 0,
            level_nan: false,
            offset_hz: 0.0,
        }
    }

    fn add(&mut self, sight: &Sight, changed: bool) {
        self.samples += sight.samples as u64;
        if sight.level.is_nan() {
            self.level_nan = true;
        } else {
            self.least = self.least.min(sight.level);
            self.highest = self.highest.max(sight.level);
        }
        self.stereo = sight.stereo;
        self.changes += u64::from(changed);
        self.bad += sight.bad as u64;
        self.bad_pilot += sight.bad_pilot as u64;
        self.offset_hz = sight.offset_hz;
    }

    /// This and the next as one.
    fn joined(&self, next: &Period) -> Period {
        Period {
            start: self.start,
            samples: self.samples + next.samples,
            least: self.least.min(next.least),
            highest: self.highest.max(next.highest),
            changes: self.changes + next.changes,
            bad: self.bad + next.bad,
            bad_pilot: self.bad_pilot + next.bad_pilot,
            level_nan: self.level_nan || next.level_nan,
            ..*next
        }
    }

    pub fn has_level(&self) -> bool {
        self.least <= self.highest
    }
}

/// A change of the lamp.
#[derive(Clone, Copy, Debug, PartialEq)]
pub struct Change {
    /// The sample after the block in which it was seen.
    pub at: u64,
    pub stereo: bool,
    pub level: f64,
}

/// How many changes are kept with their times.
pub const MOST_CHANGES: usize = 40;
/// How many periods are kept; where there are more, neighbours are joined.
pub const MOST_PERIODS: usize = 4096;

pub struct History {
    /// Samples of a period.
    length: u64,
    now: Period,
    periods: Vec<Period>,
    /// How many periods stand joined in each of `periods`.
    joined: u64,
    /// The periods that wait until there are `joined` of them.
    pending: Option<(u64, Period)>,
    changes: Vec<Change>,
    totals: Totals,
}

/// Over the whole capture.
#[derive(Clone, Copy, Debug, Default)]
pub struct Totals {
    pub samples: u64,
    pub stereo_samples: u64,
    pub changes: u64,
    pub bad: u64,
    pub bad_pilot: u64,
    /// The last pilot sample that is NaN or infinite.
    pub last_bad_pilot: Option<u64>,
    /// Phase corrections that left the quick path.
    pub wide: u64,
    /// Highest level; 0 where there was none above.
    pub highest: f64,
    /// The lamp and the level at the end.
    pub stereo: bool,
    pub level: f64,
    /// When the level became NaN for good.
    pub nan_since: Option<u64>,
}

impl Totals {
    fn add(&mut self, sight: &Sight, changed: bool) {
        let before = self.samples;
        self.samples += sight.samples as u64;
        self.stereo_samples += if sight.stereo {
            sight.samples as u64
        } else {
            0
        };
        self.changes += u64::from(changed);
        self.bad += sight.bad as u64;
        self.bad_pilot += sight.bad_pilot as u64;
        let last = sight.last_bad_pilot.map(|at| before + at as u64);
        self.last_bad_pilot = last.or(self.last_bad_pilot);
        self.wide += sight.wide as u64;
        // `max` passes over a NaN
        self.highest = self.highest.max(sight.level);
        self.nan_since = self
            .nan_since
            .or(Some(before))
            .filter(|_| sight.level.is_nan());
        self.stereo = sight.stereo;
        self.level = sight.level;
    }
}

impl History {
    /// With periods of this many samples.
    pub fn new(length: u64) -> History {
        History {
            length,
            now: Period::begin(0),
            periods: Vec::new(),
            joined: 1,
            pending: None,
            changes: Vec::new(),
            totals: Totals::default(),
        }
    }

    /// Takes what was seen after a block; gives the period that it ended.
    pub fn see(&mut self, sight: Sight) -> Option<Period> {
        let changed = sight.stereo != self.totals.stereo;
        self.totals.add(&sight, changed);
        self.now.add(&sight, changed);
        if changed && self.changes.len() < MOST_CHANGES {
            let (at, stereo, level) = (self.totals.samples, sight.stereo, sight.level);
            self.changes.push(Change { at, stereo, level });
        }
        (self.now.samples >= self.length).then(|| self.end_period())
    }

    /// The last period, which may be short.
    pub fn finish(&mut self) -> Option<Period> {
        let last = (self.now.samples > 0).then(|| self.end_period());
        if let Some((_, waiting)) = self.pending.take() {
            self.periods.push(waiting);
        }
        last
    }

    fn end_period(&mut self) -> Period {
        let ended = std::mem::replace(&mut self.now, Period::begin(self.totals.samples));
        let (count, sum) = match self.pending.take() {
            Some((count, waiting)) => (count + 1, waiting.joined(&ended)),
            None => (1, ended),
        };
        if count < self.joined {
            self.pending = Some((count, sum));
        } else {
            self.periods.push(sum);
            self.thin_out();
        }
        ended
    }

    fn thin_out(&mut self) {
        if self.periods.len() >= MOST_PERIODS {
            let pairs = self.periods.chunks_exact(2);
            self.periods = pairs.map(|two| two[0].joined(&two[1])).collect();
            self.joined *= 2;
        }
    }

    pub fn periods(&self) -> &[Period] {
        &self.periods
    }

    /// Samples of each of `periods` but the last.
    pub fn period_samples(&self) -> u64 {
        self.length * self.joined
    }

    pub fn changes(&self) -> &[Change] {
        &self.changes
    }

    pub fn totals(&self) -> &Totals {
        &self.totals
    }

    /// The pilot as it mostly was: the middle value of level and offset over the periods that were
    /// stereo throughout.
    pub fn pilot(&self) -> Option<(f64, f64)> {
        let steady = |p: &&Period| p.stereo && p.changes == 0 && p.has_level() && !p.level_nan;
        let steady: Vec<&Period> = self.periods.iter().filter(steady).collect();
        let level = middle(steady.iter().map(|p| (p.least + p.highest) / 2.0).collect())?;
        let offset = middle(steady.iter().map(|p| p.offset_hz).collect())?;
        Some((level, offset))
    }
}

fn middle(mut values: Vec<f64>) -> Option<f64> {
    values.sort_by(f64::total_cmp);
    values.get(values.len() / 2).copied()
}

#[cfg(test)]
mod tests {
    use super::*;

    fn sight(level: f64, stereo: bool, bad: usize) -> Sight {
        Sight {
            samples: 10,
            level,
            offset_hz: level * 10.0,
            stereo,
            bad,
            bad_pilot: 2 * bad,
            last_bad_pilot: (bad > 0).then_some(7),
            wide: bad / 2,
            figures: None,
        }
    }

    #[test]
    fn a_period_has_its_extremes_changes_and_counts() {
        let mut history = History::new(30);
        assert_eq!(history.see(sight(0.01, false, 0)), None);
        assert_eq!(history.see(sight(0.03, true, 4)), None);
        let period = history.see(sight(0.02, true, 0)).unwrap();
        assert_eq!((period.start, period.samples), (0, 30));
        assert_eq!(
            (period.least, period.highest, period.offset_hz),
            (0.01, 0.03, 0.2)
        );
        assert_eq!((period.stereo, period.changes), (true, 1));
        assert_eq!((period.bad, period.bad_pilot), (4, 8));
        history.see(sight(0.0, false, 0));
        let last = history.finish().unwrap();
        assert_eq!((last.start, last.samples, last.stereo), (30, 10, false));
        let changes: Vec<(u64, bool)> =
            history.changes().iter().map(|c| (c.at, c.stereo)).collect();
        assert_eq!(changes, [(20, true), (40, false)]);
        let totals = history.totals();
        assert_eq!(
            (totals.samples, totals.stereo_samples, totals.changes),
            (40, 20, 2)
        );
        assert_eq!((totals.highest, totals.bad, totals.wide), (0.03, 4, 2));
        assert_eq!(history.finish(), None);
    }

    #[test]
    fn the_history_stays_bounded_and_loses_nothing() {
        let mut history = History::new(10);
        let n = 3 * MOST_PERIODS as u64 + 77;
        for i in 0..n {
            history.see(sight(i as f64, i % 2 == 0, usize::from(i == 5_000)));
        }
        history.finish();
        let periods = history.periods();
        assert!(periods.len() <= MOST_PERIODS);
        assert_eq!(periods.iter().map(|p| p.samples).sum::<u64>(), 10 * n);
        assert_eq!(periods.iter().map(|p| p.changes).sum::<u64>(), n);
        assert_eq!(periods.iter().map(|p| p.bad).sum::<u64>(), 1);
        assert!(
            periods
                .windows(2)
                .all(|two| two[0].start + two[0].samples == two[1].start)
        );
        let even = periods.split_last().unwrap().1;
        assert!(even.iter().all(|p| p.samples == history.period_samples()));
        assert_eq!(periods[0].least, 0.0);
        assert_eq!(periods.last().unwrap().highest, (n - 1) as f64);
        assert_eq!(history.changes().len(), MOST_CHANGES);
        assert_eq!(history.totals().changes, n);
    }

    #[test]
    fn the_last_bad_pilot_sample_is_dated() {
        let mut history = History::new(20);
        for (bad, last) in [(0, None), (3, Some(17)), (0, Some(17)), (1, Some(37))] {
            history.see(sight(0.03, true, bad));
            assert_eq!(history.totals().last_bad_pilot, last);
        }
    }

    #[test]
    fn a_nan_level_is_told_and_dated() {
        let mut history = History::new(20);
        for level in [0.03, f64::NAN, 0.03, f64::NAN, f64::NAN] {
            history.see(sight(level, true, 0));
        }
        history.finish();
        assert_eq!(history.totals().nan_since, Some(30));
        assert_eq!(history.totals().highest, 0.03);
        let flags: Vec<bool> = history.periods().iter().map(|p| p.level_nan).collect();
        assert_eq!(flags, [true, true, true]);
        assert!(!history.periods()[2].has_level());
        assert_eq!(history.pilot(), None);
    }

    #[test]
    fn the_pilot_is_the_middle_of_steady_periods() {
        let mut history = History::new(10);
        for level in [0.0, 0.045, 0.045, 0.046, 0.02] {
            history.see(sight(level, level > 0.0, 0));
        }
        history.finish();
        let (level, offset) = history.pilot().unwrap();
        assert_eq!(level, 0.045);
        assert!((offset - 0.45).abs() < 1e-12);
    }
}
