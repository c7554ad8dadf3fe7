//! A stereo receiver from the multiplex on: the pilot's band-pass, the proved loop with its matrix,
//! for a log also its summary, then the audio.

use pescrondilu::Rate;
use pescrondilu::kernels::stereo::{StereoPllState, scan};

use crate::audio::{AudioPath, Stereo};
use crate::fault::{Fault, Outcome};
use crate::figures::{Counter, Figures};
use crate::filter::design::{band_pass, gain};
use crate::filter::fir::Fir;
use crate::format::{Format, fill, fill_f32, fill_multiplex};
use crate::tone::Tone;

pub const PILOT_HZ: f64 = 19_000.0;
/// The limit of the core's integrator: a pilot further from 19 kHz leaves the loop with a phase
/// error, or without lock.
pub const INTEGRATOR_LIMIT_HZ: f64 = 50.0;
/// The band-pass stops from this far to either side: programme begins 4 kHz away.
const PILOT_REACH_HZ: f64 = 4_000.0;
/// Below this rate what the loop makes around 76 kHz would fold into the audio.
pub const LEAST_RATE: f64 = 110_000.0;
pub const HIGHEST_RATE: f64 = 4_000_000.0;

/// Settings of the loop and of what stands around it.
#[derive(Clone, Copy, Debug)]
pub struct Settings {
    pub rate: f64,
    /// The loop's natural frequency in hertz.
    pub natural: f64,
    /// The pilot's nominal amplitude.
    pub level: f64,
    /// The time constant in seconds.
    pub deemphasis: Option<f64>,
    /// Samples of one call of the core, after each of which the lamp is looked at.
    pub block: usize,
    /// Samples of a period of the log, a multiple of `block`. Where there is none, the core is not
    /// asked for figures, which takes less time.
    pub period: Option<u32>,
}

/// What is seen after each block.
#[derive(Clone, Copy, Debug)]
pub struct Sight {
    pub samples: usize,
    /// The lock level, half the pilot's amplitude.
    pub level: f64,
    /// The pilot's distance from 19 kHz.
    pub offset_hz: f64,
    pub stereo: bool,
    /// Capture samples that are NaN or infinite.
    pub bad: usize,
    /// Pilot samples that are; the core passes over them.
    pub bad_pilot: usize,
    /// The last of these, counted from the block's first sample.
    pub last_bad_pilot: Option<usize>,
    /// Phase corrections that left the quick path.
    pub wide: usize,
    /// Of the period of the log that this block ended.
    pub figures: Option<Figures>,
}

pub struct Receiver<T: Format> {
    settings: Settings,
    pll: StereoPllState<T>,
    counter: Option<Counter<T>>,
    band: Fir,
    /// Until the lamp lights.
    tone: Option<Tone>,
    /// The multiplex that waits for its pilot.
    waiting: Vec<f32>,
    audio: AudioPath,
    /// Samples that went through the loop. Blocks end at its multiples of `block`, however the
    /// capture comes in pieces.
    done: u64,
    work: Work<T>,
}

/// Room that each call uses again.
#[derive(Default)]
struct Work<T> {
    input: Vec<f32>,
    pilot: Vec<f32>,
    mpx: Vec<T>,
    pilot_t: Vec<T>,
    left: Vec<T>,
    right: Vec<T>,
}

impl<T: Format> Receiver<T> {
    /// An error is its reason in words.
    pub fn new(settings: Settings) -> Result<Receiver<T>, String> {
        let Settings {
            rate,
            natural,
            level,
            period,
            ..
        } = settings;
        if !(LEAST_RATE..=HIGHEST_RATE).contains(&rate) {
            let range = format!("{LEAST_RATE} to {HIGHEST_RATE} Hz");
            return Err(format!(
                "the rate is {rate} Hz; a multiplex is decoded at {range}"
            ));
        }
        let pll = Rate::from_f64(rate)
            .and_then(|rate| StereoPllState::new(PILOT_HZ, natural, level, rate))
            .map_err(|why| why.to_string())?;
        let counter = period.map(Counter::new).transpose();
        Ok(Receiver {
            settings,
            pll,
            counter: counter.map_err(|why| why.to_string())?,
            band: Fir::new(&band_pass(PILOT_HZ, PILOT_REACH_HZ, rate), 1),
            tone: Some(Tone::new(rate)),
            waiting: Vec::new(),
            audio: AudioPath::new(rate, settings.deemphasis),
            done: 0,
            work: Work::default(),
        })
    }

    pub fn decimation(&self) -> usize {
        self.audio.decimation()
    }

    /// The levels at which the lamp goes on and off.
    pub fn thresholds(&self) -> (f64, f64) {
        let coefficients = self.pll.coefficients();
        (coefficients.on, coefficients.off)
    }

    /// Frequency and amplitude of a tone near 19 kHz, where the lamp never lit.
    pub fn tone(&self) -> Option<(f64, f64)> {
        let (frequency, amplitude) = self.tone.as_ref()?.found()?;
        let rate = self.settings.rate;
        let taps = band_pass(PILOT_HZ, PILOT_REACH_HZ, rate);
        Some((frequency, amplitude / gain(&taps, frequency, rate)))
    }

    /// The figures of the log's last period, which has not ended.
    pub fn unfinished(&self) -> Option<Figures> {
        self.counter.as_ref().map(Counter::unfinished)
    }

    /// Takes a piece of the multiplex; tells `see` of each block and appends to `audio`.
    pub fn run(
        &mut self,
        mpx: &[f32],
        see: &mut dyn FnMut(Sight) -> Outcome<()>,
        audio: &mut Stereo,
    ) -> Outcome<()> {
        self.waiting.extend_from_slice(mpx);
        self.quantize(mpx);
        self.work.pilot.clear();
        self.band.run(&self.work.input, &mut self.work.pilot);
        self.decode(see)?;
        self.sides(false, audio);
        Ok(())
    }

    /// The last pieces, which the filters still hold.
    pub fn finish(
        &mut self,
        see: &mut dyn FnMut(Sight) -> Outcome<()>,
        audio: &mut Stereo,
    ) -> Outcome<()> {
        self.work.pilot.clear();
        self.band.finish(&mut self.work.pilot);
        self.decode(see)?;
        self.sides(true, audio);
        Ok(())
    }

    /// The band-pass sees the samples of the format: in Q15 the rounded capture.
    fn quantize(&mut self, mpx: &[f32]) {
        fill(&mut self.work.mpx, mpx);
        fill_f32(&mut self.work.input, &self.work.mpx);
    }

    /// The proved loop and matrix, over as much of the multiplex as has its pilot.
    fn decode(&mut self, see: &mut dyn FnMut(Sight) -> Outcome<()>) -> Outcome<()> {
        let n = self.work.pilot.len();
        let Work {
            pilot,
            mpx,
            pilot_t,
            left,
            right,
            ..
        } = &mut self.work;
        fill_multiplex(mpx, &self.waiting[..n]);
        fill(pilot_t, pilot);
        left.resize(n, T::ZERO);
        right.resize(n, T::ZERO);
        let mut from = 0;
        while from < n {
            let block = self.settings.block;
            let to = (from + block - (self.done % block as u64) as usize).min(n);
            let (m, p) = (&mpx[from..to], &pilot_t[from..to]);
            let (l, r) = (&mut left[from..to], &mut right[from..to]);
            let figures = match &mut self.counter {
                Some(counter) => counter.decode(&mut self.pll, m, p, l, r),
                None => self.pll.process_merged(m, p, l, r).map(|()| None),
            }
            .map_err(core_fault)?;
            if self.pll.is_stereo() {
                self.tone = None;
            }
            if let Some(tone) = &mut self.tone {
                tone.hear(&pilot[from..to]);
            }
            let last_bad_pilot = last_not_finite(&pilot[from..to]);
            see(Sight {
                samples: to - from,
                level: self.pll.lock_level(),
                offset_hz: self.pll.integrator() * self.settings.rate,
                stereo: self.pll.is_stereo(),
                bad: not_finite(&self.waiting[from..to]),
                bad_pilot: last_bad_pilot.map_or(0, |last| not_finite(&pilot[from..=from + last])),
                last_bad_pilot,
                wide: T::wide(&self.pll),
                figures,
            })?;
            self.done += (to - from) as u64;
            from = to;
        }
        self.waiting.drain(..n);
        Ok(())
    }

    fn sides(&mut self, last: bool, audio: &mut Stereo) {
        let wide = [&self.work.left[..], &self.work.right[..]];
        self.audio.run(wide, last, audio);
    }
}

fn not_finite(samples: &[f32]) -> usize {
    samples.iter().filter(|sample| !sample.is_finite()).count()
}

/// Where the last such sample stands, by the core's scan.
fn last_not_finite(pilot: &[f32]) -> Option<usize> {
    let scanned = scan(pilot);
    (!scanned.finite).then(|| pilot.len() - scanned.read)
}

/// The lengths are ours, so a refusal of a block is a fault of this program.
fn core_fault(why: pescrondilu::Refusal) -> Fault {
    Fault::failed("the core refused a block", why)
}

#[cfg(test)]
mod tests {
    use super::*;
    use crate::history::{History, Totals};
    use pescrondilu::Q15;

    const SETTINGS: Settings = Settings {
        rate: 192_000.0,
        natural: 20.0,
        level: 0.1,
        deemphasis: None,
        block: 192,
        period: None,
    };

    #[test]
    fn what_the_core_or_the_filters_cannot_take_is_refused() {
        let said = |settings| Receiver::<f32>::new(settings).err().unwrap();
        assert!(
            said(Settings {
                rate: 48_000.0,
                ..SETTINGS
            })
            .contains("48000 Hz")
        );
        assert!(
            said(Settings {
                rate: 4e9,
                ..SETTINGS
            })
            .contains("4000000000 Hz")
        );
        assert!(
            said(Settings {
                natural: 500.0,
                ..SETTINGS
            })
            .contains("natural")
        );
        assert!(
            said(Settings {
                level: 2.0,
                ..SETTINGS
            })
            .contains("level")
        );
    }

    #[test]
    fn the_integrator_s_limit_is_the_core_s() {
        let limit = Receiver::<f32>::new(SETTINGS)
            .unwrap()
            .pll
            .integrator_limit();
        assert!((limit * SETTINGS.rate - INTEGRATOR_LIMIT_HZ).abs() < 1e-4);
        let limit = Receiver::<Q15>::new(SETTINGS)
            .unwrap()
            .pll
            .integrator_limit();
        assert!((limit * SETTINGS.rate - INTEGRATOR_LIMIT_HZ).abs() < 1e-4);
    }

    /// What the receiver says of a tone, in pieces of any size.
    fn tone_at(hz: f64, piece: usize) -> Option<(f64, f64)> {
        let turn = std::f64::consts::TAU * hz / SETTINGS.rate;
        let value = |i: u32| (0.09 * (turn * f64::from(i)).sin()) as f32;
        let mpx: Vec<f32> = (0..38_400).map(value).collect();
        let mut receiver = Receiver::<f32>::new(SETTINGS).unwrap();
        let (mut see, mut audio) = (|_| Ok(()), Stereo::default());
        for piece in mpx.chunks(piece) {
            receiver.run(piece, &mut see, &mut audio).unwrap();
        }
        receiver.finish(&mut see, &mut audio).unwrap();
        receiver.tone()
    }

    #[test]
    fn a_tone_is_told_as_it_came_in_until_the_lamp_lights() {
        for hz in [17_500.0, 18_500.0, 19_400.0, 20_500.0] {
            let (frequency, amplitude) = tone_at(hz, 38_400).unwrap();
            assert!((frequency - hz).abs() < 1.0, "{frequency} for {hz}");
            assert!((amplitude - 0.09).abs() < 0.001, "{amplitude} at {hz}");
            assert_eq!(tone_at(hz, 77), tone_at(hz, 38_400));
        }
        assert_eq!(tone_at(19_000.0, 192), None);
    }

    #[test]
    fn audio_and_sights_are_as_long_as_the_capture() {
        for pieces in [1, 100, 5_000] {
            let mut receiver = Receiver::<f32>::new(SETTINGS).unwrap();
            let (mut seen, mut audio) = (0, Stereo::default());
            let mut see = |sight: Sight| {
                seen += sight.samples;
                Ok(())
            };
            for piece in vec![0.25; 5_001].chunks(pieces) {
                receiver.run(piece, &mut see, &mut audio).unwrap();
            }
            receiver.finish(&mut see, &mut audio).unwrap();
            assert_eq!(
                (seen, audio[0].len(), audio[1].len()),
                (5_001, 1_251, 1_251)
            );
            // mono, away from the ends: both sides are the multiplex itself
            assert!(
                audio
                    .iter()
                    .flatten()
                    .skip(100)
                    .take(1_000)
                    .all(|x| (x - 0.25).abs() < 1e-5)
            );
        }
    }

    /// The figures of all periods, with the unfinished one, and the audio.
    fn logged<T: Format>(mpx: &[f32], piece: usize) -> (Vec<Figures>, Stereo) {
        let period = Some(1_920);
        let mut receiver = Receiver::<T>::new(Settings { period, ..SETTINGS }).unwrap();
        let (mut rows, mut audio) = (Vec::new(), Stereo::default());
        let mut see = |sight: Sight| {
            rows.extend(sight.figures);
            Ok(())
        };
        for piece in mpx.chunks(piece) {
            receiver.run(piece, &mut see, &mut audio).unwrap();
        }
        receiver.finish(&mut see, &mut audio).unwrap();
        rows.extend(receiver.unfinished());
        (rows, audio)
    }

    /// However the capture comes in pieces, and as many rows as periods.
    fn figures_by_pieces<T: Format>() {
        let pilot = |i: u32| f64::from(i * 95 % 960) / 960.0 * std::f64::consts::TAU;
        let mpx: Vec<f32> = (0..20_001).map(|i| 0.1 * pilot(i).sin() as f32).collect();
        let (whole, audio) = logged::<T>(&mpx, mpx.len());
        let samples: Vec<u32> = whole.iter().map(|row| row.stereo + row.mono).collect();
        assert_eq!(samples[..10], [1_920; 10]);
        assert_eq!(samples[10..], [801]);
        assert_eq!(whole.iter().map(|row| row.changes).sum::<u32>(), 1);
        assert!(whole[10].stereo == 801 && whole[10].difference > 0.05);
        for piece in [1, 100, 1_919, 1_921] {
            assert!(logged::<T>(&mpx, piece) == (whole.clone(), audio.clone()));
        }
        let mut receiver = Receiver::<T>::new(SETTINGS).unwrap();
        let (mut see, mut without) = (|_| Ok(()), Stereo::default());
        receiver.run(&mpx, &mut see, &mut without).unwrap();
        receiver.finish(&mut see, &mut without).unwrap();
        assert!(without == audio && receiver.unfinished().is_none());
    }

    #[test]
    fn figures_are_those_of_the_whole_capture() {
        figures_by_pieces::<f32>();
        figures_by_pieces::<Q15>();
    }

    /// What the history has of a capture that is handed over in pieces, and by how many samples the
    /// band-pass reaches to either side.
    fn seen<T: Format>(mpx: &[f32], piece: usize) -> (Totals, usize) {
        let mut receiver = Receiver::<T>::new(SETTINGS).unwrap();
        let (mut history, mut audio) = (History::new(1_920), Stereo::default());
        let mut see = |sight: Sight| {
            assert_eq!(sight.last_bad_pilot.is_some(), sight.bad_pilot > 0);
            assert!(sight.last_bad_pilot.is_none_or(|last| last < sight.samples));
            history.see(sight);
            Ok(())
        };
        for piece in mpx.chunks(piece) {
            receiver.run(piece, &mut see, &mut audio).unwrap();
        }
        receiver.finish(&mut see, &mut audio).unwrap();
        (*history.totals(), receiver.band.half())
    }

    /// The band-pass spreads one large sample, and each of these moves the phase by many turns.
    #[test]
    fn corrections_off_the_quick_path_are_counted() {
        let mut mpx = vec![0.25; 5_001];
        for piece in [1, 100, 5_001] {
            assert_eq!(seen::<f32>(&mpx, piece).0.wide, 0);
        }
        mpx[2_000] = 1e20;
        let (totals, half) = seen::<f32>(&mpx, 5_001);
        let spread = half as u64..=2 * half as u64 + 1;
        assert!(spread.contains(&totals.wide), "{} {half}", totals.wide);
        for piece in [1, 100] {
            assert_eq!(seen::<f32>(&mpx, piece).0.wide, totals.wide);
        }
        assert_eq!(seen::<Q15>(&mpx, 100).0.wide, 0);
    }

    #[test]
    fn pilot_samples_that_are_not_finite_are_counted_and_the_last_is_placed() {
        let n = 5_001;
        for piece in [1, 100, 5_001] {
            let (totals, half) = seen::<f32>(&vec![0.25; n], piece);
            assert_eq!((totals.bad_pilot, totals.last_bad_pilot), (0, None));
            for (place, pattern) in [
                (0, 0xFFC0_0000),
                (1_000, 0x7F80_0000),
                (1_919, 0xFF80_0001),
                (4_999, 0x7FFF_FFFF),
            ] {
                let mut mpx = vec![0.25; n];
                mpx[place] = f32::from_bits(pattern);
                let (totals, _) = seen::<f32>(&mpx, piece);
                let (first, last) = (place.saturating_sub(half), (place + half).min(n - 1));
                assert_eq!(
                    (totals.bad, totals.bad_pilot),
                    (1, (last - first + 1) as u64)
                );
                assert_eq!(totals.last_bad_pilot, Some(last as u64), "{place}");

                // in Q15 the capture is rounded before the band-pass, and all of it is finite
                let (totals, _) = seen::<Q15>(&mpx, piece);
                assert_eq!((totals.bad, totals.bad_pilot), (1, 0));
                assert_eq!(totals.last_bad_pilot, None);
            }
        }
    }
}
