//! A stereo coder: pre-emphasis, the interpolation to the multiplex's rate, the proved encoder
//! without or with RDS.

use pescrondilu::kernels::stereo::StereoEncodeState;
use pescrondilu::{Rate, Refusal};

use crate::fault::{Fault, Outcome};
use crate::filter::emphasis::Emphasis;
use crate::filter::interpolate::Interpolator;
use crate::rds::{Rds, RdsEncoder};
use crate::receiver::PILOT_HZ;

#[derive(Clone, Copy, Debug)]
pub struct Settings {
    /// Of the audio, in hertz.
    pub audio_rate: u32,
    /// Of the multiplex, in hertz.
    pub rate: u32,
    /// The gain of sum and difference.
    pub main: f32,
    /// The pilot's amplitude.
    pub pilot: f32,
    /// The time constant in seconds.
    pub preemphasis: Option<f64>,
}

enum Encoder {
    Stereo(StereoEncodeState),
    Rds(Box<RdsEncoder>),
}

impl Encoder {
    fn new(settings: Settings, rds: Option<&Rds>) -> pescrondilu::Result<Encoder> {
        let Settings { main, pilot, .. } = settings;
        let rate = Rate::from_f64(settings.rate.into())?;
        Ok(match rds {
            Some(rds) => Encoder::Rds(Box::new(RdsEncoder::new(main, pilot, rate, rds)?)),
            None => Encoder::Stereo(StereoEncodeState::new(PILOT_HZ, main, pilot, rate)?),
        })
    }

    fn process(&mut self, left: &[f32], right: &[f32], mpx: &mut [f32]) -> Result<(), Refusal> {
        match self {
            Encoder::Stereo(encoder) => encoder.process(left, right, mpx),
            Encoder::Rds(encoder) => encoder.process(left, right, mpx),
        }
    }
}

pub struct Transmitter {
    emphasis: Option<[Emphasis; 2]>,
    up: [Interpolator; 2],
    encoder: Encoder,
    /// Left and right, before and after the interpolation.
    narrow: Vec<f32>,
    wide: [Vec<f32>; 2],
}

pub const HIGHEST_RATE: u32 = 4_000_000;

impl Transmitter {
    /// An error is its reason in words.
    pub fn new(settings: Settings, rds: Option<&Rds>) -> Result<Transmitter, String> {
        let Settings {
            audio_rate,
            rate,
            preemphasis,
            ..
        } = settings;
        if !(1_000..=HIGHEST_RATE).contains(&audio_rate) {
            return Err(format!(
                "the audio's rate is {audio_rate} Hz; 1000 and more are taken"
            ));
        }
        let encoder = Encoder::new(settings, rds).map_err(|why| why.to_string())?;
        let emphasis = preemphasis.map(|seconds| [Emphasis::pre(seconds, audio_rate.into()); 2]);
        let up = [0, 1].map(|_| Interpolator::new(audio_rate, rate));
        let (narrow, wide) = (Vec::new(), Default::default());
        Ok(Transmitter {
            emphasis,
            up,
            encoder,
            narrow,
            wide,
        })
    }

    /// Appends the multiplex of a piece of left and right, both of one length.
    pub fn run(&mut self, left: &[f32], right: &[f32], mpx: &mut Vec<f32>) -> Outcome<()> {
        for (at, channel) in [left, right].into_iter().enumerate() {
            self.narrow.clear();
            self.narrow.extend_from_slice(channel);
            if let Some(emphasis) = &mut self.emphasis {
                emphasis[at].run(&mut self.narrow);
            }
            self.wide[at].clear();
            self.up[at].run(&self.narrow, &mut self.wide[at]);
        }
        self.encode(mpx)
    }

    /// Appends what the interpolation still holds.
    pub fn finish(&mut self, mpx: &mut Vec<f32>) -> Outcome<()> {
        for (up, wide) in self.up.iter_mut().zip(&mut self.wide) {
            wide.clear();
            up.finish(wide);
        }
        self.encode(mpx)
    }

    /// The RDS groups that are on air as a whole.
    pub fn groups_sent(&self) -> u64 {
        match &self.encoder {
            Encoder::Stereo(_) => 0,
            Encoder::Rds(encoder) => encoder.sent(),
        }
    }

    fn encode(&mut self, mpx: &mut Vec<f32>) -> Outcome<()> {
        let [left, right] = &self.wide;
        let from = mpx.len();
        mpx.resize(from + left.len(), 0.0);
        let done = self.encoder.process(left, right, &mut mpx[from..]);
        done.map_err(|why| Fault::failed("the core refused a block", why))
    }
}

#[cfg(test)]
mod tests {
    use super::*;
    use crate::rds::Groups;

    const SETTINGS: Settings = Settings {
        audio_rate: 48_000,
        rate: 192_000,
        main: 0.9,
        pilot: 0.09,
        preemphasis: None,
    };

    fn silence(rds: Option<&Rds>) -> Vec<f32> {
        let mut transmitter = Transmitter::new(SETTINGS, rds).unwrap();
        let mut mpx = Vec::new();
        transmitter.run(&[0.0; 480], &[0.0; 480], &mut mpx).unwrap();
        transmitter.finish(&mut mpx).unwrap();
        mpx
    }

    #[test]
    fn silence_gives_the_pilot_alone() {
        let mpx = silence(None);
        assert_eq!(mpx.len(), 1_920);
        for (i, x) in mpx.iter().enumerate() {
            let pilot = 0.09 * (std::f64::consts::TAU * 19_000.0 / 192_000.0 * i as f64).sin();
            assert!((f64::from(*x) - pilot).abs() < 1e-6);
        }
    }

    #[test]
    fn rds_adds_no_more_than_its_level() {
        let groups = Groups::parse("D318 0408 E0CD 5065").unwrap();
        let rds = |level| Rds {
            groups: groups.clone(),
            level,
        };
        let without = silence(None);
        assert_eq!(silence(Some(&rds(0.0))), without);
        let with = silence(Some(&rds(0.05)));
        let pairs = with.iter().zip(&without);
        let most = pairs.map(|(a, b)| (a - b).abs()).fold(0.0, f32::max);
        assert!(most > 0.045 && most < 0.05 + 1e-6, "{most}");
    }

    #[test]
    fn what_the_core_refuses_is_said_in_its_words() {
        let said = |settings| Transmitter::new(settings, None).err().unwrap();
        assert!(
            said(Settings {
                rate: 96_000,
                ..SETTINGS
            })
            .contains("below 120000 Hz")
        );
        assert!(
            said(Settings {
                pilot: 0.3,
                ..SETTINGS
            })
            .contains("0 to 0.2")
        );
        assert!(
            said(Settings {
                main: 1.5,
                ..SETTINGS
            })
            .contains("main gain")
        );
        assert!(
            said(Settings {
                audio_rate: 7,
                ..SETTINGS
            })
            .contains("7 Hz")
        );
    }
}
