//! RDS beside the stereo encoder: groups from a file, their bits by the proved former, the baseband
//! of these, the proved encoder with RDS. The pulse and the bit clock are not proved.

mod baseband;
mod bits;
mod groups;
mod pulse;

use pescrondilu::kernels::stereo::StereoEncodeRdsState;
use pescrondilu::{Rate, Refusal, Result};

use crate::receiver::PILOT_HZ;
use baseband::{BIT_TURNS, Baseband};
pub use groups::Groups;

/// The bit rate: 57 kHz / 48.
const BIT_HZ: f64 = PILOT_HZ / BIT_TURNS as f64;

/// What is sent beside left and right.
pub struct Rds {
    pub groups: Groups,
    /// The peak deviation, 1 being full deviation.
    pub level: f32,
}

impl Rds {
    /// In words, for the report; `sent` counts the groups that are on air as a whole.
    pub fn words(&self, sent: u64) -> String {
        let (groups, level) = (self.groups.words().len(), self.level);
        let word = if groups == 1 { "group" } else { "groups" };
        format!("{groups} {word} in turn, {sent} sent, {BIT_HZ} bit/s, level {level}")
    }
}

/// The encoder with RDS, and the baseband that it takes.
pub struct RdsEncoder {
    encoder: StereoEncodeRdsState,
    baseband: Baseband,
    /// The baseband of a block. Each call uses it again.
    samples: Vec<f32>,
}

impl RdsEncoder {
    pub fn new(main: f32, pilot: f32, rate: Rate, rds: &Rds) -> Result<RdsEncoder> {
        let encoder = StereoEncodeRdsState::new(PILOT_HZ, main, pilot, rds.level, rate)?;
        let baseband = Baseband::new(&rds.groups, encoder.increment())?;
        let samples = Vec::new();
        Ok(RdsEncoder {
            encoder,
            baseband,
            samples,
        })
    }

    pub fn process(
        &mut self,
        left: &[f32],
        right: &[f32],
        mpx: &mut [f32],
    ) -> core::result::Result<(), Refusal> {
        self.samples.resize(mpx.len(), 0.0);
        self.baseband.run(&mut self.samples)?;
        self.encoder.process(left, right, &self.samples, mpx)
    }

    /// The groups that are on air as a whole.
    pub fn sent(&self) -> u64 {
        self.baseband.sent()
    }
}

#[cfg(test)]
mod tests {
    use super::*;

    #[test]
    fn the_report_has_groups_rate_and_level() {
        let words = |text: &str, sent| {
            let groups = Groups::parse(text).unwrap();
            let level = 0.03;
            Rds { groups, level }.words(sent)
        };
        assert_eq!(
            words("0000 0000 0000 0000", 4),
            "1 group in turn, 4 sent, 1187.5 bit/s, level 0.03"
        );
        let two = "0000 0000 0000 0000\n0001 0000 0000 0000";
        assert!(words(two, 0).starts_with("2 groups in turn, 0 sent,"));
    }

    #[test]
    fn bits_and_pilot_stay_in_step() {
        let groups = Groups::parse("D318 0408 E0CD 5065").unwrap();
        let rds = Rds { groups, level: 0.1 };
        for hz in [120_000, 171_007, 192_000, 4_000_000] {
            let rate = Rate::hz(hz).unwrap();
            let mut coder = RdsEncoder::new(0.9, 0.09, rate, &rds).unwrap();
            for n in [1, 999, 70_000] {
                let (silence, mut mpx) = (vec![0.0; n], vec![0.0; n]);
                coder.process(&silence, &silence, &mut mpx).unwrap();
                assert_eq!(coder.baseband.pilot_phase(), coder.encoder.phase(), "{hz}");
            }
        }
    }
}
