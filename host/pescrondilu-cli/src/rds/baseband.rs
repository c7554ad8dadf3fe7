//! The RDS baseband at the multiplex's rate.

use pescrondilu::Refusal;
use pescrondilu::kernels::rds::GROUP_BITS;

use super::bits::Bits;
use super::groups::Groups;
use super::pulse::{Pulse, SIDE, SPAN};

/// The periods of the pilot in a bit. The subcarrier is the pilot's third harmonic, and the bit
/// rate is a 48th of it.
pub const BIT_TURNS: u64 = 16;
/// The same in the oscillator's units.
const BIT: u64 = BIT_TURNS << 32;

/// The bit clock. It adds up the step of the pilot's oscillator, in whole numbers as the oscillator
/// does, so that bits and pilot stay in step however long the programme is. A clock of
/// 1187.5 / rate would drift from the pilot, whose step is 19 kHz within 2^-33 of a turn a sample.
struct BitClock {
    step: u64,
    place: u64,
}

impl BitClock {
    fn new(step: u32) -> BitClock {
        let step = step.into();
        BitClock { step, place: 0 }
    }

    /// The place within the bit, from 0 to below 1.
    fn place(&self) -> f64 {
        self.place as f64 / BIT as f64
    }

    /// One sample on; whether another bit begins.
    fn advance(&mut self) -> bool {
        self.place += self.step;
        let begins = self.place >= BIT;
        if begins {
            self.place -= BIT;
        }
        begins
    }
}

pub struct Baseband {
    pulse: Pulse,
    clock: BitClock,
    bits: Bits,
    /// The bits around the sample, the oldest first: 1 or -1, and 0 before the first.
    signs: [f32; SPAN],
    /// The bits that have ended.
    ended: u64,
}

impl Baseband {
    /// `step` is that of the pilot's oscillator. The first bit begins with the first sample.
    pub fn new(groups: &Groups, step: u32) -> Result<Baseband, Refusal> {
        let mut baseband = Baseband {
            pulse: Pulse::new(),
            clock: BitClock::new(step),
            bits: Bits::new(groups),
            signs: [0.0; SPAN],
            ended: 0,
        };
        for _ in SIDE..SPAN {
            baseband.take_bit()?;
        }
        Ok(baseband)
    }

    /// The next samples. None is beyond 1, but for its rounding.
    pub fn run(&mut self, samples: &mut [f32]) -> Result<(), Refusal> {
        for sample in samples {
            *sample = self.pulse.at(self.clock.place(), &self.signs);
            if self.clock.advance() {
                self.ended += 1;
                self.take_bit()?;
            }
        }
        Ok(())
    }

    fn take_bit(&mut self) -> Result<(), Refusal> {
        self.signs.rotate_left(1);
        self.signs[SPAN - 1] = if self.bits.take()? { 1.0 } else { -1.0 };
        Ok(())
    }

    /// The groups whose bits have ended.
    pub fn sent(&self) -> u64 {
        self.ended / GROUP_BITS as u64
    }

    /// The phase that the pilot's oscillator has, for tests.
    #[cfg(test)]
    pub fn pilot_phase(&self) -> u32 {
        self.clock.place as u32
    }
}

#[cfg(test)]
mod tests {
    use super::*;
    use pescrondilu::kernels::mix::Nco;

    fn step(rate: u32) -> u32 {
        let nco = Nco::with_rate(19_000.0, rate.into()).unwrap();
        nco.increment()
    }

    #[test]
    fn a_bit_has_16_turns_of_the_pilot() {
        // a quarter of a turn a sample: 64 samples a bit
        let mut clock = BitClock::new(1 << 30);
        for i in 0..640 {
            assert_eq!(clock.place(), f64::from(i % 64) / 64.0);
            assert_eq!(clock.advance(), i % 64 == 63, "{i}");
        }
    }

    #[test]
    fn no_part_of_a_step_is_lost() {
        for rate in [120_000, 171_007, 192_000, 250_000, 3_999_999] {
            let step = step(rate);
            let (mut clock, mut bits) = (BitClock::new(step), 0);
            let samples = 1_000_000;
            for _ in 0..samples {
                bits += u64::from(clock.advance());
            }
            let turns = u64::from(step) * samples;
            assert_eq!((bits, clock.place), (turns / BIT, turns % BIT), "{rate}");
        }
    }

    /// The oscillator's rounding is all that is between this and 1187.5 / rate.
    #[test]
    fn the_bit_rate_is_1187_5() {
        for rate in [120_000, 171_007, 192_000, 250_000, 4_000_000] {
            let bits_a_sample = f64::from(step(rate)) / BIT as f64;
            let error = bits_a_sample - 1_187.5 / f64::from(rate);
            assert!(error.abs() <= 0.5 / BIT as f64 * 1.001, "{rate}: {error}");
        }
    }

    fn baseband(step: u32) -> Baseband {
        let groups = Groups::parse("D318 0408 E0CD 5065\nD318 0C08 D318 5065").unwrap();
        Baseband::new(&groups, step).unwrap()
    }

    #[test]
    fn the_pieces_do_not_matter() {
        let mut whole = vec![9.0; 5_000];
        let mut parts = whole.clone();
        baseband(step(192_000)).run(&mut whole).unwrap();
        let mut some = baseband(step(192_000));
        for piece in parts.chunks_mut(17) {
            some.run(piece).unwrap();
        }
        assert_eq!(parts, whole);
    }

    /// In the first half of its time a bit has its sign, in the second half the other one.
    #[test]
    fn each_bit_stands_in_its_place() {
        // 64 samples a bit
        let mut samples = vec![0.0; 64 * 300];
        baseband(1 << 30).run(&mut samples).unwrap();
        let groups = Groups::parse("D318 0408 E0CD 5065\nD318 0C08 D318 5065").unwrap();
        let mut bits = Bits::new(&groups);
        for bit in samples.chunks(64) {
            let sign = if bits.take().unwrap() { 1.0 } else { -1.0 };
            assert!(sign * bit[16] > 0.6 && sign * bit[48] < -0.6);
            assert!(bit.iter().all(|x| x.abs() <= 1.0));
        }
    }

    #[test]
    fn whole_groups_are_counted() {
        let mut baseband = baseband(1 << 30);
        let group = 64 * GROUP_BITS;
        for (samples, sent) in [(group - 1, 0), (1, 1), (group, 2), (group / 2, 2)] {
            baseband.run(&mut vec![0.0; samples]).unwrap();
            assert_eq!(baseband.sent(), sent);
        }
    }
}
