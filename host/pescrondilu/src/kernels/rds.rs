//! RDS groups: four words become the 104 bits that go on air, by IEC 62106.
//!
//! A former makes the bits. What the encoder with RDS takes is a baseband, which the caller makes
//! of them: 1187.5 bits a second, which is one bit in 16 periods of the pilot, each bit as a
//! biphase symbol. The standard filters the symbol; here it is a square one:
//!
//! ```
//! use pescrondilu::kernels::rds::{GROUP_BITS, RdsFormer};
//! use pescrondilu::kernels::stereo::StereoEncodeRdsState;
//!
//! // The programme, group 0A with its flags, no other frequency, two letters of the name.
//! let words = [0xD318, 0x0408, 0xE0CD, 0x5065];
//! let mut former = RdsFormer::new();
//! let mut bits = [0; GROUP_BITS];
//! former.group(words, &mut bits)?;
//!
//! // At 228 kHz a bit has 192 samples. A 1 is high and then low, a 0 low and then high.
//! let symbol = |bit: u8| (0..192).map(move |i| if (i < 96) == (bit == 1) { 1.0 } else { -1.0 });
//! let baseband: Vec<f32> = bits.iter().flat_map(|&bit| symbol(bit)).collect();
//!
//! let mut encoder = StereoEncodeRdsState::with_rate(19_000.0, 0.87, 0.09, 0.03, 228_000.0)?;
//! let silence = vec![0.0; baseband.len()];
//! let mut mpx = vec![0.0; baseband.len()];
//! encoder.process(&silence, &silence, &baseband, &mut mpx)?;
//!
//! // 57 kHz is a quarter of the rate: its first peak has RDS's level and the first bit's sign.
//! let pilot = 0.09 * (std::f32::consts::TAU / 12.0).sin();
//! let sign = if bits[0] == 1 { 1.0 } else { -1.0 };
//! assert!((mpx[1] - pilot - 0.03 * sign).abs() < 1e-6);
//! # Ok::<(), pescrondilu::Refusal>(())
//! ```

use pescrondilu_sys::rds as sys;

use crate::error::{Refusal, accepted};

/// A former's record as the core has it. The switch is off at 0 and on at anything else.
pub use pescrondilu_sys::rds::Former as FormerRecord;

/// The bits of a group: four blocks of 16 bits of a word and 10 of its check.
pub const GROUP_BITS: usize = 104;

/// The group former. It carries the last output bit from group to group, since each bit goes out
/// as its difference from the one before.
///
/// ```
/// use pescrondilu::kernels::rds::{GROUP_BITS, RdsFormer};
///
/// let (mut former, mut bits) = (RdsFormer::new(), [0; GROUP_BITS]);
/// former.group([0x8000, 0, 0, 0], &mut bits)?;
/// // The first bit is 1 and the next ones are 0: the output stays at 1.
/// assert_eq!(bits[..16], [1; 16]);
/// assert_eq!(former.carried(), bits[GROUP_BITS - 1] == 1);
/// # Ok::<(), pescrondilu::Refusal>(())
/// ```
#[derive(Clone, Copy, Debug, Default, PartialEq, Eq)]
pub struct RdsFormer {
    carried: bool,
}

impl RdsFormer {
    /// A former that has sent nothing: the output bit before the first is 0.
    pub fn new() -> Self {
        Self::from_record(sys::pescrondilu_rds_former_new())
    }

    /// A former of any record, such as one that was stored.
    pub const fn from_record(record: FormerRecord) -> Self {
        Self {
            carried: record.carried != 0,
        }
    }

    /// The record as the core has it.
    pub const fn record(&self) -> FormerRecord {
        FormerRecord {
            carried: self.carried as u32,
        }
    }

    /// The last output bit.
    pub const fn carried(&self) -> bool {
        self.carried
    }

    /// One group: four words to 104 bits, a bit a byte. Block three has the offset word C' where
    /// bit 11 of word two is set, and then word three has to be word one again.
    ///
    /// # Errors
    /// The causes 11 (with 104 and the length that came) and 19; former and output stay.
    ///
    /// ```
    /// use pescrondilu::kernels::rds::{GROUP_BITS, RdsFormer};
    ///
    /// let (mut former, mut bits) = (RdsFormer::new(), [9; GROUP_BITS]);
    /// let version_b = 1 << 11;
    /// let refusal = former.group([1, version_b, 2, 0], &mut bits).unwrap_err();
    /// assert_eq!((refusal.number, bits), (19, [9; GROUP_BITS]));
    /// former.group([1, version_b, 1, 0], &mut bits)?;
    /// # Ok::<(), pescrondilu::Refusal>(())
    /// ```
    pub fn group(&mut self, words: [u16; 4], bits: &mut [u8]) -> Result<(), Refusal> {
        let [one, two, three, four] = words;
        let words = sys::RdsWords {
            one,
            two,
            three,
            four,
        };
        let reply = sys::group(self.record(), words, bits);
        accepted(reply.answer)?;
        *self = Self::from_record(reply.former);
        Ok(())
    }
}

/// What the generator of IEC 62106 leaves of a number, bit k being the coefficient of z^k. Of a word
/// times 1024 it leaves the word's check, and of a block of 26 bits that was received without a
/// wrong bit its offset word.
///
/// ```
/// use pescrondilu::kernels::rds::remainder;
///
/// let check = remainder(0x1234 << 10);
/// assert_eq!(remainder(1 << 10), 0x1B9);
/// let offset_a = 0x0FC;
/// assert_eq!(remainder(0x1234 << 10 | check ^ offset_a), offset_a);
/// ```
pub fn remainder(number: u32) -> u32 {
    sys::pescrondilu_rds_remainder(number)
}
