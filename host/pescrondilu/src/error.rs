//! Why a call was turned back: the core's own answer, and sdrk's errors.

use core::fmt;

use pescrondilu_sys::Code;

/// A code of the core is 0, or this and the cause's number.
const REFUSED: u32 = 100;

/// The core's answer to a call that it turned back: the number of the first cause in force, and for
/// the causes 9, 10 and 11 the length that was wanted and the length that came (0 for the others).
///
/// ```
/// use pescrondilu::{Error, Refusal, kernels::stereo::matrix};
///
/// let (mut left, mut right) = ([9.0; 2], [9.0; 2]);
/// let refusal = matrix(&[0.5, 0.5], &[0.25], &mut left, &mut right).unwrap_err();
/// assert_eq!(refusal, Refusal { number: 10, expected: 2, got: 1 });
/// assert_eq!(Error::from(refusal), Error::LengthMismatch { expected: 2, got: 1 });
/// assert_eq!((left, right), ([9.0; 2], [9.0; 2]));
/// ```
#[derive(Clone, Copy, Debug, PartialEq, Eq, Hash)]
pub struct Refusal {
    /// The cause's number.
    pub number: u32,
    /// The length that was wanted.
    pub expected: usize,
    /// The length that came.
    pub got: usize,
}

impl Refusal {
    /// A cause that has no lengths.
    pub(crate) const fn of(number: u32) -> Refusal {
        Refusal {
            number,
            expected: 0,
            got: 0,
        }
    }

    /// The cause in words.
    ///
    /// ```
    /// use pescrondilu::kernels::mix::Nco;
    ///
    /// let refusal = Nco::with_rate(19_000.0, 0.0).unwrap_err();
    /// assert_eq!(refusal.message(), "the sample rate is not finite or not above 0");
    /// ```
    pub const fn message(self) -> &'static str {
        match self.number {
            0 => "a field of the Q15 record is out of its range",
            1 => "the sample rate is not finite or not above 0",
            2 => {
                "the pilot frequency is not finite, not above 0 or not below a quarter of the rate"
            }
            3 => "the natural frequency is not finite, not above 0 or above the pilot's hundredth",
            4 => "the pilot level is not finite, not above 0 or above 1",
            5 => "the lock coefficient is not from 0 to 1",
            6 => "a gain, limit or threshold becomes 0 or not finite as f32",
            7 => "a gain, limit or threshold of the Q15 record exceeds 64 bits",
            8 => "the integral gain or the lock coefficient becomes 0 in Q15",
            9 => "the table does not have 4097 entries",
            10 => "an input's length differs from the first input's",
            11 => {
                "an output's length differs from the first input's, a group's from 104, \
                 or a summary column's from the periods that end"
            }
            12 => "the pilot frequency is not from 18000 to 20000 Hz",
            13 => "the main gain is not from 0 to 1",
            14 => "the pilot amplitude is not from 0 to 0.2",
            15 => "the sample rate is below 120000 Hz",
            16 => "the RDS level is not from 0 to 0.2",
            17 => "the frequency divided by the rate is not finite",
            18 => "the value does not fit Q14",
            19 => "word three of the group differs from word one, and bit 11 of word two is set",
            20 => "the summary's period is 0, or a field of its record is out of its range",
            21 => "the number of the rack's decoders is not from 2 to 8",
            22 => "the allowance is smaller than the number of the rack's decoders",
            _ => UNKNOWN,
        }
    }

    /// The causes that come with two lengths.
    const fn has_lengths(self) -> bool {
        matches!(self.number, 9..=11)
    }
}

/// What no answer of the core has.
const UNKNOWN: &str = "the core gave a cause that this crate does not know";

impl fmt::Display for Refusal {
    fn fmt(&self, f: &mut fmt::Formatter<'_>) -> fmt::Result {
        write!(f, "cause {}: {}", self.number, self.message())?;
        if self.has_lengths() {
            write!(f, " (expected {}, got {})", self.expected, self.got)?;
        }
        Ok(())
    }
}

impl core::error::Error for Refusal {}

/// An answer with lengths: that of a block or of a group.
pub(crate) fn accepted(answer: Code) -> core::result::Result<(), Refusal> {
    match answer.code {
        0 => Ok(()),
        code => Err(Refusal {
            number: code.wrapping_sub(REFUSED),
            expected: answer.expected,
            got: answer.got,
        }),
    }
}

/// An answer with a value: that of a construction or of a set call.
pub(crate) fn coded<T>(code: u32, value: T) -> core::result::Result<T, Refusal> {
    match code {
        0 => Ok(value),
        code => Err(Refusal::of(code.wrapping_sub(REFUSED))),
    }
}

/// The errors of sdrk that its stereo part gives.
///
/// ```
/// use pescrondilu::{Error, Rate};
///
/// assert!(matches!(Rate::hz(0), Err(Error::InvalidParameter(_))));
/// let error = Error::LengthMismatch { expected: 64, got: 63 };
/// assert_eq!(error.to_string(), "length mismatch: expected 64, got 63");
/// ```
#[derive(Clone, Copy, Debug, PartialEq, Eq)]
pub enum Error {
    /// An argument is out of its range; the cause in words.
    InvalidParameter(&'static str),
    /// The lengths of two slices differ, or a slice's from the one that is asked for.
    LengthMismatch {
        /// The first slice's length, or the one that is asked for.
        expected: usize,
        /// The other slice's length.
        got: usize,
    },
    /// Not an error of the caller. No call of this crate gives it.
    Internal(&'static str),
}

/// As sdrk's: a value or an [`Error`].
pub type Result<T> = core::result::Result<T, Error>;

impl From<Refusal> for Error {
    fn from(refusal: Refusal) -> Error {
        match refusal {
            Refusal { expected, got, .. } if refusal.has_lengths() => {
                Error::LengthMismatch { expected, got }
            }
            Refusal { number: 0..=22, .. } => Error::InvalidParameter(refusal.message()),
            _ => Error::Internal(refusal.message()),
        }
    }
}

impl fmt::Display for Error {
    fn fmt(&self, f: &mut fmt::Formatter<'_>) -> fmt::Result {
        match self {
            Error::InvalidParameter(why) => write!(f, "invalid parameter: {why}"),
            Error::LengthMismatch { expected, got } => {
                write!(f, "length mismatch: expected {expected}, got {got}")
            }
            Error::Internal(why) => write!(f, "internal error: {why}"),
        }
    }
}

impl core::error::Error for Error {}
