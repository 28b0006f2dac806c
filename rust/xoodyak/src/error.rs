// The original's errors, and the refusal that the library's numbers make.
use core::fmt::{self, Display};

/// The errors of the original's signatures.
#[derive(Debug, Copy, Clone, Eq, PartialEq)]
pub enum Error {
    /// An output is shorter than its result, or has no room for a tag (numbers 3 and 10).
    InvalidBufferLength,
    /// Key, key id and nonce are too long together (numbers 2, 8 and 9).
    InvalidParameterLength,
    /// A keyed-only call meets a Hash session (number 1).
    KeyRequired,
    /// The tag differs (number 4).
    TagMismatch,
}

impl Display for Error {
    fn fmt(&self, f: &mut fmt::Formatter<'_>) -> fmt::Result {
        f.write_str(match self {
            Error::InvalidBufferLength => "Invalid buffer length",
            Error::InvalidParameterLength => "Key too long",
            Error::KeyRequired => "A key is required",
            Error::TagMismatch => "Tag mismatch",
        })
    }
}

/// Why a call was refused, by the library's own number, which tells more than [`Error`] does.
///
/// After every number but 4 the session and all buffers hold what they held.
#[derive(Debug, Copy, Clone, Eq, PartialEq)]
pub struct Refusal {
    /// 1 to 11, as the [crate's page](crate#numbers) lists them.
    pub number: u8,
    /// With number 3: how many bytes the output lacks. Otherwise 0.
    pub missing: usize,
}

impl Refusal {
    /// The original's error for this refusal. The numbers 5, 6, 7 and 11 have none.
    pub fn error(self) -> Option<Error> {
        match self.number {
            1 => Some(Error::KeyRequired),
            2 | 8 | 9 => Some(Error::InvalidParameterLength),
            3 | 10 => Some(Error::InvalidBufferLength),
            4 => Some(Error::TagMismatch),
            _ => None,
        }
    }

    // Where the original's signature has no error for a refusal.
    #[cold]
    #[track_caller]
    pub(crate) fn panic(self) -> ! {
        panic!("xoodyak: {}; the call's `try_` form answers this as an error", self)
    }
}

impl Display for Refusal {
    fn fmt(&self, f: &mut fmt::Formatter<'_>) -> fmt::Result {
        let reason = match self.number {
            1 => "a keyed-only call on a Hash session",
            2 => "the key is longer than 43 bytes",
            3 => return write!(f, "refused with number 3: the output is {} bytes too short", self.missing),
            4 => "the tag differs",
            5 => "the rate is 0 or above the session's absorb rate",
            6 => "an offset above 47, or a run longer than 48 bytes",
            7 => "a message is unfinished, or none of this kind is begun",
            8 => "key and key id together are longer than 43 bytes",
            9 => "the nonce is too long beside key and key id",
            10 => "fewer than 16 bytes where a tag belongs",
            11 => "more than 12 rounds",
            _ => "the session's memory is not sound",
        };
        write!(f, "refused with number {}: {}", self.number, reason)
    }
}

#[cfg(feature = "std")]
impl std::error::Error for Error {}

#[cfg(feature = "std")]
impl std::error::Error for Refusal {}

// A number as a result, for calls that tell no missing bytes.
pub(crate) fn result(number: u8) -> Result<(), Refusal> {
    match number {
        0 => Ok(()),
        number => Err(Refusal { number, missing: 0 }),
    }
}

// A result in the original's signature that can fail.
#[track_caller]
pub(crate) fn original<T>(result: Result<T, Refusal>) -> Result<T, Error> {
    match result {
        Ok(value) => Ok(value),
        Err(refusal) => Err(refusal.error().unwrap_or_else(|| refusal.panic())),
    }
}

// A result in the original's signature that cannot fail.
#[track_caller]
pub(crate) fn certain<T>(result: Result<T, Refusal>) -> T {
    match result {
        Ok(value) => value,
        Err(refusal) => refusal.panic(),
    }
}
