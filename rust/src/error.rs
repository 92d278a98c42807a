//! What can go wrong where the wrapper draws and allocates.

use crate::Refusal;
use std::fmt;
use std::io;

/// Why a call that draws random numbers gave nothing.
#[derive(Debug)]
#[non_exhaustive]
pub enum Error {
    /// The proved library refused.
    Refused(Refusal),
    /// The random source failed. What was drawn until then is thrown away.
    Random(io::Error),
    /// A spread is negative, not a number, or an eighth of a turn or more.
    Spread,
    /// There is no memory for a key of this size.
    Memory,
}

impl fmt::Display for Error {
    fn fmt(&self, f: &mut fmt::Formatter<'_>) -> fmt::Result {
        match self {
            Error::Refused(refusal) => refusal.fmt(f),
            Error::Random(error) => write!(f, "the random source failed: {error}"),
            Error::Spread => f.write_str("the noise's standard deviation is not a number from 0 to below an eighth of a turn"),
            Error::Memory => f.write_str("there is no memory for a key of this size"),
        }
    }
}

impl std::error::Error for Error {
    fn source(&self) -> Option<&(dyn std::error::Error + 'static)> {
        match self {
            Error::Refused(refusal) => Some(refusal),
            Error::Random(error) => Some(error),
            Error::Spread | Error::Memory => None,
        }
    }
}

impl From<Refusal> for Error {
    fn from(refusal: Refusal) -> Error {
        Error::Refused(refusal)
    }
}

impl From<io::Error> for Error {
    fn from(error: io::Error) -> Error {
        Error::Random(error)
    }
}
