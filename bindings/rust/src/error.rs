//! Why this crate did nothing.
use crate::Refusal;
use core::fmt;

/// The archive refused, or there is no memory for what this crate keeps beside it. Either way nothing has changed.
#[derive(Clone, Copy, Debug, PartialEq, Eq)]
#[non_exhaustive]
pub enum Error {
    /// The archive's refusal.
    Refused(Refusal),
    /// The allocator has no such piece of memory.
    MemoryShort {
        /// How many bytes were wanted.
        bytes: usize,
    },
}

impl Error {
    /// The refusal; none where memory is short.
    pub fn refusal(&self) -> Option<Refusal> {
        match self {
            Error::Refused(refusal) => Some(*refusal),
            Error::MemoryShort { .. } => None,
        }
    }
}

impl From<Refusal> for Error {
    fn from(refusal: Refusal) -> Error {
        Error::Refused(refusal)
    }
}

impl fmt::Display for Error {
    fn fmt(&self, f: &mut fmt::Formatter<'_>) -> fmt::Result {
        match self {
            Error::Refused(refusal) => refusal.fmt(f),
            Error::MemoryShort { bytes } => write!(f, "memory is short: {bytes} bytes wanted"),
        }
    }
}

#[cfg(feature = "std")]
impl std::error::Error for Error {}
