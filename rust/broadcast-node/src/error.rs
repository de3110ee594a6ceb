//! Why a call failed.

use crate::raw::VERSION;
use std::fmt;

/// Why a call failed. The call has changed nothing.
///
/// `{:?}` prints the same as `{}`, so a `main` that returns an error prints what to do.
#[derive(Clone, Copy, PartialEq, Eq, Hash)]
#[non_exhaustive]
pub enum Error {
    /// An allocation failed.
    Memory,
    /// A message is longer than the node allows.
    TooLong {
        /// The bytes of the message.
        found: usize,
        /// The most that a message may have.
        allowed: usize,
    },
    /// The processor lacks instructions of x86-64-v2 that the verified library uses.
    Processor,
    /// The linked library has this version, and not the one that this crate was written for.
    Version(u32),
    /// The linked library returned an unknown status: it is not the verified one.
    Status(u32),
}

impl fmt::Display for Error {
    fn fmt(&self, f: &mut fmt::Formatter<'_>) -> fmt::Result {
        match self {
            Error::Memory => f.write_str("out of memory"),
            Error::TooLong { found, allowed } => {
                write!(f, "a message has {found} bytes, and at most {allowed} are allowed")
            }
            Error::Processor => f.write_str(
                "libbroadcast_c needs a processor of x86-64-v2, which those from 2009 on are",
            ),
            Error::Version(found) => write!(
                f,
                "the linked libbroadcast_c has version {found}, and this crate was written for {VERSION}: set \
                 BROADCAST_C_LIB to the folder of that one"
            ),
            Error::Status(status) => {
                write!(f, "libbroadcast_c returned the status {status}: it is not the verified one")
            }
        }
    }
}

impl fmt::Debug for Error {
    fn fmt(&self, f: &mut fmt::Formatter<'_>) -> fmt::Result {
        fmt::Display::fmt(self, f)
    }
}

impl std::error::Error for Error {}

impl From<std::collections::TryReserveError> for Error {
    fn from(_: std::collections::TryReserveError) -> Error {
        Error::Memory
    }
}

/// A call that failed, with the message that the caller passed. The call has changed nothing.
///
/// The `?` operator turns it into an [`Error`], and drops the message.
#[derive(Clone, Copy, PartialEq, Eq)]
#[non_exhaustive]
pub struct Refused<M> {
    /// Why the call failed.
    pub error: Error,
    /// The message.
    pub message: M,
}

impl<M> fmt::Debug for Refused<M> {
    fn fmt(&self, f: &mut fmt::Formatter<'_>) -> fmt::Result {
        f.debug_struct("Refused").field("error", &self.error).finish_non_exhaustive()
    }
}

impl<M> fmt::Display for Refused<M> {
    fn fmt(&self, f: &mut fmt::Formatter<'_>) -> fmt::Result {
        self.error.fmt(f)
    }
}

impl<M> std::error::Error for Refused<M> {}

impl<M> From<Refused<M>> for Error {
    fn from(refused: Refused<M>) -> Error {
        refused.error
    }
}

#[cfg(test)]
mod tests {
    use super::*;

    #[test]
    fn a_main_that_returns_an_error_prints_what_to_do() {
        for error in [Error::Version(7), Error::TooLong { found: 9, allowed: 5 }, Error::Processor]
        {
            assert_eq!(format!("{error:?}"), error.to_string());
        }
        assert!(
            Error::Version(7).to_string().ends_with("BROADCAST_C_LIB to the folder of that one")
        );
    }
}
