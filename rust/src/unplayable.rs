//! Why a recording gives nothing.

use crate::{Refusal, Refused};
use std::error::Error;
use std::fmt;

/// Why a recording cannot be played, checked or counted.
#[derive(Clone, Debug, PartialEq, Eq)]
#[non_exhaustive]
pub enum Unplayable {
    /// A call is refused: by number 8 for its session, or by another number that
    /// is not about a packet.
    Refused(Refusal),
    /// A packet is refused.
    Packet(Refused),
    /// So many bytes of memory cannot be had.
    Memory(u64),
    /// So many bytes are more than the limit that was given.
    Limit {
        /// What is needed.
        bytes: u64,
        /// What was given.
        limit: u64,
    },
}

impl From<Refusal> for Unplayable {
    fn from(refusal: Refusal) -> Unplayable {
        Unplayable::Refused(refusal)
    }
}

impl From<Refused> for Unplayable {
    fn from(refused: Refused) -> Unplayable {
        Unplayable::Packet(refused)
    }
}

impl fmt::Display for Unplayable {
    fn fmt(&self, f: &mut fmt::Formatter<'_>) -> fmt::Result {
        match self {
            Unplayable::Refused(refusal) => write!(f, "{refusal}"),
            Unplayable::Packet(refused) => write!(f, "{refused}"),
            Unplayable::Memory(bytes) => write!(
                f,
                "its frames need {bytes} bytes of memory, which are not to be had"
            ),
            Unplayable::Limit { bytes, limit } => write!(
                f,
                "its frames need {bytes} bytes of memory, more than the {limit} that are allowed"
            ),
        }
    }
}

impl Error for Unplayable {
    fn source(&self) -> Option<&(dyn Error + 'static)> {
        match self {
            Unplayable::Refused(refusal) => Some(refusal),
            Unplayable::Packet(refused) => Some(refused),
            _ => None,
        }
    }
}
