//! What the Rust answers, and document 01's number for it.

/// Stands for `crate::Error` (its file is not published): the kinds that
/// file.rs and the cut functions name. Left out: every other kind.
#[derive(Clone, Copy, Debug, PartialEq, Eq)]
pub enum Error {
    Corrupt(&'static str),
    Corruption { block: u64, reason: &'static str },
    InvalidInput(&'static str),
    LimitExceeded,
    NoSpace,
    NotFound,
    ReadOnly,
    WrongType,
}

/// How one call of the Rust ended.
#[derive(Clone, Debug, PartialEq, Eq)]
pub enum Outcome {
    Accepted(u64),
    Refused(Error),
    /// The call was accepted, but document 01's books cannot hold what it
    /// left: the group book is tried first.
    GroupBookFull,
    ExtentBookFull,
    /// The call was accepted and left a count beyond the card's 35 bits.
    CountBeyondCard(u64),
    /// A truncate to less than the present size: `shrink` is left out.
    Shrinks,
    /// Arithmetic that overflowed, or another panic.
    Panicked(String),
    /// Enter, fresh, settle, fill, many reads in one call, batches of writes and
    /// lists of stretches have no counterpart.
    NoCounterpart,
    /// The published source is not there.
    Absent,
}

impl Outcome {
    /// Document 01's number. The kind alone does not decide it: `Corrupt`
    /// stands for 3, 10 and 14 and `Corruption` for 9, 11 and 12, which their
    /// reasons tell apart. Every other reason is one that no store past
    /// refusals 1 and 2 reaches, and has no number.
    pub fn number(&self) -> Option<u32> {
        match self {
            Self::Accepted(_) => Some(0),
            Self::Refused(error) => match error {
                // `write` and `read` find no inode; `truncate` asks
                // `attributes` first.
                Error::Corrupt("handle target inode is missing") | Error::NotFound => Some(3),
                // Both callers try their end or size before anything that can
                // exceed another limit: an extent's count never passes 32
                // bits, since joins are bounded, and scans ask for at most 64.
                Error::LimitExceeded => Some(5),
                Error::InvalidInput("lent time out of range") => Some(7),
                Error::Corruption {
                    reason: "backed data unit has no checksum",
                    ..
                } => Some(9),
                Error::Corrupt("checksummed data unit is not fully backed") => Some(10),
                Error::Corruption {
                    reason: "nonzero data past EOF",
                    ..
                } => Some(11),
                Error::Corruption {
                    reason: "file data checksum mismatch",
                    ..
                } => Some(12),
                Error::NoSpace => Some(13),
                // Only the first half of 14: the Rust has no upper bound.
                Error::Corrupt("inode allocation count disagrees with extents") => Some(14),
                _ => None,
            },
            Self::GroupBookFull => Some(15),
            Self::ExtentBookFull => Some(16),
            Self::CountBeyondCard(_)
            | Self::Shrinks
            | Self::Panicked(_)
            | Self::NoCounterpart
            | Self::Absent => None,
        }
    }

    pub fn count(&self) -> u64 {
        match self {
            Self::Accepted(count) => *count,
            _ => 0,
        }
    }
}

/// The outcome and the output buffer as the Rust left it.
#[derive(Clone, Debug, PartialEq, Eq)]
pub struct OracleAnswer {
    pub outcome: Outcome,
    pub output: Vec<u8>,
}
