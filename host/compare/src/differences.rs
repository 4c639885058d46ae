//! The listed places where document 01 and the Rust part: the entries of
//! docs/DIFFERENCES.md that a call on a store past refusals 1 and 2 shows. A
//! comparison that parts in any other way fails.

use model::{Answer, Call, Card, MAX_ALLOCATED, MAX_SIZE, MAX_TRANSFER_BYTES};
use oracle::{Error, OracleAnswer, Outcome};

#[derive(Clone, Copy, Debug, PartialEq, Eq, PartialOrd, Ord)]
pub enum Difference {
    /// An empty write that names no card: refusal 3, where the Rust answers 0
    /// before it looks for the inode.
    EmptyWriteWithoutCard,
    /// No card and an end or a size past 2^63 - 1: refusal 3, where the Rust
    /// tries the limit first.
    LimitBeforeCard,
    /// No card and a bad time in a write: refusal 3, where the Rust asks the
    /// clock first.
    TimeBeforeCard,
    /// A grow to less than the present size: refusal 6, where the Rust
    /// shrinks the file.
    Shrink,
    /// Refusal 14's upper bound, which the Rust does not have.
    CountBound,
    /// A read that is refused by 9 to 12: no byte is handed out, where the
    /// Rust has written into the buffer before it found the fault.
    OutputOfRefusedRead,
}

/// A write rewrites at most 18 units of 16 blocks.
const MOST_BLOCKS: u64 = 288;

impl Difference {
    pub const ALL: [Self; 6] = [
        Self::EmptyWriteWithoutCard,
        Self::LimitBeforeCard,
        Self::TimeBeforeCard,
        Self::Shrink,
        Self::CountBound,
        Self::OutputOfRefusedRead,
    ];

    /// Its place in the list, as the recorded answers name it.
    pub fn place(self) -> usize {
        Self::ALL
            .iter()
            .position(|listed| *listed == self)
            .expect("every difference is listed")
    }

    /// The listed difference that explains these two answers, if one does.
    /// `card` is the card that the call names; `same_store` says whether both
    /// left the same bytes.
    pub fn explains(
        call: &Call,
        card: Option<&Card>,
        document: &Answer,
        rust: &OracleAnswer,
        same_store: bool,
    ) -> Option<Self> {
        let no_card = card.is_none() && document.number == 3 && same_store;
        match (call, &rust.outcome) {
            (
                Call::Write { bytes, .. } | Call::WriteArchive { bytes, .. },
                Outcome::Accepted(0),
            ) if bytes.is_empty() => no_card.then_some(Self::EmptyWriteWithoutCard),
            (
                Call::Write { offset, bytes, .. } | Call::WriteArchive { offset, bytes, .. },
                Outcome::Refused(Error::LimitExceeded),
            ) => {
                let taken = bytes.len().min(MAX_TRANSFER_BYTES) as u128;
                let past = taken > 0 && u128::from(*offset) + taken > MAX_SIZE.into();
                (no_card && past).then_some(Self::LimitBeforeCard)
            }
            (Call::Grow { size, .. }, Outcome::Refused(Error::LimitExceeded)) => {
                (no_card && *size > MAX_SIZE).then_some(Self::LimitBeforeCard)
            }
            (
                Call::Write { bytes, time, .. } | Call::WriteArchive { bytes, time, .. },
                Outcome::Refused(Error::InvalidInput("lent time out of range")),
            ) => {
                let bad = time.seconds > MAX_SIZE || time.nanoseconds >= 1_000_000_000;
                (no_card && !bytes.is_empty() && bad).then_some(Self::TimeBeforeCard)
            }
            (Call::Grow { size, .. }, Outcome::Shrinks) => {
                let smaller = card.is_some_and(|card| *size < card.size);
                (smaller && document.number == 6 && same_store).then_some(Self::Shrink)
            }
            // So near the bound the count cannot run out, so that 14 is the
            // bound's. The Rust goes on: a later unit stops it, or it leaves
            // a count that no card can hold. It cannot come back below the
            // bound, since no unit ends with fewer blocks than it had.
            (Call::Write { .. } | Call::WriteArchive { .. } | Call::Grow { .. }, outcome)
                if document.number == 14 =>
            {
                let near = card.is_some_and(|card| card.allocated > MAX_ALLOCATED - MOST_BLOCKS);
                let went_on = match outcome {
                    Outcome::CountBeyondCard(_) => true,
                    outcome => matches!(outcome.number(), Some(9..=13)) && same_store,
                };
                (near && went_on).then_some(Self::CountBound)
            }
            (Call::Read { .. }, Outcome::Refused(_)) => {
                let same_number = rust.outcome.number() == Some(document.number);
                let untouched = document.output == call.blank_output();
                let refused = (9..=12).contains(&document.number);
                (same_number && refused && untouched && same_store)
                    .then_some(Self::OutputOfRefusedRead)
            }
            _ => None,
        }
    }
}
