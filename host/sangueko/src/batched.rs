//! What becomes of a batch of writes.

use crate::Refusal;

/// How a batch of writes ended that was not refused. It stops at the first write
/// that is refused: so both cases have to be looked at, and a batch of which
/// nothing was done is no error.
///
/// ```
/// use sangueko::{Batched, Refusal};
///
/// let stopped = Batched::Stopped { done: 2, by: Refusal::NoSpace };
/// assert_eq!(stopped.done(), 2);
/// assert_eq!(stopped.stopped_by(), Some(Refusal::NoSpace));
/// assert_eq!(Batched::All { writes: 5 }.done(), 5);
/// assert_eq!(Batched::All { writes: 5 }.stopped_by(), None);
/// ```
///
/// A program that does not look at it is told so by the compiler:
///
/// ```compile_fail
/// #![deny(unused_must_use)]
/// # use sangueko::{Refusal, Store};
/// fn update(store: &mut Store<'_>) -> Result<(), Refusal> {
///     store.write_batch(&[], &[], 0, 0)?; // refused it was not, but done?
///     Ok(())
/// }
/// ```
#[must_use = "a batch can stop before its last write"]
#[derive(Clone, Copy, Debug, PartialEq, Eq, Hash)]
pub enum Batched {
    /// Every write was done: so many are in the list.
    All { writes: usize },
    /// The first `done` writes of the list were done, and remain. The one behind
    /// them was refused, and neither it nor a later one has changed a byte.
    Stopped { done: usize, by: Refusal },
}

impl Batched {
    /// How many writes were done: those at the head of the list.
    pub const fn done(self) -> usize {
        match self {
            Self::All { writes } => writes,
            Self::Stopped { done, .. } => done,
        }
    }

    /// What the write behind those was refused by, where not all were done.
    pub const fn stopped_by(self) -> Option<Refusal> {
        match self {
            Self::All { .. } => None,
            Self::Stopped { by, .. } => Some(by),
        }
    }
}
