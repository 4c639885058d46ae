//! Wrong models: the model with one rule changed in each. They are never part
//! of a library or of the model; a test sees that the comparison finds every
//! one. `wrong.edits` lists them, `build.rs` makes them.

use std::cell::{Cell, RefCell};

use model::*;

#[allow(warnings)]
mod rules {
    include!(concat!(env!("OUT_DIR"), "/rules.rs"));
}

#[allow(warnings)]
mod records {
    include!(concat!(env!("OUT_DIR"), "/records.rs"));
}

include!(concat!(env!("OUT_DIR"), "/names.rs"));

thread_local! {
    /// The wrong model that answers on this thread; 0 for the model as it is.
    static WHICH: Cell<usize> = const { Cell::new(0) };
    /// What a wrong model notes within one call, where the model has nothing to
    /// note it in: blocks, a hint, or that something is so.
    static NOTED: RefCell<Vec<u64>> = const { RefCell::new(Vec::new()) };
}

fn which() -> usize {
    WHICH.get()
}

fn on(wrong: usize) -> bool {
    which() == wrong
}

fn noted() -> Vec<u64> {
    NOTED.with_borrow(Clone::clone)
}

fn note(noted: impl IntoIterator<Item = u64>) {
    NOTED.with_borrow_mut(|all| all.extend(noted));
}

fn forget() {
    NOTED.with_borrow_mut(Vec::clear);
}

/// A wrong model by its place in the list, from 1 on; 0 is the model as it is,
/// compiled from the same text.
#[derive(Clone, Copy, Debug, PartialEq, Eq)]
pub struct Wrong(usize);

impl Wrong {
    pub const NONE: Self = Self(0);

    pub fn all() -> impl Iterator<Item = Self> {
        (1..=NAMES.len()).map(Self)
    }

    pub fn named(name: &str) -> Option<Self> {
        let at = NAMES.iter().position(|listed| *listed == name)?;
        Some(Self(at + 1))
    }

    pub fn name(self) -> &'static str {
        match self.0 {
            0 => "none",
            at => NAMES[at - 1],
        }
    }

    pub fn run(self, store: &mut Store, call: &Call) -> Answer {
        WHICH.set(self.0);
        forget();
        let answer = rules::run(store, call);
        WHICH.set(0);
        answer
    }
}
