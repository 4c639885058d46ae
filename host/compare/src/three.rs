//! Random calls through a library, document 01's model and the published Rust:
//! the library has to be the model to the last byte in every call, and the
//! model the Rust in every write, archive write, grow and read but for the listed
//! differences.
//! Many reads in one call, batches of writes and lists of stretches, which the
//! Rust does not have, are held against its single reads and writes.

use std::cell::{Cell, RefCell};

use model::{Call, Store};
use oracle::Outcome;

use crate::fragments;
use crate::library::Library;
use crate::run::{Failure, Tally, Verdict, judge, same_images, watched_history};
use crate::writes::single_writes;

/// What a run has counted.
#[derive(Default)]
pub struct Three {
    /// Of model and Rust.
    pub tally: Tally,
    /// Calls that the library answered.
    pub library: u64,
    /// Of those, calls on fragmented stores of three allocation groups.
    pub wide: u64,
    /// The model's copy of a store and the library's, whose buffers serve again.
    copies: RefCell<(Store, Store)>,
}

impl Three {
    /// One history. A call on which library and model part, or model and Rust
    /// in a way that is not listed, is an error.
    pub fn history(
        &mut self,
        library: &dyn Library,
        seed: u64,
        number: u64,
    ) -> Result<(), Box<Failure>> {
        let asked = Cell::new(0);
        let parted = RefCell::new(None);
        let watch = |store: &Store, call: &Call| {
            if parted.borrow().is_some() || !library.supports(call) {
                return;
            }
            asked.set(asked.get() + 1);
            let (document, lent) = &mut *self.copies.borrow_mut();
            if let Some(reason) = differs(library, store, call, document, lent) {
                *parted.borrow_mut() = Some(Box::new(Failure {
                    origin: format!("seed {seed}, history {number}"),
                    reason,
                    store: store.clone(),
                    call: call.clone(),
                }));
            }
        };
        let result = watched_history(seed, number, &watch, &oracle::run, &mut self.tally);
        self.library += asked.get();
        parted.into_inner().map_or(result, Err)
    }

    /// So many writes, archive writes and batches on one store of three allocation
    /// groups, whose image goes on: a history of such a store would copy it for every
    /// call. All three have to answer alike; nothing is listed here.
    pub fn wide(
        &mut self,
        library: &dyn Library,
        seed: u64,
        steps: usize,
    ) -> Result<(), Box<Failure>> {
        let (mut document, steps) = fragments::wide(seed, steps);
        let (mut lent, mut rust) = (document.clone(), document.clone());
        for (volume, call) in steps {
            volume.encode(&mut document);
            for other in [&mut lent, &mut rust] {
                other.copy_records_from(&document);
            }
            let (head, used) = (document.head.clone(), document.used.clone());
            let answer = model::run(&mut document, &call);
            let told = library.run(&mut lent, &call);
            self.library += 1;
            self.wide += 1;
            let same = |other: &Store| {
                document.records_equal(other) && same_images(&document, other, &used)
            };
            let reason = if told != answer || !same(&lent) {
                Some(format!("library {} count {}", told.number, told.count))
            } else if by_single_calls(&mut rust, &call) != answer.number || !same(&rust) {
                Some("the Rust answers otherwise".into())
            } else {
                None
            };
            if let Some(reason) = reason {
                let mut store = document.clone();
                volume.encode(&mut store);
                return Err(Box::new(Failure {
                    origin: format!("seed {seed}, three allocation groups"),
                    reason: format!("model {} count {}, {reason}", answer.number, answer.count),
                    store,
                    call,
                }));
            }
            if answer.number == 0 {
                self.tally.given.count(&call, &head, &used, &document);
            }
        }
        Ok(())
    }
}

/// The Rust's answer in the document's number: of a batch, by single writes, that
/// of the first which is refused.
fn by_single_calls(store: &mut Store, call: &Call) -> u32 {
    let calls = match call {
        Call::WriteBatch { .. } => single_writes(call),
        call => vec![call.clone()],
    };
    for call in calls {
        match oracle::run(store, &call).outcome {
            Outcome::Accepted(_) => {}
            other => return other.number().unwrap_or(u32::MAX),
        }
    }
    0
}

/// How library, model and Rust part on one call, if they do.
pub fn parting(library: &dyn Library, store: &Store, call: &Call) -> Option<String> {
    let (document, lent) = &mut (Store::default(), Store::default());
    if library.supports(call) {
        let reason = differs(library, store, call, document, lent);
        if reason.is_some() {
            return reason;
        }
    }
    if !oracle::AVAILABLE {
        return None;
    }
    match judge(store, call, &oracle::run).verdict {
        Verdict::Part(reason) => Some(reason),
        _ => None,
    }
}

/// The library and the model on copies of one store: how they differ, if they do.
fn differs(
    library: &dyn Library,
    store: &Store,
    call: &Call,
    document: &mut Store,
    lent: &mut Store,
) -> Option<String> {
    for copy in [&mut *document, &mut *lent] {
        for (to, from) in copy.buffers_mut().into_iter().zip(store.buffers()) {
            to.clone_from(from);
        }
    }
    let expected = model::run(document, call);
    let told = library.run(lent, call);
    if told == expected && document == lent {
        return None;
    }
    Some(format!(
        "model {} count {}, library {} count {}, the stores {}",
        expected.number,
        expected.count,
        told.number,
        told.count,
        if document == lent {
            "the same"
        } else {
            "differ"
        }
    ))
}
