//! From a store in document 01's bytes to a `Volume` and back.

use std::cell::Cell;
use std::panic::{AssertUnwindSafe, catch_unwind};
use std::sync::Once;

use model::records::{CARD_BYTES, EXTENT_BYTES, GROUP_BYTES, Head, KEY_BYTES};
use model::{Call, Card, MAX_ALLOCATED, Store};

use crate::answer::{OracleAnswer, Outcome};
use crate::device::Image;
use crate::format::{compact_group, expand_group};
use crate::tree::{Edge, Record, Root};

use super::namespace::{Inode, inode_key};
use super::{Handle, ObjectId, ObjectKind, Registry, Timestamp, Volume};

/// Run a write, a grow or a read on a store past refusals 1 and 2, the write by
/// this instance's file.rs. A call that is not accepted leaves the store's bytes
/// as they were.
pub fn run(store: &mut Store, call: &Call) -> OracleAnswer {
    let mut output = call.blank_output();
    let outcome = quietly(|| answer(store, call, &mut output));
    OracleAnswer {
        outcome: outcome.unwrap_or_else(Outcome::Panicked),
        output,
    }
}

fn answer(store: &mut Store, call: &Call, output: &mut [u8]) -> Outcome {
    let head = Head::decode(&store.head);
    let mut volume = Volume {
        catalog: catalog(store, &head),
        used: store.used.clone(),
        retired: store.retired.clone(),
        data_hint: head.hint,
        root: Root {
            uuid: head.uuid,
            blocks: head.blocks,
        },
        handles: Registry,
        device: Image::new(&store.image),
    };
    let handle = |object: &u64| Handle(ObjectId(*object));
    let result = match call {
        Call::Write {
            object,
            offset,
            bytes,
            time,
        }
        | Call::WriteArchive {
            object,
            offset,
            bytes,
            time,
        } => {
            Timestamp::lend(*time);
            let written = volume.write(&handle(object), *offset, bytes);
            written.map(|count| count as u64)
        }
        Call::Grow { object, size, time } => {
            if present_size(&volume.catalog, *object).is_some_and(|present| *size < present) {
                return Outcome::Shrinks;
            }
            Timestamp::lend(*time);
            volume.truncate(&handle(object), *size).map(|()| 0)
        }
        Call::Read { object, offset, .. } => {
            let read = volume.read(&handle(object), *offset, output);
            read.map(|count| count as u64)
        }
        Call::Fresh { .. }
        | Call::Enter { .. }
        | Call::ReadMany { .. }
        | Call::WriteBatch { .. }
        | Call::DataStretches { .. }
        | Call::Settle
        | Call::Fill => return Outcome::NoCounterpart,
    };
    let count = match result {
        Ok(count) => count,
        Err(error) => return Outcome::Refused(error),
    };

    let books = Books::of(&volume.catalog);
    if let Some(card) = books.cards.iter().find(|c| c.allocated > MAX_ALLOCATED) {
        return Outcome::CountBeyondCard(card.allocated);
    }
    if books.groups.len() > store.group_places() {
        return Outcome::GroupBookFull;
    }
    if books.extents.len() > store.extent_places() {
        return Outcome::ExtentBookFull;
    }
    let Volume {
        device,
        used,
        retired,
        data_hint,
        ..
    } = volume;
    for (at, page) in device.written {
        store.image[at..at + page.len()].copy_from_slice(&page);
    }
    (store.used, store.retired) = (used, retired);
    books.store(store, data_hint);
    Outcome::Accepted(count)
}

/// The catalog that the three books make up: inode, extent and group records
/// under the published keys, groups in their stored, compact form.
pub(super) fn catalog(store: &Store, head: &Head) -> Edge {
    let cards = store.cards.chunks(CARD_BYTES).take(head.cards);
    let cards = cards.map(|place| -> Record {
        let card = Card::decode(place);
        let inode = Inode {
            kind: ObjectKind::File,
            size: card.size,
            allocated_blocks: card.allocated,
            creation: card.created.into(),
            modification: card.changed.into(),
            metadata_change: card.changed.into(),
        };
        (inode_key(card.object), inode.encode())
    });
    let extents = store.extents.chunks(EXTENT_BYTES).take(head.extents);
    let extents = extents.map(|place| -> Record {
        let (key, value) = place.split_at(KEY_BYTES);
        (key.to_vec(), value.to_vec())
    });
    let groups = store.groups.chunks(GROUP_BYTES).take(head.groups);
    let groups = groups.map(|place| -> Record {
        let (key, value) = place.split_at(KEY_BYTES);
        let value = value.try_into().expect("1,056 bytes");
        (key.to_vec(), compact_group(value).to_vec())
    });
    Edge::of(cards.chain(extents).chain(groups))
}

fn present_size(catalog: &Edge, object: u64) -> Option<u64> {
    let books = Books::of(catalog);
    let card = books.cards.iter().find(|card| card.object == object)?;
    Some(card.size)
}

/// The catalog's records as the three books' records.
pub(super) struct Books {
    cards: Vec<Card>,
    extents: Vec<Vec<u8>>,
    groups: Vec<Vec<u8>>,
}

impl Books {
    pub(super) fn of(catalog: &Edge) -> Self {
        let mut books = Self {
            cards: Vec::new(),
            extents: Vec::new(),
            groups: Vec::new(),
        };
        for (key, value) in catalog.records() {
            match key[8] {
                1 => {
                    let inode = Inode::decode(&value).expect("encoded by this crate");
                    books.cards.push(Card {
                        object: u64::from_be_bytes(key[..8].try_into().expect("8 bytes")),
                        size: inode.size,
                        allocated: inode.allocated_blocks,
                        changed: inode.modification.into(),
                        created: inode.creation.into(),
                    });
                }
                3 => books.extents.push([key, value].concat()),
                4 => books.groups.push([&*key, &expand_group(&value)].concat()),
                kind => unreachable!("a record of kind {kind}"),
            }
        }
        books
    }

    /// Into the store's books, with the hint and their numbers in its head.
    pub(super) fn store(&self, store: &mut Store, hint: u64) {
        Head {
            hint,
            cards: self.cards.len(),
            extents: self.extents.len(),
            groups: self.groups.len(),
            ..Head::decode(&store.head)
        }
        .encode(&mut store.head);
        store.cards.fill(0);
        for (card, place) in self.cards.iter().zip(store.cards.chunks_mut(CARD_BYTES)) {
            card.encode(place);
        }
        let books = [
            (&self.extents, &mut store.extents, EXTENT_BYTES),
            (&self.groups, &mut store.groups, GROUP_BYTES),
        ];
        for (records, book, bytes) in books {
            book.fill(0);
            for (record, place) in records.iter().zip(book.chunks_mut(bytes)) {
                place.copy_from_slice(record);
            }
        }
    }
}

/// Run the published code and catch a panic, without its message on the
/// terminal: it becomes an outcome.
fn quietly<T>(run: impl FnOnce() -> T) -> Result<T, String> {
    thread_local! {
        static QUIET: Cell<bool> = const { Cell::new(false) };
    }
    static HOOK: Once = Once::new();
    HOOK.call_once(|| {
        let usual = std::panic::take_hook();
        std::panic::set_hook(Box::new(move |info| {
            if !QUIET.get() {
                usual(info);
            }
        }));
    });
    QUIET.set(true);
    let result = catch_unwind(AssertUnwindSafe(run));
    QUIET.set(false);
    result.map_err(|panic| {
        let text = panic.downcast_ref::<String>().cloned();
        text.or_else(|| panic.downcast_ref::<&str>().map(|text| text.to_string()))
            .unwrap_or_else(|| "panic".to_string())
    })
}
