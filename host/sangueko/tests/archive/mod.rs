//! The library of the comparison that is the linked archive.

use compare::library::{Lent, Library, Request, Told};
use sangueko::{Batched, Refusal, Store};

/// The linked archive, through the safe calls.
pub struct Archive;

impl Library for Archive {
    fn lent(&self, lent: Lent<'_>, request: Request<'_>) -> Told {
        let mut store = Store {
            image: lent.image,
            head: lent.head,
            cards: lent.cards,
            extents: lent.extents,
            groups: lent.groups,
            used: lent.used,
            retired: lent.retired,
        };
        told(match request {
            Request::Fresh { uuid, reserved } => store.fresh(uuid, reserved),
            Request::Enter {
                object,
                seconds,
                nanoseconds,
            } => store.enter(object, seconds, nanoseconds),
            Request::Write {
                object,
                offset,
                bytes,
                seconds,
                nanoseconds,
            } => store.write(object, offset, bytes, seconds, nanoseconds),
            Request::WriteArchive {
                object,
                offset,
                bytes,
                seconds,
                nanoseconds,
            } => store.write_archive(object, offset, bytes, seconds, nanoseconds),
            Request::Grow {
                object,
                size,
                seconds,
                nanoseconds,
            } => store.grow(object, size, seconds, nanoseconds),
            Request::Settle => store.settle(),
            Request::Fill => store.fill(),
            Request::Read {
                object,
                offset,
                out,
            } => store.read(object, offset, out),
            Request::ReadMany { list, out } => store.read_many_bytes(list, out),
            Request::WriteBatch {
                list,
                bytes,
                seconds,
                nanoseconds,
            } => return batched(store.write_batch_bytes(list, bytes, seconds, nanoseconds)),
            Request::DataStretches {
                object,
                first,
                units,
                out,
            } => store.data_stretches(object, first, units, out),
        })
    }
}

fn told(result: Result<u64, Refusal>) -> Told {
    match result {
        Ok(count) => Told {
            number: 0,
            count,
            refused: false,
        },
        Err(refusal) => refused(refusal),
    }
}

fn refused(refusal: Refusal) -> Told {
    Told {
        number: refusal.number(),
        count: 0,
        refused: true,
    }
}

fn batched(result: Result<Batched, Refusal>) -> Told {
    let batched = match result {
        Ok(batched) => batched,
        Err(refusal) => return refused(refusal),
    };
    Told {
        number: batched.stopped_by().map_or(0, Refusal::number),
        count: batched.done() as u64,
        refused: false,
    }
}
