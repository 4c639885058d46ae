//! Document 01's demand 3 on a library: random histories from fresh against
//! plain arrays.

use std::collections::{BTreeMap, BTreeSet};

use model::records::STRETCH_BYTES;
use model::{
    Answer, Call, Card, MAX_TRANSFER_BYTES, MAX_TRIPLES, Store, Time, Triple, UNIT_BYTES, Volume,
};

use crate::generate::Profile;
use crate::library::Library;
use crate::lists::{different_units, lengths, single_read};
use crate::ranges::{data_stretches, listed, stretches};
use crate::walk::Walk;
use crate::writes::single_writes;

/// An object's bytes: zeros up to its size, which may be 2^63 - 1, under the
/// writes in their order. And, beside the plain arrays, its times.
struct Plain {
    size: u64,
    writes: Vec<(u64, Vec<u8>)>,
    changed: Time,
    created: Time,
}

impl Plain {
    fn new(time: Time) -> Self {
        Self {
            size: 0,
            writes: Vec::new(),
            changed: time,
            created: time,
        }
    }

    /// Whether the card has the object's size and times.
    fn agrees(&self, card: &Card) -> bool {
        (card.size, card.changed, card.created) == (self.size, self.changed, self.created)
    }

    fn bytes(&self, offset: u64, count: u64) -> Vec<u8> {
        let mut bytes = vec![0; count as usize];
        for (start, written) in &self.writes {
            let from = offset.max(*start);
            let to = (offset + count).min(start + written.len() as u64);
            if from < to {
                bytes[(from - offset) as usize..(to - offset) as usize]
                    .copy_from_slice(&written[(from - start) as usize..(to - start) as usize]);
            }
        }
        bytes
    }

    /// A read into the buffer: how many bytes it hands out.
    fn read(&self, offset: u64, buffer: &mut [u8]) -> u64 {
        let count = self
            .size
            .saturating_sub(offset)
            .min(buffer.len() as u64)
            .min(MAX_TRANSFER_BYTES as u64);
        buffer[..count as usize].copy_from_slice(&self.bytes(offset, count));
        count
    }

    /// The units into which bytes were written. They alone have a slot: what was
    /// not written stays a hole, however far the file grows.
    fn units(&self) -> BTreeSet<u64> {
        let units = |(offset, written): &(u64, Vec<u8>)| {
            let last = offset + written.len() as u64 - 1;
            offset / UNIT_BYTES..=last / UNIT_BYTES
        };
        self.writes.iter().flat_map(units).collect()
    }
}

/// A call that was not refused. An archive write takes write's step. Of a batch
/// the plain arrays are told how many writes were done, and take the step of each
/// of those.
fn step(files: &mut BTreeMap<u64, Plain>, call: &Call, done: u64) {
    match call {
        Call::Fresh { .. } => files.clear(),
        Call::Enter { object, time } => {
            files.insert(*object, Plain::new(*time));
        }
        Call::Write {
            object,
            offset,
            bytes,
            time,
        }
        | Call::WriteArchive {
            object,
            offset,
            bytes,
            time,
        } => {
            let file = files.get_mut(object).expect("a write that was accepted");
            let taken = &bytes[..bytes.len().min(MAX_TRANSFER_BYTES)];
            if !taken.is_empty() {
                file.size = file.size.max(offset + taken.len() as u64);
                file.writes.push((*offset, taken.to_vec()));
                file.changed = *time;
            }
        }
        Call::Grow { object, size, time } => {
            let file = files.get_mut(object).expect("a grow that was accepted");
            if file.size != *size {
                (file.size, file.changed) = (*size, *time);
            }
        }
        Call::WriteBatch { .. } => {
            for write in single_writes(call).iter().take(done as usize) {
                step(files, write, 0);
            }
        }
        Call::Read { .. }
        | Call::ReadMany { .. }
        | Call::DataStretches { .. }
        | Call::Settle
        | Call::Fill => {}
    }
}

/// There is a card for every file, which has its size, the time of the enter
/// that made it, and that of its last change.
fn cards_agree(store: &Store, files: &BTreeMap<u64, Plain>) -> bool {
    let cards = Volume::decode(store).cards;
    let agrees = |card: &Card| {
        files
            .get(&card.object)
            .is_some_and(|file| file.agrees(card))
    };
    cards.len() == files.len() && cards.iter().all(agrees)
}

/// "for each block, being reserved, free, retired, and each place of each
/// file that holds it, counted together, make exactly one", and "each card's
/// allocated blocks are the number of its file's places".
fn blocks_add_up(store: &Store, reserved: u64) -> bool {
    let volume = Volume::decode(store);
    let mut counts: Vec<u64> = (0..volume.blocks())
        .map(|block| {
            let at = block as usize;
            let states = [block < reserved, !volume.used[at], volume.retired[at]];
            states.iter().filter(|state| **state).count() as u64
        })
        .collect();
    for extent in &volume.extents {
        for block in extent.physical..extent.physical + extent.count {
            counts[block as usize] += 1;
        }
    }
    let places = |object: u64| -> u64 {
        let extents = volume.extents.iter().filter(|e| e.object == object);
        extents.map(|e| e.count).sum()
    };
    counts.iter().all(|count| *count == 1)
        && volume
            .cards
            .iter()
            .all(|card| card.allocated == places(card.object))
}

/// The calls of a history through the library: every accepted read, and many
/// in one call, have the plain array's count and bytes, a list of stretches has
/// the units that were written, a batch has number 0 where all of its writes were
/// done and there alone, every block is in one place, every card's count, size and
/// times are right, and no number comes that demand 3 shuts out. At the end every
/// byte that was written is read again, by single reads and by many in one call,
/// and the stretches of every file are listed. Calls that the library does not
/// have are the model's. Gives the number of its calls.
pub fn demand_3(library: &dyn Library, seed: u64, number: u64) -> u64 {
    let mut walk = Walk::with_lists(seed, number);
    if walk.history.profile == Profile::Groups {
        return 0;
    }
    let mut files = BTreeMap::new();
    let mut reserved_by_fresh = 0;
    let mut calls = 0;
    let mut ask = |store: &mut Store, call: &Call| {
        calls += 1;
        let answer = if library.supports(call) {
            library.run(store, call)
        } else {
            model::run(store, call)
        };
        let shut_out = matches!(answer.number, 2 | 9 | 10 | 11 | 12 | 14);
        assert!(!shut_out, "seed {seed} history {number}: {}", answer.number);
        answer
    };
    // Demand 3 speaks of stores reached from fresh by calls alone.
    while let Some(call) = walk.call() {
        let answer = ask(&mut walk.store, &call);
        if answer.refused {
            continue;
        }
        step(&mut files, &call, answer.count);
        if let Call::Fresh { reserved, .. } = call {
            reserved_by_fresh = reserved;
        }
        let what = format!("seed {seed} history {number} step {}", walk.step);
        if let Call::WriteBatch { list, .. } = &call {
            let all = answer.count == Triple::all(list).count() as u64;
            assert_eq!(answer.number == 0, all, "{what}: 0 if all were done");
        }
        answer_is_plain(&files, &call, &answer, &what);
        assert!(blocks_add_up(&walk.store, reserved_by_fresh), "{what}");
        assert!(cards_agree(&walk.store, &files), "{what}: the cards part");
    }
    for call in reads_of_all(&files).into_iter().chain(lists_of_all(&files)) {
        let answer = ask(&mut walk.store, &call);
        let what = format!("seed {seed} history {number}, read again");
        assert_eq!(answer.number, 0, "{what}");
        answer_is_plain(&files, &call, &answer, &what);
    }
    calls
}

/// An accepted read has the plain array's count and bytes, and the rest of its
/// buffer is as it was. Of many in one call each has its piece of the buffer,
/// and the count is the number of different units. A list of stretches has the
/// units of its range into which bytes were written and no other, so that every
/// byte in no stretch is a zero, and none is behind the file's end.
fn answer_is_plain(files: &BTreeMap<u64, Plain>, call: &Call, answer: &Answer, what: &str) {
    let mut expected = call.blank_output();
    let count = match call {
        Call::Read { object, offset, .. } => files[object].read(*offset, &mut expected),
        Call::ReadMany { list, .. } => {
            let mut start = 0;
            different_units(Triple::all(list).map(|triple| {
                let piece = &mut expected[start..start + triple.length as usize];
                start += piece.len();
                let count = files[&triple.object].read(triple.offset, piece);
                (triple.object, triple.offset, count)
            }))
        }
        Call::DataStretches {
            object,
            first,
            units,
            ..
        } => {
            let written = files[object].units();
            let within = written.range(first..&(first + units)).copied().collect();
            let stretches = stretches(&within);
            expected = listed(expected, &stretches);
            stretches.len() as u64
        }
        _ => return,
    };
    assert_eq!(answer.count, count, "{what}");
    assert!(answer.output == expected, "{what}: the bytes part");
}

/// Reads of every stretch that was written, with some bytes on either side, and
/// of every file's end: one by one, and as many in one call as a list has.
fn reads_of_all(files: &BTreeMap<u64, Plain>) -> Vec<Call> {
    let beside = 5_000;
    let mut stretches = BTreeSet::new();
    for (&object, file) in files {
        stretches.insert((object, file.size.saturating_sub(beside), file.size));
        for (offset, written) in &file.writes {
            let from = offset.saturating_sub(beside);
            stretches.insert((object, from, offset + written.len() as u64));
        }
    }
    let reads = stretches.into_iter().flat_map(|(object, from, to)| {
        // Two where one read cannot take so much.
        let offsets = (from..=to).step_by(MAX_TRANSFER_BYTES);
        offsets.map(move |offset| Triple {
            object,
            offset,
            length: to - offset + beside,
        })
    });
    let reads: Vec<Triple> = reads.collect();
    let single = reads.iter().map(single_read);
    let many = reads.chunks(MAX_TRIPLES).map(|reads| Call::ReadMany {
        list: Triple::list(reads),
        length: lengths(reads) as usize,
    });
    single.chain(many).collect()
}

/// A list of the stretches of every file, with just the room that they take.
fn lists_of_all(files: &BTreeMap<u64, Plain>) -> impl Iterator<Item = Call> {
    files.iter().map(|(&object, file)| {
        let room = stretches(&file.units()).len() * STRETCH_BYTES;
        data_stretches(object, 0, u64::MAX, room)
    })
}
