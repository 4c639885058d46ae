//! Batches of writes at the edges of their rules, each on a store made for it.

use std::sync::Arc;

use model::records::{EXTENT_BYTES, GROUP_BYTES};
use model::{
    BLOCK_BYTES, Call, Card, Extent, Group, MAX_SIZE, MAX_TRANSFER_BYTES, Store, Time, Volume,
};

use crate::alone::seal;
use crate::edges::{Edge, Unit, after, edge, enter, grow, pair, with, write};
use crate::many::files_on;
use crate::writes::{TIME, Write, batch_of, write_batch};

const MIB: u64 = MAX_TRANSFER_BYTES as u64;
const BLOCK: u64 = BLOCK_BYTES as u64;

pub fn batches() -> Vec<Edge> {
    let mut all = Vec::new();
    let files = files();
    lists(&mut all, &files);
    sums(&mut all, &files);
    limits(&mut all);
    in_order(&mut all, &files);
    empty(&mut all, &files);
    cards(&mut all, &files);
    times(&mut all, &files);
    ends(&mut all);
    few_blocks(&mut all);
    full_books(&mut all);
    shared(&mut all);
    shared_anywhere(&mut all);
    damaged(&mut all);
    all
}

/// Files 5 (empty), 6 (a hole of three units), 7 (two units) and 8 (one unit);
/// none of number 9. 80 blocks are free.
pub fn files() -> Arc<Store> {
    files_on(Store::blank(100, 5, 20, 6))
}

/// Files 7 and 8 of one block each, and both have the same.
pub fn shared_block() -> Arc<Store> {
    let calls = [enter(7), enter(8), write(7, 0, 4_096), write(8, 0, 4_096)];
    let store = after(Store::blank(8, 2, 4, 2), 1, &calls);
    with(&store, |store| {
        let mut volume = Volume::decode(store);
        volume.extents[1].physical = volume.extents[0].physical;
        seal(&mut volume, &mut store.image);
        volume.encode(store);
    })
}

/// Two blocks are free, and file 7 has a third.
pub fn two_free_blocks() -> Arc<Store> {
    after(
        Store::blank(4, 2, 4, 2),
        1,
        &[enter(7), enter(8), write(7, 0, 4_096)],
    )
}

/// Numbers of writes around 64, and lists that are not whole triples: each also
/// with a write that 3 would stop.
fn lists(all: &mut Vec<Edge>, files: &Arc<Store>) {
    for object in [7, 9] {
        for number in [0, 1, 2, 63, 64, 65, 66, 128] {
            for length in [0, 10] {
                let call = write_batch(&vec![(object, 5, length); number]);
                all.push(edge("a number of writes", files, call));
            }
        }
        for number in [1, 2, 64, 65] {
            let call = write_batch(&vec![(object, 0, 10); number]);
            for bytes in [1, 8, 16, 23] {
                all.push(edge("not whole triples", files, longer(&call, bytes)));
                all.push(edge("not whole triples", files, shorter(&call, bytes)));
            }
        }
    }
    for bytes in [1, 23, 24, 25] {
        let call = longer(&write_batch(&[]), bytes);
        all.push(edge("a list of zeros", files, call));
    }
    for length in [0, 1, 100] {
        let call = batch_of(&[], length, TIME);
        all.push(edge("an empty list of writes", files, call));
    }
}

fn with_list(call: &Call, change: impl FnOnce(&mut Vec<u8>)) -> Call {
    let mut call = call.clone();
    let Call::WriteBatch { list, .. } = &mut call else {
        unreachable!("a batch")
    };
    change(list);
    call
}

fn longer(call: &Call, bytes: usize) -> Call {
    with_list(call, |list| list.resize(list.len() + bytes, 0))
}

/// The bytes of the writes stay.
fn shorter(call: &Call, bytes: usize) -> Call {
    with_list(call, |list| list.truncate(list.len() - bytes))
}

/// Lengths that add up to the bytes, to one more or less, and to so much that 64
/// bits do not hold it: each also with a write that 3 would stop.
fn sums(all: &mut Vec<Edge>, files: &Arc<Store>) {
    for object in [7, 9] {
        for (first, second) in [(10, 10), (20, 0), (0, 20), (1, 19)] {
            for length in [0, 1, 10, 19, 20, 21, 100] {
                let writes = [(7, 0, first), (object, 40, second)];
                let call = batch_of(&writes, length, TIME);
                all.push(edge("lengths and bytes", files, call));
            }
        }
        for lengths in [
            &[u64::MAX][..],
            &[u64::MAX, u64::MAX],
            &[u64::MAX, 1],
            &[u64::MAX, 11],
            &[5, u64::MAX - 2],
            &[1 << 63, 1 << 63],
            &[1 << 63, 1 << 63, 10],
            &[10, u64::MAX - 9, 10],
            &[1 << 32],
            &[(1 << 32) + 10],
            &[1 << 31, 1 << 31, 10],
            &[2, MIB + 1],
            // Those that a write may have, whose sum 16, 24 or 26 bits do not hold.
            &[65_536, 10],
            &[MIB; 16],
            &[MIB; 64],
        ] {
            let writes: Vec<Write> = lengths.iter().map(|&length| (object, 0, length)).collect();
            for length in [0, 2, 10, 20] {
                let call = batch_of(&writes, length, TIME);
                all.push(edge("lengths past the bytes", files, call));
            }
        }
    }
}

/// Lengths around 1 MiB, alone and behind a write that is done: the bytes are
/// there, or only as many as a write may have.
fn limits(all: &mut Vec<Edge>) {
    let room = after(Store::blank(300, 2, 20, 4), 0, &[enter(7), enter(8)]);
    for length in [MIB - 1, MIB, MIB + 1] {
        all.push(edge("a long write", &room, write_batch(&[(7, 0, length)])));
    }
    for length in [MIB, MIB + 1] {
        let writes = [(8, 0, 10), (7, 65_535, length)];
        all.push(edge(
            "a long write behind another",
            &room,
            write_batch(&writes),
        ));
        let call = batch_of(&writes, 10 + MAX_TRANSFER_BYTES, TIME);
        all.push(edge("bytes of 1 MiB and 10", &room, call));
    }
    for object in [7, 9] {
        let call = batch_of(&[(object, 0, MIB + 1)], MAX_TRANSFER_BYTES, TIME);
        all.push(edge("bytes of 1 MiB", &room, call));
    }
    let late = Time {
        seconds: MAX_SIZE + 1,
        nanoseconds: 0,
    };
    let writes = [(7, MAX_SIZE, MIB + 1)];
    let call = batch_of(&writes, MAX_TRANSFER_BYTES + 1, late);
    all.push(edge("18 before 5 and 7", &room, call));
}

/// Writes on and beside one another, of one file and of several: the later one
/// stands over the earlier, and every one retires what it takes the place of.
fn in_order(all: &mut Vec<Edge>, files: &Arc<Store>) {
    for writes in [
        &[(7, 0, 10)][..],
        &[(7, 0, 10), (7, 20, 10)],
        &[(7, 0, 10), (8, 0, 10)],
        &[(8, 3_000, 10), (7, 66_000, 10), (7, 0, 10)],
        // Equal ones, with and without another in between.
        &[(7, 5, 10), (7, 5, 10)],
        &[(7, 5, 10), (8, 5, 10), (7, 5, 10)],
        // Over each other, forwards and back.
        &[(7, 0, 100), (7, 50, 100)],
        &[(7, 50, 100), (7, 0, 100)],
        &[(7, 0, 100), (7, 50, 10)],
        &[(7, 50, 10), (7, 0, 100)],
        &[(7, 65_530, 10), (7, 65_520, 12), (7, 65_536, 4_096)],
        // One behind the other, as one write would have it.
        &[(7, 0, 10), (7, 10, 10)],
        &[(5, 0, 10), (5, 10, 10), (5, 20, 10)],
        &[(5, 0, BLOCK), (5, BLOCK, BLOCK)],
        &[(5, BLOCK, BLOCK), (5, 0, BLOCK)],
        &[(5, 0, 65_536), (5, 65_536, 10)],
        // A file that grows by several of them, with its old tail unit.
        &[(8, 4_000, 10), (8, 70_000, 10), (8, 200_000, 10)],
        &[(8, 200_000, 10), (8, 70_000, 10)],
        &[(7, 140_000, 1), (7, 70_000, 1), (8, 5, 1)],
        &[(5, 16_777_216, 5), (5, 0, 5), (8, 5, 5)],
        // In a hole: a unit is laid down, and then written into.
        &[(6, 65_536, 10), (6, 65_540, 10), (6, 0, 10)],
        &[(6, 149_999, 1), (6, 0, 70_000), (6, 150_000, 1)],
        // Whole units over what was written just before.
        &[(7, 100, 10), (7, 0, 65_536)],
        &[(7, 0, 65_536), (7, 100, 10)],
    ] {
        all.push(edge("writes one after another", files, write_batch(writes)));
    }
    let back: Vec<Write> = (0..20).map(|n| (7, 4_000 - n * 100, 150)).collect();
    all.push(edge("writes backwards", files, write_batch(&back)));
    let two: Vec<Write> = (0..30).map(|n| (7 + n % 2, n * 100, 5 + n)).collect();
    all.push(edge("writes of two files", files, write_batch(&two)));
}

/// Writes of no byte: they count, whatever their offset and the time are, and
/// change nothing; but there has to be a card.
fn empty(all: &mut Vec<Edge>, files: &Arc<Store>) {
    let late = Time {
        seconds: MAX_SIZE + 1,
        nanoseconds: 1_000_000_000,
    };
    for time in [TIME, late] {
        for writes in [
            &[(7, 0, 0)][..],
            &[(7, 0, 0), (8, 0, 0)],
            &[(7, u64::MAX, 0), (5, 0, 0), (7, 0, 0)],
            &[(9, 0, 0)],
            &[(7, 0, 0), (9, 0, 0)],
            &[(9, 0, 0), (7, 0, 0)],
            &[(7, 0, 0), (9, 0, 0), (7, 0, 0)],
        ] {
            all.push(edge("writes of no byte", files, batch_of(writes, 0, time)));
        }
        for writes in [
            &[(7, 5, 10), (7, 0, 0)][..],
            &[(7, 0, 0), (7, 5, 10)],
            &[(7, 5, 5), (8, 0, 0), (7, 10, 5)],
            &[(5, 0, 0), (7, 5, 10), (6, 0, 0)],
            &[(7, 5, 10), (9, 0, 0)],
            &[(7, 0, 0), (9, 0, 10)],
        ] {
            all.push(edge(
                "writes of no byte among others",
                files,
                batch_of(writes, 10, time),
            ));
        }
    }
    let none = [(8, 0, 0); 64];
    all.push(edge("64 writes of no byte", files, write_batch(&none)));
}

/// Writes of file 9, which has no card: the first, the last, one in between,
/// past every end, and in front of what would stop it otherwise.
fn cards(all: &mut Vec<Edge>, files: &Arc<Store>) {
    for writes in [
        &[(9, 0, 10)][..],
        &[(9, u64::MAX, 10)],
        &[(9, 0, 10), (7, 0, 10)],
        &[(7, 0, 10), (9, 0, 10)],
        &[(7, 0, 10), (9, 0, 10), (8, 0, 10)],
        &[(7, 0, 10), (8, 0, 10), (9, MAX_SIZE, 10)],
        &[(7, 0, 10), (7, MAX_SIZE, 10), (9, 0, 10)],
        &[(7, 0, 10), (9, 0, 10), (7, MAX_SIZE, 10)],
        &[(9, 0, 10), (9, 5, 10)],
        &[(0, 0, 1)],
        &[(7 + (1 << 32), 0, 10)],
        &[(7, 0, 10), (7, 5, 10), (7, 10, 10), (u64::MAX, 0, 1)],
    ] {
        all.push(edge("a write without a card", files, write_batch(writes)));
    }
}

/// One time for all: the cards of all files that were written get it.
fn times(all: &mut Vec<Edge>, files: &Arc<Store>) {
    for seconds in [0, MAX_SIZE, MAX_SIZE + 1, u64::MAX] {
        for nanoseconds in [0, 999_999_999, 1_000_000_000, (1 << 32) + 5] {
            let time = Time {
                seconds,
                nanoseconds,
            };
            for writes in [
                &[(7, 3, 10)][..],
                &[(7, 3, 5), (8, 3, 5)],
                &[(8, 3, 5), (9, 3, 5)],
                &[(9, 3, 5), (8, 3, 5)],
                &[(7, MAX_SIZE, 5), (8, 3, 5)],
            ] {
                all.push(edge("a batch's time", files, batch_of(writes, 10, time)));
            }
        }
    }
}

/// Ends around 2^63, the first write's and a later one's.
fn ends(all: &mut Vec<Edge>) {
    let calls = [enter(7), enter(8), grow(8, MAX_SIZE)];
    let store = after(Store::blank(40, 2, 8, 4), 0, &calls);
    for object in [7, 8] {
        for (offset, length) in [
            (MAX_SIZE - 10, 10),
            (MAX_SIZE - 9, 10),
            (MAX_SIZE - 1, 1),
            (MAX_SIZE, 1),
            (MAX_SIZE, 0),
            (MAX_SIZE + 1, 1),
            (u64::MAX, 1),
            (u64::MAX, 0),
        ] {
            let write = (object, offset, length);
            for writes in [
                &[write][..],
                &[(7, 5, 10), write],
                &[(7, 5, 10), write, (8, 5, 10)],
            ] {
                all.push(edge("a batch's end near 2^63", &store, write_batch(writes)));
            }
        }
    }
}

/// Refusal 13: the first write takes the last blocks, or the second finds too
/// few; a smaller one behind it is not made.
fn few_blocks(all: &mut Vec<Edge>) {
    let store = two_free_blocks();
    for writes in [
        &[(7, 0, 10)][..],
        &[(7, 0, 3 * BLOCK)],
        &[(7, 0, 10), (7, 0, 2 * BLOCK)],
        &[(7, 0, 10), (8, 0, 10)],
        &[(7, 0, 10), (8, 0, 10), (7, 20, 10)],
        &[(7, 0, 10), (7, 5, 10), (7, 10, 10)],
        &[(7, 0, 10), (7, 5, 10), (8, 10, 10)],
        &[(8, 0, 2 * BLOCK), (7, 0, 1)],
        &[(8, 0, 10), (7, 0, 2 * BLOCK), (7, 0, 1)],
        &[(8, 0, 10), (7, 0, 2 * BLOCK), (8, 0, 0)],
        &[(7, 0, 3 * BLOCK), (7, 0, 1)],
        &[(7, 0, 2 * BLOCK), (7, 0, 0), (7, 0, 1), (9, 0, 1)],
    ] {
        all.push(edge("few free blocks", &store, write_batch(writes)));
    }
    // Retired blocks are there, and stay so.
    let calls = [enter(7), enter(8), write(7, 0, 4_096), write(7, 0, 5)];
    let store = after(Store::blank(5, 2, 4, 2), 1, &calls);
    let writes = [(7, 0, 10), (8, 0, 10), (7, 5, 10)];
    all.push(edge("blocks retired before", &store, write_batch(&writes)));
}

/// Refusals 15 and 16 of a later write: the book is filled by the first.
fn full_books(all: &mut Vec<Edge>) {
    let calls = [
        enter(7),
        enter(8),
        write(7, 0, 40_960),
        write(7, 8_192, 10),
        write(7, 20_480, 10),
    ];
    let store = after(Store::blank(60, 2, 12, 4), 0, &calls);
    let now = Volume::decode(&store);
    for extents in now.extents.len()..=now.extents.len() + 3 {
        for groups in now.groups.len()..=now.groups.len() + 2 {
            let other = with(&store, |store| {
                store.extents.truncate(extents * EXTENT_BYTES);
                store.groups.truncate(groups * GROUP_BYTES);
            });
            for writes in [
                &[(7, 0, 1), (7, 12_288, 10)][..],
                &[(7, 0, 1), (8, 0, 1), (7, 256 * 65_536, 1)],
                &[(8, 0, 1), (8, 256 * 65_536, 1), (7, 0, 1)],
                &[(7, 256 * 65_536, 1), (7, 512 * 65_536, 1)],
            ] {
                all.push(edge("books filled by a batch", &other, write_batch(writes)));
            }
        }
    }
}

/// A block that two files share: the first write over it leaves a store that 2
/// refuses, and what comes next is stopped by it, even an empty one.
fn shared(all: &mut Vec<Edge>) {
    let store = shared_block();
    for writes in [
        &[(7, 0, BLOCK), (8, 0, 1)][..],
        &[(8, 0, 1), (7, 0, BLOCK)],
        &[(7, 0, BLOCK)],
        &[(7, 0, 1), (8, 0, 0)],
        &[(7, 0, 0), (8, 0, BLOCK), (7, 0, 1)],
        &[(7, 0, 0), (8, 0, 0)],
        &[(7, 0, BLOCK), (7, 0, 1)],
        &[(7, 0, BLOCK), (9, 0, 1)],
        &[(7, 0, BLOCK), (7, MAX_SIZE, 1), (8, 0, 1)],
        // Behind the shared one, which the first does not touch.
        &[(7, BLOCK, BLOCK), (8, BLOCK, 1), (7, 0, 1), (8, 0, 1)],
        &[(9, 0, 1), (7, 0, BLOCK), (8, 0, 1)],
    ] {
        all.push(edge("a block of two files", &store, write_batch(writes)));
    }
    // 18 is tried before any of them.
    let call = batch_of(&[(7, 0, BLOCK), (8, 0, 1)], 4_096, TIME);
    all.push(edge("a block of two files", &store, call));
    // Two places of one file.
    let calls = [enter(7), write(7, 0, 8_192)];
    let store = after(Store::blank(12, 1, 4, 1), 1, &calls);
    let store = with(&store, |store| {
        let mut volume = Volume::decode(store);
        let first = volume.extents[0];
        volume.extents[0].count = 1;
        volume.extents.push(Extent {
            logical: 1,
            count: 1,
            ..first
        });
        seal(&mut volume, &mut store.image);
        volume.encode(store);
    });
    for writes in [
        &[(7, 0, BLOCK), (7, BLOCK, BLOCK)][..],
        &[(7, 0, 2 * BLOCK), (7, 0, 1)],
        &[(7, 2 * BLOCK, 1), (7, 0, 1), (7, 0, 1)],
    ] {
        all.push(edge(
            "a block at two places of a file",
            &store,
            write_batch(writes),
        ));
    }
}

/// A place: object and logical block.
type Place = (u64, u64);

/// Files 4 to 8 of 12 blocks each, in two extents, on 200 blocks of which they
/// have the last, and some on both sides of the borders of the maps' words. Then
/// the second place has the first one's block, too.
fn shares(first: Place, second: Place) -> Arc<Store> {
    let starts = [
        [10, 20],
        [30, 40],
        // 60 to 65, 100 to 105, 124 to 129 and 194 to 199
        [60, 50],
        [100, 124],
        [80, 194],
    ];
    let mut store = Store::blank(200, 6, 20, 6);
    for (at, byte) in store.image.iter_mut().enumerate() {
        *byte = (at % 249) as u8;
    }
    let mut places = Vec::new();
    for (object, starts) in (4..).zip(starts) {
        let blocks = starts.into_iter().flat_map(|start| start..start + 6);
        places.extend(
            (0..)
                .zip(blocks)
                .map(|(logical, block)| ((object, logical), block)),
        );
    }
    let at = |place: Place| places.iter().position(|(other, _)| *other == place);
    let (first, second) = (at(first).expect("a place"), at(second).expect("a place"));
    places[second].1 = places[first].1;
    let mut volume = Volume {
        uuid: [5; 16],
        reserved: 1,
        hint: 0,
        cards: Vec::new(),
        extents: Vec::new(),
        groups: Vec::new(),
        used: vec![false; 200],
        retired: vec![false; 200],
    };
    volume.used[0] = true;
    for object in 4..=8 {
        volume.cards.push(Card {
            object,
            size: 12 * BLOCK,
            allocated: 12,
            changed: Time::new(1, 2),
            created: Time::new(3, object),
        });
        volume.groups.push(Group::empty(object, 0));
    }
    for ((object, logical), physical) in places {
        volume.used[physical as usize] = true;
        let one = Extent {
            object,
            logical,
            physical,
            count: 1,
        };
        match volume.extents.last_mut() {
            Some(last) if last.joins(&one) => last.count += 1,
            _ => volume.extents.push(one),
        }
    }
    seal(&mut volume, &mut store.image);
    volume.encode(&mut store);
    Arc::new(store)
}

/// A block at two places, wherever they are: of one file or of two, of extents
/// side by side in the book or far apart, at an extent's first block, within it
/// and at its last, on both sides of a border of the maps' words, and at the end
/// of the device. Whichever file is written first, the next write is stopped;
/// where the writes are elsewhere, none is.
fn shared_anywhere(all: &mut Vec<Edge>) {
    for (first, second) in [
        // The first and the last place of the book.
        ((4, 0), (8, 11)),
        ((8, 11), (4, 0)),
        // Neighbours, within an extent and at its ends.
        ((4, 0), (4, 1)),
        ((4, 5), (4, 6)),
        ((4, 11), (5, 0)),
        ((4, 2), (4, 9)),
        ((4, 0), (4, 11)),
        // Extents that are not neighbours.
        ((4, 3), (6, 3)),
        ((5, 0), (7, 8)),
        ((5, 5), (8, 2)),
        ((6, 11), (4, 6)),
        // Blocks 63 and 64, 127 and 128, and 199.
        ((6, 3), (8, 0)),
        ((6, 4), (5, 7)),
        ((7, 9), (5, 1)),
        ((7, 10), (4, 4)),
        ((8, 11), (6, 7)),
    ] {
        let store = shares(first, second);
        let over = |(object, logical): Place| (object, logical * BLOCK, BLOCK);
        let byte = |(object, logical): Place| (object, logical * BLOCK + 5, 1);
        let name = format!("a block at {first:?} and {second:?}");
        let other = [(5, 3), (6, 0), (7, 0)];
        let other = other
            .into_iter()
            .filter(|(object, _)| ![first.0, second.0].contains(object));
        let other = other.last().expect("a file that shares nothing");
        for writes in [
            [over(first), byte(second)],
            [over(second), byte(first)],
            [byte(first), byte(first)],
            [over(first), byte(other)],
            [byte(other), byte(other)],
            [byte(other), over(second)],
        ] {
            all.push(edge(&name, &store, write_batch(&writes)));
        }
        let writes = [byte(other), over(first), (second.0, 0, 0)];
        all.push(edge(&name, &store, write_batch(&writes)));
    }
}

/// Two units of file 7 in every state, beside a sound file 8, and counts of
/// blocks that are wrong: by each number from 9 to 14 a batch is stopped at its
/// first write and at a later one.
fn damaged(all: &mut Vec<Edge>) {
    use Unit::*;
    for (first, second, count) in [
        (Sound, Sound, None),
        (Sound, NoSlot, None),
        (Sound, Unbacked, None),
        (Sound, PastEnd, None),
        (Sound, BadChecksum, None),
        (NoSlot, Sound, None),
        (Unbacked, BadChecksum, None),
        (BadChecksum, Hole, None),
        (Hole, BadChecksum, None),
        (Sound, Sound, Some(0)),
        (Sound, Sound, Some(1)),
        (Hole, Hole, Some(model::MAX_ALLOCATED)),
        (Hole, Hole, Some(model::MAX_ALLOCATED - 1)),
        (Scattered, BadChecksum, None),
    ] {
        let store = Arc::new(pair(first, second, 40, count));
        let name = format!("a batch, {first:?} {second:?}, count {count:?}");
        for writes in [
            &[(8, 0, 10), (7, 0, 10)][..],
            &[(8, 0, 10), (7, 65_536, 10)],
            &[(7, 0, 10), (7, 65_536, 10)],
            &[(7, 65_536, 10), (7, 0, 10)],
            &[(7, 0, 10), (7, 65_536, 0), (7, 70_000, 10)],
            &[(8, 0, 10), (7, 65_530, 10), (8, 0, 10)],
            &[(7, 65_536, 10), (9, 0, 10)],
            // Covered whole, so that it is good for the next.
            &[(7, 65_536, 4_464), (7, 65_536, 10), (7, 69_999, 1)],
            &[(7, 0, 65_536), (7, 5, 10), (7, 65_536, 10)],
        ] {
            all.push(edge(&name, &store, write_batch(writes)));
        }
    }
}
