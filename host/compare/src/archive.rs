//! Archive writes at the edges of their rules, each on a store made for it, with
//! the same write beside it: the limit of runs is all in which they part.

use std::ops::Range;
use std::sync::Arc;

use model::records::{EXTENT_BYTES, GROUP_BYTES};
use model::{BLOCK_BYTES, Call, Card, Extent, Group, Store, Time, UNIT_BYTES, Volume};

use crate::alone::{TIME, seal};
use crate::edges::{
    Edge, Unit, after, edge, edges, enter, grow, pair, read, with, write, write_at,
};
use crate::mixed::exchanged;
use crate::writes::write_batch;

const BLOCK: u64 = BLOCK_BYTES as u64;

/// All of them, and the writes of the other edges by the archive call.
pub fn archives() -> Vec<Edge> {
    let mut all = beside_writes();
    all.extend(archived(&edges()));
    all
}

/// Those that stand beside the same write, or are made of both.
pub fn beside_writes() -> Vec<Edge> {
    let mut all = Vec::new();
    small_units(&mut all);
    whole_units(&mut all);
    parts_of_blocks(&mut all);
    tails(&mut all);
    two_units(&mut all);
    few_blocks(&mut all);
    full_books(&mut all);
    others_keep_four(&mut all);
    one_after_another(&mut all);
    damaged(&mut all);
    all
}

/// A few on the smallest stores, which tell most of what can be wrong.
pub fn telling() -> Vec<Edge> {
    let mut all = Vec::new();
    let backwards: Vec<u64> = (1..7).rev().collect();
    for (layout, blocks) in [
        (places(6, |_| false), &[0..1, 2..3, 5..6, 1..5, 0..6][..]),
        (places(6, |place| place == 3), &[0..3, 0..1, 5..6, 2..3]),
        (places(6, |_| true), &[1..6, 2..6, 3..6, 4..6, 0..4]),
        (backwards, &[2..6, 3..6]),
    ] {
        let store = laid(20, 6 * BLOCK, &layout);
        for blocks in blocks {
            by_both(&mut all, "six blocks", &store, over(blocks));
        }
    }
    let piece = laid(20, 6 * BLOCK, &places(6, |_| false));
    let one = write(7, 2 * BLOCK, 10);
    by_both(&mut all, "five free blocks", &left_free(&piece, 5), one);
    let late = Time::new(u64::MAX, 0);
    for (object, offset, length, time) in [
        (7, 0, 0, late),
        (9, 0, 0, TIME),
        (7, 0, 1, late),
        (7, u64::MAX, 1, late),
    ] {
        let call = write_at(object, offset, length, time);
        by_both(&mut all, "six blocks", &piece, call);
    }
    // The old tail unit, and a batch and a grow, which keep three runs.
    for seam in [3, 5] {
        let tail = laid(30, 6 * BLOCK - 5, &places(6, |place| place == seam));
        by_both(&mut all, "a tail", &tail, write(7, 6 * BLOCK - 5, 9_000));
        by_both(&mut all, "a tail", &tail, write(7, 2 * UNIT_BYTES, 1));
        all.push(edge("a tail", &tail, grow(7, 6 * BLOCK + 5)));
        let writes = [(7, 5 * BLOCK, 5), (7, 5 * BLOCK, 5)];
        all.push(edge("a tail", &tail, write_batch(&writes)));
    }
    // Two units of two runs each, and three runs in the second alone.
    for seam in [0, 28] {
        let two = laid(70, 2 * UNIT_BYTES, &places(32, |place| place == seam));
        by_both(&mut all, "two units", &two, over(&(15..17)));
    }
    all
}

/// The same writes by the archive call.
fn archived(edges: &[Edge]) -> Vec<Edge> {
    let archived = |edge: &Edge| match &edge.call {
        write @ Call::Write { .. } => exchanged(write),
        _ => None,
    };
    let edges = edges.iter().filter_map(|edge| {
        Some(Edge {
            name: format!("{}, by an archive write", edge.name),
            store: Arc::clone(&edge.store),
            call: archived(edge)?,
        })
    });
    edges.collect()
}

/// A write by both calls.
fn by_both(all: &mut Vec<Edge>, name: &str, store: &Arc<Store>, write: Call) {
    let archive = exchanged(&write).expect("a write");
    all.push(edge(name, store, archive));
    all.push(edge(name, store, write));
}

/// The blocks of a file one after another, from block 1 on, but for a block left
/// out before each place of which `seams` says so.
pub fn places(number: usize, seams: impl Fn(usize) -> bool) -> Vec<u64> {
    let mut next = 0;
    let place = |place: usize| {
        next += if place > 0 && seams(place) { 2 } else { 1 };
        next
    };
    (0..number).map(place).collect()
}

/// A file 7 of so many bytes in these blocks, on a device of so many, of which
/// the first is reserved and all others are free.
pub fn laid(blocks: u64, size: u64, places: &[u64]) -> Arc<Store> {
    let mut store = Store::blank(blocks, 2, 60, 3);
    for (at, byte) in store.image.iter_mut().enumerate() {
        *byte = (at % 247) as u8;
    }
    let mut volume = Volume {
        uuid: [6; 16],
        reserved: 1,
        hint: 0,
        cards: vec![Card {
            object: 7,
            size,
            allocated: places.len() as u64,
            changed: Time::new(1, 2),
            created: Time::new(3, 4),
        }],
        extents: Vec::new(),
        groups: vec![Group::empty(7, 0)],
        used: vec![false; blocks as usize],
        retired: vec![false; blocks as usize],
    };
    volume.used[0] = true;
    for (logical, &physical) in (0..).zip(places) {
        volume.used[physical as usize] = true;
        let one = Extent {
            object: 7,
            logical,
            physical,
            count: 1,
        };
        match volume.extents.last_mut() {
            Some(last) if last.joins(&one) => last.count += 1,
            _ => volume.extents.push(one),
        }
    }
    seal(&mut volume, &mut store.image);
    volume.encode(&mut store);
    Arc::new(store)
}

/// The store with only the last so many of its free blocks free.
pub fn left_free(store: &Store, free: usize) -> Arc<Store> {
    with(store, |store| {
        let mut volume = Volume::decode(store);
        let clear: Vec<usize> = (0..volume.used.len())
            .filter(|block| !volume.used[*block])
            .collect();
        for &block in &clear[..clear.len().saturating_sub(free)] {
            volume.used[block] = true;
        }
        volume.encode(store);
    })
}

/// These blocks of file 7 overwritten.
fn over(blocks: &Range<u64>) -> Call {
    let length = (blocks.end - blocks.start) * BLOCK;
    write(7, blocks.start * BLOCK, length as usize)
}

/// Every range of so many blocks.
fn ranges(number: u64) -> impl Iterator<Item = Range<u64>> {
    (0..number).flat_map(move |first| (first + 1..=number).map(move |end| first..end))
}

/// Units of six blocks in every layout of seams, every range of them overwritten:
/// one to six runs. And each block alone where the last one is not whole.
fn small_units(all: &mut Vec<Edge>) {
    for seams in 0..1 << 5 {
        let places = places(6, |place| seams >> (place - 1) & 1 == 1);
        let whole = laid(20, 6 * BLOCK, &places);
        for blocks in ranges(6) {
            by_both(all, "a unit of six blocks", &whole, over(&blocks));
        }
        let tail = laid(20, 6 * BLOCK - 5, &places);
        for block in 0..6 {
            let call = write(7, block * BLOCK + 100, 10);
            by_both(all, "a tail of six blocks", &tail, call);
        }
    }
}

/// Whole units: in one piece every range of blocks, and the same unit in two
/// pieces from each place on, in pairs, in every order and scattered.
fn whole_units(all: &mut Vec<Edge>) {
    let piece = laid(40, UNIT_BYTES, &places(16, |_| false));
    for blocks in ranges(16) {
        by_both(all, "a unit in one piece", &piece, over(&blocks));
    }
    for seam in 1..16 {
        let store = laid(40, UNIT_BYTES, &places(16, |place| place == seam));
        let seam = seam as u64;
        for blocks in [
            0..1,
            15..16,
            seam - 1..seam,
            seam..seam + 1,
            seam - 1..seam + 1,
            0..seam,
            seam..16,
        ] {
            by_both(all, "a unit in two pieces", &store, over(&blocks));
        }
    }
    let backwards: Vec<u64> = (1..17).rev().collect();
    let crossed: Vec<u64> = (0..16).map(|n| 1 + n / 2 + n % 2 * 8).collect();
    for places in [
        places(16, |place| place == 5 || place == 11),
        places(16, |place| place % 4 == 0),
        places(16, |place| place % 2 == 0),
        places(16, |_| true),
        backwards,
        crossed,
    ] {
        let store = laid(60, UNIT_BYTES, &places);
        for blocks in [0..1, 4..5, 7..8, 15..16, 0..8, 8..16, 1..16, 0..15, 2..14] {
            by_both(all, "a unit in many pieces", &store, over(&blocks));
        }
    }
}

/// Bytes at and around the ends of blocks: a block of which one byte is written
/// is new.
fn parts_of_blocks(all: &mut Vec<Edge>) {
    let store = laid(40, UNIT_BYTES, &places(16, |_| false));
    for (offset, length) in [
        (0, 1),
        (BLOCK - 1, 1),
        (BLOCK - 1, 2),
        (BLOCK, 1),
        (BLOCK + 1, 4_095),
        (BLOCK + 1, 4_096),
        (0, 4_095),
        (0, 4_097),
        (15 * BLOCK - 1, 1),
        (15 * BLOCK - 1, 2),
        (15 * BLOCK, 1),
        (UNIT_BYTES - 1, 1),
        (UNIT_BYTES - 1, 2),
        (1, 65_535),
        (0, 65_535),
        (0, 65_536),
        (BLOCK, 57_344),
        (BLOCK - 1, 57_346),
        (5, 0),
    ] {
        by_both(all, "parts of blocks", &store, write(7, offset, length));
    }
}

/// Tail units of one to four pieces, with and without a last block that is not
/// whole, written at their end, over it, right behind it and further on, where
/// no written byte falls in them.
fn tails(all: &mut Vec<Edge>) {
    for less in [0, 5, 4_095] {
        for seams in [&[][..], &[3], &[4], &[5], &[2, 4], &[1, 5], &[1, 3, 5]] {
            let size = 6 * BLOCK - less;
            let store = laid(60, size, &places(6, |place| seams.contains(&place)));
            for offset in [
                size - 1,
                size,
                size + 1,
                6 * BLOCK,
                9 * BLOCK,
                UNIT_BYTES - 1,
                UNIT_BYTES,
                3 * UNIT_BYTES + 5,
            ] {
                by_both(all, "a tail in pieces", &store, write(7, offset, 10));
            }
            by_both(all, "a tail in pieces", &store, write(7, size - 1, 9_000));
            all.push(edge("a tail in pieces", &store, grow(7, size + 1)));
            all.push(edge("a tail in pieces", &store, grow(7, 2 * UNIT_BYTES)));
        }
    }
}

/// Two units, each with runs of its own: the limit is each unit's, and what one
/// keeps does not depend on the other.
fn two_units(all: &mut Vec<Edge>) {
    for seams in [
        &[][..],
        &[16],
        &[8],
        &[15],
        &[17],
        &[24],
        &[8, 24],
        &[8, 16],
    ] {
        let layout = places(32, |place| seams.contains(&place));
        let store = laid(80, 2 * UNIT_BYTES, &layout);
        for blocks in [
            15..17,
            14..18,
            15..16,
            16..17,
            14..17,
            8..24,
            1..31,
            0..31,
            1..32,
            12..16,
            16..20,
            13..15,
            20..21,
        ] {
            by_both(all, "two units", &store, over(&blocks));
        }
        by_both(all, "two units and a third", &store, over(&(31..40)));
        by_both(all, "two units and a third", &store, write(7, 200_000, 5));
    }
}

/// Refusal 13: free blocks around those that either call wants, and retired ones
/// that are none. With 1 to 15 a write is done and an archive write is not.
fn few_blocks(all: &mut Vec<Edge>) {
    let one = laid(60, UNIT_BYTES, &places(16, |_| false));
    let two = laid(60, 2 * UNIT_BYTES, &places(32, |_| false));
    for free in [0, 1, 2, 3, 15, 16, 17] {
        let one = left_free(&one, free);
        let two = left_free(&two, free);
        for blocks in [5..6, 0..1, 15..16, 2..4, 0..16, 15..17] {
            by_both(all, "few free blocks", &one, over(&blocks));
            by_both(all, "few free blocks", &two, over(&blocks));
        }
        // The second unit keeps nothing, after the first has taken its one.
        by_both(all, "few free blocks", &two, over(&(15..20)));
        by_both(all, "few free blocks", &two, write(7, 60_000, 20_000));
    }
    let retired = with(&left_free(&one, 16), |store| {
        let mut volume = Volume::decode(store);
        let block = volume.used.iter().rposition(|used| !used);
        let block = block.expect("a free block");
        (volume.used[block], volume.retired[block]) = (true, true);
        volume.encode(store);
    });
    by_both(all, "a retired block", &retired, over(&(5..6)));
}

/// Refusals 15 and 16 with books just large enough and one short: in the middle of
/// a piece a write makes three extents of one and an archive write one; over
/// scattered free blocks it is the archive write that needs many.
fn full_books(all: &mut Vec<Edge>) {
    let piece = laid(40, UNIT_BYTES, &places(16, |_| false));
    let scattered = with(&laid(60, UNIT_BYTES, &places(16, |_| false)), |store| {
        let mut volume = Volume::decode(store);
        for block in (17..60).step_by(2) {
            volume.used[block] = true;
        }
        volume.encode(store);
    });
    let pieces = laid(60, UNIT_BYTES, &places(16, |place| place % 5 == 0));
    for (store, most) in [(&piece, 4), (&scattered, 18), (&pieces, 6)] {
        let now = Volume::decode(store).extents.len();
        for extents in now..=most {
            let store = with(store, |store| {
                store.extents.truncate(extents * EXTENT_BYTES);
            });
            for blocks in [5..6, 0..1, 15..16, 3..12] {
                by_both(all, "a nearly full extent book", &store, over(&blocks));
            }
        }
    }
    for groups in [1, 2] {
        let store = with(&piece, |store| {
            store.groups.truncate(groups * GROUP_BYTES);
        });
        for offset in [20_000, 256 * UNIT_BYTES, 256 * UNIT_BYTES - 5] {
            by_both(
                all,
                "a nearly full group book",
                &store,
                write(7, offset, 10),
            );
        }
    }
}

/// Grow and the writes of a batch keep blocks at three and four runs.
fn others_keep_four(all: &mut Vec<Edge>) {
    for seams in [&[2][..], &[2, 4], &[1, 3], &[1, 2, 3], &[1, 2, 3, 4]] {
        let size = 6 * BLOCK - 5;
        let store = laid(40, size, &places(6, |place| seams.contains(&place)));
        for call in [
            grow(7, size + 1),
            grow(7, 3 * UNIT_BYTES),
            write_batch(&[(7, 3 * BLOCK, 5)]),
            write_batch(&[(7, 0, 5), (7, 5 * BLOCK, 5)]),
            write_batch(&[(7, 2 * BLOCK, 5), (7, 4 * BLOCK, 5)]),
        ] {
            all.push(edge("grow and batches keep four", &store, call));
        }
    }
}

/// Writes and archive writes in every order, and what a read then finds.
fn one_after_another(all: &mut Vec<Edge>) {
    let writes = [
        write(7, 5 * BLOCK, 4_096),
        write(7, 9 * BLOCK + 100, 200),
        write(7, 20_000, 50_000),
    ];
    for order in [
        [0, 1, 2],
        [0, 2, 1],
        [1, 0, 2],
        [1, 2, 0],
        [2, 0, 1],
        [2, 1, 0],
    ] {
        for by_archive in 0..1 << 3 {
            let mut calls = vec![enter(7), write(7, 0, 65_536)];
            for at in order {
                let call = writes[at].clone();
                calls.push(match by_archive >> at & 1 {
                    1 => exchanged(&call).expect("a write"),
                    _ => call,
                });
            }
            let last = calls.pop().expect("three writes");
            let store = after(Store::blank(120, 1, 20, 1), 1, &calls);
            all.push(edge("writes of both kinds", &store, last.clone()));
            calls.push(last);
            let store = after(Store::blank(120, 1, 20, 1), 1, &calls);
            all.push(edge("writes of both kinds", &store, read(7, 0, 70_000)));
        }
    }
}

/// Two units of file 7 in many states, and counts of blocks that are wrong:
/// refusals 9 to 14 of an archive write, and their order from unit to unit.
fn damaged(all: &mut Vec<Edge>) {
    use Unit::*;
    for (first, second, count) in [
        (Sound, Sound, None),
        (Sound, NoSlot, None),
        (Sound, Unbacked, None),
        (Sound, PastEnd, None),
        (Sound, BadChecksum, None),
        (NoSlot, Sound, None),
        (Unbacked, BadChecksum, None),
        (BadChecksum, Hole, None),
        (Hole, BadChecksum, None),
        (Scattered, BadChecksum, None),
        (Scattered, Scattered, None),
        // A write retires one block of the first unit, and an archive write all.
        (Sound, Sound, Some(0)),
        (Sound, Sound, Some(1)),
        (Sound, Sound, Some(15)),
        (Sound, Sound, Some(16)),
        (Hole, Hole, Some(model::MAX_ALLOCATED)),
        (Hole, Hole, Some(model::MAX_ALLOCATED - 1)),
    ] {
        let name = format!("an archive write, {first:?} {second:?}, count {count:?}");
        for free in [1, 16, 40] {
            let store = Arc::new(pair(first, second, free, count));
            for (offset, length) in [
                (20_000, 10),
                (65_530, 10),
                (65_536, 10),
                (0, 65_536),
                (5_000, 65_000),
                (140_000, 10),
            ] {
                by_both(all, &name, &store, write(7, offset, length));
            }
        }
    }
}
