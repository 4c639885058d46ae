//! Batches of writes: 64 small ones into a file, as one call and as 64, and as 64
//! of the published Rust on a mounted store. By the rules 1 and 2 are tried
//! before each write of a batch, as they are in 64 calls; the library tests the
//! store again only where a block is at two places.

use std::hint::black_box;
use std::time::Instant;

use model::{BLOCKS_PER_UNIT, Store, UNIT_BYTES, Volume};
use oracle::{Mounted, compute_checksums_by};
use sangueko::{Batched, MOST_RANGES, Range};

use crate::checksum::by_instruction;
use crate::stores::{Extents, OBJECT, PLACES, extents, lend, places, store};
use crate::writes::{First, TIME, bytes};
use crate::{ROUNDS, tests_alone};

/// Extents of another file in front, as for the other small calls, and few places
/// for groups or many. 100,000 extents are more than there are blocks: some have
/// the same, so that a write may leave a store that 2 refuses.
const STORES: [(&str, u64, usize); 5] = [
    ("10 extents in front", 10, 0),
    ("10 extents in front, 1,024 places for groups", 10, PLACES),
    ("10,000 extents in front", 10_000, 0),
    ("40,000 extents in front", 40_000, 0),
    ("100,000 extents in front, which share blocks", 100_000, 0),
];

/// How long each write is, where in its unit it begins, and in how many units
/// the writes are.
const SHAPES: [(&str, u64, u64, usize); 3] = [
    ("100 bytes in 64 units", 100, 1_000, MOST_RANGES),
    ("100 bytes in one unit", 100, 1_000, 1),
    ("4 KiB in 64 units", 4_096, 20_480, MOST_RANGES),
];

pub fn compared() {
    println!(
        "-- 64 writes as one call, as 64 calls and as 64 of the Rust with the instruction; ns a write"
    );
    compute_checksums_by(by_instruction);
    for (on, other, group_places) in STORES {
        let mut store = store(Extents {
            other_first: true,
            ..extents(10, other, group_places)
        });
        let tests = tests_alone(&mut store) * 1e9;
        println!("{on}: refusals 1 and 2 alone {tests:.0} ns");
        let mut mounted = Mounted::new(&store);
        for (name, length, within, units) in SHAPES {
            let ranges = ranges(&store, length, within, units);
            row(name, timed(&mut store, &mut mounted, &ranges));
        }
    }
}

/// Ranges of different units, or of one at different places. Those of the file's
/// first extent are left out: the other file may share its blocks, and then 2
/// refuses what a write there leaves.
fn ranges(store: &Store, length: u64, within: u64, units: usize) -> Vec<Range> {
    let volume = Volume::decode(store);
    let first = volume.extents.iter().find(|extent| extent.object == OBJECT);
    let shared = first.expect("an extent").count.div_ceil(BLOCKS_PER_UNIT);
    let mut chosen = Vec::new();
    for unit in places(64 * MOST_RANGES) {
        if unit >= shared && !chosen.contains(&unit) && chosen.len() < units {
            chosen.push(unit);
        }
    }
    assert_eq!(chosen.len(), units);
    let apart = UNIT_BYTES / MOST_RANGES as u64;
    let place = |n: usize| match units {
        1 => chosen[0] * UNIT_BYTES + n as u64 * apart,
        _ => chosen[n] * UNIT_BYTES + within,
    };
    let range = |n| Range {
        object: OBJECT,
        offset: place(n),
        length,
    };
    (0..MOST_RANGES).map(range).collect()
}

/// The best times of a batch, of 64 calls and of 64 of the Rust's, turn and turn
/// about on stores that are set back in between, which is not timed. The first
/// time the stores are compared, to the last byte.
fn timed(store: &mut Store, mounted: &mut Mounted, ranges: &[Range]) -> [f64; 3] {
    let length = ranges.iter().map(|range| range.length as usize).sum();
    let bytes = &bytes()[..length];
    let first = First::of(store, mounted);
    theirs(mounted, ranges, bytes);
    for ours in [at_once, one_by_one] {
        ours(store, ranges, bytes);
        assert!(mounted.agrees(store), "the stores part");
        store.copy_records_from(&first.ours);
    }
    mounted.set_back(&first.theirs);
    let mut best = [f64::INFINITY; 3];
    for _ in 0..ROUNDS {
        for (best, ours) in best.iter_mut().zip([at_once, one_by_one]) {
            let start = Instant::now();
            ours(black_box(store), black_box(ranges), black_box(bytes));
            *best = best.min(start.elapsed().as_secs_f64());
            store.copy_records_from(&first.ours);
        }
        let start = Instant::now();
        theirs(black_box(mounted), black_box(ranges), black_box(bytes));
        best[2] = best[2].min(start.elapsed().as_secs_f64());
        mounted.set_back(&first.theirs);
    }
    best
}

fn at_once(store: &mut Store, ranges: &[Range], bytes: &[u8]) {
    let batched = lend(store).write_batch(ranges, bytes, TIME.seconds, TIME.nanoseconds);
    let writes = ranges.len();
    assert_eq!(batched, Ok(Batched::All { writes }));
}

/// Each range with its bytes.
fn cut<'a>(
    ranges: &'a [Range],
    mut bytes: &'a [u8],
) -> impl Iterator<Item = (&'a Range, &'a [u8])> {
    ranges.iter().map(move |range| {
        let (piece, rest) = bytes.split_at(range.length as usize);
        bytes = rest;
        (range, piece)
    })
}

fn one_by_one(store: &mut Store, ranges: &[Range], bytes: &[u8]) {
    for (range, piece) in cut(ranges, bytes) {
        let mut lent = lend(store);
        let written = lent.write(
            range.object,
            range.offset,
            piece,
            TIME.seconds,
            TIME.nanoseconds,
        );
        assert_eq!(written, Ok(range.length));
    }
}

fn theirs(mounted: &mut Mounted, ranges: &[Range], bytes: &[u8]) {
    for (range, piece) in cut(ranges, bytes) {
        let written = mounted.write(range.object, range.offset, piece, TIME);
        assert_eq!(written, Some(piece.len()));
    }
}

/// One line: the three times of a write, and the batch's over each of the others.
fn row(name: &str, best: [f64; 3]) {
    let [batch, calls, rust] = best.map(|seconds| seconds * 1e9 / MOST_RANGES as f64);
    println!(
        "  {name:<24} {batch:>9.0} {calls:>9.0} {rust:>9.0} ns   {:>5.2} of 64 calls' time, {:>6.2} of the Rust's",
        batch / calls,
        batch / rust
    );
}
