//! The call for archives, by which a unit keeps old blocks only at two runs:
//! what a call takes beside `write`, and beside the published Rust with its limit
//! set to 2; and what it is for, the pieces of a long file after many small
//! writes, with the blocks that it takes for that. By both calls the new blocks of
//! a unit are one run where so many free ones are side by side.

use std::hint::black_box;
use std::time::{Duration, Instant};

use model::records::Head;
use model::{BLOCKS_PER_UNIT, Extent, Store, UNIT_BYTES, Volume};
use oracle::{ArchiveMounted, compute_checksums_by};
use random::Rng;
use sangueko::{BLOCK_BYTES, EXTENT_BYTES, MOST_TRANSFER, Places, Refusal, StoreBuf};

use crate::checksum::by_instruction;
use crate::stores::{Extents, OBJECT, extents, lend, places, store};
use crate::writes::{TIME, bytes};
use crate::{MIB, ROUNDS};

/// Stores in which the file lies in 10 pieces, so that nearly every unit is in
/// one.
const STORES: [(&str, Extents); 2] = [
    ("10 extents", extents(10, 1, 0)),
    ("10 extents, 10,000 in another file", extents(10, 10_000, 0)),
];

/// How long a write is, where in its unit it begins, how many blocks each of the
/// calls gives up for it, and calls of a round.
struct Shape {
    name: &'static str,
    length: usize,
    within: u64,
    archive: u64,
    write: u64,
    calls: usize,
}

const SHAPES: [Shape; 4] = [
    shape("100 bytes, middle of a unit", 100, 30_000, [16, 1], 24),
    shape("100 bytes, a unit's start", 100, 0, [1, 1], 24),
    shape("one unit", UNIT_BYTES as usize, 0, [16, 16], 24),
    shape("1 MiB", MIB, 0, [256, 256], 8),
];

const fn shape(
    name: &'static str,
    length: usize,
    within: u64,
    [archive, write]: [u64; 2],
    calls: usize,
) -> Shape {
    Shape {
        name,
        length,
        within,
        archive,
        write,
        calls,
    }
}

#[derive(Clone, Copy, PartialEq)]
enum By {
    Archive,
    Write,
}

impl By {
    fn write(self, lent: &mut sangueko::Store<'_>, at: u64, bytes: &[u8]) -> Result<u64, Refusal> {
        match self {
            Self::Archive => lent.write_archive(OBJECT, at, bytes, TIME.seconds, TIME.nanoseconds),
            Self::Write => lent.write(OBJECT, at, bytes, TIME.seconds, TIME.nanoseconds),
        }
    }
}

pub fn compared() {
    println!(
        "-- the call for archives, write, and the Rust with limit 2 and the instruction; us a call"
    );
    compute_checksums_by(by_instruction);
    for (on, shape) in STORES {
        println!("{on}");
        let mut store = store(shape);
        let mut mounted = ArchiveMounted::new(&store);
        for shape in &SHAPES {
            let best = timed(&mut store, &mut mounted, shape);
            row(shape.name, best);
        }
    }
    pieces();
}

/// Where the writes of a shape begin: units of which all that it writes lies in
/// one piece.
fn offsets(store: &Store, shape: &Shape) -> Vec<u64> {
    let volume = Volume::decode(store);
    let blocks = (shape.length as u64).div_ceil(UNIT_BYTES) * BLOCKS_PER_UNIT;
    let whole = |unit: &u64| {
        let first = unit * BLOCKS_PER_UNIT;
        volume.extents.iter().any(|extent| {
            let own = extent.object == OBJECT;
            own && extent.logical <= first && first + blocks <= extent.end()
        })
    };
    let units = places(64).into_iter().filter(whole);
    let offsets: Vec<u64> = units.map(|unit| unit * UNIT_BYTES + shape.within).collect();
    assert!(offsets.len() > 32, "{}: too few units", shape.name);
    offsets
}

/// The best times of a call by the one, by the other and of the Rust's, turn and
/// turn about, on stores that are set back after each call, which is not timed.
/// The first time the blocks are counted, and our store is compared with the
/// Rust's to the last byte.
fn timed(store: &mut Store, mounted: &mut ArchiveMounted, shape: &Shape) -> [f64; 3] {
    let bytes = &bytes()[..shape.length];
    let offsets = offsets(store, shape);
    let mut first = Store::default();
    first.copy_records_from(store);
    let theirs = mounted.keep();
    for (by, blocks) in [(By::Write, shape.write), (By::Archive, shape.archive)] {
        let told = by.write(&mut lend(store), offsets[0], bytes);
        assert_eq!(told, Ok(bytes.len() as u64));
        if by == By::Archive {
            let told = mounted.write(OBJECT, offsets[0], bytes, TIME);
            assert_eq!(told, Some(bytes.len()));
            assert!(mounted.agrees(store), "{}: the stores part", shape.name);
            mounted.set_back(&theirs);
        }
        assert_eq!(lend(store).settle(), Ok(blocks), "{}", shape.name);
        store.copy_records_from(&first);
    }

    let mut made = 0;
    let mut best = [f64::INFINITY; 3];
    for number in 0..ROUNDS {
        let mut round = || {
            made += 1;
            offsets[(made - 1) % offsets.len()]
        };
        let round: Vec<u64> = (0..shape.calls).map(|_| round()).collect();
        // The second finds in the cache what the first has read: each is that in turn.
        let mut turns = [(0, By::Archive), (1, By::Write)];
        if number % 2 == 1 {
            turns.reverse();
        }
        for (place, by) in turns {
            let mut took = Duration::ZERO;
            for &at in &round {
                let mut lent = lend(store);
                let start = Instant::now();
                let told = black_box(by.write(black_box(&mut lent), at, black_box(bytes)));
                took += start.elapsed();
                assert_eq!(told, Ok(bytes.len() as u64));
                store.copy_records_from(&first);
            }
            best[place] = f64::min(best[place], took.as_secs_f64() / round.len() as f64);
        }
        let mut took = Duration::ZERO;
        for &at in &round {
            let start = Instant::now();
            let told = black_box(mounted.write(OBJECT, at, black_box(bytes), TIME));
            took += start.elapsed();
            assert_eq!(told, Some(bytes.len()));
            mounted.set_back(&theirs);
        }
        best[2] = best[2].min(took.as_secs_f64() / round.len() as f64);
    }
    best
}

/// One line: the three times, and the archive call's over each of the others.
fn row(name: &str, best: [f64; 3]) {
    let [archive, write, rust] = best.map(|seconds| seconds * 1e6);
    println!(
        "  {name:<28} {archive:>9.2} {write:>9.2} {rust:>9.2} us   {:>5.2} of write's time, {:>5.2} of the Rust's",
        archive / write,
        archive / rust
    );
}

/// Units of the long file: 16 MiB.
const LONG: u64 = 256;

/// How many single blocks are written over, one after the other.
const OVERWRITES: [u32; 4] = [64, 256, 1_024, 4_096];

/// Overwrites before each settle. After each one just as many blocks are free as a
/// unit has, so that a unit of which none is kept gets these, wherever they lie.
/// After 64 there are more, and so a choice of runs.
const SETTLED: [u32; 2] = [1, 64];

/// What becomes of a file that was written in one piece.
#[derive(Debug, PartialEq)]
struct Left {
    extents: usize,
    /// Units that lie in one piece.
    whole: usize,
    /// New blocks of the overwrites, all together.
    blocks: u64,
}

pub fn pieces() {
    println!(
        "-- 16 MiB in one piece, then single blocks at random: extents at the end, units in one piece of {LONG}, and blocks written"
    );
    for settled in SETTLED {
        println!("settled after each {settled}");
        for overwrites in OVERWRITES {
            let [archive, write] = [By::Archive, By::Write].map(|by| {
                let (left, _) = overwritten(by, LONG, overwrites, settled);
                left
            });
            println!(
                "  {overwrites:>5} overwrites: by the archive call {:>5}, {:>3} and {:>6}, by write {:>5}, {:>3} and {:>6}   {:>5.2} of the extents, {:>5.2} of the blocks",
                archive.extents,
                archive.whole,
                archive.blocks,
                write.extents,
                write.whole,
                write.blocks,
                archive.extents as f64 / write.extents as f64,
                archive.blocks as f64 / write.blocks as f64
            );
        }
    }
}

/// A file of so many units with so many of its blocks written over, the same ones
/// whichever call does it; and all its bytes.
fn overwritten(by: By, units: u64, overwrites: u32, settled: u32) -> (Left, Vec<u8>) {
    let of_file = units * BLOCKS_PER_UNIT;
    // before a settle each overwrite may have taken a unit's blocks
    let room = u64::from(settled) * BLOCKS_PER_UNIT;
    let blocks = (of_file + room) as usize;
    let places = Places {
        cards: 1,
        extents: blocks,
        groups: units.div_ceil(256) as usize,
    };
    let mut buffers = StoreBuf::new(blocks, places).expect("lengths of a store");
    let mut lent = buffers.lend();
    lent.fresh(&[7; 16], 0).expect("a store");
    lent.enter(OBJECT, TIME.seconds, TIME.nanoseconds)
        .expect("a file");
    let given = bytes();
    for at in (0..units * UNIT_BYTES).step_by(MOST_TRANSFER) {
        let rest = (units * UNIT_BYTES - at) as usize;
        let part = &given[..rest.min(MOST_TRANSFER)];
        assert_eq!(by.write(&mut lent, at, part), Ok(part.len() as u64));
    }
    assert_eq!(lent.settle(), Ok(0));

    let mut random = Rng::new(11);
    let mut retired = 0;
    for n in 1..=overwrites {
        let at = random.below(of_file) * BLOCK_BYTES as u64;
        let from = random.index(given.len() - BLOCK_BYTES);
        let block = &given[from..from + BLOCK_BYTES];
        assert_eq!(by.write(&mut lent, at, block), Ok(BLOCK_BYTES as u64));
        if n % settled == 0 || n == overwrites {
            retired += lent.settle().expect("a store");
        }
    }
    let mut file = vec![0; (units * UNIT_BYTES) as usize];
    for (at, part) in (0..)
        .step_by(MOST_TRANSFER)
        .zip(file.chunks_mut(MOST_TRANSFER))
    {
        assert_eq!(lent.read(OBJECT, at, part), Ok(part.len() as u64));
    }
    let extents: Vec<Extent> = buffers
        .extents
        .chunks(EXTENT_BYTES)
        .take(Head::decode(&buffers.head).extents)
        .map(Extent::decode)
        .collect();
    let in_one_piece = |unit: &u64| {
        let (first, end) = (unit * BLOCKS_PER_UNIT, (unit + 1) * BLOCKS_PER_UNIT);
        let holds = |extent: &Extent| extent.logical <= first && end <= extent.end();
        extents.iter().any(holds)
    };
    let left = Left {
        extents: extents.len(),
        whole: (0..units).filter(in_one_piece).count(),
        blocks: retired,
    };
    (left, file)
}

#[cfg(test)]
mod tests {
    use super::*;

    /// The same bytes, in fewer pieces and more blocks: each overwrite takes one
    /// by `write` or, where there were over four runs, all of its unit, and by the
    /// archive call the unit or, at its edges, one.
    #[test]
    fn the_archive_call_leaves_fewer_extents() {
        for (units, overwrites, settled) in [(4, 20, 64), (20, 100, 1), (20, 100, 64)] {
            let (archive, its_bytes) = overwritten(By::Archive, units, overwrites, settled);
            let (write, bytes) = overwritten(By::Write, units, overwrites, settled);
            assert!(its_bytes == bytes, "the files part");
            assert!(archive.extents < write.extents, "{archive:?} {write:?}");
            assert!(archive.whole > write.whole, "{archive:?} {write:?}");
            assert!(archive.blocks > write.blocks, "{archive:?} {write:?}");
            assert!(write.blocks >= u64::from(overwrites), "{write:?}");
            assert!(archive.blocks <= u64::from(overwrites) * BLOCKS_PER_UNIT);
        }
    }

    /// Nothing written over: one piece by both.
    #[test]
    fn a_file_is_first_in_one_piece() {
        for by in [By::Archive, By::Write] {
            let (left, _) = overwritten(by, 20, 0, 1);
            let first = Left {
                extents: 1,
                whole: 20,
                blocks: 0,
            };
            assert_eq!(left, first);
        }
    }
}
