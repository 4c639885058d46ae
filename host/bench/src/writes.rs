//! Writes of 1 MiB from a unit's start and from within one, and of 4 KiB inside
//! a unit, all over data that is there; and the growth of a file that ends within
//! a unit. Each timed call has free blocks to write to and old ones to retire:
//! between two calls, outside the timed part, both stores are settled, or set
//! back to what they were.
//!
//! Settled, the bytes have been written at the same place before and stand one
//! behind the other; set back, they stand as the store was made, in as many
//! extents as it has there.

use std::hint::black_box;
use std::time::{Duration, Instant};

use model::{Store, Time, UNIT_BYTES, Volume};
use oracle::{Kept, Mounted, compute_checksums_by};
use random::Rng;
use sangueko::Refusal;

use crate::measure::times;
use crate::stores::{CHECKSUMS, OBJECT, lend, places};
use crate::{MIB, ROUNDS, over};

pub const TIME: Time = Time {
    seconds: 1_700_000_001,
    nanoseconds: 5,
};

/// Bytes of the last unit before the file is grown.
const TAIL: usize = 40_000;

#[derive(Clone, Copy)]
enum Job {
    /// So many bytes, from so far behind the start of a unit on.
    Write { length: usize, within: u64 },
    /// By 1 MiB.
    Grow,
}

/// What is done between two calls.
#[derive(Clone, Copy, PartialEq)]
enum Between {
    Settle,
    SetBack,
}

/// A call, how many places it is made at, and what our time over that of the
/// Rust with the instruction may be at most, with few extents and with 10,000.
struct Shape {
    name: &'static str,
    job: Job,
    between: Between,
    places: usize,
    limits: [f64; 2],
}

/// Those that are set back first: once a store is settled, what its files gave
/// up is written over.
const SHAPES: [Shape; 7] = [
    write("1 MiB, all over the file", MIB, 0, Between::SetBack),
    write("1 MiB, not aligned, all over", MIB, 1_000, Between::SetBack),
    write("4 KiB in a unit, all over", 4_096, 20_480, Between::SetBack),
    Shape {
        name: "grow of a partial tail",
        job: Job::Grow,
        between: Between::SetBack,
        places: 1,
        limits: [0.6, 0.6],
    },
    write("1 MiB", MIB, 0, Between::Settle),
    write("1 MiB, not aligned", MIB, 1_000, Between::Settle),
    FOUR_KIB,
];

const FOUR_KIB: Shape = write("4 KiB in a unit", 4_096, 20_480, Between::Settle);

const fn write(name: &'static str, length: usize, within: u64, between: Between) -> Shape {
    Shape {
        name,
        job: Job::Write { length, within },
        between,
        places: match between {
            Between::Settle => 1,
            Between::SetBack => 64,
        },
        limits: if length == MIB {
            [0.5, 0.7]
        } else {
            [0.6, 1.2]
        },
    }
}

impl Shape {
    fn name(&self) -> String {
        match self.job {
            Job::Write { .. } => format!("write {}", self.name),
            Job::Grow => self.name.into(),
        }
    }

    /// Calls of a round.
    fn calls(&self) -> usize {
        match self.job {
            Job::Write { length: MIB, .. } => 8,
            _ => 24,
        }
    }
}

/// A call as both sides get it: the offset of a write, or the new size.
struct Call<'a> {
    at: u64,
    bytes: Option<&'a [u8]>,
}

impl Call<'_> {
    fn ours(&self, store: &mut Store) -> Result<u64, Refusal> {
        let Time {
            seconds,
            nanoseconds,
        } = TIME;
        let mut lent = lend(store);
        match self.bytes {
            Some(bytes) => lent.write(OBJECT, self.at, bytes, seconds, nanoseconds),
            None => lent.grow(OBJECT, self.at, seconds, nanoseconds),
        }
    }

    fn theirs(&self, mounted: &mut Mounted) -> Option<u64> {
        match self.bytes {
            Some(bytes) => mounted
                .write(OBJECT, self.at, bytes, TIME)
                .map(|count| count as u64),
            None => mounted.grow(OBJECT, self.at, TIME).map(|()| 0),
        }
    }

    fn count(&self) -> u64 {
        self.bytes.map_or(0, |bytes| bytes.len() as u64)
    }
}

/// Our store and theirs, as they were when the comparison began.
pub struct First {
    pub ours: Store,
    pub theirs: Kept,
}

impl First {
    pub fn of(store: &Store, mounted: &Mounted) -> Self {
        let mut ours = Store::default();
        ours.copy_records_from(store);
        Self {
            ours,
            theirs: mounted.keep(),
        }
    }

    fn set_back(&self, store: &mut Store, mounted: &mut Mounted) {
        store.copy_records_from(&self.ours);
        mounted.set_back(&self.theirs);
    }
}

/// Each shape on a store, ours and theirs.
pub fn compared(store: &mut Store, mounted: &mut Mounted, many: bool) {
    let made = First::of(store, mounted);
    let bytes = bytes();
    for shape in &SHAPES {
        let calls = prepared(shape, &bytes, store, mounted);
        let first = First::of(store, mounted);
        for (with, checksum) in CHECKSUMS {
            compute_checksums_by(checksum);
            let best = pair(shape, &calls, &first, store, mounted);
            times(&format!("{}, and Rust with {with}", shape.name()), best);
            over(with, shape.limits[usize::from(many)], best);
        }
        if shape.between == Between::SetBack {
            made.set_back(store, mounted);
        }
    }
}

/// The calls of a shape, and for a grow the stores made such that the file ends
/// within a unit.
fn prepared<'a>(
    shape: &Shape,
    bytes: &'a [u8],
    store: &mut Store,
    mounted: &mut Mounted,
) -> Vec<Call<'a>> {
    let Job::Write { length, within } = shape.job else {
        let cards = Volume::decode(store).cards;
        let own = cards.iter().find(|card| card.object == OBJECT);
        let size = own.expect("a card").size;
        let tail = Call {
            at: size,
            bytes: Some(&bytes[..TAIL]),
        };
        assert_eq!(size % UNIT_BYTES, 0);
        assert_eq!(tail.ours(store), Ok(TAIL as u64));
        assert_eq!(tail.theirs(mounted), Some(TAIL as u64));
        return vec![Call {
            at: size + (TAIL + MIB) as u64,
            bytes: None,
        }];
    };
    let units = places(shape.places).into_iter();
    let call = |unit| Call {
        at: unit * UNIT_BYTES + within,
        bytes: Some(&bytes[..length]),
    };
    units.map(call).collect()
}

/// The best time of one call of each, over rounds of as many calls, turn and
/// turn about. Both sides make the same calls; at the first and in the end their
/// stores are the same to the last byte.
fn pair(
    shape: &Shape,
    calls: &[Call<'_>],
    first: &First,
    store: &mut Store,
    mounted: &mut Mounted,
) -> (f64, f64) {
    let mut made = 0;
    let mut next = || {
        made += 1;
        &calls[(made - 1) % calls.len()]
    };
    for _ in 0..3 {
        let call = next();
        assert_eq!(call.ours(store), Ok(call.count()));
        assert_eq!(call.theirs(mounted), Some(call.count()));
        assert!(mounted.agrees(store), "{}: the stores part", shape.name());
        match shape.between {
            Between::Settle => {
                let retired = lend(store).settle().expect("a store");
                assert!(retired > 0, "{}: no block retired", shape.name());
                mounted.settle();
            }
            Between::SetBack => first.set_back(store, mounted),
        }
    }
    let (mut best_ours, mut best_theirs) = (f64::INFINITY, f64::INFINITY);
    for _ in 0..ROUNDS {
        let round: Vec<&Call<'_>> = (0..shape.calls()).map(|_| next()).collect();
        let mut took = Duration::ZERO;
        for call in &round {
            let start = Instant::now();
            let told = black_box(call.ours(black_box(store)));
            took += start.elapsed();
            assert_eq!(told, Ok(call.count()));
            match shape.between {
                Between::Settle => assert!(lend(store).settle().is_ok()),
                Between::SetBack => store.copy_records_from(&first.ours),
            }
        }
        best_ours = best_ours.min(took.as_secs_f64() / round.len() as f64);
        let mut took = Duration::ZERO;
        for call in &round {
            let start = Instant::now();
            let told = black_box(call.theirs(black_box(mounted)));
            took += start.elapsed();
            assert_eq!(told, Some(call.count()));
            match shape.between {
                Between::Settle => mounted.settle(),
                Between::SetBack => mounted.set_back(&first.theirs),
            }
        }
        best_theirs = best_theirs.min(took.as_secs_f64() / round.len() as f64);
    }
    assert!(mounted.agrees(store), "{}: the stores part", shape.name());
    (best_ours, best_theirs)
}

/// The small one, with its name.
pub fn small(store: &mut Store, mounted: &mut Mounted) -> (&'static str, (f64, f64)) {
    let bytes = bytes();
    let calls = prepared(&FOUR_KIB, &bytes, store, mounted);
    let first = First::of(store, mounted);
    let best = pair(&FOUR_KIB, &calls, &first, store, mounted);
    (FOUR_KIB.name, best)
}

pub fn bytes() -> Vec<u8> {
    let mut random = Rng::new(6);
    (0..MIB / 8)
        .flat_map(|_| random.next_u64().to_le_bytes())
        .collect()
}
