//! The tests that every call makes first, refusals 1 and 2, in the archive and
//! in plain Rust: the call fill, which adds only a count of bits, on a store of
//! 65,536 blocks. Both in one run, as a ratio.

#[path = "../../../probe/src/bin/bench/measure.rs"]
#[allow(dead_code)]
mod measure;
mod plain;

use std::hint::black_box;
use std::time::Duration;

use compare::alone::alone;
use measure::{pair, times};
use model::{Card, Extent, Group, Time, Volume};
use sangueko::{Refusal, Store};

/// Our time over theirs may be this at most.
const LIMIT: f64 = 1.2;

/// Many short rounds, of which some fall between the turns of whatever else runs.
const ROUNDS: u32 = 200;
const SPAN: Duration = Duration::from_millis(1);

const BLOCKS: u64 = 65_536;
const CARDS: u64 = 10;
const EXTENTS: u64 = 10_000;
const GROUPS: u64 = 40;

const TIME: Time = Time {
    seconds: 1_700_000_000,
    nanoseconds: 999_999_999,
};

fn main() {
    // Both make the same tests: on stores that each break one word of them.
    for mut broken in alone() {
        let lent = lend(&mut broken.store);
        assert_eq!(ours(&lent), plain::fill(&lent), "{}", broken.name);
    }
    let mut store = sample();
    let lent = lend(&mut store);
    assert!(ours(&lent).is_ok());
    assert_eq!(ours(&lent), plain::fill(&lent));
    let ours = || {
        let _ = black_box(ours(black_box(&lent)));
    };
    let theirs = || {
        let _ = black_box(plain::fill(black_box(&lent)));
    };
    let (ours, theirs) = pair(ROUNDS, SPAN, ours, theirs);
    times(
        "refusals 1 and 2, 10,000 extents, and plain Rust",
        (ours, theirs),
    );
    if ours > LIMIT * theirs {
        println!("over the limit of {LIMIT}");
    }
}

fn ours(store: &Store<'_>) -> Result<u64, u32> {
    store.fill().map_err(Refusal::number)
}

fn lend(store: &mut model::Store) -> Store<'_> {
    let [image, head, cards, extents, groups, used, retired] =
        store.buffers_mut().map(Vec::as_mut_slice);
    Store {
        image,
        head,
        cards,
        extents,
        groups,
        used,
        retired,
    }
}

/// Extents of 1 to 8 blocks at shuffled places of the device, with holes
/// between some of them in their files; groups with half of their slots.
fn sample() -> model::Store {
    let mut random = random::Rng::new(9);
    let counts: Vec<u64> = (0..EXTENTS).map(|_| random.between(1, 8)).collect();
    let mut order: Vec<usize> = (0..counts.len()).collect();
    for at in (1..order.len()).rev() {
        order.swap(at, random.index(at + 1));
    }
    let (mut physical, mut next) = (vec![0; counts.len()], 1);
    for at in order {
        physical[at] = next;
        next += counts[at];
    }
    assert!(next <= BLOCKS);

    let (mut cards, mut extents) = (Vec::new(), Vec::new());
    for object in 0..CARDS {
        let mut logical = 0;
        for _ in 0..EXTENTS / CARDS {
            let at = extents.len();
            logical += random.below(3);
            extents.push(Extent {
                object,
                logical,
                physical: physical[at],
                count: counts[at],
            });
            logical += counts[at];
        }
        cards.push(Card {
            object,
            size: logical * model::BLOCK_BYTES as u64,
            allocated: 0,
            changed: TIME,
            created: TIME,
        });
    }
    let groups = (0..GROUPS)
        .map(|number| Group {
            object: number / (GROUPS / CARDS),
            number: number % (GROUPS / CARDS),
            slots: (0..256)
                .map(|_| random.percent(50).then(|| random.next_u64() as u32))
                .collect(),
        })
        .collect();
    let mut store = model::Store::blank(BLOCKS, CARDS as usize, EXTENTS as usize, GROUPS as usize);
    let used = (0..BLOCKS).map(|block| block < next).collect();
    Volume {
        uuid: [7; 16],
        reserved: 1,
        hint: 0,
        cards,
        extents,
        groups,
        used,
        retired: vec![false; BLOCKS as usize],
    }
    .encode(&mut store);
    store
}
