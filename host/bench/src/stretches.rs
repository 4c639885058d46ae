//! Which units hold data: the call on books of groups of several sizes and shapes,
//! beside two plain walks over the same bytes. One looks at unit after unit,
//! seeking its group by halving the book each time; the other goes from group to
//! group. Neither tests anything of the store, and the call tests all of it: what
//! that costs is timed by a call that is refused by 3, and the rest is the call's
//! own share.

use std::hint::black_box;
use std::ops::Range;

use model::records::{GROUP_BYTES, Head};
use model::{Card, MAX_PLACES, Store, Time, UNIT_BYTES, UNITS_PER_GROUP};
use sangueko::{Refusal, STRETCH_BYTES};

use crate::measure::alone;
use crate::stores::{OBJECT, lend};
use crate::{ROUNDS, SPAN};

/// Where a group's presence bits lie in its record.
const PRESENCE: Range<usize> = 17..49;

/// A presence bit for every second unit: no group has more stretches.
const ALTERNATE: [u8; 32] = [0x55; 32];
const ALL: [u8; 32] = [0xff; 32];

/// One unit, neither the first nor the last of its group.
const fn one() -> [u8; 32] {
    let mut bits = [0; 32];
    bits[11] = 0x10;
    bits
}

/// A few stretches of a small file.
const fn few() -> [u8; 32] {
    let mut bits = [0; 32];
    (bits[0], bits[5], bits[6], bits[31]) = (0x47, 0xf0, 0x1f, 0x80);
    bits
}

/// Groups of the smaller books: their pairs, of every second unit, are 8 MiB.
const GROUPS: usize = 4_096;

/// A book of so many groups, all alike, and how many of them the range has, from
/// the middle on where it has not all.
struct Shape {
    name: &'static str,
    groups: usize,
    presence: [u8; 32],
    asked: usize,
    rounds: u32,
}

const SHAPES: [Shape; 6] = [
    shape("a small file", 1, few(), 1),
    shape(
        "every second unit of 4,096 groups",
        GROUPS,
        ALTERNATE,
        GROUPS,
    ),
    shape("one stretch of 4,096 groups", GROUPS, ALL, GROUPS),
    shape(
        "a unit in each of 1,048,575 groups",
        MAX_PLACES,
        one(),
        MAX_PLACES,
    ),
    shape(
        "one stretch of 1,048,575 groups",
        MAX_PLACES,
        ALL,
        MAX_PLACES,
    ),
    shape(
        "every second unit of 4,096 groups among 1,048,575",
        MAX_PLACES,
        ALTERNATE,
        GROUPS,
    ),
];

/// The largest book has over 1 GiB, of which each call tests every byte: a few
/// rounds have to do.
const fn shape(name: &'static str, groups: usize, presence: [u8; 32], asked: usize) -> Shape {
    Shape {
        name,
        groups,
        presence,
        asked,
        rounds: if groups == MAX_PLACES { 10 } else { ROUNDS },
    }
}

/// Seconds of the call, of refusals 1 and 2 alone, and of the walks.
struct Times {
    call: f64,
    tests: f64,
    by_units: f64,
    by_groups: f64,
}

pub fn compared() {
    println!(
        "-- which units hold data: the call, refusals 1 and 2 alone, the rest of the call; unit by unit and group by group in plain Rust; us"
    );
    for shape in SHAPES {
        let mut store = store(&shape);
        let first = ((shape.groups - shape.asked) / 2) as u64 * UNITS_PER_GROUP;
        let units = first..first + shape.asked as u64 * UNITS_PER_GROUP;
        row(shape.name, &timed(&mut store, units, shape.rounds));
    }
}

/// One file with such groups and no blocks, which the call does not ask for. The
/// checksums are zero.
fn store(shape: &Shape) -> Store {
    let mut store = Store::blank(1, 1, 0, shape.groups);
    let (places, _) = store.groups.as_chunks_mut::<GROUP_BYTES>();
    for (number, place) in (0u64..).zip(places) {
        place[..8].copy_from_slice(&OBJECT.to_be_bytes());
        place[8] = 4;
        place[9..17].copy_from_slice(&number.to_be_bytes());
        place[PRESENCE].copy_from_slice(&shape.presence);
    }
    let time = Time::new(1_700_000_000, 0);
    Card {
        object: OBJECT,
        size: shape.groups as u64 * UNITS_PER_GROUP * UNIT_BYTES,
        allocated: 0,
        changed: time,
        created: time,
    }
    .encode(&mut store.cards);
    Head {
        uuid: [7; 16],
        blocks: 1,
        reserved: 0,
        hint: 0,
        cards: 1,
        extents: 0,
        groups: shape.groups,
    }
    .encode(&mut store.head);
    store
}

/// The best times, after all three gave the same bytes. The call, the tests and
/// the walk of groups turn and turn about: what else the machine does would else
/// decide a difference. The walk of units takes up to half a minute, and has one
/// round.
fn timed(store: &mut Store, units: Range<u64>, rounds: u32) -> Times {
    let lent = lend(store);
    let (book, _) = lent.groups.as_chunks::<GROUP_BYTES>();
    let (first, length) = (units.start, units.end - units.start);
    let mut pairs = Vec::new();
    by_groups(book, units.clone(), &mut pairs);
    let mut out = vec![0x77; pairs.len() * STRETCH_BYTES + 1];
    let count = lent.data_stretches(OBJECT, first, length, &mut out);
    assert_eq!(count, Ok(pairs.len() as u64));
    let rest = out.pop();
    assert!(
        rest == Some(0x77) && out == pairs.as_flattened(),
        "group by group"
    );
    let by_units = alone(1, SPAN, || {
        pairs.clear();
        by_units(black_box(book), black_box(units.clone()), &mut pairs);
    });
    assert!(out == pairs.as_flattened(), "unit by unit");

    let mut best = [f64::INFINITY; 3];
    for _ in 0..rounds {
        let round = [
            alone(1, SPAN, || {
                let lent = black_box(&lent);
                let _ = black_box(lent.data_stretches(OBJECT, first, length, &mut out));
            }),
            alone(1, SPAN, || only_tests(black_box(&lent))),
            alone(1, SPAN, || {
                pairs.clear();
                by_groups(black_box(book), black_box(units.clone()), &mut pairs);
            }),
        ];
        best = std::array::from_fn(|at| best[at].min(round[at]));
    }
    let [call, tests, by_groups] = best;
    Times {
        call,
        tests,
        by_units,
        by_groups,
    }
}

/// Of a file that there is not.
fn only_tests(lent: &sangueko::Store<'_>) {
    let refused = lent.data_stretches(OBJECT + 1, 0, u64::MAX, &mut []);
    assert_eq!(refused, Err(Refusal::NoCard));
}

type Record = [u8; GROUP_BYTES];

/// Stretches as bytes. There is room for all of them when the time is taken.
type Pairs = Vec<[u8; STRETCH_BYTES]>;

fn push(pairs: &mut Pairs, units: &Range<u64>) {
    if !units.is_empty() {
        let mut pair = [0; STRETCH_BYTES];
        pair[..8].copy_from_slice(&units.start.to_le_bytes());
        pair[8..].copy_from_slice(&(units.end - units.start).to_le_bytes());
        pairs.push(pair);
    }
}

/// Object and number of a group, as they are ordered.
fn key(group: &Record) -> (u64, u64) {
    let number = |from: usize| {
        let bytes = group[from..].first_chunk().copied();
        u64::from_be_bytes(bytes.unwrap_or_default())
    };
    (number(0), number(9))
}

fn by_units(book: &[Record], units: Range<u64>, pairs: &mut Pairs) {
    let mut open = 0..0;
    for unit in units {
        if !holds_data(book, unit) {
            continue;
        }
        if open.end != unit {
            push(pairs, &open);
            open = unit..unit;
        }
        open.end = unit + 1;
    }
    push(pairs, &open);
}

fn holds_data(book: &[Record], unit: u64) -> bool {
    let wanted = (OBJECT, unit / UNITS_PER_GROUP);
    let Ok(at) = book.binary_search_by_key(&wanted, key) else {
        return false;
    };
    let slot = (unit % UNITS_PER_GROUP) as usize;
    book[at][PRESENCE][slot / 8] >> (slot % 8) & 1 == 1
}

/// The presence bits 64 at a time, whose zeros and ones are counted from the low
/// end.
fn by_groups(book: &[Record], units: Range<u64>, pairs: &mut Pairs) {
    let from = book.partition_point(|group| key(group) < (OBJECT, units.start / UNITS_PER_GROUP));
    let mut open = 0..0;
    for group in &book[from..] {
        let (object, number) = key(group);
        if object != OBJECT || number > (units.end - 1) / UNITS_PER_GROUP {
            break;
        }
        let (words, _) = group[PRESENCE].as_chunks::<8>();
        for (at, word) in (0u64..).zip(words) {
            let first = number * UNITS_PER_GROUP + 64 * at;
            let mut bits = within(u64::from_le_bytes(*word), first, &units);
            while bits != 0 {
                let zeros = bits.trailing_zeros();
                let ones = (bits >> zeros).trailing_ones();
                let start = first + u64::from(zeros);
                if open.end != start {
                    push(pairs, &open);
                    open = start..start;
                }
                open.end = start + u64::from(ones);
                bits &= u64::MAX.checked_shl(zeros + ones).unwrap_or(0);
            }
        }
    }
    push(pairs, &open);
}

/// The bits of 64 units that are in the range.
fn within(bits: u64, first: u64, units: &Range<u64>) -> u64 {
    let low = units.start.saturating_sub(first).min(64) as u32;
    let high = first.saturating_add(64).saturating_sub(units.end).min(64) as u32;
    let low = u64::MAX.checked_shl(low).unwrap_or(0);
    let high = u64::MAX.checked_shr(high).unwrap_or(0);
    bits & low & high
}

/// One line: the times, and the call's own share over that of each walk.
fn row(name: &str, times: &Times) {
    let own = times.call - times.tests;
    let [call, tests, rest, units, groups] = [
        times.call,
        times.tests,
        own,
        times.by_units,
        times.by_groups,
    ]
    .map(|seconds| seconds * 1e6);
    println!(
        "{name:<50} {call:>11.2} {tests:>11.2} {rest:>10.2} {units:>12.2} {groups:>10.2} us   {:>7.4} of unit by unit, {:>5.2} of group by group",
        own / times.by_units,
        own / times.by_groups
    );
}

#[cfg(test)]
mod tests {
    use super::*;

    type Walk = fn(&[Record], Range<u64>, &mut Pairs);

    fn found(walk: Walk, store: &Store, units: Range<u64>) -> Vec<u8> {
        let mut pairs = Pairs::default();
        walk(store.groups.as_chunks().0, units, &mut pairs);
        pairs.into_flattened()
    }

    /// Both walks and the call on small books, with ranges that begin and end
    /// anywhere.
    #[test]
    fn the_walks_give_what_the_call_gives() {
        for presence in [few(), one(), ALL, ALTERNATE, [0; 32]] {
            let mut store = store(&shape("three groups", 3, presence, 3));
            for first in [0, 1, 6, 7, 63, 64, 92, 255, 256, 300, 767] {
                for last in [0, 1, 63, 64, 65, 93, 255, 256, 257, 512, 767] {
                    let units = first..first.max(last) + 1;
                    let by_units = found(by_units, &store, units.clone());
                    let by_groups = found(by_groups, &store, units.clone());
                    assert_eq!(by_units, by_groups, "{units:?}");
                    let mut out = vec![0; by_units.len()];
                    let length = units.end - units.start;
                    let count = lend(&mut store).data_stretches(OBJECT, first, length, &mut out);
                    assert_eq!(count, Ok((by_units.len() / STRETCH_BYTES) as u64));
                    assert_eq!(out, by_units, "{units:?}");
                }
            }
        }
    }
}
