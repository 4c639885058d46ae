//! Many reads in one call: 64 of 100 bytes each, in one unit and in 64 of them,
//! as one call and as 64. The 64 calls test the whole store each time, and a
//! unit as often as it is read.

use std::hint::black_box;

use model::{Store, UNIT_BYTES};
use sangueko::{MOST_RANGES, Range, Refusal};

use crate::measure::alone;
use crate::stores::{OBJECT, lend, places};
use crate::{ROUNDS, SPAN};

const LENGTH: usize = 100;

/// How many times as fast one call has to be where all reads are in one unit.
const IN_ONE_UNIT: f64 = 20.0;

/// Both lists on a store.
pub fn compared(store: &mut Store) {
    let lent = lend(store);
    let [one, calls, _] = timed(&lent, &in_one_unit(), 1);
    row(
        "64 reads of 100 bytes in one unit, and 64 calls",
        one,
        calls,
    );
    if calls < IN_ONE_UNIT * one {
        println!("under the {IN_ONE_UNIT} times that are asked for");
    }

    let [one, calls, tests] = timed(&lent, &in_many_units(), MOST_RANGES as u64);
    row(
        "64 reads of 100 bytes in 64 units, and 64 calls",
        one,
        calls,
    );
    let tested_once = calls - (MOST_RANGES - 1) as f64 * tests;
    row("the same, less 63 times refusals 1 and 2", one, tested_once);
    if tested_once < one {
        println!("slower than what is asked for");
    }
}

/// Ranges that do not overlap, from the first byte of a unit to nearly its last.
fn in_one_unit() -> Vec<Range> {
    let unit = places(1)[0] * UNIT_BYTES;
    let offsets = (0..MOST_RANGES as u64).map(|n| unit + n * 1_000);
    offsets.map(range).collect()
}

fn in_many_units() -> Vec<Range> {
    let mut units = Vec::new();
    for unit in places(4 * MOST_RANGES) {
        if !units.contains(&unit) {
            units.push(unit);
        }
    }
    let units = units.into_iter().take(MOST_RANGES);
    units.map(|unit| range(unit * UNIT_BYTES + 1_000)).collect()
}

fn range(offset: u64) -> Range {
    Range {
        object: OBJECT,
        offset,
        length: LENGTH as u64,
    }
}

/// The best times of one call, of 64, and of refusals 1 and 2 alone, after answers
/// and bytes were compared. All three turn and turn about: what else the machine
/// does would else decide a difference of 64 calls and 63 tests.
fn timed(lent: &sangueko::Store<'_>, ranges: &[Range], units: u64) -> [f64; 3] {
    assert_eq!(ranges.len(), MOST_RANGES);
    let (mut out, mut pieces) = ([0; MOST_RANGES * LENGTH], [0; MOST_RANGES * LENGTH]);
    assert_eq!(lent.read_many(ranges, &mut out), Ok(units));
    singly(lent, ranges, &mut pieces);
    assert!(out == pieces, "the pieces are not what single reads give");
    let mut best = [f64::INFINITY; 3];
    for _ in 0..ROUNDS {
        let round = [
            alone(1, SPAN, || {
                let _ = black_box(lent.read_many(black_box(ranges), black_box(&mut out)));
            }),
            alone(1, SPAN, || {
                singly(lent, black_box(ranges), black_box(&mut pieces));
            }),
            alone(1, SPAN, || only_tests(black_box(lent))),
        ];
        best = std::array::from_fn(|at| best[at].min(round[at]));
    }
    best
}

fn singly(lent: &sangueko::Store<'_>, ranges: &[Range], out: &mut [u8]) {
    for (range, piece) in ranges.iter().zip(out.chunks_mut(LENGTH)) {
        let read = lent.read(range.object, range.offset, piece);
        assert_eq!(read, Ok(range.length));
    }
}

/// A list that is none: 17 is tried right behind refusals 1 and 2.
fn only_tests(lent: &sangueko::Store<'_>) {
    let refused = lent.read_many_bytes(black_box(&[0]), &mut []);
    assert_eq!(refused, Err(Refusal::BadReads));
}

/// One line: what was measured, the time of one call and the other, and how many
/// times as fast the one call is.
fn row(name: &str, one: f64, other: f64) {
    println!(
        "{name:<66} {:>8.2} {:>8.2} us     {:>5.2} times as fast",
        one * 1e6,
        other * 1e6,
        other / one
    );
}
