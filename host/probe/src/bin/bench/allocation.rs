//! `allocate_data` for one unit on maps of the largest store: beside itself as it was before one run was sought, and beside the Rust's text, which seeks
//! one too.
//!
//! The first comparison leaves out the copy of the map that a call makes: both take a unit's blocks and put back just those bits, on one map each that
//! stays where it is. A copy of 8 KiB would take longer than most of these searches, and hide what parts them.

use crate::measure::{nanoseconds, pair, times};
use crate::{ROUNDS, SHORT_ROUNDS, SHORT_SPAN, SPAN};
use probe::{Call, Way};
use random::Rng;
use std::hint::black_box;

const BLOCKS: u64 = 65_536;

/// Blocks of a group, over whose end no run goes.
const GROUP: u64 = 16_384;

/// What was asked for, of the time before: on a map without a run that is long enough, and on an empty one. The first stands beside every such map for a
/// whole unit, which wants 16. Where fewer are wanted it is only measured: before, they were found in the first words, and that there is no run only the end
/// tells.
const WITHOUT_A_RUN: Option<f64> = Some(3.0);
const EMPTY: Option<f64> = Some(1.0);

/// A map on which just these blocks are free.
fn free(free: impl Fn(u64) -> bool) -> Vec<u8> {
    let mut map = vec![0xff; BLOCKS as usize / 8];
    for block in (0..BLOCKS).filter(|block| free(*block)) {
        map[block as usize / 8] &= !(1 << (block % 8));
    }
    map
}

/// The most free blocks side by side in a group.
fn longest_run(map: &[u8]) -> usize {
    let (mut longest, mut length) = (0, 0);
    for block in 0..BLOCKS {
        let free = map[block as usize / 8] >> (block % 8) & 1 == 0;
        let begins = block % GROUP == 0;
        length = match (free, begins) {
            (false, _) => 0,
            (true, true) => 1,
            (true, false) => length + 1,
        };
        longest = longest.max(length);
    }
    longest
}

pub fn compared() {
    let empty = || free(|_| true);
    let every_other = || free(|block| block % 2 == 0);
    // Runs of one less than wanted everywhere, a used block between them.
    let too_short = |want: u64| free(move |block| block % want != 0);

    println!("-- allocate_data, a unit of 65,536 blocks, and as it was before one run was sought");
    row(
        "no block wanted: what the call itself takes",
        &empty(),
        0,
        None,
    );
    row("16 wanted, empty", &empty(), 16, EMPTY);
    let last_word = free(|block| block >= BLOCKS - 64 && block % 2 == 0);
    row(
        "16 wanted, full but single blocks in the last word",
        &last_word,
        16,
        WITHOUT_A_RUN,
    );
    let few = free(|block| block % 4_096 == 4_095);
    row(
        "16 wanted, one block free in each 4,096",
        &few,
        16,
        WITHOUT_A_RUN,
    );
    row(
        "16 wanted, every other block free",
        &every_other(),
        16,
        WITHOUT_A_RUN,
    );
    row(
        "16 wanted, runs of 15 everywhere",
        &too_short(16),
        16,
        WITHOUT_A_RUN,
    );
    let mut random = Rng::new(208);
    let halves: Vec<bool> = (0..BLOCKS).map(|_| random.below(2) == 0).collect();
    let half = free(|block| halves[block as usize]);
    let name = format!(
        "16 wanted, half free at random, the longest run of {}",
        longest_run(&half)
    );
    row(&name, &half, 16, WITHOUT_A_RUN);
    let end = free(|block| block >= BLOCKS - 16);
    row("16 wanted, full but a run of 16 at the end", &end, 16, None);
    let behind = free(|block| block >= BLOCKS - 16 || block < 64 && block % 2 == 0);
    row(
        "16 wanted, the same and 32 single blocks at the start",
        &behind,
        16,
        None,
    );
    for want in [1, 2, 4, 8, 15] {
        row(&format!("{want} wanted, empty"), &empty(), want, EMPTY);
        if want >= 2 {
            let name = format!("{want} wanted, every other block free");
            row(&name, &every_other(), want, None);
        }
        // with 2 wanted that is the same map
        if want > 2 {
            let name = format!("{want} wanted, runs of {} everywhere", want - 1);
            row(&name, &too_short(want as u64), want, None);
        }
    }
    beside_rust(&empty());
}

/// One map, both ways.
fn row(name: &str, map: &[u8], want: usize, asked: Option<f64>) {
    let unit = |way| Call::new(map, BLOCKS, 0).unit(way, want);
    let (ours, before) = (unit(Way::Run), unit(Way::Scattered));
    assert!(ours.is_some() && before.is_some(), "{name}: too few blocks");
    // Without a run the rule is the one of before, and on an empty map the lowest run has the lowest blocks.
    if longest_run(map) < want || asked == EMPTY {
        assert_eq!(ours, before, "{name}");
    }
    let (mut ours, mut before) = (Call::new(map, BLOCKS, 0), Call::new(map, BLOCKS, 0));
    let best = pair(
        SHORT_ROUNDS,
        SHORT_SPAN,
        || {
            black_box(black_box(&mut ours).unit_and_back(Way::Run, black_box(want)));
        },
        || {
            black_box(black_box(&mut before).unit_and_back(Way::Scattered, black_box(want)));
        },
    );
    assert!(ours.map() == map && before.map() == map, "{name}: the map");
    nanoseconds(name, best, asked);
}

/// The largest store full but for its last word, and empty. Both sides copy the map.
fn beside_rust(empty: &[u8]) {
    if oracle::skipped("allocate_data") {
        return;
    }
    println!("-- allocate_data with a copy of the map, and the Rust's, changed alike");
    let full = free(|block| block >= BLOCKS - 64);
    let rows = [
        (
            "full but 64 blocks, from the first group",
            full.as_slice(),
            0,
        ),
        (
            "full but 64 blocks, from the last group",
            full.as_slice(),
            3,
        ),
        ("empty", empty, 0),
    ];
    for (name, map, hint) in rows {
        let ours = || Call::new(black_box(map), BLOCKS, hint).allocate(16);
        let theirs = || oracle::parts::allocate(black_box(map), BLOCKS, hint, &[16]);
        assert_eq!(ours().as_slice(), theirs(), "{name}");
        let ours = || {
            black_box(ours());
        };
        let theirs = || {
            black_box(theirs());
        };
        let best = pair(ROUNDS, SPAN, ours, theirs);
        times(&format!("allocate_data, {name}"), best);
    }
}
