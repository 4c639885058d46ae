//! Maps in which the free blocks lie in short runs, so that some units find one
//! long enough and some do not: made between the calls of a history, and for calls
//! on a store of three allocation groups.

use std::ops::Range;

use model::{BLOCK_BYTES, Call, Card, GROUP_BLOCKS, Store, Time, Volume};
use random::Rng;

use crate::generate::{History, Profile, good_time};
use crate::mixed::exchanged;
use crate::writes::{batch_of, single_writes};

/// The changes of one history.
pub struct Fragments {
    rng: Rng,
    /// Whether the history has any. They change its store, so that one with none
    /// makes the calls that it makes where it is recorded.
    some: bool,
}

/// Of a hundred histories those that have them, beside those on several groups.
const HISTORIES: u64 = 45;
/// How often one comes between their calls.
const PERCENT: u64 = 15;

impl Fragments {
    pub fn new(seed: u64, number: u64) -> Self {
        let mut rng = Rng::new(seed.rotate_left(24) ^ number.wrapping_mul(0x9c8e_2f6b_51d7_a3e5));
        let some = rng.percent(HISTORIES);
        Self { rng, some }
    }

    /// Whether the store is changed before the history's next call.
    pub fn wants(&mut self, history: &History) -> bool {
        let some = self.some || history.profile == Profile::Groups;
        some && history.begun() && self.rng.percent(PERCENT)
    }

    /// Change the maps of a store that passes refusals 1 and 2.
    pub fn change(&mut self, store: &mut Store) {
        let mut volume = Volume::decode(store);
        fragment(&mut self.rng, &mut volume);
        volume.encode(store);
    }
}

/// Let other blocks be free than those that are, of all that are neither reserved
/// nor mapped nor retired: on a small store everywhere, else at some places.
pub fn fragment(rng: &mut Rng, volume: &mut Volume) {
    let blocks = volume.blocks();
    let mut ours: Vec<bool> = volume.retired.iter().map(|retired| !retired).collect();
    ours[..volume.reserved as usize].fill(false);
    for extent in &volume.extents {
        let mapped = extent.physical as usize..(extent.physical + extent.count) as usize;
        ours[mapped].fill(false);
    }
    let mut free = vec![false; blocks as usize];
    if blocks <= GROUP_BLOCKS {
        scatter(rng, &mut free, 0..blocks);
    } else {
        for _ in 0..rng.between(1, 12) {
            let place = place(rng, blocks);
            scatter(rng, &mut free, place);
        }
    }
    for ((used, ours), free) in volume.used.iter_mut().zip(ours).zip(free) {
        if ours {
            *used = !free;
        }
    }
    // As a call leaves it, or past the last group.
    volume.hint = rng.below(4);
}

/// Some blocks, most often around a group's end.
fn place(rng: &mut Rng, blocks: u64) -> Range<u64> {
    let from = if rng.percent(50) {
        let edge = rng.between(1, blocks.div_ceil(GROUP_BLOCKS)) * GROUP_BLOCKS;
        edge.min(blocks).saturating_sub(rng.below(40))
    } else {
        rng.below(blocks)
    };
    from..(from + rng.between(1, 60)).min(blocks)
}

/// Runs of free blocks with used ones between them, none longer than a number
/// that is mostly smaller than a unit.
fn scatter(rng: &mut Rng, free: &mut [bool], place: Range<u64>) {
    let longest = rng.pick(&[1, 2, 3, 5, 9, 15, 16, 17, 40]);
    let gap = rng.pick(&[1, 1, 2, 6]);
    let mut at = place.start;
    while at < place.end {
        let run = at..(at + rng.between(1, longest)).min(place.end);
        free[run.start as usize..run.end as usize].fill(true);
        at = run.end + rng.between(1, gap);
    }
}

/// Random calls on one store of three allocation groups, the last of which is
/// shorter: each on a volume of its own, which has no records beside the card of
/// file 7 and so needs no image of its own.
pub fn wide(seed: u64, steps: usize) -> (Store, impl Iterator<Item = (Volume, Call)>) {
    let mut rng = Rng::new(seed ^ 0x57a3_9ce1_0d86_f24b);
    let blocks = 2 * GROUP_BLOCKS + rng.between(1, 200);
    let store = Store::blank(blocks, 1, 300, 1);
    let steps = (0..steps).map(move |_| {
        let volume = fragmented(&mut rng, blocks);
        let call = some_units(&mut rng);
        (volume, call)
    });
    (store, steps)
}

fn fragmented(rng: &mut Rng, blocks: u64) -> Volume {
    let mut volume = Volume {
        uuid: [6; 16],
        reserved: rng.below(3),
        hint: 0,
        cards: vec![Card {
            object: 7,
            size: 0,
            allocated: 0,
            changed: Time::new(1, 2),
            created: Time::new(3, 4),
        }],
        extents: Vec::new(),
        groups: Vec::new(),
        used: vec![true; blocks as usize],
        retired: vec![false; blocks as usize],
    };
    fragment(rng, &mut volume);
    volume
}

/// A write, an archive write or a batch of some units of an empty file.
fn some_units(rng: &mut Rng) -> Call {
    let (mut from, mut writes) = (0, Vec::new());
    for _ in 0..rng.pick(&[1, 1, 1, 1, 2, 3]) {
        let blocks = rng.pick(&[1, 2, 3, 5, 8, 12, 15, 16, 17, 18, 21, 30, 33, 35, 48]);
        let length = blocks * BLOCK_BYTES as u64 - rng.below(2) * 100;
        writes.push((7, from, length));
        from += length;
    }
    let batch = batch_of(&writes, from as usize, good_time(rng));
    match single_writes(&batch).as_slice() {
        [one] if rng.percent(40) => exchanged(one).expect("a write"),
        [one] if rng.percent(85) => one.clone(),
        _ => batch,
    }
}
