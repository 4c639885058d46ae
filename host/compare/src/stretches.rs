//! Lists of stretches at the edges of their rules, each on a store made for it.

use std::collections::BTreeSet;
use std::sync::Arc;

use model::records::STRETCH_BYTES;
use model::{Card, Group, MAX_SIZE, Store, Time, UNIT_BYTES, UNITS_PER_GROUP, Volume};

use crate::alone::fresh;
use crate::edges::{Edge, Unit, after, edge, enter, grow, pair, with, write};
use crate::many::files;
use crate::ranges::{data_stretches, stretches as pairs_of};

/// A file by its object and its size.
type File = (u64, u64);
/// A group by its object and its number, with the slots that it has.
type Slots<'a> = (u64, u64, &'a [u64]);

/// The last unit that a file can have, the first one being 0.
const LAST: u64 = MAX_SIZE / UNIT_BYTES;
/// The group that this unit is the last one of.
const LAST_GROUP: u64 = LAST / UNITS_PER_GROUP;

pub fn stretches() -> Vec<Edge> {
    let mut all = Vec::new();
    shapes(&mut all);
    rooms(&mut all);
    sums(&mut all);
    ends(&mut all);
    far(&mut all);
    others(&mut all);
    backed(&mut all);
    written(&mut all);
    broken(&mut all);
    all
}

/// These files and these slots on one block: neither extents nor bytes are looked
/// at. Every other slot holds 0, which is a checksum like any other.
pub fn slotted(files: &[File], groups: &[Slots<'_>]) -> Arc<Store> {
    let mut store = Store::blank(1, files.len(), 1, groups.len());
    model::run(&mut store, &fresh(16, 0));
    let mut volume = Volume::decode(&store);
    let card = |&(object, size): &File| Card {
        object,
        size,
        allocated: 0,
        changed: Time::new(1, 2),
        created: Time::new(3, 4),
    };
    volume.cards = files.iter().map(card).collect();
    for &(object, number, slots) in groups {
        let mut group = Group::empty(object, number);
        for &slot in slots {
            group.slots[slot as usize] = Some(if slot % 2 == 0 { 0 } else { 5 });
        }
        volume.groups.push(group);
    }
    volume.encode(&mut store);
    Arc::new(store)
}

/// Stretches of every length at and around the ends of groups, and gaps of a slot,
/// of a group without slots and of no group; in ranges that contain them, cut them
/// at either end and at both, meet them, and lie within them.
fn shapes(all: &mut Vec<Edge>) {
    let whole: Vec<u64> = (0..UNITS_PER_GROUP).collect();
    let every_other: Vec<u64> = (0..UNITS_PER_GROUP).step_by(2).collect();
    let shapes: [&[Slots<'_>]; 19] = [
        &[],
        &[(7, 0, &[])],
        &[(7, 0, &[0])],
        &[(7, 0, &[1])],
        &[(7, 0, &[0, 1])],
        &[(7, 0, &[0, 2])],
        &[(7, 0, &[0, 1, 3, 4, 5, 9, 255])],
        &[(7, 0, &[7, 8, 15, 17, 31, 32, 63, 64])],
        &[(7, 0, &[254, 255]), (7, 1, &[0, 1])],
        &[(7, 0, &[255]), (7, 1, &[0])],
        &[(7, 0, &[255]), (7, 1, &[1])],
        &[(7, 0, &[254]), (7, 1, &[0])],
        &[(7, 0, &[255]), (7, 2, &[0])],
        &[(7, 0, &[255]), (7, 1, &[]), (7, 2, &[0])],
        &[(7, 1, &[0, 255])],
        &[(7, 0, &[0, 255]), (7, 1, &[0, 255]), (7, 2, &[0, 255])],
        &[(7, 0, &whole), (7, 1, &whole), (7, 2, &whole)],
        &[(7, 1, &whole)],
        &[(7, 0, &every_other), (7, 1, &every_other)],
    ];
    for groups in shapes {
        let store = slotted(&[(7, 768 * UNIT_BYTES)], groups);
        let units = |&(_, number, slots): &Slots<'_>| -> Vec<u64> {
            slots.iter().map(|slot| number * 256 + slot).collect()
        };
        let units: BTreeSet<u64> = groups.iter().flat_map(units).collect();
        for (first, number) in [
            (0, u64::MAX),
            (0, 768),
            (0, 256),
            (0, 257),
            (0, 1),
            (1, 2),
            (1, 254),
            (2, 500),
            (255, 1),
            (255, 2),
            (254, 4),
            (256, 1),
            (256, 256),
            (511, 2),
        ] {
            let within = units.range(first..u64::saturating_add(first, number));
            let pairs = pairs_of(&within.copied().collect()).len();
            // Some have just their room, and some have more.
            let length = pairs * STRETCH_BYTES + first as usize % 3 * 7;
            let call = data_stretches(7, first, number, length);
            all.push(edge("stretches and ranges", &store, call));
        }
    }
}

/// From none to four stretches and 128 of them, with room for each number of them
/// and some bytes more or less: each also without a card.
fn rooms(all: &mut Vec<Edge>) {
    let apart: Vec<u64> = (0..256).step_by(2).collect();
    for number in [0, 1, 2, 3, 4, 128] {
        let slots = &apart[..number];
        let store = slotted(&[(7, 256 * UNIT_BYTES)], &[(7, 0, slots)]);
        let room = number * STRETCH_BYTES;
        let mut lengths: BTreeSet<usize> = [0, 1, 8, 15, 16, 17, 32, 48].into();
        lengths.extend([1, 2, 8, 16, 17].map(|less| room.saturating_sub(less)));
        lengths.extend([0, 1, 2, 15, 16, 100].map(|more| room + more));
        for length in lengths {
            let call = data_stretches(7, 0, 256, length);
            all.push(edge("pairs and an output", &store, call));
        }
        for length in [0, room.saturating_sub(1), room] {
            let call = data_stretches(9, 0, 256, length);
            all.push(edge("no card and an output", &store, call));
            // Only half of them are in the range.
            let call = data_stretches(7, 0, number as u64, length / 2);
            all.push(edge("pairs of a range and an output", &store, call));
        }
    }
}

/// Ranges whose first unit and length add up to 2^64 - 1, to less and to more, and
/// those that are alike in their low 32 bits: each also without a card.
fn sums(all: &mut Vec<Edge>) {
    let store = slotted(&[(7, 5 * UNIT_BYTES)], &[(7, 0, &[0, 1, 3])]);
    let half = 1 << 63;
    for (first, units) in [
        (u64::MAX, 0),
        (u64::MAX, 1),
        (u64::MAX, 2),
        (u64::MAX, u64::MAX),
        (u64::MAX - 1, 0),
        (u64::MAX - 1, 1),
        (u64::MAX - 1, 2),
        (u64::MAX - 1, 6),
        (0, u64::MAX),
        (1, u64::MAX - 1),
        (1, u64::MAX),
        (3, u64::MAX - 3),
        (3, u64::MAX - 2),
        (half, half - 1),
        (half, half),
        (half, half + 5),
        (half - 1, half),
        (0, 0),
        (1, 0),
        (4, 0),
        (0, 1 << 32),
        (0, (1 << 32) + 1),
        (1 << 32, 5),
        ((1 << 32) + 1, 1),
        (1 << 32, u64::MAX - (1 << 32)),
        ((1 << 32) - 1, 1),
        (0, (1 << 16) + 1),
    ] {
        for (object, length) in [(7, 64), (7, 0), (9, 64), (9, 0)] {
            let call = data_stretches(object, first, units, length);
            all.push(edge("a range near 2^64", &store, call));
        }
    }
}

/// Sizes around whole units and whole groups, with slots before the end, at it and
/// behind it.
fn ends(all: &mut Vec<Edge>) {
    for units in [0, 1, 2, 255, 256, 257, 259] {
        for size in [-1, 0, 1].map(|more| (units * UNIT_BYTES).checked_add_signed(more)) {
            let slots: [Slots<'_>; 2] = [(7, 0, &[0, 1, 2, 254, 255]), (7, 1, &[0, 1, 3])];
            let Some(size) = size else { continue };
            let store = slotted(&[(7, size)], &slots);
            for (first, number, length) in [
                (0, u64::MAX, 64),
                (0, 259, 16),
                (units, 1, 16),
                (u64::max(units, 1) - 1, 1, 16),
                (units + 1, 5, 0),
                (1, 300, 32),
            ] {
                let call = data_stretches(7, first, number, length);
                all.push(edge("slots around the end", &store, call));
            }
        }
    }
}

/// Groups of numbers so great that their units, or the bytes that these start at,
/// are no 64-bit numbers; in a file that is as long as one can be and in short ones.
fn far(all: &mut Vec<Edge>) {
    let past = LAST + 1;
    for size in [
        0,
        1,
        3 * UNIT_BYTES,
        300 * UNIT_BYTES,
        LAST * UNIT_BYTES,
        LAST * UNIT_BYTES + 1,
        MAX_SIZE,
    ] {
        let store = slotted(
            &[(7, size), (8, UNIT_BYTES)],
            &[
                (7, 0, &[0, 2]),
                (7, (1 << 32) - 1, &[255]),
                (7, 1 << 32, &[0, 1]),
                (7, LAST_GROUP, &[0, 253, 254, 255]),
                (7, LAST_GROUP + 1, &[0, 1]),
                // The first bytes of these are 2^64 and more.
                (7, 1 << 40, &[0, 1, 3]),
                (7, (1 << 40) + 1, &[0]),
                (7, (1 << 56) - 1, &[0, 254, 255]),
                // And these units are 2^64 and more.
                (7, 1 << 56, &[0, 1, 2]),
                (7, (1 << 56) + 1, &[0, 5]),
                (7, u64::MAX, &[0, 1, 255]),
                (8, 0, &[0]),
                (8, u64::MAX, &[255]),
            ],
        );
        for (first, units) in [
            (0, u64::MAX),
            (0, 1),
            (1, 1 << 40),
            (1 << 40, 1),
            ((1 << 40) - 1, 3),
            (LAST, 1),
            (LAST, 5),
            (LAST - 2, 2),
            (past, 1),
            (past, u64::MAX - past),
            (1 << 48, 10),
            (u64::MAX - 255, 255),
            (u64::MAX - 1, 1),
            (u64::MAX, 0),
        ] {
            let call = data_stretches(7, first, units, 100);
            all.push(edge("groups of great numbers", &store, call));
        }
    }
    // Nothing to be found in 2^47 units.
    let hole = slotted(&[(7, MAX_SIZE)], &[]);
    for length in [0, 16] {
        let call = data_stretches(7, 0, u64::MAX, length);
        all.push(edge("an empty file of 2^47 units", &hole, call));
    }
}

/// Files beside one another, alike in their low halves, without groups, without
/// slots, and groups without a card.
fn others(all: &mut Vec<Edge>) {
    let alike = 7 + (1 << 32);
    let size = 5 * UNIT_BYTES;
    let files = [0, 5, 6, 7, 8, 11, alike, u64::MAX].map(|object| (object, size));
    let store = slotted(
        &files,
        &[
            (0, 0, &[4]),
            (6, 0, &[0, 1]),
            (6, 1, &[0]),
            (7, 0, &[2, 4]),
            (8, 0, &[0, 3]),
            (9, 0, &[0, 1, 2, 3, 4]),
            (11, 0, &[]),
            (alike, 0, &[1, 3]),
            (u64::MAX - 1, 0, &[0, 4]),
            (u64::MAX, 0, &[2, 3]),
        ],
    );
    for object in [0, 1, 5, 6, 7, 8, 9, 10, 11, alike, u64::MAX - 1, u64::MAX] {
        for (first, units, length) in [(0, u64::MAX, 64), (1, 2, 32), (2, 2, 15)] {
            let call = data_stretches(object, first, units, length);
            all.push(edge("files beside one another", &store, call));
        }
    }
    let bare = after(Store::blank(1, 0, 0, 0), 0, &[]);
    for (first, units) in [(0, 0), (0, 5), (u64::MAX, 1)] {
        let call = data_stretches(7, first, units, 16);
        all.push(edge("a store without files", &bare, call));
    }
}

/// Slots without blocks, blocks without a slot, and units whose bytes are wrong:
/// it is the slot that counts, and no unit is checked.
fn backed(all: &mut Vec<Edge>) {
    use Unit::*;
    for (first, second) in [
        (Sound, Sound),
        (Sound, Hole),
        (Hole, Sound),
        (Hole, Hole),
        (NoSlot, Sound),
        (Sound, NoSlot),
        (NoSlot, NoSlot),
        (Unbacked, Sound),
        (Sound, Unbacked),
        (BadChecksum, PastEnd),
    ] {
        let store = Arc::new(pair(first, second, 40, None));
        let name = format!("stretches, {first:?} {second:?}");
        for (object, units, length) in [(7, u64::MAX, 32), (7, 1, 16), (8, 2, 16)] {
            let call = data_stretches(object, 0, units, length);
            all.push(edge(&name, &store, call));
        }
    }
}

/// Files as calls leave them: units that were written, at the end of a group and
/// behind it, an old tail unit, and holes on either side.
fn written(all: &mut Vec<Edge>) {
    let files = files();
    for object in [5, 6, 7, 8, 9] {
        for (first, units) in [(0, u64::MAX), (1, 1)] {
            let call = data_stretches(object, first, units, 20);
            all.push(edge("stretches of files", &files, call));
        }
    }
    let calls = [
        enter(7),
        grow(7, 70_000),
        write(7, 3 * UNIT_BYTES, 5),
        write(7, 255 * UNIT_BYTES + 60_000, 9_000),
        grow(7, 300 * UNIT_BYTES),
    ];
    for made in 1..=calls.len() {
        let store = after(Store::blank(60, 1, 8, 3), 1, &calls[..made]);
        for (first, units) in [(0, u64::MAX), (3, 253), (256, 10)] {
            let call = data_stretches(7, first, units, 40);
            all.push(edge("stretches, call after call", &store, call));
        }
    }
}

/// Stores that 1 and 2 refuse, before 3 and 19 of either kind.
fn broken(all: &mut Vec<Edge>) {
    let store = slotted(&[(7, 5 * UNIT_BYTES)], &[(7, 0, &[0, 1, 3])]);
    let short = with(&store, |store| store.head.truncate(27));
    let book = with(&store, |store| store.groups[8] = 5);
    let map = with(&store, |store| store.used[0] = 2);
    let both = with(&short, |store| store.groups[8] = 5);
    for store in [&short, &book, &map, &both] {
        for call in [
            data_stretches(7, 0, 5, 32),
            data_stretches(7, 0, 5, 31),
            data_stretches(7, 0, 0, 0),
            data_stretches(7, u64::MAX, 1, 32),
            data_stretches(9, 0, 5, 32),
            data_stretches(9, u64::MAX, 1, 0),
        ] {
            all.push(edge("stretches of a broken store", store, call));
        }
    }
}
