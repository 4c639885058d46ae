//! Calls at the edges of the rules, each on a store made for it.

use std::sync::Arc;

use model::records::{CARD_BYTES, EXTENT_BYTES, GROUP_BYTES};
use model::store::map_bytes;
use model::{
    BLOCK_BYTES, Call, Card, Extent, GROUP_BLOCKS, Group, MAX_ALLOCATED, MAX_SIZE,
    MAX_TRANSFER_BYTES, Store, Time, Volume,
};

use crate::alone::{TIME, fresh, seal};
use crate::archive::telling;
use crate::batch::batches;
use crate::created::created;
use crate::lists::read_many;
use crate::many::many;
use crate::mixed::exchanged;
use crate::ranges::data_stretches;
use crate::runs;
use crate::smallest::smallest;
use crate::stretches::stretches;
use crate::writes::{batch_of, write_batch};

/// One call on a store; many share one.
pub struct Edge {
    pub name: String,
    pub store: Arc<Store>,
    pub call: Call,
}

pub(crate) fn edge(name: impl Into<String>, store: &Arc<Store>, call: Call) -> Edge {
    Edge {
        name: name.into(),
        store: store.clone(),
        call,
    }
}

pub(crate) fn write_at(object: u64, offset: u64, length: usize, time: Time) -> Call {
    Call::Write {
        object,
        offset,
        bytes: (0..length).map(|n| (n * 7 + 1) as u8).collect(),
        time,
    }
}

pub(crate) fn write(object: u64, offset: u64, length: usize) -> Call {
    write_at(object, offset, length, TIME)
}

pub(crate) fn grow(object: u64, size: u64) -> Call {
    Call::Grow {
        object,
        size,
        time: TIME,
    }
}

pub(crate) fn read(object: u64, offset: u64, length: usize) -> Call {
    Call::Read {
        object,
        offset,
        length,
    }
}

/// Every file has a creation time of its own, which is no change's.
pub(crate) fn enter(object: u64) -> Call {
    let time = Time::new(3, object % 1_000_000_000);
    Call::Enter { object, time }
}

/// A store after fresh and these calls.
pub(crate) fn after(mut store: Store, reserved: u64, calls: &[Call]) -> Arc<Store> {
    model::run(&mut store, &fresh(16, reserved));
    for call in calls {
        let number = model::run(&mut store, call).number;
        assert_eq!(number, 0, "{}", call.name());
    }
    Arc::new(store)
}

/// The store with a change.
pub(crate) fn with(store: &Store, change: impl FnOnce(&mut Store)) -> Arc<Store> {
    let mut changed = store.clone();
    change(&mut changed);
    Arc::new(changed)
}

/// The single calls, but for most of those of `archive`.
pub fn edges() -> Vec<Edge> {
    let mut all = Vec::new();
    for small in smallest() {
        all.push(edge("a listed difference", &small.store.into(), small.call));
    }
    // On the smallest stores, so that they come before the others at little cost.
    all.extend(stretches());
    all.extend(telling());
    all.extend(runs::telling());
    ends(&mut all);
    times(&mut all);
    transfers(&mut all);
    lengths(&mut all);
    nothing(&mut all);
    books(&mut all);
    tails(&mut all);
    holes(&mut all);
    neighbours(&mut all);
    shared(&mut all);
    fills(&mut all);
    all.extend(many());
    all.extend(batches());
    all.extend(created());
    all
}

/// Refusals 3, 5 and 6 around 2^63, with and without a card: among them the
/// offsets at which the clipping decides.
fn ends(all: &mut Vec<Edge>) {
    let clip = MAX_TRANSFER_BYTES as u64;
    let empty = after(Store::blank(40, 2, 4, 2), 0, &[enter(7)]);
    let most = after(Store::blank(40, 2, 4, 2), 0, &[enter(7), grow(7, MAX_SIZE)]);
    let late = Time {
        seconds: MAX_SIZE + 1,
        nanoseconds: 0,
    };
    for store in [&empty, &most] {
        for length in [
            0,
            1,
            2,
            MAX_TRANSFER_BYTES,
            MAX_TRANSFER_BYTES + 1,
            MAX_TRANSFER_BYTES + 70_000,
        ] {
            for end in [
                MAX_SIZE - clip - 70_000,
                MAX_SIZE - clip - 1,
                MAX_SIZE - clip,
                MAX_SIZE - clip + 1,
                MAX_SIZE - 2,
                MAX_SIZE - 1,
                MAX_SIZE,
                MAX_SIZE + 1,
                u64::MAX - clip,
                u64::MAX,
            ] {
                all.push(edge("a write near 2^63", store, write(7, end, length)));
            }
            for offset in [0, MAX_SIZE] {
                all.push(edge("a bad time", store, write_at(7, offset, length, late)));
                all.push(edge(
                    "no card, a bad time",
                    store,
                    write_at(8, offset, length, late),
                ));
                all.push(edge("no card", store, write(8, offset, length)));
            }
        }
        for size in [0, 1, 4_096, MAX_SIZE - 1, MAX_SIZE, MAX_SIZE + 1, u64::MAX] {
            for object in [7, 8] {
                all.push(edge("a grow near 2^63", store, grow(object, size)));
                let call = Call::Grow {
                    object,
                    size,
                    time: late,
                };
                all.push(edge("a grow with a bad time", store, call));
            }
        }
        for offset in [
            0,
            1,
            MAX_SIZE - 70_000,
            MAX_SIZE - 1,
            MAX_SIZE,
            MAX_SIZE + 1,
            u64::MAX,
        ] {
            for length in [0, 1, 2, 70_001] {
                all.push(edge("a read near 2^63", store, read(7, offset, length)));
                all.push(edge(
                    "a read without a card",
                    store,
                    read(8, offset, length),
                ));
            }
        }
    }
}

fn times(all: &mut Vec<Edge>) {
    let store = after(Store::blank(4, 2, 2, 1), 0, &[enter(7), grow(7, 5)]);
    let full = after(Store::blank(4, 1, 2, 1), 0, &[enter(7), grow(7, 5)]);
    for seconds in [0, 1 << 62, MAX_SIZE, MAX_SIZE + 1, u64::MAX] {
        for nanoseconds in [
            0,
            1 << 29,
            999_999_999,
            1_000_000_000,
            1_000_000_001,
            1 << 30,
            1 << 32,
            (1 << 32) + 5,
            u64::MAX,
        ] {
            let time = Time {
                seconds,
                nanoseconds,
            };
            for object in [6, 7, 8] {
                all.push(edge("enter", &store, Call::Enter { object, time }));
                all.push(edge("enter, no place", &full, Call::Enter { object, time }));
            }
            all.push(edge("write", &store, write_at(7, 3, 9, time)));
            all.push(edge("empty write", &store, write_at(7, 3, 0, time)));
            for size in [4, 5, 6] {
                let call = Call::Grow {
                    object: 7,
                    size,
                    time,
                };
                all.push(edge("grow", &store, call));
            }
        }
    }
}

/// Transfers around 1 MiB, by a write and out of a hole.
fn transfers(all: &mut Vec<Edge>) {
    let hole = after(Store::blank(2, 1, 2, 1), 0, &[enter(7), grow(7, 3_000_000)]);
    let room = after(Store::blank(300, 1, 20, 2), 0, &[enter(7)]);
    for length in [1_048_575, 1_048_576, 1_048_577, 1_100_000] {
        for offset in [0, 1, 65_535, 1_951_423, 1_951_424, 2_999_999] {
            all.push(edge("a long read", &hole, read(7, offset, length)));
        }
        for offset in [0, 1, 40_000] {
            all.push(edge("a long write", &room, write(7, offset, length)));
        }
    }
    // The old tail unit and 17 more.
    let calls = [enter(7), write(7, 0, 70_000)];
    let tail = after(Store::blank(330, 1, 20, 2), 0, &calls);
    for offset in [131_072, 131_073] {
        let call = write(7, offset, MAX_TRANSFER_BYTES);
        all.push(edge("a long write behind a tail", &tail, call));
    }
}

/// Every number of blocks around a word of the maps with maps of every length
/// around the right one, and books around whole records.
fn lengths(all: &mut Vec<Edge>) {
    let calls = [Call::Fill, Call::Settle, enter(8), fresh(16, 1)];
    for blocks in [1, 2, 63, 64, 65, 127, 128, 129] {
        let store = after(Store::blank(blocks, 2, 2, 2), blocks.min(2), &[enter(7)]);
        let right = map_bytes(blocks);
        for length in [0, 1, right - 8, right - 1, right, right + 1, right + 8] {
            let used = with(&store, |store| store.used.resize(length, 0));
            let retired = with(&store, |store| store.retired.resize(length, 0));
            for call in &calls {
                all.push(edge("a used map's length", &used, call.clone()));
                all.push(edge("a retired map's length", &retired, call.clone()));
            }
        }
        for reserved in [0, blocks - 1, blocks, blocks + 1, 1 << 17, u64::MAX] {
            for uuid in [0, 1, 15, 16, 17, 32] {
                all.push(edge("fresh", &store, fresh(uuid, reserved)));
            }
        }
        let image = store.image.len();
        for length in [0, 1, image - 4_096, image - 1, image + 1, image + 4_096] {
            let other = with(&store, |store| store.image.resize(length, 0));
            for call in &calls {
                all.push(edge("an image's length", &other, call.clone()));
            }
        }
    }
    let store = after(Store::blank(5, 2, 2, 2), 1, &[enter(7), write(7, 0, 5_000)]);
    for (book, record) in [
        (2, CARD_BYTES),
        (3, EXTENT_BYTES),
        (4, GROUP_BYTES),
        (1, 28),
    ] {
        let right = store.buffers()[book].len();
        for length in [
            0,
            1,
            record - 1,
            record,
            record + 1,
            right - 1,
            right,
            right + 1,
            right + record,
        ] {
            let other = with(&store, |store| store.buffers_mut()[book].resize(length, 0));
            for call in &calls {
                all.push(edge("a book's length", &other, call.clone()));
            }
        }
    }
}

/// Stores with books of no place, and buffers of no byte.
fn nothing(all: &mut Vec<Edge>) {
    let bare = after(Store::blank(3, 0, 0, 0), 1, &[]);
    let card = after(Store::blank(3, 1, 0, 0), 1, &[enter(7)]);
    let no_extents = after(Store::blank(3, 1, 0, 1), 1, &[enter(7)]);
    for store in [&Arc::default(), &bare, &card, &no_extents] {
        for call in [
            fresh(0, 0),
            fresh(16, 0),
            fresh(16, 3),
            enter(7),
            enter(8),
            write(7, 0, 0),
            write(7, 0, 1),
            write(7, 4_095, 2),
            grow(7, 0),
            grow(7, 1),
            read(7, 0, 0),
            read(7, 0, 1),
            read_many(&[], 0),
            read_many(&[(7, 0, 0)], 0),
            read_many(&[(7, 0, 1)], 1),
            read_many(&[(7, 0, 1)], 0),
            write_batch(&[]),
            write_batch(&[(7, 0, 0)]),
            write_batch(&[(7, 0, 1), (7, 4_095, 2)]),
            batch_of(&[], 1, TIME),
            data_stretches(7, 0, 1, 0),
            data_stretches(7, 1, u64::MAX, 0),
            Call::Settle,
            Call::Fill,
        ] {
            all.push(edge("with empty buffers", store, call));
        }
    }
    // Each buffer of the store empty, the others as they were.
    let store = after(Store::blank(3, 1, 2, 1), 1, &[enter(7), write(7, 0, 5)]);
    for buffer in 0..7 {
        let other = with(&store, |store| store.buffers_mut()[buffer].clear());
        for call in [
            fresh(16, 0),
            enter(8),
            write(7, 1, 1),
            grow(7, 9),
            read(7, 0, 9),
            read_many(&[(7, 0, 9)], 9),
            read_many(&[(7, 0, 9)], 8),
            exchanged(&write(7, 1, 1)).expect("a write"),
            write_batch(&[(7, 1, 1)]),
            batch_of(&[(7, 1, 1)], 2, TIME),
            data_stretches(7, 0, 1, 16),
            data_stretches(7, 0, 1, 15),
            Call::Fill,
        ] {
            all.push(edge("with one buffer empty", &other, call));
        }
    }
}

/// W-202: fill for every number of reserved blocks, from none to all, around
/// the words of the maps: only those used, the first block behind them too, the
/// last one too, and all of them, retired or not. And the store of document
/// 01's `layout`, step by step.
fn fills(all: &mut Vec<Edge>) {
    for blocks in [1, 2, 7, 8, 9, 16, 63, 64, 65, 130] {
        for reserved in 0..=blocks {
            let store = after(Store::blank(blocks, 1, 1, 1), reserved, &[]);
            all.push(edge("fill, reserved blocks alone", &store, Call::Fill));
            if reserved == blocks {
                continue;
            }
            for used in [reserved..reserved + 1, blocks - 1..blocks, reserved..blocks] {
                for retired in [false, true] {
                    let store = with(&store, |store| {
                        let mut volume = Volume::decode(store);
                        volume.used[used.start as usize..used.end as usize].fill(true);
                        volume.retired[used.start as usize..used.end as usize].fill(retired);
                        volume.encode(store);
                    });
                    all.push(edge("fill behind reserved blocks", &store, Call::Fill));
                }
            }
        }
    }
    let mut calls = Vec::new();
    for call in [
        enter(7),
        write(7, 0, 9_000),
        write(7, 5_000, 10),
        Call::Settle,
        grow(7, 20_000),
    ] {
        calls.push(call);
        let store = after(Store::blank(8, 1, 8, 1), 1, &calls);
        all.push(edge("fill of layout's store", &store, Call::Fill));
    }
}

/// Books just full and one short: refusals 15 and 16, and their order.
fn books(all: &mut Vec<Edge>) {
    let calls = [
        enter(7),
        write(7, 0, 40_960),
        write(7, 8_192, 10),
        write(7, 20_480, 10),
    ];
    let store = after(Store::blank(60, 2, 12, 4), 0, &calls);
    let now = Volume::decode(&store);
    for extents in now.extents.len()..=now.extents.len() + 4 {
        for groups in now.groups.len()..=now.groups.len() + 2 {
            let other = with(&store, |store| {
                store.extents.truncate(extents * EXTENT_BYTES);
                store.groups.truncate(groups * GROUP_BYTES);
            });
            for call in [
                write(7, 0, 1),
                write(7, 12_288, 10),
                write(7, 40_960, 5_000),
                write(7, 70_000, 10),
                write(7, 256 * 65_536, 10),
                write(7, 255 * 65_536, 70_000),
                grow(7, 50_000),
                grow(7, 40_961),
            ] {
                all.push(edge("nearly full books", &other, call));
            }
        }
    }
}

/// Writes and grows behind old tails, partial and whole.
fn tails(all: &mut Vec<Edge>) {
    for size in [1, 4_096, 65_535, 65_536, 65_537, 70_000] {
        let calls = [enter(7), write(7, 0, size)];
        let store = after(Store::blank(80, 1, 8, 2), 1, &calls);
        for offset in [size as u64, 65_535, 65_536, 131_071, 131_072, 200_000] {
            all.push(edge("a write behind a tail", &store, write(7, offset, 1)));
            all.push(edge("a grow behind a tail", &store, grow(7, offset)));
        }
    }
}

/// Units without a slot and extents in, before and after them: refusal 9.
fn holes(all: &mut Vec<Edge>) {
    let store = after(
        Store::blank(40, 2, 8, 2),
        1,
        &[enter(6), enter(7), grow(7, 150_000)],
    );
    for (object, places) in [
        (7, &[15][..]),
        (7, &[16]),
        (7, &[15, 16]),
        (7, &[20]),
        (7, &[31]),
        (7, &[32]),
        (7, &[31, 32]),
        (7, &[16, 31]),
        (6, &[20]),
    ] {
        let store = with(&store, |store| {
            let mut volume = Volume::decode(store);
            volume.cards[0].size = 150_000;
            for &logical in places {
                volume.used[logical as usize + 1] = true;
                let one = Extent {
                    object,
                    logical,
                    physical: logical + 1,
                    count: 1,
                };
                match volume.extents.last_mut() {
                    Some(last) if last.joins(&one) => last.count += 1,
                    _ => volume.extents.push(one),
                }
            }
            volume.encode(store);
        });
        for call in [
            read(7, 0, 10),
            read(7, 65_536, 10),
            read(7, 131_000, 100),
            read(7, 131_072, 10),
            read(7, 65_536, 65_536),
            write(7, 65_536, 10),
            write(7, 131_000, 10),
            write(7, 65_536, 65_536),
            write(7, 140_000, 10),
            grow(7, 160_000),
        ] {
            all.push(edge("extents without a slot", &store, call));
        }
    }
}

/// Another file's extent right after a run, in its file and on the device.
fn neighbours(all: &mut Vec<Edge>) {
    let store = after(Store::blank(30, 2, 8, 2), 1, &[enter(7), enter(8)]);
    for (object, logical, physical) in [(8, 16, 17), (8, 16, 18), (8, 17, 17)] {
        let store = with(&store, |store| {
            let mut volume = Volume::decode(store);
            volume.cards[1].size = 80_000;
            volume.used[physical as usize] = true;
            volume.extents.push(Extent {
                object,
                logical,
                physical,
                count: 1,
            });
            volume.encode(store);
        });
        all.push(edge("another file's extent", &store, write(7, 0, 65_536)));
    }
}

/// One block at two places of a file: kept, superseded, or both.
fn shared(all: &mut Vec<Edge>) {
    let calls = [enter(7), write(7, 0, 8_192)];
    let store = after(Store::blank(12, 1, 4, 1), 1, &calls);
    for allocated in [0, 1, 2, MAX_ALLOCATED] {
        let store = with(&store, |store| {
            let mut volume = Volume::decode(store);
            let first = volume.extents[0];
            volume.extents[0].count = 1;
            volume.extents.push(Extent {
                logical: 1,
                count: 1,
                ..first
            });
            volume.cards[0].allocated = allocated;
            seal(&mut volume, &mut store.image);
            volume.encode(store);
        });
        for (offset, length) in [
            (0, 8_192),
            (0, 10_000),
            (0, 5_000),
            (100, 10),
            (4_096, 10),
            (8_192, 1),
        ] {
            all.push(edge(
                "a block at two places",
                &store,
                write(7, offset, length),
            ));
        }
        all.push(edge("a block at two places", &store, read(7, 0, 9_000)));
    }
}

/// What a unit of [`pairs`] is like.
#[derive(Clone, Copy, Debug, PartialEq)]
pub(crate) enum Unit {
    Sound,
    Hole,
    /// Extents and no slot.
    NoSlot,
    /// A slot and a block missing.
    Unbacked,
    /// A byte past the end; of unit 0, which is full, the checksum is wrong.
    PastEnd,
    BadChecksum,
    /// Sound, in blocks of which no two adjoin.
    Scattered,
}

/// Two units of a file in every pair of states, with few free blocks and
/// several counts: every order of refusals 9 to 14 within a unit and from one
/// unit to the next.
pub fn pairs() -> Vec<Edge> {
    use Unit::*;
    let states = [
        Sound,
        Hole,
        NoSlot,
        Unbacked,
        PastEnd,
        BadChecksum,
        Scattered,
    ];
    let mut all = Vec::new();
    for first in states {
        for second in states {
            for free in [0, 1, 16, 17, 40] {
                for count in [
                    Some(0),
                    Some(1),
                    None,
                    Some(MAX_ALLOCATED - 1),
                    Some(MAX_ALLOCATED),
                ] {
                    if free < 40 && matches!(count, Some(1) | Some(34_359_738_366)) {
                        continue;
                    }
                    let store = Arc::new(pair(first, second, free, count));
                    let name = format!("{first:?} {second:?}, {free} free, count {count:?}");
                    for (offset, length) in [
                        (65_530, 10),
                        (61_440, 8_192),
                        (65_530, 5_000),
                        (0, 65_536),
                        (5_000, 65_000),
                        (140_000, 10),
                    ] {
                        all.push(edge(&name, &store, write(7, offset, length)));
                    }
                    // Whether the unit keeps blocks decides what 13 and 14 say.
                    for (offset, length) in [(65_530, 10), (5_000, 65_000), (20_000, 10)] {
                        if count.is_none() {
                            let write = write(7, offset, length);
                            let archive = exchanged(&write).expect("a write");
                            all.push(edge(&name, &store, archive));
                        }
                    }
                    all.push(edge(&name, &store, grow(7, 80_000)));
                    if free == 40 && count.is_none() {
                        for (offset, length) in
                            [(0, 10), (65_530, 10), (0, 80_000), (65_536, 0), (65_536, 5)]
                        {
                            all.push(edge(&name, &store, read(7, offset, length)));
                        }
                        for (offset, length) in [
                            (0, 70_000),
                            (0, 80_000),
                            (65_536, 4_464),
                            (65_536, 4_463),
                            (69_999, 1),
                        ] {
                            all.push(edge(&name, &store, write(7, offset, length)));
                        }
                        all.push(edge(&name, &store, grow(7, 70_000)));
                    }
                }
            }
        }
    }
    all
}

/// A file 7 of 70,000 bytes beside a file 8, on 64 blocks.
pub(crate) fn pair(first: Unit, second: Unit, free: usize, count: Option<u64>) -> Store {
    let mut store = Store::blank(64, 2, 60, 3);
    for (at, byte) in store.image.iter_mut().enumerate() {
        *byte = (at % 253) as u8;
    }
    let card = |object, size, allocated| Card {
        object,
        size,
        allocated,
        changed: Time::new(1, 2),
        created: Time::new(3, object),
    };
    let mut volume = Volume {
        uuid: [9; 16],
        reserved: 1,
        hint: 0,
        cards: vec![card(7, 70_000, count.unwrap_or(18)), card(8, 4_000, 1)],
        extents: Vec::new(),
        groups: vec![Group::empty(7, 0), Group::empty(8, 0)],
        used: (0..64).map(|block| block < 64 - free).collect(),
        retired: vec![false; 64],
    };
    for (object, states, from) in [(7, vec![first, second], 2), (8, vec![Unit::Sound], 21)] {
        for (unit, state) in states.into_iter().enumerate() {
            let count = match (object, unit) {
                (7, 0) => 16,
                (7, _) => 2,
                _ => 1,
            };
            for index in 0..count {
                let physical = match state {
                    Unit::Hole => continue,
                    Unit::Unbacked if index == count / 2 => continue,
                    // Another order: 0 8 1 9 2 10 ..
                    Unit::Scattered => index / 2 + index % 2 * (count / 2),
                    _ => index,
                };
                let one = Extent {
                    object,
                    logical: unit as u64 * 16 + index,
                    physical: from + unit as u64 * 16 + physical,
                    count: 1,
                };
                match volume.extents.last_mut() {
                    Some(last) if last.joins(&one) => last.count += 1,
                    _ => volume.extents.push(one),
                }
            }
        }
    }
    seal(&mut volume, &mut store.image);
    for (unit, state) in [first, second].into_iter().enumerate() {
        let slot = &mut volume.groups[0].slots[unit];
        match state {
            Unit::Hole | Unit::NoSlot => *slot = None,
            Unit::Unbacked => *slot = Some(5),
            // The highest bit of one, the lowest of the other.
            Unit::BadChecksum => *slot = slot.map(|slot| slot ^ 1 << (31 * (1 - unit))),
            Unit::PastEnd if unit == 0 => *slot = slot.map(|slot| slot ^ 1),
            Unit::PastEnd => {
                let last = volume.extents.iter().rfind(|extent| extent.object == 7);
                let last = last.map_or(0, |extent| extent.physical + extent.count);
                store.image[last as usize * BLOCK_BYTES - 1] = 1;
            }
            Unit::Sound | Unit::Scattered => {}
        }
    }
    volume.encode(&mut store);
    store
}

/// Steps on one store of three allocation groups: a volume, and a call on it.
/// The volumes have no records beside file 7's card, so that a step needs no
/// image of its own.
pub fn wide() -> (Store, Vec<(Volume, Call)>) {
    let blocks = 2 * GROUP_BLOCKS + 8;
    let mut store = Store::blank(blocks, 1, 40, 1);
    for call in [fresh(16, 0), enter(7)] {
        model::run(&mut store, &call);
    }
    let start = Volume::decode(&store);
    let mut steps = Vec::new();
    let edges = [
        0,
        1,
        GROUP_BLOCKS - 1,
        GROUP_BLOCKS,
        GROUP_BLOCKS + 1,
        2 * GROUP_BLOCKS - 1,
        2 * GROUP_BLOCKS,
        blocks - 1,
    ];
    for hint in 0..4 {
        for free in [
            &edges[..],
            &[1, GROUP_BLOCKS],
            &[5, 2 * GROUP_BLOCKS],
            &[GROUP_BLOCKS - 1, 2 * GROUP_BLOCKS - 1],
            &[GROUP_BLOCKS, 2 * GROUP_BLOCKS + 1, 0],
        ] {
            let mut volume = start.clone();
            volume.hint = hint;
            volume.used.fill(true);
            for &block in free {
                volume.used[block as usize] = false;
            }
            for length in [1, 8_192, 12_288, 20_000] {
                steps.push((volume.clone(), write(7, 0, length)));
            }
            let archive = exchanged(&write(7, 0, 12_288)).expect("a write");
            steps.push((volume.clone(), archive));
            // Each write begins with the hint that the one before it left.
            let writes = [(7, 0, 1), (7, 0, 0), (7, 70_000, 5_000), (7, 0, 1)];
            steps.push((volume, write_batch(&writes)));
        }
        // Two units, and all of the store free.
        let mut volume = start.clone();
        volume.hint = hint;
        steps.push((volume, write(7, 0, 70_000)));
    }
    (store, steps)
}

/// Stores at the upper bounds of refusal 1, which are large and zero but for
/// the head, with calls that answer or refuse and change nothing.
pub fn large() -> impl Iterator<Item = (&'static str, Store, Vec<Call>)> {
    let reads = || {
        let many = read_many(&[(7, 0, 5)], 5);
        let batch = write_batch(&[(7, 0, 5)]);
        let stretches = data_stretches(7, 0, 5, 16);
        let (write, grow) = (write(7, 0, 5), grow(7, 5));
        let archive = exchanged(&write).expect("a write");
        vec![
            Call::Fill,
            read(7, 0, 5),
            many,
            stretches,
            write,
            archive,
            batch,
            grow,
        ]
    };
    let every = move || [reads(), vec![Call::Settle, enter(7), fresh(16, 0)]].concat();
    let with_places = |name, cards, extents, groups| {
        let store = Store::blank(1, cards, extents, groups);
        (name, store, 1)
    };
    let makes: Vec<Box<dyn Fn() -> (&'static str, Store, u64)>> = vec![
        Box::new(move || ("65,537 blocks", blank(65_537), 65_537)),
        Box::new(move || ("65,536 blocks", blank(65_536), 65_536)),
        Box::new(move || {
            let mut store = blank(65_536);
            store.image.push(0);
            ("65,536 blocks and a byte", store, 65_536)
        }),
        Box::new(move || with_places("1,048,576 cards", 1_048_576, 1, 1)),
        Box::new(move || with_places("1,048,575 cards", 1_048_575, 1, 1)),
        Box::new(move || with_places("1,048,576 extents", 1, 1_048_576, 1)),
        Box::new(move || with_places("1,048,575 extents", 1, 1_048_575, 1)),
        Box::new(move || with_places("1,048,576 groups", 1, 1, 1_048_576)),
        Box::new(move || with_places("1,048,575 groups", 1, 1, 1_048_575)),
    ];
    makes.into_iter().map(move |make| {
        let (name, mut store, blocks) = make();
        model::records::Head {
            uuid: [0; 16],
            blocks,
            reserved: 0,
            hint: 0,
            cards: 0,
            extents: 0,
            groups: 0,
        }
        .encode(&mut store.head);
        let refused = name.starts_with("65,537")
            || name.ends_with("and a byte")
            || name.starts_with("1,048,576");
        let calls = match name {
            _ if refused => every(),
            // Each call reads the whole book, over 1 GiB.
            "1,048,575 groups" => vec![Call::Fill],
            _ => reads(),
        };
        (name, store, calls)
    })
}

fn blank(blocks: u64) -> Store {
    Store {
        image: vec![0; blocks as usize * BLOCK_BYTES],
        used: vec![0; map_bytes(blocks)],
        retired: vec![0; map_bytes(blocks)],
        ..Store::blank(1, 1, 1, 1)
    }
}
