//! Stores that break one word of refusals 1 and 2 and no other: at the first,
//! a middle and the last record, block or byte. Each names the wrong model
//! (`host/wrong`) that leaves the word out; with it every call gets past
//! refusals 1 and 2, which a test sees.

use model::crc32c::unit_checksum;
use model::records::{CARD_BYTES, CARD_SPARE, EXTENT_BYTES, GROUP_BYTES, put_bits};
use model::{BLOCK_BYTES, Call, Card, Extent, Group, MAX_SIZE, Store, Time, UNIT_BYTES, Volume};

use crate::lists::read_many;
use crate::mixed::write_archive;
use crate::ranges::data_stretches;
use crate::writes::{batch_of, write_batch};

pub struct Alone {
    /// The wrong model without this word; none where no such model can go on.
    pub word: Option<&'static str>,
    pub name: String,
    pub number: u32,
    pub store: Store,
}

pub const TIME: Time = Time {
    seconds: 5,
    nanoseconds: 6,
};

const BLOCKS: u64 = 90;
const RESERVED: u64 = 3;
const A: u64 = 3;
const B: u64 = 4;
const C: u64 = 7;
const D: u64 = 20;
const E: u64 = 21;
const LAST: u64 = u64::MAX - 1;

/// The calls that meet every store: each of the eleven, and those that change or
/// list nothing. On the sound store all are accepted.
pub fn calls() -> Vec<Call> {
    let write = |bytes: &[u8]| Call::Write {
        object: C,
        offset: 100,
        bytes: bytes.to_vec(),
        time: TIME,
    };
    let grow = |size| Call::Grow {
        object: B,
        size,
        time: TIME,
    };
    let read = |length| Call::Read {
        object: C,
        offset: 65_500,
        length,
    };
    let enter = Call::Enter {
        object: 8,
        time: TIME,
    };
    vec![
        Call::Fill,
        Call::Settle,
        enter,
        write(&[1, 2, 3]),
        write_archive(C, 100, &[1, 2, 3], TIME),
        grow(30_000),
        read(50),
        write(&[]),
        write_archive(C, 100, &[], TIME),
        grow(1_000),
        read(0),
        read_many(&[(C, 65_500, 50), (A, 8_990, 20), (C, 0, 10)], 90),
        read_many(&[], 0),
        write_batch(&[(C, 65_500, 50), (B, 100, 20), (C, 0, 0)]),
        write_batch(&[]),
        data_stretches(C, 0, 300, 16),
        data_stretches(C, 0, 0, 0),
        fresh(16, 0),
    ]
}

/// Lists that refusals 17 and 18 refuse and a range that 19 does, which are tried
/// after 1 and 2.
pub fn bad_lists() -> [Call; 3] {
    [
        read_many(&[(C, 0, 11)], 10),
        batch_of(&[(C, 0, 11)], 10, TIME),
        data_stretches(C, 1, u64::MAX, 16),
    ]
}

pub fn fresh(uuid: usize, reserved: u64) -> Call {
    Call::Fresh {
        uuid: vec![4; uuid],
        reserved,
    }
}

/// 90 blocks, 3 reserved; files A to E between cards without blocks, so that
/// two neighbours of each book can change places at its head, in its middle
/// and at its end. `cut` cuts the first and the last file's extents in two.
pub fn sound(cut: bool) -> Store {
    let mut store = Store::blank(BLOCKS, 14, 14, 8);
    for (at, byte) in store.image.iter_mut().enumerate() {
        *byte = (at % 251) as u8;
    }
    let card = |object, size| Card {
        object,
        size,
        allocated: size.div_ceil(BLOCK_BYTES as u64),
        changed: Time::new(1, 999_999_999),
        // Another for every card.
        created: Time::new(MAX_SIZE.min(object), 999_999_999),
    };
    let sizes = [
        (1, 0),
        (2, 0),
        (A, 9_000),
        (B, 1_000),
        (C, 70_000),
        (9, 0),
        (10, 0),
        (D, 8_192),
        (E, 8_192),
        (LAST - 1, 0),
        (LAST, 0),
    ];
    let mut extents = vec![
        (A, 0, 2),
        (A, 2, 1),
        (B, 0, 1),
        (C, 0, 5),
        (C, 5, 4),
        (C, 9, 7),
        (C, 16, 2),
        (D, 0, 2),
        (E, 0, 1),
        (E, 1, 1),
    ];
    if !cut {
        (extents[0].2, extents[8].2) = (3, 2);
        extents.retain(|&(_, logical, _)| logical != 2 && logical != 1);
    }
    let groups = [(A, 0), (B, 0), (C, 0), (C, 1), (D, 0), (E, 0)];
    let mut volume = Volume {
        uuid: std::array::from_fn(|n| n as u8 + 1),
        reserved: RESERVED,
        hint: 0,
        cards: sizes.map(|(object, size)| card(object, size)).into(),
        extents: Vec::new(),
        groups: groups
            .map(|(object, number)| Group::empty(object, number))
            .into(),
        // The blocks below 40 are used, 60 and 61 are retired.
        used: (0..BLOCKS)
            .map(|block| block < 40 || block / 2 == 30)
            .collect(),
        retired: (0..BLOCKS).map(|block| block / 2 == 30).collect(),
    };
    let mut physical = RESERVED;
    for (object, logical, count) in extents {
        volume.extents.push(Extent {
            object,
            logical,
            physical,
            count,
        });
        physical += count;
    }
    assert!(physical < 38);
    seal(&mut volume, &mut store.image);
    volume.encode(&mut store);
    store
}

/// Stores that break no word, on which all the calls are accepted: as above,
/// and with a file whose last block is the device's.
pub fn sounds() -> [Store; 3] {
    let mut last = sound(false);
    let mut volume = Volume::decode(&last);
    let extent = volume.extents.last_mut().expect("file E's");
    extent.physical = BLOCKS - extent.count;
    volume.used[extent.physical as usize..].fill(true);
    seal(&mut volume, &mut last.image);
    volume.encode(&mut last);
    [sound(false), sound(true), last]
}

/// Zeros past each file's end, and the checksums of all units.
pub fn seal(volume: &mut Volume, image: &mut [u8]) {
    for card in volume.cards.clone() {
        for unit in 0..card.size.div_ceil(UNIT_BYTES) {
            let valid = (card.size - unit * UNIT_BYTES).min(UNIT_BYTES) as usize;
            let mut bytes = Vec::new();
            for index in 0..valid.div_ceil(BLOCK_BYTES) {
                let Some(block) = volume.block_at(card.object, unit * 16 + index as u64) else {
                    break;
                };
                let block = &mut image[block as usize * BLOCK_BYTES..][..BLOCK_BYTES];
                block[(valid - index * BLOCK_BYTES).min(BLOCK_BYTES)..].fill(0);
                bytes.extend_from_slice(block);
            }
            if bytes.len() >= valid {
                let checksum = unit_checksum(&volume.uuid, card.object, unit, &bytes[..valid]);
                let group = volume.groups.iter_mut();
                let mut group = group.filter(|g| g.object == card.object && g.number == unit / 256);
                let group = group.next().expect("a group for every file");
                group.slots[unit as usize % 256] = Some(checksum);
            }
        }
    }
}

struct List {
    all: Vec<Alone>,
    sound: Store,
    cut: Store,
}

impl List {
    fn add(
        &mut self,
        word: &'static str,
        number: u32,
        name: impl Into<String>,
        change: impl FnOnce(&mut Store),
    ) {
        let mut store = self.sound.clone();
        change(&mut store);
        self.all.push(Alone {
            word: Some(word),
            name: format!("{word}: {}", name.into()),
            number,
            store,
        });
    }

    /// No model without the word can go on from it.
    fn add_unnamed(&mut self, number: u32, name: &str, change: impl FnOnce(&mut Store)) {
        self.add("", number, name, change);
        let added = self.all.last_mut().expect("just added");
        (added.word, added.name) = (None, name.into());
    }

    fn volume(
        &mut self,
        word: &'static str,
        name: impl Into<String>,
        change: impl FnOnce(&mut Volume),
    ) {
        self.add(word, 2, name, |store| {
            let mut volume = Volume::decode(store);
            change(&mut volume);
            volume.encode(store);
        });
    }

    fn cut_volume(&mut self, word: &'static str, name: &str, change: impl FnOnce(&mut Volume)) {
        let cut = self.cut.clone();
        self.add(word, 2, name, |store| {
            *store = cut;
            let mut volume = Volume::decode(store);
            change(&mut volume);
            volume.encode(store);
        });
    }
}

pub fn alone() -> Vec<Alone> {
    let mut list = List {
        all: Vec::new(),
        sound: sound(false),
        cut: sound(true),
    };
    lengths(&mut list);
    cards(&mut list);
    extents(&mut list);
    groups(&mut list);
    maps(&mut list);
    words(&mut list);
    list.all
}

fn head(at: usize, width: usize, value: u64) -> impl Fn(&mut Store) {
    move |store| put_bits(&mut store.head, at, width, value.into())
}

fn lengths(list: &mut List) {
    list.add("image of no block", 1, "", |s| {
        *s = empty_image();
    });
    for more in [1, 4_095] {
        list.add("image of part of a block", 1, format!("{more} more"), |s| {
            s.image.resize(s.image.len() + more, 0);
        });
        list.add("image of part of a block", 1, format!("{more} less"), |s| {
            s.image.truncate(s.image.len() - more);
            let volume = Volume::decode(s);
            volume.encode(s);
        });
    }
    list.add_unnamed(1, "image of less than a block", |s| {
        *s = empty_image();
        s.image.resize(4_095, 0);
    });
    for more in [1, 7, 8, 16] {
        list.add(
            "used map that does not fit",
            1,
            format!("{more} more"),
            |s| {
                s.used.resize(16 + more, 0);
            },
        );
        list.add(
            "retired map that does not fit",
            1,
            format!("{more} more"),
            |s| {
                s.retired.resize(16 + more, 0);
            },
        );
    }
    for length in [0, 8, 11, 12, 15] {
        list.add_unnamed(1, "used map too short", |s| s.used.truncate(length));
        list.add_unnamed(1, "retired map too short", |s| s.retired.truncate(length));
    }
    let books: [(&'static str, usize, fn(&mut Store) -> &mut Vec<u8>); 3] = [
        ("card book not whole", CARD_BYTES, |s| &mut s.cards),
        ("extent book not whole", EXTENT_BYTES, |s| &mut s.extents),
        ("group book not whole", GROUP_BYTES, |s| &mut s.groups),
    ];
    for (word, record, book) in books {
        for more in [1, record / 2, record - 1] {
            list.add(word, 1, format!("{more} more"), |s| {
                let length = book(s).len() + more;
                book(s).resize(length, 0);
            });
        }
        list.add(word, 1, "one byte less", |s| {
            book(s).pop();
        });
    }
    for more in [1, 4] {
        list.add("head not 28 bytes", 1, format!("{more} more"), |s| {
            s.head.resize(28 + more, 0);
        });
    }
    for length in [0, 16, 27] {
        list.add_unnamed(1, "head too short", |s| s.head.truncate(length));
    }
    for blocks in [0, 64, BLOCKS - 1, BLOCKS + 1, 128, BLOCKS + 65_536] {
        let word = "head with other blocks than the image";
        list.add(word, 1, format!("{blocks}"), head(128, 17, blocks));
    }
    for number in [15, 16, 11 + (1 << 19), (1 << 20) - 1] {
        list.add_unnamed(1, "more cards than places", head(164, 20, number));
    }
    for number in [15, 16, 8 + (1 << 19), (1 << 20) - 1] {
        list.add_unnamed(1, "more extents than places", head(184, 20, number));
    }
    for number in [9, 10, 6 + (1 << 19), (1 << 20) - 1] {
        list.add_unnamed(1, "more groups than places", head(204, 20, number));
    }
    let high = head(145, 17, 65_536 + RESERVED);
    list.add_unnamed(1, "reserved above the blocks by its highest bit", high);
    for reserved in [BLOCKS + 1, 131_071] {
        list.add("reserved above the blocks", 1, format!("{reserved}"), |s| {
            let mut volume = Volume::decode(s);
            volume.extents.clear();
            volume.groups.clear();
            volume.used.fill(true);
            volume.retired.fill(false);
            volume.encode(s);
            head(145, 17, reserved)(s);
        });
    }
    // 1 is tried before 2.
    list.add_unnamed(
        1,
        "reserved above the blocks, and mapped",
        head(145, 17, 91),
    );
    list.add_unnamed(1, "other blocks, and a spare bit", |s| {
        put_bits(&mut s.cards, CARD_SPARE.start, 1, 1);
        head(128, 17, 91)(s);
    });
}

fn empty_image() -> Store {
    let mut store = Store::blank(1, 2, 2, 2);
    let mut volume = Volume::decode(&store);
    volume.encode(&mut store);
    volume.used.clear();
    volume.retired.clear();
    for buffer in [&mut store.image, &mut store.used, &mut store.retired] {
        buffer.clear();
    }
    volume.encode(&mut store);
    store
}

fn swap(book: &mut [u8], record: usize, at: usize) {
    let (first, second) = book.split_at_mut((at + 1) * record);
    first[at * record..].swap_with_slice(&mut second[..record]);
}

/// A byte at the first place after the records, in a middle one and at the
/// book's end.
fn bytes_after(
    list: &mut List,
    word: &'static str,
    from: usize,
    book: fn(&mut Store) -> &mut Vec<u8>,
) {
    let end = book(&mut list.sound).len();
    for at in [from, from + 1, (from + end) / 2, end - 1] {
        for value in [1, 128] {
            list.add(word, 2, format!("byte {at} is {value}"), |s| {
                book(s)[at] = value;
            });
        }
    }
}

fn cards(list: &mut List) {
    // Neighbours without extents: every file that has some is still found by
    // halves.
    for at in [0, 5, 9] {
        list.add("card order asked by halves", 2, format!("{at}"), |s| {
            swap(&mut s.cards, CARD_BYTES, at);
        });
    }
    for at in [1, 4, 8] {
        list.add("cards out of order", 2, format!("{at}"), |s| {
            swap(&mut s.cards, CARD_BYTES, at);
        });
    }
    for (at, to) in [(0, 10), (4, 7)] {
        list.add("cards out of order", 2, format!("{at} and {to}"), |s| {
            let mut volume = Volume::decode(s);
            volume.cards.swap(at, to);
            volume.encode(s);
        });
    }
    for at in [0, 5, 9] {
        list.volume("cards equal", format!("{at}"), |v| {
            v.cards[at + 1].object = v.cards[at].object
        });
    }
    bytes_after(list, "a byte after the cards", 11 * CARD_BYTES, |s| {
        &mut s.cards
    });
    card_bits(list);
}

/// Each of the spare bits alone, and nanoseconds from 1,000,000,000 on: of the
/// last change, of the creation, and of both.
fn card_bits(list: &mut List) {
    let ends = [CARD_SPARE.start, CARD_SPARE.end - 1];
    let spare = CARD_SPARE.map(|bit| (5, bit));
    let spare = spare.chain([0, 10].into_iter().flat_map(|at| ends.map(|bit| (at, bit))));
    for (at, bit) in spare {
        list.add("card with spare bits", 2, format!("{at} {bit}"), |s| {
            put_bits(&mut s.cards[at * CARD_BYTES..], bit, 1, 1);
        });
    }
    for at in [0, 5, 10] {
        for nanoseconds in [1_000_000_000, 1_000_000_001, (1 << 30) - 1] {
            let word = "card with nanoseconds of 1,000,000,000 or more";
            list.volume(word, format!("{at}"), |v| {
                v.cards[at].changed.nanoseconds = nanoseconds
            });
            let word = "card with creation nanoseconds of 1,000,000,000 or more";
            list.volume(word, format!("{at}"), |v| {
                v.cards[at].created.nanoseconds = nanoseconds
            });
            list.add_unnamed(2, "card with nanoseconds of both times too many", |s| {
                let mut volume = Volume::decode(s);
                volume.cards[at].changed.nanoseconds = nanoseconds;
                volume.cards[at].created.nanoseconds = nanoseconds;
                volume.encode(s);
            });
        }
    }
}

/// An extent at this place takes `physical` on.
fn moved(extent: &mut Extent, physical: u64) {
    extent.physical = physical;
}

fn extents(list: &mut List) {
    // A B C C C C D E
    for at in [0, 1, 5, 6] {
        list.add("extents out of order", 2, format!("{at}"), |s| {
            swap(&mut s.extents, EXTENT_BYTES, at);
        });
    }
    bytes_after(list, "a byte after the extents", 8 * EXTENT_BYTES, |s| {
        &mut s.extents
    });
    for (at, kind) in [
        (0, 2),
        (0, 4),
        (5, 4),
        (2, 2),
        (7, 2),
        (7, 4),
        (0, 0),
        (7, 255),
    ] {
        list.add("extent of another kind", 2, format!("{at} {kind}"), |s| {
            s.extents[at * EXTENT_BYTES + 8] = kind;
        });
    }
    for at in [0, 4, 7] {
        for byte in 29..33 {
            list.add(
                "extent with a byte at its end",
                2,
                format!("{at} {byte}"),
                |s| {
                    s.extents[at * EXTENT_BYTES + byte] = 1;
                },
            );
        }
        list.volume("extent of no block", format!("{at}"), |v| {
            v.extents[at].count = 0
        });
    }
    // A A B C C C C D E E
    for at in [0, 3, 4, 5, 8] {
        list.cut_volume("extents overlap", &format!("{at} by one"), |v| {
            v.extents[at].count += 1;
            moved(&mut v.extents[at], RESERVED);
        });
    }
    list.cut_volume("extents overlap", "one within the other", |v| {
        v.extents[3].count = 18;
    });
    list.cut_volume("extents overlap", "by all but one", |v| {
        v.extents[4].logical = 1
    });
    for at in [0, 4, 7] {
        let count = list.sound_volume().extents[at].count;
        for physical in [
            BLOCKS - count + 1,
            BLOCKS,
            127,
            128,
            65_536,
            1 << 32,
            (1 << 32) + RESERVED,
            u64::MAX,
            u64::MAX - count + 1,
            u64::MAX - count + 2,
        ] {
            list.volume("extent past the device", format!("{at} {physical}"), |v| {
                moved(&mut v.extents[at], physical);
                // The blocks of it that are on the device are used.
                v.used[(BLOCKS - count) as usize..].fill(true);
            });
        }
        for physical in [1 << 32, (1 << 32) + RESERVED] {
            let word = "an extent's physical block read as 32 bits";
            let physical = physical + RESERVED;
            list.volume(word, format!("{at} {physical}"), |v| {
                moved(&mut v.extents[at], physical)
            });
        }
    }
    for at in [0, 4, 7] {
        let word = "an extent's count read as 16 bits";
        for more in [1 << 16, 1 << 31] {
            list.volume(word, format!("{at} with {more} more"), |v| {
                v.extents[at].count += more
            });
        }
    }
    for at in [0, 5, 6, 7] {
        let word = "extent past the blocks of its file";
        list.volume(word, format!("{at} by one"), |v| {
            v.extents[at].count += 1;
            moved(&mut v.extents[at], RESERVED);
        });
        for logical in [18, 1 << 20, 1 << 51, 1 << 52, u64::MAX - 40, u64::MAX] {
            list.volume(word, format!("{at} at {logical}"), |v| {
                v.extents[at].logical = logical
            });
        }
    }
    for object in [0, 8, u64::MAX] {
        list.volume("extent without a card", format!("{object}"), |v| {
            let extent = Extent {
                object,
                logical: 0,
                physical: RESERVED,
                count: 1,
            };
            let at = v.extents.partition_point(|e| e.object < object);
            v.extents.insert(at, extent);
        });
    }
}

fn groups(list: &mut List) {
    for at in [0, 2, 4] {
        list.add("groups out of order", 2, format!("{at}"), |s| {
            swap(&mut s.groups, GROUP_BYTES, at);
        });
        list.add("groups equal", 2, format!("{at}"), |s| {
            let from = at * GROUP_BYTES;
            s.groups
                .copy_within(from..from + GROUP_BYTES, from + GROUP_BYTES);
        });
    }
    bytes_after(list, "a byte after the groups", 6 * GROUP_BYTES, |s| {
        &mut s.groups
    });
    for (at, kind) in [
        (0, 3),
        (0, 5),
        (3, 5),
        (2, 3),
        (5, 3),
        (5, 5),
        (0, 0),
        (5, 255),
    ] {
        list.add("group of another kind", 2, format!("{at} {kind}"), |s| {
            s.groups[at * GROUP_BYTES + 8] = kind;
        });
    }
    for at in [0, 3, 5] {
        // Slot 0 of the fourth group is not present; of the others it is.
        let first = if at == 3 { 0 } else { 1 };
        for slot in [first, 7, 8, 128, 255] {
            for byte in [0, 3] {
                let name = format!("group {at} slot {slot} byte {byte}");
                list.add("slot not present but not zero", 2, name, |s| {
                    s.groups[at * GROUP_BYTES + 49 + slot * 4 + byte] = 1;
                });
            }
        }
    }
}

fn maps(list: &mut List) {
    let volume = list.sound_volume();
    for at in [0, 4, 7] {
        let extent = volume.extents[at];
        for within in [0, extent.count / 2, extent.count - 1] {
            let block = (extent.physical + within) as usize;
            list.volume("mapped block not used", format!("{block}"), |v| {
                v.used[block] = false
            });
            list.volume("mapped block retired", format!("{block}"), |v| {
                v.retired[block] = true
            });
        }
        for physical in [0, 1, 2] {
            list.volume(
                "mapped block reserved",
                format!("{at} at {physical}"),
                |v| {
                    moved(&mut v.extents[at], physical);
                },
            );
        }
    }
    for block in 0..RESERVED as usize {
        list.volume("reserved block not used", format!("{block}"), |v| {
            v.used[block] = false
        });
        list.volume("reserved block retired", format!("{block}"), |v| {
            v.retired[block] = true
        });
    }
    for block in [40, 63, 64, 70, 89] {
        list.volume("retired block not used", format!("{block}"), |v| {
            v.retired[block] = true
        });
    }
    list.volume("retired block not used", "0", |v| {
        v.reserved = 0;
        (v.used[0], v.retired[0]) = (false, true);
    });
    for bit in [90, 95, 96, 127] {
        list.add("used bit past the last block", 2, format!("{bit}"), |s| {
            s.used[bit / 8] |= 1 << (bit % 8);
        });
        list.add(
            "retired bit past the last block",
            2,
            format!("{bit}"),
            |s| {
                s.retired[bit / 8] |= 1 << (bit % 8);
            },
        );
        list.add_unnamed(2, "a block past the last, used and retired", |s| {
            s.used[bit / 8] |= 1 << (bit % 8);
            s.retired[bit / 8] |= 1 << (bit % 8);
        });
    }
}

/// The words on the maps again where the maps have four words: 200 blocks, 70
/// reserved, a file C of 80 blocks from 100 on.
fn words(list: &mut List) {
    let mut store = Store::blank(200, 2, 2, 2);
    let mut volume = Volume::decode(&store);
    let size = 80 * BLOCK_BYTES as u64;
    for (object, size) in [(B, 1_000), (C, size)] {
        volume.cards.push(Card {
            object,
            size,
            allocated: 80,
            changed: TIME,
            created: TIME,
        });
    }
    let extent = Extent {
        object: C,
        logical: 0,
        physical: 100,
        count: 80,
    };
    (volume.reserved, volume.extents, volume.groups) = (70, vec![extent], vec![Group::empty(C, 0)]);
    volume.used = (0..200).map(|block| block < 180).collect();
    for unit in 0..5 {
        let checksum = unit_checksum(&volume.uuid, C, unit, &[0; UNIT_BYTES as usize]);
        volume.groups[0].slots[unit as usize] = Some(checksum);
    }
    volume.encode(&mut store);
    let sound = std::mem::replace(&mut list.sound, store);
    for block in [100, 127, 128, 129, 179] {
        list.volume("mapped block not used", format!("{block} of 200"), |v| {
            v.used[block] = false
        });
        list.volume("mapped block retired", format!("{block} of 200"), |v| {
            v.retired[block] = true
        });
    }
    for physical in [0, 63, 64, 69] {
        list.volume("mapped block reserved", format!("{physical} of 200"), |v| {
            v.extents[0].physical = physical
        });
    }
    for block in [0, 63, 64, 69] {
        list.volume("reserved block not used", format!("{block} of 200"), |v| {
            v.used[block] = false
        });
        list.volume("reserved block retired", format!("{block} of 200"), |v| {
            v.retired[block] = true
        });
    }
    for block in [180, 191, 192, 199] {
        list.volume("retired block not used", format!("{block} of 200"), |v| {
            v.retired[block] = true
        });
    }
    for bit in [200, 207, 208, 255] {
        list.add(
            "used bit past the last block",
            2,
            format!("{bit} of 200"),
            |s| {
                s.used[bit / 8] |= 1 << (bit % 8);
            },
        );
        list.add(
            "retired bit past the last block",
            2,
            format!("{bit} of 200"),
            |s| {
                s.retired[bit / 8] |= 1 << (bit % 8);
            },
        );
    }
    list.sound = sound;
}

impl List {
    fn sound_volume(&self) -> Volume {
        Volume::decode(&self.sound)
    }
}
