//! The stores that are measured on: 65,536 blocks, a file that is read and
//! written, and another beside it.

use model::crc32c::unit_checksum;
use model::{BLOCK_BYTES, Card, Extent, Group, Store, Time, Volume};
use random::Rng;

use crate::checksum::by_instruction;

/// The file that is read and written.
pub const OBJECT: u64 = 7;
/// The other, behind it or in front of it in the books.
const BEHIND: u64 = 9;
const IN_FRONT: u64 = 5;

const BLOCKS: u64 = 65_536;
const UNIT_BLOCKS: u64 = 16;
const UUID: [u8; 16] = [7; 16];

/// When the files were made; the calls that are measured have a later time.
const MADE: Time = Time {
    seconds: 1_700_000_000,
    nanoseconds: 0,
};

/// How many extents each of the two files has, places of the book of groups at
/// least (a place has 1,073 bytes, which every call tests), and whether the other
/// file's records stand in front.
#[derive(Clone, Copy)]
pub struct Extents {
    pub file: u64,
    pub other: u64,
    pub group_places: usize,
    pub other_first: bool,
}

/// Places of each book at least, the groups' too.
pub const PLACES: usize = 1_024;

/// The stores of the comparison, and whether they have 10,000 extents.
pub const STORES: [(&str, Extents, bool); 6] = [
    ("10 extents", extents(10, 1, PLACES), false),
    ("10,000 extents", extents(10_000, 1, PLACES), true),
    ("10,000 in another file", extents(10, 10_000, PLACES), true),
    (
        "10 extents, few places for groups",
        extents(10, 1, 0),
        false,
    ),
    (
        "10,000 extents, few places for groups",
        extents(10_000, 1, 0),
        true,
    ),
    (
        "10,000 in another file, few places for groups",
        extents(10, 10_000, 0),
        true,
    ),
];

pub const fn extents(file: u64, other: u64, group_places: usize) -> Extents {
    Extents {
        file,
        other,
        group_places,
        other_first: false,
    }
}

/// How the Rust computes its checksums.
pub const CHECKSUMS: [(&str, oracle::Checksum); 2] = [
    ("the instruction", by_instruction),
    ("slicing by 8", unit_checksum),
];

/// Units of the file in which calls begin: its first 64 MiB, the same for both.
pub fn places(count: usize) -> Vec<u64> {
    let mut random = Rng::new(4);
    (0..count).map(|_| random.below(1_000)).collect()
}

pub fn lend(store: &mut Store) -> sangueko::Store<'_> {
    let [image, head, cards, extents, groups, used, retired] =
        store.buffers_mut().map(Vec::as_mut_slice);
    sangueko::Store {
        image,
        head,
        cards,
        extents,
        groups,
        used,
        retired,
    }
}

/// A store in which the files have so many extents, at shuffled places of the
/// device. Every unit of the file has its checksum. Where there are more
/// extents than blocks, those of the other file share blocks, which refusal 2
/// lets pass.
pub fn store(extents: Extents) -> Store {
    let Extents {
        group_places,
        other_first,
        ..
    } = extents;
    let mut random = Rng::new(9);
    let share = BLOCKS * 9 / 10;
    let (of_file, of_other) = if extents.other > extents.file {
        (share * 3 / 10, share * 7 / 10)
    } else {
        (share * 7 / 10, share * 3 / 10)
    };
    let file = lengths(
        &mut random,
        extents.file,
        of_file / UNIT_BLOCKS * UNIT_BLOCKS,
    );
    let shared = extents.other > of_other;
    let other = if shared {
        vec![1; extents.other as usize]
    } else {
        lengths(&mut random, extents.other, of_other)
    };

    // one place on the device for each, shuffled
    let counts: Vec<u64> = [&file[..], if shared { &[] } else { &other[..] }].concat();
    let mut order: Vec<usize> = (0..counts.len()).collect();
    for at in (1..order.len()).rev() {
        order.swap(at, random.index(at + 1));
    }
    let (mut physical, mut next) = (vec![0; counts.len()], 1);
    for at in order {
        physical[at] = next;
        next += counts[at];
    }
    assert!(next <= BLOCKS);
    if shared {
        let first = physical[0];
        physical.extend((0..extents.other).map(|n| first + n % file[0]));
    }

    let other_object = if other_first { IN_FRONT } else { BEHIND };
    let mut extents = laid(OBJECT, &file, &physical);
    extents.extend(laid(other_object, &other, &physical[file.len()..]));
    extents.sort_by_key(|extent| (extent.object, extent.logical));
    let card = |object, counts: &[u64]| Card {
        object,
        size: counts.iter().sum::<u64>() * BLOCK_BYTES as u64,
        allocated: counts.iter().sum(),
        changed: MADE,
        created: MADE,
    };
    let own = card(OBJECT, &file);
    let units = own.size / (UNIT_BLOCKS * BLOCK_BYTES as u64);
    let mut cards = vec![own, card(other_object, &other)];
    cards.sort_by_key(|card| card.object);
    let places = |records: usize| (2 * records).max(1_024);
    let groups = units.div_ceil(256);
    let mut store = Store::blank(
        BLOCKS,
        places(cards.len()),
        places(extents.len()),
        (2 * groups as usize).max(group_places),
    );
    for block in store.image.as_chunks_mut::<8>().0 {
        *block = random.next_u64().to_le_bytes();
    }
    let groups = checksums(&store.image, &extents, units);
    let used = (0..BLOCKS).map(|block| block < next).collect();
    Volume {
        uuid: UUID,
        reserved: 1,
        hint: 0,
        cards,
        extents,
        groups,
        used,
        retired: vec![false; BLOCKS as usize],
    }
    .encode(&mut store);
    store
}

/// So many lengths, all together `total` blocks.
fn lengths(random: &mut Rng, count: u64, total: u64) -> Vec<u64> {
    let mean = total / count;
    assert!(mean > 0);
    let mut lengths: Vec<u64> = (0..count / 2)
        .flat_map(|_| {
            let less = random.below(mean);
            [mean - less, mean + less]
        })
        .collect();
    lengths.resize(count as usize, mean);
    let rest = total - lengths.iter().sum::<u64>();
    *lengths.last_mut().expect("an extent") += rest;
    lengths
}

/// Extents of these lengths, one behind the other in the file.
fn laid(object: u64, counts: &[u64], physical: &[u64]) -> Vec<Extent> {
    let mut logical = 0;
    counts
        .iter()
        .zip(physical)
        .map(|(&count, &physical)| {
            let extent = Extent {
                object,
                logical,
                physical,
                count,
            };
            logical += count;
            extent
        })
        .collect()
}

fn checksums(image: &[u8], extents: &[Extent], units: u64) -> Vec<Group> {
    let blocks: Vec<u64> = extents
        .iter()
        .filter(|extent| extent.object == OBJECT)
        .flat_map(|extent| extent.physical..extent.physical + extent.count)
        .collect();
    let mut groups: Vec<Group> = (0..units.div_ceil(256))
        .map(|number| Group::empty(OBJECT, number))
        .collect();
    for unit in 0..units {
        let from = (unit * UNIT_BLOCKS) as usize;
        let bytes: Vec<u8> = blocks[from..from + UNIT_BLOCKS as usize]
            .iter()
            .flat_map(|&block| &image[block as usize * BLOCK_BYTES..][..BLOCK_BYTES])
            .copied()
            .collect();
        let crc = unit_checksum(&UUID, OBJECT, unit, &bytes);
        groups[(unit / 256) as usize].slots[(unit % 256) as usize] = Some(crc);
    }
    groups
}
