//! Damaged copies of a store that still pass refusals 1 and 2.

use model::crc32c::unit_checksum;
use model::{
    BLOCK_BYTES, BLOCKS_PER_UNIT, Extent, Group, MAX_ALLOCATED, Store, UNIT_BYTES, UNITS_PER_GROUP,
    Volume, passes_refusals_1_and_2,
};

use random::Rng;

use crate::generate::good_time;

/// What was done, and which image bytes now hold what.
pub struct Damage {
    pub name: &'static str,
    pub image: Vec<(usize, u8)>,
}

/// A place: object, logical block, and the block that it holds.
type Place = (u64, u64, u64);

/// Damage the store in one to three ways, or leave it as it is where the
/// result would be refused by 1 or 2.
pub fn damage(rng: &mut Rng, store: &mut Store) -> Option<Damage> {
    let mut volume = Volume::decode(store);
    let before: Vec<Vec<u8>> = store.buffers()[1..].iter().map(|b| b.to_vec()).collect();
    let mut image = Vec::new();
    let mut name = "";
    for _ in 0..rng.between(1, 3) {
        name = one_damage(rng, &mut volume, store, &mut image);
    }
    other_creation_times(rng, &mut volume);
    let old: Vec<(usize, u8)> = image.iter().map(|&(at, _)| (at, store.image[at])).collect();
    for &(at, byte) in &image {
        store.image[at] = byte;
    }
    // Units whose checksums hold lead further than ones that are refused.
    if rng.percent(60) {
        mend(rng, &mut volume, &store.image);
    }
    if fits(&volume, store) {
        volume.encode(store);
        if passes_refusals_1_and_2(store) {
            return Some(Damage { name, image });
        }
    }
    for (at, byte) in old {
        store.image[at] = byte;
    }
    for (to, from) in store.buffers_mut().into_iter().skip(1).zip(before) {
        *to = from;
    }
    None
}

/// Some files were created at other times, by a generator of their own: they
/// decide nothing, so that the history goes on as it would without them.
fn other_creation_times(rng: &Rng, volume: &mut Volume) {
    let mut rng = Rng::new(!rng.clone().next_u64());
    for card in &mut volume.cards {
        if rng.percent(40) {
            card.created = good_time(&mut rng);
        }
    }
}

/// Cut every extent into single blocks, if the book has room for them.
pub fn split_all(rng: &mut Rng, store: &mut Store) {
    let mut volume = Volume::decode(store);
    let places = places(&volume);
    put_places(rng, &mut volume, places, 100);
    if fits(&volume, store) {
        volume.encode(store);
    }
}

fn fits(volume: &Volume, store: &Store) -> bool {
    volume.cards.len() <= store.card_places()
        && volume.extents.len() <= store.extent_places()
        && volume.groups.len() <= store.group_places()
}

fn places(volume: &Volume) -> Vec<Place> {
    volume
        .extents
        .iter()
        .flat_map(|e| (0..e.count).map(|i| (e.object, e.logical + i, e.physical + i)))
        .collect()
}

/// Extents for the places, cut where they could join at the given chance.
fn put_places(rng: &mut Rng, volume: &mut Volume, mut places: Vec<Place>, cut: u64) {
    places.sort_unstable_by_key(|&(object, logical, _)| (object, logical));
    places.dedup_by_key(|&mut (object, logical, _)| (object, logical));
    volume.extents.clear();
    for (object, logical, physical) in places {
        let one = Extent {
            object,
            logical,
            physical,
            count: 1,
        };
        match volume.extents.last_mut() {
            Some(last) if last.joins(&one) && !rng.percent(cut) => last.count += 1,
            _ => volume.extents.push(one),
        }
    }
}

fn group_mut(volume: &mut Volume, object: u64, number: u64) -> &mut Group {
    let found = volume
        .groups
        .binary_search_by_key(&(object, number), |g| (g.object, g.number));
    let at = found.unwrap_or_else(|at| {
        volume.groups.insert(at, Group::empty(object, number));
        at
    });
    &mut volume.groups[at]
}

fn set_slot(volume: &mut Volume, object: u64, unit: u64, slot: Option<u32>) {
    let group = group_mut(volume, object, unit / UNITS_PER_GROUP);
    group.slots[(unit % UNITS_PER_GROUP) as usize] = slot;
}

/// Give the units that are fully backed the checksums of what they hold.
fn mend(rng: &mut Rng, volume: &mut Volume, image: &[u8]) {
    let mut units: Vec<(u64, u64)> = places(volume)
        .iter()
        .map(|&(object, logical, _)| (object, logical / BLOCKS_PER_UNIT))
        .collect();
    units.dedup();
    for (object, unit) in units {
        if rng.percent(10) {
            continue;
        }
        let size = volume.card(object).map_or(0, |card| card.size);
        let valid = size.saturating_sub(unit * UNIT_BYTES).min(UNIT_BYTES) as usize;
        let blocks: Option<Vec<u64>> = (0..valid.div_ceil(BLOCK_BYTES) as u64)
            .map(|index| volume.block_at(object, unit * BLOCKS_PER_UNIT + index))
            .collect();
        if let Some(blocks) = blocks {
            let mut bytes: Vec<u8> = blocks
                .iter()
                .flat_map(|&block| &image[block as usize * BLOCK_BYTES..][..BLOCK_BYTES])
                .copied()
                .collect();
            bytes.truncate(valid);
            let checksum = unit_checksum(&volume.uuid, object, unit, &bytes);
            set_slot(volume, object, unit, Some(checksum));
        }
    }
}

/// A block that is used but neither reserved nor retired.
fn ordinary_block(rng: &mut Rng, volume: &mut Volume) -> Option<u64> {
    let mut candidates: Vec<u64> = (volume.reserved..volume.blocks())
        .filter(|&block| !volume.retired[block as usize])
        .collect();
    if candidates.is_empty() {
        return None;
    }
    let at = rng.index(candidates.len());
    let block = candidates.swap_remove(at);
    volume.used[block as usize] = true;
    Some(block)
}

fn one_damage(
    rng: &mut Rng,
    volume: &mut Volume,
    store: &Store,
    image: &mut Vec<(usize, u8)>,
) -> &'static str {
    let places = places(volume);
    let mapped = |block: u64| places.iter().any(|&(_, _, physical)| physical == block);
    let any_place = (!places.is_empty()).then(|| rng.index(places.len()));
    let any_card = (!volume.cards.is_empty()).then(|| rng.index(volume.cards.len()));
    match (rng.below(20), any_place, any_card) {
        (0 | 1, Some(place), _) => {
            let mut shared = places.clone();
            let other = rng.index(places.len());
            // A neighbour in the same unit, or any place at all.
            let other = match rng.below(2) {
                0 => (place + 1) % places.len(),
                _ => other,
            };
            shared[place].2 = places[other].2;
            put_places(rng, volume, shared, 0);
            "two places share a block"
        }
        (2, Some(place), _) => {
            let (object, logical, _) = places[place];
            let unit = logical / BLOCKS_PER_UNIT;
            if volume.slot(object, unit).is_some() {
                set_slot(volume, object, unit, None);
            }
            "extents without a slot"
        }
        (3, _, Some(card)) => {
            let card = volume.cards[card];
            let units = card.size / UNIT_BYTES;
            let unit = match rng.below(3) {
                0 => units + rng.below(3),
                1 => rng.below(units.min(300) + 4),
                _ => rng.below(600),
            };
            set_slot(volume, card.object, unit, Some(rng.next_u64() as u32));
            "a slot without extents or past the end"
        }
        (4, _, _) => {
            let object = rng.pick(&[0, 2, 7, 8, 1 << 40, u64::MAX]);
            let number = rng.pick(&[0, 0, 1, 5, u64::MAX]);
            group_mut(volume, object, number);
            if rng.percent(50) {
                let slot = Some(rng.next_u64() as u32);
                group_mut(volume, object, number).slots[rng.index(256)] = slot;
            }
            "a group without a card or without slots"
        }
        (5, Some(place), _) => {
            let mut rest = places.clone();
            let last = place + rng.between(1, 6) as usize;
            rest.drain(place..last.min(places.len()));
            put_places(rng, volume, rest, 0);
            "a slot without all its extents"
        }
        (6, _, Some(card)) => {
            let card = volume.cards[card];
            let blocks = card.size.div_ceil(BLOCK_BYTES as u64);
            let mut more = places.clone();
            let from = rng.below(blocks.clamp(1, 5_000));
            let to = (from + rng.between(1, 8)).min(blocks);
            for logical in from..to {
                if let Some(block) = ordinary_block(rng, volume) {
                    more.push((card.object, logical, block));
                }
            }
            put_places(rng, volume, more, 0);
            "places added to a hole"
        }
        (7 | 8, _, Some(card)) => {
            let now = volume.cards[card].allocated;
            volume.cards[card].allocated = match rng.below(6) {
                0 => 0,
                1 => now.saturating_sub(rng.between(1, 3)),
                2 => (now + rng.between(1, 9)).min(MAX_ALLOCATED),
                3 => rng.below(20),
                4 => MAX_ALLOCATED - rng.below(20),
                _ => MAX_ALLOCATED,
            };
            "a wrong count"
        }
        (9, _, _) => {
            let cut = rng.between(10, 100);
            put_places(rng, volume, places.clone(), cut);
            "split extents that could join"
        }
        (10, _, _) => {
            volume.hint = rng.below(4);
            "a hint past the last group"
        }
        (11 | 12, Some(place), _) => {
            let block = places[place].2 as usize;
            let within = rng.pick(&[0, 1, 2_000, 4_094, 4_095]);
            let at = block * BLOCK_BYTES + within;
            image.push((at, store.image[at] ^ 1 << rng.below(8)));
            "flipped image bytes"
        }
        (13, _, _) => {
            for _ in 0..rng.between(1, 6) {
                ordinary_block(rng, volume);
            }
            "used blocks that no place holds"
        }
        (14, _, _) => {
            for block in volume.reserved..volume.blocks() {
                if !mapped(block) && !volume.retired[block as usize] && rng.percent(50) {
                    volume.used[block as usize] = false;
                }
            }
            "lost blocks freed"
        }
        (15, _, _) => {
            for block in volume.reserved..volume.blocks() {
                if !mapped(block) && rng.percent(20) {
                    volume.used[block as usize] = true;
                    volume.retired[block as usize] = true;
                }
            }
            "lost blocks retired"
        }
        (16 | 17, _, Some(card)) => {
            let object = volume.cards[card].object;
            let last = volume.extents.iter().rfind(|e| e.object == object);
            let least = last.map_or(0, |e| (e.end() - 1) * BLOCK_BYTES as u64 + 1);
            let more = match rng.below(4) {
                0 => 0,
                1 => rng.below(4_096),
                2 => rng.below(70_000),
                _ => 4_095,
            };
            volume.cards[card].size = least.saturating_add(more).min(model::MAX_SIZE);
            "another size"
        }
        (_, Some(place), _) => {
            // Another order of one unit's blocks: fragments for the limit of
            // four runs.
            let (object, logical, _) = places[place];
            let unit = logical / BLOCKS_PER_UNIT;
            let mut mixed = places.clone();
            let of_unit: Vec<usize> = (0..mixed.len())
                .filter(|&at| mixed[at].0 == object && mixed[at].1 / BLOCKS_PER_UNIT == unit)
                .collect();
            for _ in 0..rng.between(1, 12) {
                let (a, b) = (rng.pick(&of_unit), rng.pick(&of_unit));
                let (first, second) = (mixed[a].2, mixed[b].2);
                (mixed[a].2, mixed[b].2) = (second, first);
            }
            put_places(rng, volume, mixed, 0);
            "another order of a unit's blocks"
        }
        _ => "none",
    }
}
