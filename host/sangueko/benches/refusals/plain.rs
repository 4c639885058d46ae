//! The call fill in plain Rust, written for speed: what the archive's is held
//! against.

use sangueko::{
    BLOCK_BYTES, CARD_BYTES, EXTENT_BYTES, GROUP_BYTES, HEAD_BYTES, MOST_BLOCKS, MOST_PLACES,
    Store, map_bytes,
};

/// The used blocks per mille of those that are not reserved, or the number of
/// refusal 1 or 2.
pub fn fill(store: &Store<'_>) -> Result<u64, u32> {
    let head = lengths(store).ok_or(1u32)?;
    if !books(store, &head) || !maps(store, &head) {
        return Err(2);
    }
    let used: u64 = words(store.used)
        .map(|word| u64::from(word.count_ones()))
        .sum();
    // past refusal 2 every reserved block is used
    let (used, usable) = (used - head.reserved, head.blocks - head.reserved);
    Ok((used * 1_000).checked_div(usable).unwrap_or(0))
}

struct Head {
    blocks: u64,
    reserved: u64,
    cards: usize,
    extents: usize,
    groups: usize,
}

fn be(bytes: &[u8]) -> u64 {
    u64::from_be_bytes(bytes.try_into().unwrap())
}

fn le(bytes: &[u8]) -> u64 {
    u64::from_le_bytes(bytes.try_into().unwrap())
}

fn words(map: &[u8]) -> impl Iterator<Item = u64> {
    map.chunks_exact(8).map(le)
}

fn lengths(store: &Store<'_>) -> Option<Head> {
    let blocks = store.image.len() / BLOCK_BYTES;
    let fits = store.image.len().is_multiple_of(BLOCK_BYTES)
        && (1..=MOST_BLOCKS).contains(&blocks)
        && store.used.len() == map_bytes(blocks)
        && store.retired.len() == map_bytes(blocks)
        && store.head.len() == HEAD_BYTES;
    let places = |book: &[u8], record: usize| {
        let places = book.len() / record;
        (book.len().is_multiple_of(record) && places <= MOST_PLACES).then_some(places)
    };
    let cards = places(store.cards, CARD_BYTES)?;
    let extents = places(store.extents, EXTENT_BYTES)?;
    let groups = places(store.groups, GROUP_BYTES)?;
    if !fits {
        return None;
    }
    // 96 bits behind the uuid: 17, 17, 2, 20, 20, 20.
    let (high, low) = (be(&store.head[16..24]), be(&store.head[20..28]));
    let head = Head {
        blocks: high >> 47,
        reserved: high >> 30 & 0x1_ffff,
        cards: (high >> 8 & 0xf_ffff) as usize,
        extents: (low >> 20 & 0xf_ffff) as usize,
        groups: (low & 0xf_ffff) as usize,
    };
    (head.blocks == blocks as u64
        && head.reserved <= head.blocks
        && head.cards <= cards
        && head.extents <= extents
        && head.groups <= groups)
        .then_some(head)
}

/// In pieces of 64, which are compared faster than single bytes.
fn is_zero(bytes: &[u8]) -> bool {
    let (pieces, rest) = bytes.as_chunks::<64>();
    pieces.iter().all(|piece| *piece == [0; 64]) && rest.iter().all(|&byte| byte == 0)
}

fn books(store: &Store<'_>, head: &Head) -> bool {
    let (cards, rest) = store.cards.split_at(head.cards * CARD_BYTES);
    if !is_zero(rest) || !cards_right(cards) {
        return false;
    }
    let (extents, rest) = store.extents.split_at(head.extents * EXTENT_BYTES);
    if !is_zero(rest) || !extents_right(extents, cards, head.blocks) {
        return false;
    }
    let (groups, rest) = store.groups.split_at(head.groups * GROUP_BYTES);
    is_zero(rest) && groups_right(groups)
}

/// A second's nanoseconds, and the bits that a card has for them.
const SECOND: u64 = 1_000_000_000;
const NANOSECONDS: u64 = (1 << 30) - 1;

/// The last bits of a card, which are zero.
const SPARE_BITS: u32 = 36;

fn cards_right(cards: &[u8]) -> bool {
    let mut before = None;
    for card in cards.chunks_exact(CARD_BYTES) {
        let object = be(&card[..8]);
        // Those of the last change end with bit 254, those of the creation with 347.
        let changed = be(&card[24..32]) >> 1 & NANOSECONDS;
        let last = be(&card[40..]);
        let created = (be(&card[32..40]) << 28 | last >> SPARE_BITS) & NANOSECONDS;
        let spare = last << (64 - SPARE_BITS);
        if before >= Some(object) || spare != 0 || changed >= SECOND || created >= SECOND {
            return false;
        }
        before = Some(object);
    }
    true
}

#[derive(Clone, Copy)]
struct Extent {
    object: u64,
    logical: u64,
    physical: u64,
    count: u64,
}

/// An extent, if its fixed bytes are right.
fn extent(record: &[u8]) -> Option<Extent> {
    let last = le(&record[25..]);
    (record[8] == 3 && last >> 32 == 0).then(|| Extent {
        object: be(&record[..8]),
        logical: be(&record[9..17]),
        physical: le(&record[17..25]),
        count: last,
    })
}

/// Both books ascend, so they are walked side by side.
fn extents_right(extents: &[u8], cards: &[u8], blocks: u64) -> bool {
    let mut cards = cards.chunks_exact(CARD_BYTES);
    // The file of the extent before: its object, its blocks, and where that
    // extent ends.
    let mut file: Option<(u64, u64, u64)> = None;
    for record in extents.chunks_exact(EXTENT_BYTES) {
        let Some(e) = extent(record) else {
            return false;
        };
        let on_device = e
            .physical
            .checked_add(e.count)
            .is_some_and(|end| end <= blocks);
        let Some(end) = e.logical.checked_add(e.count) else {
            return false;
        };
        if e.count == 0 || !on_device {
            return false;
        }
        let (file_blocks, from) = match file {
            Some((object, blocks, end)) if object == e.object => (blocks, end),
            _ => {
                let Some(card) = cards.find(|card| be(&card[..8]) >= e.object) else {
                    return false;
                };
                if be(&card[..8]) != e.object {
                    return false;
                }
                ((be(&card[8..16]) >> 1).div_ceil(BLOCK_BYTES as u64), 0)
            }
        };
        if e.logical < from || end > file_blocks {
            return false;
        }
        file = Some((e.object, file_blocks, end));
    }
    true
}

fn groups_right(groups: &[u8]) -> bool {
    let mut before: &[u8] = &[];
    for group in groups.chunks_exact(GROUP_BYTES) {
        let (key, slots) = group.split_at(17);
        let (presence, slots) = slots.split_at(32);
        if key[8] != 4 || before >= key {
            return false;
        }
        for (presence, slots) in presence.iter().zip(slots.chunks_exact(32)) {
            // No branch for each slot: the absent ones are put together.
            let mut absent = 0;
            for (n, slot) in slots.chunks_exact(4).enumerate() {
                let value = u32::from_le_bytes(slot.try_into().unwrap());
                absent |= if presence >> n & 1 == 1 { 0 } else { value };
            }
            if absent != 0 {
                return false;
            }
        }
        before = key;
    }
    true
}

/// The bits of one word from one number to another, counted in the map.
fn mask(word: usize, from: u64, to: u64) -> u64 {
    let start = word as u64 * 64;
    let low = !0 << (from.max(start) - start);
    let past = to.min(start + 64) - start;
    low & (!0 >> (64 - past))
}

fn maps(store: &Store<'_>, head: &Head) -> bool {
    // Every retired block is used, and none past the last.
    let both = words(store.used).zip(words(store.retired));
    for (word, (used, retired)) in both.enumerate() {
        let inside = mask(word, 0, head.blocks);
        if retired & !used != 0 || used & !inside != 0 {
            return false;
        }
    }
    if !range_kept(store, 0, head.reserved) {
        return false;
    }
    store.extents[..head.extents * EXTENT_BYTES]
        .chunks_exact(EXTENT_BYTES)
        .all(|record| {
            let from = le(&record[17..25]);
            let count = le(&record[25..]);
            from >= head.reserved && range_kept(store, from, from + count)
        })
}

/// Whether the blocks from one to another are used and not retired.
fn range_kept(store: &Store<'_>, from: u64, to: u64) -> bool {
    let kept = |word: usize, mask: u64| {
        let at = 8 * word..8 * word + 8;
        let (used, retired) = (le(&store.used[at.clone()]), le(&store.retired[at]));
        used & !retired & mask == mask
    };
    if from == to {
        return true;
    }
    // Most ranges lie in one word.
    let (first, last) = ((from / 64) as usize, ((to - 1) / 64) as usize);
    let (low, high) = (!0 << (from % 64), !0 >> (63 - (to - 1) % 64));
    if first == last {
        return kept(first, low & high);
    }
    kept(first, low) && (first + 1..last).all(|word| kept(word, !0)) && kept(last, high)
}
