//! The refusals and the rules of a call, in the order of document 01. The
//! quoted sentences are the document's, or document 02's where a comment names
//! its request.

use std::collections::BTreeSet;
use std::ops::Range;

use crate::call::{Answer, Call, Time};
use crate::crc32c::unit_checksum;
use crate::records::{
    CARD_BYTES, CARD_SPARE, Card, EXTENT_BYTES, Extent, GROUP_BYTES, Group, HEAD_BYTES, Head,
    KEY_BYTES, STRETCH_BYTES, Stretch, TRIPLE_BYTES, Triple, Volume, bits, map_bit,
};
use crate::store::{Store, map_bytes};
use crate::{
    ARCHIVE_RUNS, BLOCK_BYTES, BLOCKS_PER_UNIT, GROUP_BLOCKS, MAX_ALLOCATED, MAX_BLOCKS,
    MAX_PLACES, MAX_RUNS, MAX_SIZE, MAX_TRANSFER_BYTES, MAX_TRIPLES, UNIT_BYTES, UNITS_PER_GROUP,
};

/// A refusal's number.
type Refusal = u32;

/// Number and count of a call that was not refused. The number is 0, but for a
/// batch that stops.
type Told = (u32, u64);

/// Run one call. A refused call changes no lent byte.
pub fn run(store: &mut Store, call: &Call) -> Answer {
    let mut output = call.blank_output();
    let told = answer(store, call, &mut output);
    let refused = told.is_err();
    let (number, count) = told.unwrap_or_else(|number| (number, 0));
    Answer {
        number,
        count,
        refused,
        output,
    }
}

/// Whether a call other than fresh is refused by neither 1 nor 2.
pub fn passes_refusals_1_and_2(store: &Store) -> bool {
    lengths_are_right(store, None) && books_keep_the_rules(store) && maps_keep_the_rules(store)
}

fn answer(store: &mut Store, call: &Call, output: &mut [u8]) -> Result<Told, Refusal> {
    if let Call::Fresh { uuid, reserved } = call {
        refuse_if(!lengths_are_right(store, Some((uuid, *reserved))), 1)?;
        fresh(store, uuid, *reserved);
        return Ok((0, 0));
    }
    refuse_if(!lengths_are_right(store, None), 1)?;
    refuse_if(!books_keep_the_rules(store), 2)?;
    refuse_if(!maps_keep_the_rules(store), 2)?;
    let count = match call {
        Call::Fresh { .. } => unreachable!("answered above"),
        Call::Enter { object, time } => enter(store, *object, *time),
        Call::Write {
            object,
            offset,
            bytes,
            time,
        } => write(store, MAX_RUNS, *object, *offset, bytes, *time),
        // W-207: "The archive writer gets its own write call in which a unit
        // keeps old blocks only at two runs or fewer. Simulators keep the
        // limit of four."
        Call::WriteArchive {
            object,
            offset,
            bytes,
            time,
        } => write(store, ARCHIVE_RUNS, *object, *offset, bytes, *time),
        Call::Grow { object, size, time } => grow(store, *object, *size, *time),
        Call::Read { object, offset, .. } => read(store, *object, *offset, output),
        Call::ReadMany { list, .. } => read_many(store, list, output),
        Call::WriteBatch { list, bytes, time } => return write_batch(store, list, bytes, *time),
        Call::DataStretches {
            object,
            first,
            units,
            ..
        } => data_stretches(store, *object, *first, *units, output),
        Call::Settle => Ok(settle(store)),
        Call::Fill => Ok(fill(store)),
    };
    Ok((0, count?))
}

fn refuse_if(refused: bool, number: Refusal) -> Result<(), Refusal> {
    if refused { Err(number) } else { Ok(()) }
}

// Refusals 1 and 2.

/// Refusal 1. `fresh` holds fresh's uuid and reserved: it does not read the
/// head, and its own `reserved` must not exceed the blocks.
fn lengths_are_right(store: &Store, fresh: Option<(&[u8], u64)>) -> bool {
    // "the image is not 1 to 65,536 whole blocks"
    let blocks = (store.image.len() / BLOCK_BYTES) as u64;
    if !store.image.len().is_multiple_of(BLOCK_BYTES) || !(1..=MAX_BLOCKS).contains(&blocks) {
        return false;
    }
    // "a map does not fit it"
    if store.used.len() != map_bytes(blocks) || store.retired.len() != map_bytes(blocks) {
        return false;
    }
    // "a book is not whole records or has over 1,048,575 places"
    let books = [
        (&store.cards, CARD_BYTES),
        (&store.extents, EXTENT_BYTES),
        (&store.groups, GROUP_BYTES),
    ];
    for (book, record) in books {
        if !book.len().is_multiple_of(record) || book.len() / record > MAX_PLACES {
            return false;
        }
    }
    // "a head is not 28 bytes"
    if store.head.len() != HEAD_BYTES {
        return false;
    }
    match fresh {
        // "fresh's uuid is not 16 bytes", "reserved exceeds blocks"
        Some((uuid, reserved)) => uuid.len() == 16 && reserved <= blocks,
        // "or (fresh does not read it) has blocks other than the image's or
        // record numbers above the places, or reserved exceeds blocks"
        None => {
            let head = Head::decode(&store.head);
            head.blocks == blocks
                && head.cards <= store.card_places()
                && head.extents <= store.extent_places()
                && head.groups <= store.group_places()
                && head.reserved <= blocks
        }
    }
}

/// Packed records, then zeros; the key's bytes ascend strictly.
fn packed_and_ascending(book: &[u8], record: usize, number: usize, key: usize) -> bool {
    let (records, rest) = book.split_at(number * record);
    let keys: Vec<&[u8]> = records.chunks(record).map(|r| &r[..key]).collect();
    keys.is_sorted_by(|a, b| a < b) && rest.iter().all(|&byte| byte == 0)
}

/// Of refusal 2: "spare bytes, nanoseconds 1,000,000,000 or more"; W-205: it
/// "tests the new nanoseconds and spare bits too."
fn card_is_right(bytes: &[u8]) -> bool {
    let card = Card::decode(bytes);
    bits(bytes, CARD_SPARE.start, CARD_SPARE.len()) == 0
        && card.changed.nanoseconds < 1_000_000_000
        && card.created.nanoseconds < 1_000_000_000
}

/// Refusal 2's words on the books.
fn books_keep_the_rules(store: &Store) -> bool {
    let head = Head::decode(&store.head);
    // "order, zeros after the last record"
    if !packed_and_ascending(&store.cards, CARD_BYTES, head.cards, 8)
        || !packed_and_ascending(&store.extents, EXTENT_BYTES, head.extents, KEY_BYTES)
        || !packed_and_ascending(&store.groups, GROUP_BYTES, head.groups, KEY_BYTES)
    {
        return false;
    }
    // "fixed or spare bytes, nanoseconds 1,000,000,000 or more"
    let mut cards = store.cards.chunks(CARD_BYTES).take(head.cards);
    if !cards.all(card_is_right) {
        return false;
    }
    let mut extents = store.extents.chunks(EXTENT_BYTES).take(head.extents);
    if !extents.all(|extent| extent[8] == 3 && extent[29..] == [0; 4]) {
        return false;
    }
    // "a slot not present but not zero"
    let mut groups = store.groups.chunks(GROUP_BYTES).take(head.groups);
    if !groups.all(|group| {
        let (presence, slots) = group[KEY_BYTES..].split_at(32);
        let mut slots = slots.chunks(4).enumerate();
        group[8] == 4 && slots.all(|(n, slot)| map_bit(presence, n as u64) || slot == [0; 4])
    }) {
        return false;
    }
    let volume = Volume::decode(store);
    let mut before: Option<&Extent> = None;
    for extent in &volume.extents {
        let end = u128::from(extent.logical) + u128::from(extent.count);
        let device_end = u128::from(extent.physical) + u128::from(extent.count);
        // "an extent with count 0"
        if extent.count == 0 {
            return false;
        }
        // "overlapping its neighbour in the file"
        if let Some(before) = before
            && before.object == extent.object
            && u128::from(before.logical) + u128::from(before.count) > extent.logical.into()
        {
            return false;
        }
        // "past the device"
        if device_end > volume.blocks().into() {
            return false;
        }
        // "or past the blocks of its file's size, or without a card"
        match volume.card(extent.object) {
            None => return false,
            Some(card) if end > card.size.div_ceil(BLOCK_BYTES as u64).into() => return false,
            Some(_) => {}
        }
        before = Some(extent);
    }
    true
}

/// Refusal 2's words on the maps.
fn maps_keep_the_rules(store: &Store) -> bool {
    let volume = Volume::decode(store);
    let is_reserved = |block: u64| block < volume.reserved;
    // "a mapped block not used, or retired, or reserved"
    for extent in &volume.extents {
        for block in extent.physical..extent.physical + extent.count {
            let at = block as usize;
            if !volume.used[at] || volume.retired[at] || is_reserved(block) {
                return false;
            }
        }
    }
    // "a reserved block not used, or retired"
    // "a retired block not used"
    for block in 0..volume.blocks() {
        let (used, retired) = (volume.used[block as usize], volume.retired[block as usize]);
        if is_reserved(block) && (!used || retired) || retired && !used {
            return false;
        }
    }
    // "a bit past the last block"
    let past = volume.blocks()..store.used.len() as u64 * 8;
    past.into_iter()
        .all(|bit| !map_bit(&store.used, bit) && !map_bit(&store.retired, bit))
}

// The calls.

/// "Fresh, given uuid and reserved, zeros books and maps, sets the used bits
/// of the first blocks, as many as reserved, and writes a head with hint 0
/// and no records; the image stays."
fn fresh(store: &mut Store, uuid: &[u8], reserved: u64) {
    let blocks = (store.image.len() / BLOCK_BYTES) as u64;
    Volume {
        uuid: uuid.try_into().expect("refusal 1"),
        reserved,
        hint: 0,
        cards: Vec::new(),
        extents: Vec::new(),
        groups: Vec::new(),
        used: (0..blocks).map(|block| block < reserved).collect(),
        retired: vec![false; blocks as usize],
    }
    .encode(store);
}

/// Refusal 7.
fn time_is_bad(time: Time) -> bool {
    time.seconds > MAX_SIZE || time.nanoseconds >= 1_000_000_000
}

/// "Enter adds a card of size 0 with no blocks and the lent time." W-205: "Enter
/// sets both times to the lent one".
fn enter(store: &mut Store, object: u64, time: Time) -> Result<u64, Refusal> {
    let mut volume = Volume::decode(store);
    refuse_if(volume.card(object).is_some(), 4)?;
    refuse_if(time_is_bad(time), 7)?;
    refuse_if(volume.cards.len() == store.card_places(), 8)?;
    volume.cards.push(Card {
        object,
        size: 0,
        allocated: 0,
        changed: time,
        created: time,
    });
    volume.cards.sort_by_key(|card| card.object);
    volume.encode(store);
    Ok(0)
}

/// "empty bytes answer 0 and change nothing. Otherwise at most 1,048,576
/// bytes are taken, and that count is the answer." `limit` is the most runs at
/// which a unit keeps old blocks.
fn write(
    store: &mut Store,
    limit: usize,
    object: u64,
    offset: u64,
    bytes: &[u8],
    time: Time,
) -> Result<u64, Refusal> {
    let card = *Volume::decode(store).card(object).ok_or(3u32)?;
    if bytes.is_empty() {
        return Ok(0);
    }
    let bytes = &bytes[..bytes.len().min(MAX_TRANSFER_BYTES)];
    let end = u128::from(offset) + bytes.len() as u128;
    refuse_if(end > MAX_SIZE.into(), 5)?;
    refuse_if(time_is_bad(time), 7)?;
    let end = end as u64;
    let new_size = card.size.max(end);
    // "Units: those touched, and before them the old tail unit if the file
    // grows, its size is not a multiple of 65,536 and that unit is not
    // touched."
    let touched = offset / UNIT_BYTES..=(end - 1) / UNIT_BYTES;
    let tail = card.size / UNIT_BYTES;
    let mut units = Vec::new();
    if new_size > card.size && !card.size.is_multiple_of(UNIT_BYTES) && !touched.contains(&tail) {
        units.push(tail);
    }
    units.extend(touched);
    let change = Change {
        new_size,
        written: Some(Written { offset, bytes }),
        limit,
    };
    rewrite(store, card, change, &units, time)?;
    Ok(bytes.len() as u64)
}

/// "equal size changes nothing, not even the time; otherwise only the old
/// tail unit, if partial, is rewritten."
fn grow(store: &mut Store, object: u64, size: u64, time: Time) -> Result<u64, Refusal> {
    let card = *Volume::decode(store).card(object).ok_or(3u32)?;
    refuse_if(size > MAX_SIZE, 5)?;
    refuse_if(size < card.size, 6)?;
    if size == card.size {
        return Ok(0);
    }
    refuse_if(time_is_bad(time), 7)?;
    let units = if card.size.is_multiple_of(UNIT_BYTES) {
        vec![]
    } else {
        vec![card.size / UNIT_BYTES]
    };
    let growth = Change {
        new_size: size,
        written: None,
        limit: MAX_RUNS,
    };
    rewrite(store, card, growth, &units, time)?;
    Ok(0)
}

/// "0 at or past the end or for an empty buffer; else at most 1,048,576
/// bytes. [...] All units are checked before a byte is handed out (added)."
fn read(store: &Store, object: u64, offset: u64, output: &mut [u8]) -> Result<u64, Refusal> {
    let volume = Volume::decode(store);
    let card = *volume.card(object).ok_or(3u32)?;
    if offset >= card.size || output.is_empty() {
        return Ok(0);
    }
    let length = (card.size - offset)
        .min(output.len() as u64)
        .min(MAX_TRANSFER_BYTES as u64);
    let first = offset / UNIT_BYTES;
    let last = (offset + length - 1) / UNIT_BYTES;
    let mut bytes = Vec::new();
    for unit in first..=last {
        let valid = valid_length(card.size, unit);
        let checked = check_unit(&volume, &store.image, &card, unit)?;
        bytes.extend(checked.unwrap_or(vec![0; valid]));
    }
    let from = (offset - first * UNIT_BYTES) as usize;
    let count = length as usize;
    output[..count].copy_from_slice(&bytes[from..from + count]);
    Ok(length)
}

/// Document 02, W-201: triples (object, offset, length) "and one output buffer
/// whose pieces lie one after another in list order."
fn read_many(store: &Store, list: &[u8], output: &mut [u8]) -> Result<u64, Refusal> {
    refuse_if(reads_are_bad(list, output.len()), 17)?;
    // Beside the output, of which a refused call changes no byte.
    let mut pieces = output.to_vec();
    let mut touched = BTreeSet::new();
    let mut start = 0;
    for triple in Triple::all(list) {
        // By refusal 17 all pieces lie within the output.
        let end = start + triple.length as usize;
        // "Each piece is what a single read into a buffer of that length
        // gives, and its unread rest is unchanged. The first read in list
        // order that would be refused refuses the whole call."
        let count = read(store, triple.object, triple.offset, &mut pieces[start..end])?;
        for unit in units_of(triple.offset, count) {
            touched.insert((triple.object, unit));
        }
        start = end;
    }
    output.copy_from_slice(&pieces);
    // "The answer is the number of different pairs of object and unit that
    // the reads touch".
    Ok(touched.len() as u64)
}

/// Of refusals 17 and 18: "the list is not whole triples, has more than 64".
fn list_is_bad(list: &[u8]) -> bool {
    !list.len().is_multiple_of(TRIPLE_BYTES) || list.len() / TRIPLE_BYTES > MAX_TRIPLES
}

/// Refusal 17: "when the list is not whole triples, has more than 64, or its
/// lengths exceed the output". The lengths are added as numbers without bound.
fn reads_are_bad(list: &[u8], output: usize) -> bool {
    let lengths = Triple::all(list).map(|triple| u128::from(triple.length));
    list_is_bad(list) || lengths.sum::<u128>() > output as u128
}

/// The units that a read touches, of which it handed out so many bytes: "a byte
/// handed out lies there, in a hole or not".
fn units_of(offset: u64, count: u64) -> impl Iterator<Item = u64> {
    let units = (count > 0).then(|| offset / UNIT_BYTES..=(offset + count - 1) / UNIT_BYTES);
    units.into_iter().flatten()
}

/// W-204: such triples, "the bytes of all of them joined, and one time."
fn write_batch(store: &mut Store, list: &[u8], bytes: &[u8], time: Time) -> Result<Told, Refusal> {
    refuse_if(writes_are_bad(list, bytes.len()), 18)?;
    Ok(single_writes(store, list, bytes, time))
}

/// "The store afterwards equals single writes in list order, and it stops at
/// the first that is refused: the earlier ones remain, and the count says how
/// many were done and the returned number what stopped it, 0 if all were done".
fn single_writes(store: &mut Store, list: &[u8], bytes: &[u8], time: Time) -> Told {
    let mut done = 0;
    let mut rest = bytes;
    for triple in Triple::all(list) {
        // By refusal 18 the bytes of every write are there.
        let (bytes, behind) = rest.split_at(triple.length as usize);
        let single = Call::Write {
            object: triple.object,
            offset: triple.offset,
            bytes: bytes.to_vec(),
            time,
        };
        // By all of its refusals, 1 and 2 too: where a block is at two places,
        // a write over the one leaves a store that 2 refuses.
        if let Err(number) = answer(store, &single, &mut []) {
            return (number, done);
        }
        done += 1;
        rest = behind;
    }
    (0, done)
}

/// Refusal 18: "when the list is not whole triples, has more than 64, a length
/// exceeds 1,048,576 or the lengths do not add up to the bytes". They are added
/// as numbers without bound.
fn writes_are_bad(list: &[u8], bytes: usize) -> bool {
    let lengths = || Triple::all(list).map(|triple| u128::from(triple.length));
    list_is_bad(list)
        || lengths().any(|length| length > MAX_TRANSFER_BYTES as u128)
        || lengths().sum::<u128>() != bytes as u128
}

/// W-206: "A call lists, for one file and a range of units, each maximal stretch
/// of consecutive units that have a slot". "The answer is the number of pairs; the
/// output behind them is unchanged."
fn data_stretches(
    store: &Store,
    object: u64,
    first: u64,
    units: u64,
    output: &mut [u8],
) -> Result<u64, Refusal> {
    let volume = Volume::decode(store);
    let card = *volume.card(object).ok_or(3u32)?;
    // "19 when the range's first unit plus length passes
    // 18,446,744,073,709,551,615". They are added as numbers without bound.
    let end = u128::from(first) + u128::from(units);
    refuse_if(end > u64::MAX.into(), 19)?;
    let stretches = stretches_of(&data_units(&volume, &card, first.into(), end));
    // "or the output has no place for all pairs".
    refuse_if(stretches.len() * STRETCH_BYTES > output.len(), 19)?;
    for (place, stretch) in output.chunks_exact_mut(STRETCH_BYTES).zip(&stretches) {
        place.copy_from_slice(&stretch.encode());
    }
    Ok(stretches.len() as u64)
}

/// "Every unit of the range with a slot that starts before the file's end",
/// ascending. It is the slots that are gone through, since a range has up to
/// 2^64 - 1 units; and all is computed in numbers without bound, since a damaged
/// book has groups of any number.
fn data_units(volume: &Volume, card: &Card, first: u128, end: u128) -> Vec<u64> {
    let mut units = Vec::new();
    for group in volume.groups.iter().filter(|g| g.object == card.object) {
        for (n, slot) in group.slots.iter().enumerate() {
            let unit = u128::from(group.number) * u128::from(UNITS_PER_GROUP) + n as u128;
            let in_range = first <= unit && unit < end;
            let before_the_end = unit * u128::from(UNIT_BYTES) < card.size.into();
            if slot.is_some() && in_range && before_the_end {
                units.push(unit as u64);
            }
        }
    }
    units
}

/// "each maximal stretch of consecutive units", of units that ascend.
fn stretches_of(units: &[u64]) -> Vec<Stretch> {
    let mut stretches: Vec<Stretch> = Vec::new();
    for &unit in units {
        match stretches.last_mut() {
            Some(last) if last.first + last.units == unit => last.units += 1,
            _ => stretches.push(Stretch {
                first: unit,
                units: 1,
            }),
        }
    }
    stretches
}

/// "settle, which clears both bits of every retired block and answers how
/// many."
fn settle(store: &mut Store) -> u64 {
    let mut volume = Volume::decode(store);
    let mut count = 0;
    for (used, retired) in volume.used.iter_mut().zip(&mut volume.retired) {
        if *retired {
            (*used, *retired) = (false, false);
            count += 1;
        }
    }
    volume.encode(store);
    count
}

/// W-202: "Fill divides by blocks minus reserved, and counts used blocks that
/// are not reserved. When every block is reserved the answer is 0." Document
/// 01: "times 1,000 [..], rounded down."
fn fill(store: &Store) -> u64 {
    let volume = Volume::decode(store);
    let usable = volume.blocks() - volume.reserved;
    if usable == 0 {
        return 0;
    }
    let behind = volume.used.iter().skip(volume.reserved as usize);
    let used = behind.filter(|used| **used).count() as u64;
    used * 1_000 / usable
}

// Units.

/// How many bytes of a unit lie below the size.
fn valid_length(size: u64, unit: u64) -> usize {
    size.saturating_sub(unit * UNIT_BYTES).min(UNIT_BYTES) as usize
}

/// Refusals 9 to 12 on a unit to be read: its valid bytes, or `None` for a
/// hole.
fn check_unit(
    volume: &Volume,
    image: &[u8],
    card: &Card,
    unit: u64,
) -> Result<Option<Vec<u8>>, Refusal> {
    let object = card.object;
    let first = unit * BLOCKS_PER_UNIT;
    let Some(checksum) = volume.slot(object, unit) else {
        // "A unit to be read has no slot, and the object's last extent
        // starting at or before the unit's last block ends past its first."
        let last_block = first + BLOCKS_PER_UNIT - 1;
        let last = volume
            .extents
            .iter()
            .rfind(|extent| extent.object == object && extent.logical <= last_block);
        refuse_if(last.is_some_and(|extent| extent.end() > first), 9)?;
        return Ok(None);
    };
    // "A unit with a slot is not fully backed up to its valid length."
    let valid = valid_length(card.size, unit);
    let mut bytes = Vec::with_capacity(UNIT_BYTES as usize);
    for index in 0..valid.div_ceil(BLOCK_BYTES) as u64 {
        let block = volume.block_at(object, first + index).ok_or(10u32)?;
        let at = block as usize * BLOCK_BYTES;
        bytes.extend_from_slice(&image[at..at + BLOCK_BYTES]);
    }
    // "A backed byte after the valid length in the last block is not zero."
    refuse_if(bytes[valid..].iter().any(|&byte| byte != 0), 11)?;
    bytes.truncate(valid);
    // "The checksum differs."
    refuse_if(
        unit_checksum(&volume.uuid, object, unit, &bytes) != checksum,
        12,
    )?;
    Ok(Some(bytes))
}

/// The bytes that a write stores, clipped.
#[derive(Clone, Copy)]
struct Written<'a> {
    offset: u64,
    bytes: &'a [u8],
}

impl Written<'_> {
    /// The part that falls into the unit, relative to the unit's start and
    /// to the written bytes.
    fn in_unit(&self, unit: u64) -> Option<(Range<usize>, &[u8])> {
        let start = unit * UNIT_BYTES;
        let from = self.offset.max(start);
        let to = (self.offset + self.bytes.len() as u64).min(start + UNIT_BYTES);
        (from < to).then(|| {
            let part = &self.bytes[(from - self.offset) as usize..(to - self.offset) as usize];
            ((from - start) as usize..(to - start) as usize, part)
        })
    }
}

/// What a write or a grow makes of its file.
#[derive(Clone, Copy)]
struct Change<'a> {
    new_size: u64,
    written: Option<Written<'a>>,
    /// The most runs at which a unit keeps old blocks.
    limit: usize,
}

/// What a unit becomes.
struct Rewritten {
    unit: u64,
    /// Its new valid bytes.
    bytes: Vec<u8>,
    /// The block at each of its places, and whether it is a new one.
    blocks: Vec<(u64, bool)>,
    /// The blocks that leave its places, one for each place.
    superseded: Vec<u64>,
}

/// What the units of a call pass on: the blocks taken, the hint and the
/// card's count.
struct Carried {
    taken: BTreeSet<u64>,
    hint: u64,
    allocated: u64,
}

/// The number of runs of the first `number` blocks. "Kept neighbours with
/// adjoining physical blocks continue a run, and so do two not kept; every
/// other pair breaks it. The count of runs is written as a recursion over the
/// number of blocks."
fn runs(kept: &[Option<u64>], number: usize) -> usize {
    match number {
        0 => 0,
        1 => 1,
        _ => {
            let continues = match (kept[number - 2], kept[number - 1]) {
                (Some(before), Some(block)) => before + 1 == block,
                (None, None) => true,
                _ => false,
            };
            runs(kept, number - 1) + usize::from(!continues)
        }
    }
}

/// The blocks of each allocation group, "groups from the hint modulo their
/// number, cyclic". The last group may be shorter.
fn groups_from_the_hint(volume: &Volume, carried: &Carried) -> Vec<Range<u64>> {
    let groups = volume.blocks().div_ceil(GROUP_BLOCKS);
    (0..groups)
        .map(|n| (carried.hint + n) % groups)
        .map(|group| {
            let first = group * GROUP_BLOCKS;
            first..(first + GROUP_BLOCKS).min(volume.blocks())
        })
        .collect()
}

/// "A free block is one whose used bit is clear", here also "none taken by
/// this call".
fn is_free(volume: &Volume, carried: &Carried, block: u64) -> bool {
    !volume.used[block as usize] && !carried.taken.contains(&block)
}

/// The runs of free blocks of a group, ascending. "A run does not cross a
/// group's end."
fn free_runs(volume: &Volume, carried: &Carried, group: &Range<u64>) -> Vec<Range<u64>> {
    let mut runs: Vec<Range<u64>> = Vec::new();
    for block in group.clone() {
        if !is_free(volume, carried, block) {
            continue;
        }
        match runs.last_mut() {
            Some(run) if run.end == block => run.end += 1,
            _ => runs.push(block..block + 1),
        }
    }
    runs
}

/// W-208: "Before the present rule, allocation goes through the groups from the
/// hint, cyclic, and in the first group that has a run of free blocks, none
/// taken by this call, at least as long as wanted it takes the first blocks of
/// the lowest such run."
fn allocate_run(volume: &Volume, carried: &Carried, wanted: usize) -> Option<Vec<u64>> {
    let wanted = wanted as u64;
    for group in groups_from_the_hint(volume, carried) {
        let runs = free_runs(volume, carried, &group);
        let lowest = runs.iter().find(|run| run.end - run.start >= wanted);
        if let Some(run) = lowest {
            return Some((run.start..run.start + wanted).collect());
        }
    }
    None
}

/// The blocks for a unit, ascending, as they are assigned: one run where one
/// exists, else by the present rule: "in each, from after the highest block
/// taken by this call in that group (from its start if none, or if that was its
/// last), then around."
fn allocate(volume: &Volume, carried: &Carried, wanted: usize) -> Result<Vec<u64>, Refusal> {
    if let Some(run) = allocate_run(volume, carried, wanted) {
        return Ok(run);
    }
    let mut found = Vec::new();
    for group in groups_from_the_hint(volume, carried) {
        let Range { start: first, end } = group;
        let highest = carried.taken.range(first..end).next_back();
        let from = match highest {
            Some(&block) if block + 1 < end => block + 1,
            _ => first,
        };
        for block in (from..end).chain(first..from) {
            if found.len() == wanted {
                break;
            }
            if is_free(volume, carried, block) {
                found.push(block);
            }
        }
    }
    // "Fewer blocks have a clear used bit and are untaken by this call's
    // earlier units than the unit wants." W-208: "Refusal 13 keeps its case."
    refuse_if(found.len() < wanted, 13)?;
    found.sort_unstable();
    Ok(found)
}

/// One unit, or `None` for an untouched hole.
fn rewrite_unit(
    volume: &Volume,
    image: &[u8],
    card: &Card,
    change: Change<'_>,
    unit: u64,
    carried: &mut Carried,
) -> Result<Option<Rewritten>, Refusal> {
    let Change {
        new_size,
        written,
        limit,
    } = change;
    let old_valid = valid_length(card.size, unit);
    let new_valid = valid_length(new_size, unit);
    let part = written.as_ref().and_then(|written| written.in_unit(unit));
    let dirty = part.as_ref().map_or(0..0, |(range, _)| range.clone());

    // "Its old bytes are read and checked if there are any and the write does
    // not cover all of them."
    let covered = dirty.start == 0 && dirty.end >= old_valid;
    let (mut bytes, checked) = if old_valid > 0 && !covered {
        match check_unit(volume, image, card, unit)? {
            Some(bytes) => (bytes, true),
            // "An untouched hole stays a hole."
            None if part.is_none() => return Ok(None),
            None => (Vec::new(), false),
        }
    } else {
        (Vec::new(), false)
    };
    bytes.resize(new_valid, 0);
    if let Some((range, part)) = part {
        bytes[range].copy_from_slice(part);
    }

    // "A block is kept if the old unit was checked, it is mapped, it lies
    // wholly inside both old and new valid length, and no written byte falls
    // in it. If the unit's blocks then form over four runs, none is kept."
    // W-207: an archive write keeps them "only at two runs or fewer."
    let first = unit * BLOCKS_PER_UNIT;
    let places = new_valid.div_ceil(BLOCK_BYTES);
    let old: Vec<Option<u64>> = (0..BLOCKS_PER_UNIT)
        .map(|index| volume.block_at(card.object, first + index))
        .collect();
    let mut kept: Vec<Option<u64>> = (0..places)
        .map(|index| {
            let (from, to) = (index * BLOCK_BYTES, (index + 1) * BLOCK_BYTES);
            let inside = to <= old_valid && to <= new_valid;
            let written_into = dirty.start < to && from < dirty.end;
            old[index].filter(|_| checked && inside && !written_into)
        })
        .collect();
    if runs(&kept, places) > limit {
        kept.fill(None);
    }

    let wanted = kept.iter().filter(|block| block.is_none()).count();
    let new = allocate(volume, carried, wanted)?;
    // "The hint becomes the group of the last one so assigned, if any."
    if let Some(last) = new.last() {
        carried.hint = last / GROUP_BLOCKS;
    }
    carried.taken.extend(&new);

    // "The blocks this unit retires exceed the card's count as the earlier
    // units left it, or the new count exceeds 34,359,738,367."
    let is_kept = |index: usize| kept.get(index).is_some_and(Option::is_some);
    let superseded: Vec<u64> = (0..old.len())
        .filter(|&index| !is_kept(index))
        .filter_map(|index| old[index])
        .collect();
    let left = carried.allocated.checked_sub(superseded.len() as u64);
    carried.allocated = left.ok_or(14u32)? + wanted as u64;
    refuse_if(carried.allocated > MAX_ALLOCATED, 14)?;

    // "The blocks taken for a unit are assigned ascending."
    let mut new = new.into_iter();
    let blocks = kept
        .iter()
        .map(|kept| match kept {
            Some(block) => (*block, false),
            None => (new.next().expect("as many as wanted"), true),
        })
        .collect();
    Ok(Some(Rewritten {
        unit,
        bytes,
        blocks,
        superseded,
    }))
}

/// The units of a write or a grow, the finished books and the stores.
fn rewrite(
    store: &mut Store,
    card: Card,
    change: Change<'_>,
    units: &[u64],
    time: Time,
) -> Result<(), Refusal> {
    let mut volume = Volume::decode(store);
    let mut carried = Carried {
        taken: BTreeSet::new(),
        hint: volume.hint,
        allocated: card.allocated,
    };
    // "Numbers 9 to 14 are tried unit by unit, ascending; the first found is
    // given."
    let mut rewritten = Vec::new();
    for &unit in units {
        rewritten.extend(rewrite_unit(
            &volume,
            &store.image,
            &card,
            change,
            unit,
            &mut carried,
        )?);
    }
    let groups = finished_groups(&volume, card.object, &rewritten);
    refuse_if(groups.len() > store.group_places(), 15)?;
    let extents = finished_extents(&volume, card.object, &rewritten);
    refuse_if(extents.len() > store.extent_places(), 16)?;

    // "A new block is zero past the valid length; no other image byte
    // changes. Superseded blocks become retired and stay used".
    for unit in &rewritten {
        for (bytes, &(block, new)) in unit.bytes.chunks(BLOCK_BYTES).zip(&unit.blocks) {
            if new {
                let at = block as usize * BLOCK_BYTES;
                store.image[at..at + BLOCK_BYTES].fill(0);
                store.image[at..at + bytes.len()].copy_from_slice(bytes);
                volume.used[block as usize] = true;
            }
        }
        for &block in &unit.superseded {
            volume.retired[block as usize] = true;
        }
    }
    volume.hint = carried.hint;
    volume.groups = groups;
    volume.extents = extents;
    // W-205: "write and grow set only the first" time.
    for kept in &mut volume.cards {
        if kept.object == card.object {
            *kept = Card {
                object: card.object,
                size: change.new_size,
                allocated: carried.allocated,
                changed: time,
                created: card.created,
            };
        }
    }
    volume.encode(store);
    Ok(())
}

/// "The unit's slot gets its checksum, in a group added if missing".
fn finished_groups(volume: &Volume, object: u64, rewritten: &[Rewritten]) -> Vec<Group> {
    let mut groups = volume.groups.clone();
    for unit in rewritten {
        let number = unit.unit / UNITS_PER_GROUP;
        let place = groups.binary_search_by_key(&(object, number), |g| (g.object, g.number));
        let at = place.unwrap_or_else(|at| {
            groups.insert(at, Group::empty(object, number));
            at
        });
        let checksum = unit_checksum(&volume.uuid, object, unit.unit, &unit.bytes);
        groups[at].slots[(unit.unit % UNITS_PER_GROUP) as usize] = Some(checksum);
    }
    groups
}

/// "a rewritten unit's blocks leave the old extents, whose other parts stay.
/// Over the call, its units' blocks adjoining in file and device form runs;
/// each run, ascending, takes in the extent after it if they join, then the
/// one before."
fn finished_extents(volume: &Volume, object: u64, rewritten: &[Rewritten]) -> Vec<Extent> {
    let is_rewritten = |logical: u64| {
        rewritten
            .iter()
            .any(|r| r.unit == logical / BLOCKS_PER_UNIT)
    };
    let mut extents: Vec<Extent> = Vec::new();
    for extent in &volume.extents {
        if extent.object != object {
            extents.push(*extent);
            continue;
        }
        let mut logical = extent.logical;
        while logical < extent.end() {
            let stays = !is_rewritten(logical);
            let mut end = logical;
            while end < extent.end() && is_rewritten(end) != stays {
                end = ((end / BLOCKS_PER_UNIT + 1) * BLOCKS_PER_UNIT).min(extent.end());
            }
            if stays {
                extents.push(Extent {
                    object,
                    logical,
                    physical: extent.physical + (logical - extent.logical),
                    count: end - logical,
                });
            }
            logical = end;
        }
    }

    let mut made: Vec<Extent> = Vec::new();
    for unit in rewritten {
        for (index, &(block, _)) in unit.blocks.iter().enumerate() {
            let one = Extent {
                object,
                logical: unit.unit * BLOCKS_PER_UNIT + index as u64,
                physical: block,
                count: 1,
            };
            match made.last_mut() {
                Some(run) if run.joins(&one) => run.count += 1,
                _ => made.push(one),
            }
        }
    }
    for mut run in made {
        let place = |extents: &[Extent], run: &Extent| {
            extents.partition_point(|e| (e.object, e.logical) < (object, run.logical))
        };
        let at = place(&extents, &run);
        if extents.get(at).is_some_and(|after| run.joins(after)) {
            run.count += extents.remove(at).count;
        }
        if at > 0 && extents[at - 1].joins(&run) {
            extents[at - 1].count += run.count;
        } else {
            extents.insert(at, run);
        }
    }
    extents
}
