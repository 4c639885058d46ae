//! Lists of a file's stretches of data: the call, what reads of single units say
//! of it, and lists at random beside a history, whose own calls stay as they are
//! without them.

use std::collections::BTreeSet;

use model::records::STRETCH_BYTES;
use model::{Answer, Call, Store, Stretch, UNIT_BYTES, UNITS_PER_GROUP, Volume};
use oracle::{OracleAnswer, Outcome};
use random::Rng;

use crate::generate::History;

/// The stretches of data among so many units, into a buffer of `length` bytes.
pub fn data_stretches(object: u64, first: u64, units: u64, length: usize) -> Call {
    Call::DataStretches {
        object,
        first,
        units,
        length,
    }
}

/// The stretches that these units make up: each begins with a unit that has none
/// right before it and ends with one that has none right behind it.
pub fn stretches(units: &BTreeSet<u64>) -> Vec<Stretch> {
    let firsts = units.iter().filter(|unit| match unit.checked_sub(1) {
        Some(before) => !units.contains(&before),
        None => true,
    });
    let lasts = units.iter().filter(|unit| !units.contains(&(*unit + 1)));
    let stretch = |(&first, &last): (&u64, &u64)| Stretch {
        first,
        units: last - first + 1,
    };
    firsts.zip(lasts).map(stretch).collect()
}

/// The buffer with these stretches at its head, where it has room for them.
pub fn listed(mut buffer: Vec<u8>, stretches: &[Stretch]) -> Vec<u8> {
    let places = buffer.chunks_exact_mut(STRETCH_BYTES);
    for (place, stretch) in places.zip(stretches) {
        place.copy_from_slice(&stretch.encode());
    }
    buffer
}

/// The units of the stretches that an accepted call has listed.
fn units_of(answer: &Answer) -> BTreeSet<u64> {
    let pairs = answer.output.chunks_exact(STRETCH_BYTES);
    let pairs = pairs.take(answer.count as usize).map(Stretch::decode);
    pairs.flat_map(|s| s.first..s.first + s.units).collect()
}

/// A unit from which on no unit starts before a file's end, and so small that its
/// first byte has an offset.
const PAST_EVERY_FILE: u64 = 1 << 48;
/// Units that are asked for one call: those of three groups and some behind them.
const MOST_ASKED: usize = 770;

/// The units of the range that are asked: all up to some behind the file's end; of
/// very many those around the range's ends, the ends of groups and of stretches.
fn asked(volume: &Volume, object: u64, range: (u64, u64), data: &BTreeSet<u64>) -> Vec<u64> {
    let (first, units) = range;
    let size = volume.card(object).map_or(0, |card| card.size);
    let behind = size.div_ceil(UNIT_BYTES).max(first).saturating_add(2);
    let end = (first + units).min(behind).min(PAST_EVERY_FILE);
    if end.saturating_sub(first) <= MOST_ASKED as u64 {
        return (first..end).collect();
    }
    let mut edges = vec![first, end];
    let groups = volume.groups.iter().filter(|group| group.object == object);
    edges.extend(groups.filter_map(|group| group.number.checked_mul(UNITS_PER_GROUP)));
    for stretch in stretches(data) {
        edges.extend([stretch.first, stretch.first + stretch.units]);
    }
    let around = |edge: u64| edge.saturating_sub(2)..edge.saturating_add(2);
    let units: BTreeSet<u64> = edges.into_iter().flat_map(around).collect();
    let units: Vec<u64> = units.range(first..end).copied().collect();
    let step = units.len().div_ceil(MOST_ASKED).max(1);
    units.into_iter().step_by(step).collect()
}

/// The files and their slots on one block, which no extent maps.
fn without_extents(store: &Store) -> Store {
    let mut volume = Volume::decode(store);
    volume.extents.clear();
    volume.reserved = 0;
    (volume.used, volume.retired) = (vec![false], vec![false]);
    let mut bare = Store::blank(1, volume.cards.len(), 0, volume.groups.len());
    volume.encode(&mut bare);
    bare
}

/// What reads of single units make of a list. They tell whether a unit has a slot:
/// where no block is mapped, a read of its first byte is refused by 10 if it has
/// one, gives a zero if it has none, and nothing if the unit starts at the file's
/// end or behind it. Where the unit is not asked, the document's word stands.
/// 19 is the document's alone, but 3 is tried before it: no answer where the reads
/// find the card.
pub fn by_reads_of_units(
    store: &Store,
    call: &Call,
    answer: &Answer,
    mut read: impl FnMut(&mut Store, &Call) -> OracleAnswer,
) -> Option<OracleAnswer> {
    let Call::DataStretches {
        object,
        first,
        units,
        ..
    } = *call
    else {
        unreachable!("a list of stretches")
    };
    let mut bare = without_extents(store);
    let mut has_data = |unit: u64| {
        let byte = Call::Read {
            object,
            offset: unit * UNIT_BYTES,
            length: 1,
        };
        let told = read(&mut bare, &byte).outcome;
        match told.number() {
            Some(0) => Ok(false),
            Some(10) => Ok(true),
            _ => Err(told),
        }
    };
    let told = |outcome, output| Some(OracleAnswer { outcome, output });
    // A list of no unit names a file, too.
    if let Err(outcome) = has_data(0) {
        return told(outcome, call.blank_output());
    }
    if answer.number == 19 {
        return None;
    }
    let mut data = units_of(answer);
    for unit in asked(&Volume::decode(store), object, (first, units), &data) {
        match has_data(unit) {
            Ok(true) => data.insert(unit),
            Ok(false) => data.remove(&unit),
            Err(outcome) => return told(outcome, call.blank_output()),
        };
    }
    let stretches = stretches(&data);
    told(
        Outcome::Accepted(stretches.len() as u64),
        listed(call.blank_output(), &stretches),
    )
}

/// The units of the file that have a slot, in the range and before the file's end
/// or not. Groups of which no unit is a 64-bit number are left out.
fn slots(volume: &Volume, object: u64) -> BTreeSet<u64> {
    let groups = volume.groups.iter().filter(|group| group.object == object);
    let units = groups.flat_map(|group| {
        let first = group.number.checked_mul(UNITS_PER_GROUP);
        let present = (0..UNITS_PER_GROUP).filter(|n| group.slots[*n as usize].is_some());
        first
            .into_iter()
            .flat_map(move |first| present.clone().map(move |n| first + n))
    });
    units.collect()
}

/// The random lists of stretches of one history.
pub struct Ranges {
    rng: Rng,
}

/// How often a list of stretches comes between the calls of a history.
const PERCENT: u64 = 10;

impl Ranges {
    pub fn new(seed: u64, number: u64) -> Self {
        let rng = Rng::new(seed.rotate_left(56) ^ number.wrapping_mul(0x8ebc_6af0_9c88_c6e3));
        Self { rng }
    }

    /// A list of stretches, now and then. `store` passes refusals 1 and 2.
    pub fn next(&mut self, history: &History, store: &Store) -> Option<Call> {
        let rng = &mut self.rng;
        if !history.begun() || !rng.percent(PERCENT) {
            return None;
        }
        let volume = Volume::decode(store);
        let (object, offset) = history.place(rng, &volume);
        let slots = slots(&volume, object);
        let first = first_unit(rng, offset / UNIT_BYTES, &slots);
        let to_the_last = u64::MAX - first;
        let units = match rng.below(12) {
            0 => 0,
            1 => to_the_last,
            2 => to_the_last.saturating_add(rng.between(1, 3)),
            3 => rng.next_u64(),
            4 => rng.between(250, 600),
            5 | 6 => 1,
            _ => rng.between(2, 40),
        };
        // Those behind the file's end are counted, too: then there is more room.
        let in_range = slots.range(first..first.saturating_add(units));
        let pairs = stretches(&in_range.copied().collect()).len();
        let room = pairs * STRETCH_BYTES;
        let length = match rng.below(10) {
            0 => room.saturating_sub(rng.between(1, 16) as usize),
            1..5 => room,
            5 => 0,
            _ => room + rng.index(60),
        };
        Some(data_stretches(object, first, units, length))
    }
}

/// A unit to begin with: near the given one, near one with a slot, near the ends
/// of groups, or past every file.
fn first_unit(rng: &mut Rng, near: u64, slots: &BTreeSet<u64>) -> u64 {
    let unit = match rng.below(8) {
        0 | 1 => 0,
        2 | 3 => near,
        4 | 5 if !slots.is_empty() => {
            let at = rng.index(slots.len());
            slots.iter().nth(at).copied().unwrap_or(0)
        }
        6 => rng.below(3) * UNITS_PER_GROUP,
        _ => rng.pick(&[u64::MAX, 1 << 63, 1 << 47, PAST_EVERY_FILE, 1 << 32, 511]),
    };
    unit.saturating_add_signed(rng.pick(&[0, 0, 0, 1, -1, 2, -2]))
}
