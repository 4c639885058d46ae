//! Archive writes: made of their parts, and at random between the calls of a
//! history, with writes of the same kind among them.

use std::ops::Range;

use model::{
    BLOCK_BYTES, BLOCKS_PER_UNIT, Call, MAX_SIZE, MAX_TRANSFER_BYTES, Store, Time, UNIT_BYTES,
    UNITS_PER_GROUP, Volume,
};
use random::Rng;

use crate::generate::{History, Profile, bytes, time};

pub fn write_archive(object: u64, offset: u64, bytes: &[u8], time: Time) -> Call {
    Call::WriteArchive {
        object,
        offset,
        bytes: bytes.to_vec(),
        time,
    }
}

/// A write as an archive write, and an archive write as a write.
pub fn exchanged(call: &Call) -> Option<Call> {
    match call.clone() {
        Call::Write {
            object,
            offset,
            bytes,
            time,
        } => Some(Call::WriteArchive {
            object,
            offset,
            bytes,
            time,
        }),
        Call::WriteArchive {
            object,
            offset,
            bytes,
            time,
        } => Some(Call::Write {
            object,
            offset,
            bytes,
            time,
        }),
        _ => None,
    }
}

/// The random archive writes of one history, and the writes that stand among
/// them.
pub struct Mixed {
    rng: Rng,
    /// Whether the history has any. They change its store, so that one with none
    /// makes the calls that it makes where it is recorded.
    some: bool,
}

/// Of a hundred histories those that have archive writes.
const HISTORIES: u64 = 55;
/// How often one, or a write of the same kind, comes between their calls.
const PERCENT: u64 = 45;
/// The same on a store of many blocks, where each takes long.
const PERCENT_ON_GROUPS: u64 = 15;

/// A place and a number of bytes.
type Place = (u64, u64, usize);

impl Mixed {
    pub fn new(seed: u64, number: u64) -> Self {
        let mut rng = Rng::new(seed.rotate_left(8) ^ number.wrapping_mul(0x5899_65cc_7537_4cc3));
        let some = rng.percent(HISTORIES);
        Self { rng, some }
    }

    /// An archive write or a write, now and then, or a settle before one. `store`
    /// passes refusals 1 and 2.
    pub fn next(&mut self, history: &History, store: &Store) -> Option<Call> {
        let percent = match history.profile {
            Profile::Groups => PERCENT_ON_GROUPS,
            _ => PERCENT,
        };
        if !self.some || !history.begun() || !self.rng.percent(percent) {
            return None;
        }
        let volume = Volume::decode(store);
        // An archive write takes many blocks, and the history settles too seldom.
        let count = |map: &[bool], wanted| map.iter().filter(|bit| **bit == wanted).count();
        let few = count(&volume.used, false) < 18 && count(&volume.retired, true) > 0;
        if few && self.rng.percent(50) {
            return Some(Call::Settle);
        }
        let place = match self.rng.below(20) {
            0..14 => self.within(&volume),
            14..17 => self.behind(&volume),
            _ => None,
        };
        let (object, offset, length) = place.unwrap_or_else(|| self.anywhere(history, &volume));
        let rng = &mut self.rng;
        let call = write_archive(object, offset, &bytes(rng, length), time(rng));
        if rng.percent(30) {
            return exchanged(&call);
        }
        Some(call)
    }

    /// Some blocks of a unit that has been written, whole or in part: such that
    /// the unit's blocks then form two to five runs, if there are such.
    fn within(&mut self, volume: &Volume) -> Option<Place> {
        let rng = &mut self.rng;
        // The longer of two, of which more can be kept.
        let units = [written_unit(rng, volume), written_unit(rng, volume)];
        let units = units.into_iter().flatten();
        let (object, unit, valid) = units.max_by_key(|(_, _, valid)| *valid)?;
        let old = blocks_of(volume, object, unit, valid);
        let most = old.len().min(4);
        let all: Vec<Range<usize>> = (0..old.len())
            .flat_map(|first| (1..=most).map(move |number| first..first + number))
            .filter(|range| range.end <= old.len())
            .collect();
        let wanted = rng.pick(&[2, 3, 3, 4, 4, 5]);
        let forming = all
            .iter()
            .filter(|range| runs(&old, valid, range) == wanted);
        let forming: Vec<&Range<usize>> = forming.collect();
        let range = match forming.is_empty() {
            true => &all[rng.index(all.len())],
            false => forming[rng.index(forming.len())],
        };
        let (mut from, mut to) = (range.start * BLOCK_BYTES, range.end * BLOCK_BYTES);
        if rng.percent(50) {
            from += rng.index(BLOCK_BYTES);
            to -= rng.index((to - from).min(BLOCK_BYTES));
        }
        Some((object, unit * UNIT_BYTES + from as u64, to - from))
    }

    /// Over a file's end or behind it: the old tail unit is rewritten, and no
    /// written byte may fall in it.
    fn behind(&mut self, volume: &Volume) -> Option<Place> {
        let rng = &mut self.rng;
        let files: Vec<_> = volume.cards.iter().filter(|card| card.size > 0).collect();
        let card = files.get(rng.index(files.len().max(1)))?;
        let further = rng.pick(&[-5_000, -10, 0, 0, 1, 4_096, 9_000, 65_536, 140_000]);
        let length = rng.between(1, 9_000);
        let offset = card.size.saturating_add_signed(further);
        let offset = offset.min(MAX_SIZE - length);
        Some((card.object, offset, length as usize))
    }

    fn anywhere(&mut self, history: &History, volume: &Volume) -> Place {
        let rng = &mut self.rng;
        let (object, offset) = history.place(rng, volume);
        let free = volume.used.iter().filter(|used| !**used).count();
        let length = match rng.below(60) {
            0 => rng.pick(&[
                MAX_TRANSFER_BYTES - 1,
                MAX_TRANSFER_BYTES,
                MAX_TRANSFER_BYTES + 1,
            ]),
            1..4 => 0,
            4..30 => rng.between(1, 9_000) as usize,
            // Half of what is free, so that rewritten neighbours fit too.
            _ => rng.between(1, (free * BLOCK_BYTES / 2).clamp(1, 200_000) as u64) as usize,
        };
        (object, offset, length)
    }
}

/// A unit with a slot before the file's end, and its valid length.
fn written_unit(rng: &mut Rng, volume: &Volume) -> Option<(u64, u64, usize)> {
    let group = volume.groups.get(rng.index(volume.groups.len().max(1)))?;
    let present: Vec<u64> = (0..UNITS_PER_GROUP)
        .filter(|n| group.slots[*n as usize].is_some())
        .collect();
    let slot = present.get(rng.index(present.len().max(1)))?;
    let unit = group.number.checked_mul(UNITS_PER_GROUP)? + slot;
    let start = unit.checked_mul(UNIT_BYTES)?;
    let size = volume.card(group.object)?.size;
    let valid = size.checked_sub(start)?.min(UNIT_BYTES) as usize;
    (valid > 0).then_some((group.object, unit, valid))
}

/// The block at each place of a unit, up to its valid length.
fn blocks_of(volume: &Volume, object: u64, unit: u64, valid: usize) -> Vec<Option<u64>> {
    let first = unit * BLOCKS_PER_UNIT;
    (0..valid.div_ceil(BLOCK_BYTES) as u64)
        .map(|index| volume.block_at(object, first + index))
        .collect()
}

/// How many runs a unit's blocks form where these of them are written, and those
/// that are not whole are new as well.
fn runs(old: &[Option<u64>], valid: usize, written: &Range<usize>) -> usize {
    let kept = |index: usize| {
        let whole = (index + 1) * BLOCK_BYTES <= valid;
        old[index].filter(|_| whole && !written.contains(&index))
    };
    let breaks = (1..old.len()).filter(|&index| match (kept(index - 1), kept(index)) {
        (Some(before), Some(block)) => before + 1 != block,
        (before, block) => before.is_some() != block.is_some(),
    });
    1 + breaks.count()
}
