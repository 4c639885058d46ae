//! The units of a file: which were ever written, and what is wrong with one that
//! the library refuses.

use std::collections::BTreeSet;
use std::ops::Range;

use crate::crc32c::unit_checksum;
use crate::records::{BLOCK, Card, Extent, GROUP_UNITS, Records, UNIT_BLOCKS};
use crate::words::grouped;

/// The file's units that have a checksum or a part of an extent. All others
/// have nothing that could be damaged: they read as zeros.
pub fn written(records: &Records<'_>, card: &Card) -> BTreeSet<u64> {
    let mut units = BTreeSet::new();
    let end = card.units();
    for extent in records.extents_of(card.object) {
        units.extend(units_of(extent));
    }
    for group in records.groups_of(card.object) {
        let slots = (0..GROUP_UNITS).filter(|&n| group.slot(n).is_some());
        // a slot behind the end passes refusal 2, and is no unit of the file
        let first = group.number.saturating_mul(GROUP_UNITS);
        units.extend(
            slots
                .map(|n| first.saturating_add(n))
                .filter(|&unit| unit < end),
        );
    }
    units
}

/// Units of the range that have a part of an extent but are in none of the
/// stretches, and so have no checksum. No list of calls leads there, and a read
/// of one is refused by 9.
pub fn unchecked(
    records: &Records<'_>,
    card: &Card,
    range: &Range<u64>,
    stretches: &[Range<u64>],
) -> Vec<u64> {
    let held = |unit: u64| {
        let at = stretches.partition_point(|stretch| stretch.end <= unit);
        stretches
            .get(at)
            .is_some_and(|stretch| stretch.start <= unit)
    };
    let mut units = Vec::new();
    for extent in records.extents_of(card.object) {
        let of_extent = units_of(extent);
        let within = of_extent.start.max(range.start)..of_extent.end.min(range.end);
        units.extend(within.filter(|&unit| !held(unit)));
    }
    // the extents ascend; two of them can have blocks in one unit
    units.dedup();
    units
}

/// The units that an extent has blocks in.
fn units_of(extent: &Extent) -> Range<u64> {
    // within the file's size, by refusal 2, and so below 2^51
    let last = extent.logical + extent.count.saturating_sub(1);
    extent.logical / UNIT_BLOCKS..last / UNIT_BLOCKS + 1
}

/// What document 01's refusals 9 to 12 say of a unit: the first that applies,
/// and where.
pub fn damage(records: &Records<'_>, card: &Card, unit: u64) -> Option<(u32, String)> {
    let first = unit * UNIT_BLOCKS;
    let Some(stored) = records.slot(card.object, unit) else {
        let (place, block) = (first..first + UNIT_BLOCKS)
            .find_map(|place| Some((place, records.block_at(card.object, place)?)))?;
        let says = format!(
            "it has no checksum, but an extent maps its block {} to block {}",
            grouped(place),
            grouped(block)
        );
        return Some((9, says));
    };
    let bytes = card.unit_bytes(unit);
    let valid = (bytes.end - bytes.start) as usize;
    let mut held = Vec::new();
    for place in first..first + (valid as u64).div_ceil(BLOCK) {
        let Some(block) = records.block_at(card.object, place) else {
            let says = format!(
                "it has a checksum, but no extent maps its block {}",
                grouped(place)
            );
            return Some((10, says));
        };
        held.extend_from_slice(records.block(block)?);
    }
    let (valid_bytes, rest) = held.split_at_checked(valid)?;
    if let Some(at) = rest.iter().position(|&byte| byte != 0) {
        let block = records.block_at(card.object, (bytes.end - 1) / BLOCK)?;
        let within = (valid + at) as u64 % BLOCK;
        let says = format!(
            "the file ends before byte {within} of block {}, and that byte (byte {} of image) is not zero",
            grouped(block),
            grouped(block * BLOCK + within)
        );
        return Some((11, says));
    }
    let found = unit_checksum(&records.head.uuid, card.object, unit, valid_bytes);
    (found != stored).then(|| {
        let says = format!("its bytes have checksum {found:08x}, its slot holds {stored:08x}");
        (12, says)
    })
}
