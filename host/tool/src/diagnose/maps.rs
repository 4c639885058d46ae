//! Refusal 2's words on the maps. Past those on the books, so that every mapped
//! block is in the image.

use super::Finding;
use crate::buffer::Buffer;
use crate::records::{Records, map_bit};
use crate::words::grouped;

/// About the byte of a map that has the block's bit.
fn bit(map: Buffer, block: u64, rule: &'static str, says: String) -> Option<Finding> {
    Some(Finding {
        number: 2,
        rule,
        buffer: map,
        record: None,
        bytes: block / 8..block / 8 + 1,
        says,
        note: None,
    })
}

fn is_used(records: &Records<'_>, block: u64) -> bool {
    map_bit(&records.store.used, block)
}

fn is_retired(records: &Records<'_>, block: u64) -> bool {
    map_bit(&records.store.retired, block)
}

pub fn mapped_block(records: &Records<'_>) -> Option<Finding> {
    let rule = "a mapped block not used, or retired, or reserved";
    records.extents.iter().enumerate().find_map(|(at, extent)| {
        (0..extent.count).find_map(|n| {
            let block = extent.physical + n;
            let whose = |is: &str| {
                let place = grouped(extent.logical + n);
                let (block, object) = (grouped(block), extent.object);
                format!("block {block}, at block {place} of file {object} by extent {at}, is {is}")
            };
            if !is_used(records, block) {
                return bit(Buffer::Used, block, rule, whose("not marked as used"));
            }
            if is_retired(records, block) {
                return bit(Buffer::Retired, block, rule, whose("marked as retired"));
            }
            let reserved = records.head.reserved;
            (block < reserved).then(|| Finding {
                number: 2,
                rule,
                buffer: Buffer::Extents,
                record: Some(at as u64),
                bytes: at as u64 * 33 + 17..at as u64 * 33 + 29,
                says: whose(&format!(
                    "below {}, where reserved blocks end",
                    grouped(reserved)
                )),
                note: None,
            })
        })
    })
}

pub fn reserved_block(records: &Records<'_>) -> Option<Finding> {
    let rule = "a reserved block not used, or retired";
    (0..records.head.reserved).find_map(|block| {
        let whose = |is: &str| format!("block {}, which is reserved, is {is}", grouped(block));
        if !is_used(records, block) {
            return bit(Buffer::Used, block, rule, whose("not marked as used"));
        }
        if is_retired(records, block) {
            return bit(Buffer::Retired, block, rule, whose("marked as retired"));
        }
        None
    })
}

pub fn retired_block(records: &Records<'_>) -> Option<Finding> {
    let mut blocks = 0..records.head.blocks;
    let block = blocks.find(|&block| is_retired(records, block) && !is_used(records, block))?;
    let says = format!(
        "block {} is marked as retired, but not as used",
        grouped(block)
    );
    bit(Buffer::Used, block, "a retired block not used", says)
}

pub fn past_last(records: &Records<'_>) -> Option<Finding> {
    let blocks = records.head.blocks;
    [Buffer::Used, Buffer::Retired].into_iter().find_map(|map| {
        let bytes = map.of(records.store);
        let at = (blocks..bytes.len() as u64 * 8).find(|&at| map_bit(bytes, at))?;
        let says = format!(
            "{} has bit {} set, and the last block is {}",
            map.name(),
            grouped(at),
            grouped(blocks.saturating_sub(1))
        );
        bit(map, at, "a bit past the last block", says)
    })
}
