//! Published functions below `file.rs`, one by one, for tests that hold a
//! proved function against each. Without the source none of them is called:
//! a test asks [`crate::skipped`] first.

/// A checksum group in its full form: 32 presence bytes and 256 slots.
pub type GroupBytes = [u8; 1056];

#[cfg(carryfs)]
mod published {
    use super::GroupBytes;
    use crate::allocation;
    use crate::format;

    /// With one run sought first, as W-208 changes it.
    pub fn allocate(used: &[u8], blocks: u64, hint: u64, wanted: &[u64]) -> Vec<(Vec<u64>, u64)> {
        allocation::allocate(used, blocks, hint, wanted, false)
    }

    pub fn allocate_as_published(
        used: &[u8],
        blocks: u64,
        hint: u64,
        wanted: &[u64],
    ) -> Vec<(Vec<u64>, u64)> {
        allocation::allocate(used, blocks, hint, wanted, true)
    }

    /// As published, for one unit of a call that has taken these blocks; none where
    /// too few are left.
    pub fn published_after(
        used: &[u8],
        blocks: u64,
        hint: u64,
        taken: &[u64],
        wanted: u64,
    ) -> Option<Vec<u64>> {
        allocation::published_after(used, blocks, hint, taken, wanted)
    }

    pub fn compact_length(group: &GroupBytes) -> usize {
        format::compact_group(group).len()
    }

    pub fn checksum_slot(group: &GroupBytes, slot: usize) -> Option<u32> {
        format::checksum_slot(group, slot).expect("a slot below 256")
    }

    pub fn set_checksum_slot(group: &mut GroupBytes, slot: usize, crc: Option<u32>) {
        format::set_checksum_slot(group, slot, crc);
    }
}

#[cfg(not(carryfs))]
mod published {
    use super::GroupBytes;

    pub fn allocate(_: &[u8], _: u64, _: u64, _: &[u64]) -> Vec<(Vec<u64>, u64)> {
        unreachable!()
    }

    pub fn allocate_as_published(_: &[u8], _: u64, _: u64, _: &[u64]) -> Vec<(Vec<u64>, u64)> {
        unreachable!()
    }

    pub fn published_after(_: &[u8], _: u64, _: u64, _: &[u64], _: u64) -> Option<Vec<u64>> {
        unreachable!()
    }

    pub fn compact_length(_: &GroupBytes) -> usize {
        unreachable!()
    }

    pub fn checksum_slot(_: &GroupBytes, _: usize) -> Option<u32> {
        unreachable!()
    }

    pub fn set_checksum_slot(_: &mut GroupBytes, _: usize, _: Option<u32>) {
        unreachable!()
    }
}

pub use published::{
    allocate, allocate_as_published, checksum_slot, compact_length, published_after,
    set_checksum_slot,
};
