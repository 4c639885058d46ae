//! Private items of file.rs, cut out as text, for the cases of document 01
//! that name them: P5 to P7 by `joins`, P8 and P9 by `retained_blocks`, P10
//! and P11 by `Change::units`.

use crate::format::{BLOCK_BYTES, UNIT_BYTES};

#[allow(dead_code, clippy::all)]
mod published {
    use super::*;
    include!(concat!(env!("OUT_DIR"), "/private.rs"));

    pub(super) fn joins_of(left: [u64; 3], right: [u64; 3]) -> bool {
        let extent = |[logical, physical, count]: [u64; 3]| Extent {
            logical,
            physical,
            count,
        };
        joins(&extent(left), &extent(right))
    }

    pub(super) fn units_of(old_size: u64, offset: u64, bytes: &[u8]) -> Vec<u64> {
        let change = Change {
            object: 1,
            offset,
            bytes,
            old_size,
            new_size: old_size.max(offset + bytes.len() as u64),
        };
        change.units()
    }

    /// A unit of full, checked blocks into which nothing is written.
    pub(super) fn kept_of(blocks: &[u64]) -> Vec<bool> {
        let valid = blocks.len() * BLOCK_BYTES;
        let change = Change {
            object: 1,
            offset: UNIT_BYTES as u64,
            bytes: &[1],
            old_size: valid as u64,
            new_size: UNIT_BYTES as u64 + 1,
        };
        let mut physical = [None; BLOCKS_PER_UNIT as usize];
        for (place, block) in physical.iter_mut().zip(blocks) {
            *place = Some(*block);
        }
        let count = blocks.len() as u64;
        retained_blocks(&change, 0, valid, valid, true, &physical, count)[..blocks.len()].to_vec()
    }
}

/// Whether two extents (logical, physical, count) of one object join.
pub fn joins(left: [u64; 3], right: [u64; 3]) -> bool {
    published::joins_of(left, right)
}

/// The units that a write rewrites.
pub fn units(old_size: u64, offset: u64, bytes: &[u8]) -> Vec<u64> {
    published::units_of(old_size, offset, bytes)
}

/// Which of a whole unit's checked, unwritten, full blocks are kept.
pub fn kept(blocks: &[u64]) -> Vec<bool> {
    published::kept_of(blocks)
}
