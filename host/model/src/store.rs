//! The lent buffers of a store.

use crate::records::{CARD_BYTES, EXTENT_BYTES, GROUP_BYTES, HEAD_BYTES};
use crate::{BLOCK_BYTES, MAX_BLOCKS};

/// The seven buffers, in the order in which every call lends them.
#[derive(Clone, Debug, Default, PartialEq, Eq)]
pub struct Store {
    pub image: Vec<u8>,
    pub head: Vec<u8>,
    pub cards: Vec<u8>,
    pub extents: Vec<u8>,
    pub groups: Vec<u8>,
    pub used: Vec<u8>,
    pub retired: Vec<u8>,
}

/// Bytes of a block map: 8 for each 64 blocks begun.
pub fn map_bytes(blocks: u64) -> usize {
    blocks.div_ceil(64) as usize * 8
}

impl Store {
    /// Buffers of zeros with room for so many blocks and records.
    pub fn blank(blocks: u64, cards: usize, extents: usize, groups: usize) -> Self {
        assert!((1..=MAX_BLOCKS).contains(&blocks));
        Self {
            image: vec![0; blocks as usize * BLOCK_BYTES],
            head: vec![0; HEAD_BYTES],
            cards: vec![0; cards * CARD_BYTES],
            extents: vec![0; extents * EXTENT_BYTES],
            groups: vec![0; groups * GROUP_BYTES],
            used: vec![0; map_bytes(blocks)],
            retired: vec![0; map_bytes(blocks)],
        }
    }

    pub fn buffers(&self) -> [&Vec<u8>; 7] {
        [
            &self.image,
            &self.head,
            &self.cards,
            &self.extents,
            &self.groups,
            &self.used,
            &self.retired,
        ]
    }

    pub fn buffers_mut(&mut self) -> [&mut Vec<u8>; 7] {
        [
            &mut self.image,
            &mut self.head,
            &mut self.cards,
            &mut self.extents,
            &mut self.groups,
            &mut self.used,
            &mut self.retired,
        ]
    }

    /// Everything but the image, which is the one large buffer.
    pub fn records_equal(&self, other: &Self) -> bool {
        self.buffers()[1..] == other.buffers()[1..]
    }

    pub fn copy_records_from(&mut self, other: &Self) {
        for (to, from) in self.buffers_mut().into_iter().zip(other.buffers()).skip(1) {
            to.clone_from(from);
        }
    }

    pub fn card_places(&self) -> usize {
        self.cards.len() / CARD_BYTES
    }

    pub fn extent_places(&self) -> usize {
        self.extents.len() / EXTENT_BYTES
    }

    pub fn group_places(&self) -> usize {
        self.groups.len() / GROUP_BYTES
    }
}
