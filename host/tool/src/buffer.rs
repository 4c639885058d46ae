//! The seven buffers of a store, which are the seven files of its folder.

use sangueko::{
    BLOCK_BYTES, CARD_BYTES, EXTENT_BYTES, GROUP_BYTES, HEAD_BYTES, MOST_BLOCKS, MOST_PLACES,
    StoreBuf, map_bytes,
};

/// In the order in which every call lends them.
#[derive(Clone, Copy, Debug, PartialEq, Eq)]
pub enum Buffer {
    Image,
    Head,
    Cards,
    Extents,
    Groups,
    Used,
    Retired,
}

/// The byte lengths of the seven, in their order.
pub type Lengths = [u64; 7];

impl Buffer {
    pub const ALL: [Self; 7] = [
        Self::Image,
        Self::Head,
        Self::Cards,
        Self::Extents,
        Self::Groups,
        Self::Used,
        Self::Retired,
    ];

    /// Document 01's name of the buffer, and the name of its file.
    pub const fn name(self) -> &'static str {
        match self {
            Self::Image => "image",
            Self::Head => "head",
            Self::Cards => "cards",
            Self::Extents => "extents",
            Self::Groups => "groups",
            Self::Used => "used",
            Self::Retired => "retired",
        }
    }

    pub const fn index(self) -> usize {
        self as usize
    }

    pub fn of_index(index: u8) -> Option<Self> {
        Self::ALL.get(usize::from(index)).copied()
    }

    /// Bytes that no store passes.
    pub const fn most(self) -> u64 {
        let bytes = match self {
            Self::Image => MOST_BLOCKS * BLOCK_BYTES,
            Self::Head => HEAD_BYTES,
            Self::Cards => MOST_PLACES * CARD_BYTES,
            Self::Extents => MOST_PLACES * EXTENT_BYTES,
            Self::Groups => MOST_PLACES * GROUP_BYTES,
            Self::Used | Self::Retired => map_bytes(MOST_BLOCKS),
        };
        bytes as u64
    }

    pub fn of(self, store: &StoreBuf) -> &Vec<u8> {
        match self {
            Self::Image => &store.image,
            Self::Head => &store.head,
            Self::Cards => &store.cards,
            Self::Extents => &store.extents,
            Self::Groups => &store.groups,
            Self::Used => &store.used,
            Self::Retired => &store.retired,
        }
    }
}
