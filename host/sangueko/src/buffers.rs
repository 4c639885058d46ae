//! A store's buffers, owned.

use crate::{
    BLOCK_BYTES, CARD_BYTES, EXTENT_BYTES, GROUP_BYTES, HEAD_BYTES, MOST_BLOCKS, MOST_PLACES,
    Refusal, Store, map_bytes,
};

/// How many records each book of a store has place for.
#[derive(Clone, Copy, Debug, PartialEq, Eq)]
pub struct Places {
    /// Files.
    pub cards: usize,
    /// Runs of blocks that adjoin in file and device.
    pub extents: usize,
    /// Groups of checksums, one for each 16 MiB of a file that hold data.
    pub groups: usize,
}

/// The seven buffers of a store, owned. To keep a store, keep them.
#[derive(Clone, Debug, PartialEq, Eq)]
pub struct StoreBuf {
    pub image: Vec<u8>,
    pub head: Vec<u8>,
    pub cards: Vec<u8>,
    pub extents: Vec<u8>,
    pub groups: Vec<u8>,
    pub used: Vec<u8>,
    pub retired: Vec<u8>,
}

impl StoreBuf {
    /// Zeros of the right lengths: no store yet, until
    /// [`fresh`](Store::fresh) makes them one.
    ///
    /// # Errors
    ///
    /// [`WrongLength`](Refusal::WrongLength), as every call on them would be
    /// refused: not 1 to [`MOST_BLOCKS`] blocks, or over [`MOST_PLACES`] places
    /// in a book.
    ///
    /// ```
    /// use sangueko::{Places, Refusal, StoreBuf};
    ///
    /// let places = Places { cards: 2, extents: 8, groups: 2 };
    /// let mut buffers = StoreBuf::new(100, places)?;
    /// assert_eq!(buffers.lend().fill(), Err(Refusal::WrongLength)); // the head is zero
    /// assert_eq!(buffers.lend().fresh(&[0; 16], 10), Ok(0));
    /// assert_eq!(buffers.lend().fill(), Ok(0)); // none of the 90 that are not reserved
    /// assert_eq!(StoreBuf::new(0, places), Err(Refusal::WrongLength));
    /// # Ok::<(), Refusal>(())
    /// ```
    pub fn new(blocks: usize, places: Places) -> Result<Self, Refusal> {
        let most = [places.cards, places.extents, places.groups];
        if !(1..=MOST_BLOCKS).contains(&blocks) || most.into_iter().any(|n| n > MOST_PLACES) {
            return Err(Refusal::WrongLength);
        }
        Ok(Self {
            image: vec![0; blocks * BLOCK_BYTES],
            head: vec![0; HEAD_BYTES],
            cards: vec![0; places.cards * CARD_BYTES],
            extents: vec![0; places.extents * EXTENT_BYTES],
            groups: vec![0; places.groups * GROUP_BYTES],
            used: vec![0; map_bytes(blocks)],
            retired: vec![0; map_bytes(blocks)],
        })
    }

    /// The buffers lent, to call on.
    pub fn lend(&mut self) -> Store<'_> {
        Store {
            image: &mut self.image,
            head: &mut self.head,
            cards: &mut self.cards,
            extents: &mut self.extents,
            groups: &mut self.groups,
            used: &mut self.used,
            retired: &mut self.retired,
        }
    }
}
