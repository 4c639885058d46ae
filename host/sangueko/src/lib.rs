//! A store of files in buffers that the caller lends: the proved library as
//! safe Rust.
//!
//! A store is seven buffers: the image, which holds the blocks, the head, the
//! books of cards (one for each file), extents and groups, and the maps of
//! used and retired blocks. [`Store`] lends seven slices to a call; [`StoreBuf`]
//! owns seven of the right lengths.
//!
//! A call gives its answer or a [`Refusal`], and a refused call changes no
//! byte. A call takes any buffers: what it cannot work on it refuses. A batch of
//! writes alone can stop on the way, and says so by [`Batched`].
//!
//! ```
//! use sangueko::{Places, Refusal, StoreBuf};
//!
//! let places = Places { cards: 4, extents: 32, groups: 4 };
//! let mut buffers = StoreBuf::new(8, places)?;
//! let mut store = buffers.lend();
//! store.fresh(&[7; 16], 1)?;
//! store.enter(7, 1_700_000_000, 0)?;
//! assert_eq!(store.enter(7, 1_700_000_000, 0), Err(Refusal::CardExists));
//! store.write(7, 0, b"kept", 1_700_000_001, 0)?;
//! store.grow(7, 10_000, 1_700_000_002, 0)?;
//! let mut out = [1; 6];
//! assert_eq!(store.read(7, 0, &mut out), Ok(6));
//! assert_eq!(&out, b"kept\0\0");
//! assert_eq!(store.settle(), Ok(1)); // the block that the grow took the place of
//! assert_eq!(store.fill(), Ok(428)); // three of the seven blocks that are not reserved
//! # Ok::<(), Refusal>(())
//! ```
//!
//! [`Store::write_archive`] writes as [`Store::write`] does and keeps fewer old
//! blocks, so that a file lies in fewer pieces. Both may be called on one store in
//! any order.
//!
//! A card holds a file's size, when it was created and when it last changed; no
//! call gives them, but the bytes may be read. [`CARD_BYTES`] lists the fields.
//!
//! Stores whose cards have 32 bytes, as they once had, are not converted, and
//! nothing in a store tells how wide its cards are. Such a store is refused by
//! [`Refusal::WrongLength`] where its book of cards is no multiple of
//! [`CARD_BYTES`] or its head counts more cards than that book then has places,
//! and else normally by [`Refusal::BrokenRule`]. But one that passes both is
//! read as cards of [`CARD_BYTES`]: a single card in 96 bytes passes, and has
//! creation time 0. So such stores should not be lent; their files can be copied
//! out with the library that they were made with.
//!
//! The library keeps no state, allocates nothing and takes less than
//! [`STACK_BYTES`] of stack.

mod batched;
mod buffers;
mod ffi;
mod range;
mod refusal;
mod store;
mod stretch;

pub use batched::Batched;
pub use buffers::{Places, StoreBuf};
pub use range::Range;
pub use refusal::Refusal;
pub use store::Store;
pub use stretch::Stretch;

/// Bytes of a block.
pub const BLOCK_BYTES: usize = 4_096;
/// Bytes of the head.
pub const HEAD_BYTES: usize = 28;
/// Bytes of a card, the record of a file. Its fields are packed, each most
/// significant bit first: object 64 bits, size 63, blocks 35, the time of the
/// last change as seconds 63 and nanoseconds 30, the time of the creation
/// likewise, and 36 bits that are zero.
pub const CARD_BYTES: usize = 48;
/// Bytes of an extent.
pub const EXTENT_BYTES: usize = 33;
/// Bytes of a group of checksums.
pub const GROUP_BYTES: usize = 1_073;
/// Bytes of the uuid that [`Store::fresh`] is given.
pub const UUID_BYTES: usize = 16;
/// Blocks of a store at most.
pub const MOST_BLOCKS: usize = 65_536;
/// Places of a book at most.
pub const MOST_PLACES: usize = 1_048_575;
/// Bytes that one write or read takes at most; of many in one call, each of
/// them.
pub const MOST_TRANSFER: usize = 1_048_576;
/// Bytes of a [`Range`] in a list.
pub const RANGE_BYTES: usize = 24;
/// Ranges of a list at most.
pub const MOST_RANGES: usize = 64;
/// Bytes of a unit of a file. Each that holds data has a checksum.
pub const UNIT_BYTES: u64 = 65_536;
/// Bytes of a [`Stretch`] in the output of [`Store::data_stretches`].
pub const STRETCH_BYTES: usize = 16;
/// Stack that a call takes at most.
pub const STACK_BYTES: usize = 262_144;

/// Bytes of a map of so many blocks: 8 for each 64 blocks begun.
///
/// ```
/// assert_eq!(sangueko::map_bytes(64), 8);
/// assert_eq!(sangueko::map_bytes(65), 16);
/// ```
pub const fn map_bytes(blocks: usize) -> usize {
    blocks.div_ceil(64) * 8
}
