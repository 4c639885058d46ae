//! Document 01, and what document 02 adds to it, as plain executable rules over
//! the bytes of a store.
//!
//! It is written from the documents and not from the published Rust, so that
//! running both on the same calls shows where the two part. It favours
//! sentences one can find in the documents over speed.

pub mod call;
pub mod crc32c;
pub mod records;
pub mod rules;
pub mod store;

pub use call::{Answer, Call, READ_FILL, Time};
pub use records::{Card, Extent, Group, Stretch, Triple, Volume};
pub use rules::{passes_refusals_1_and_2, run};
pub use store::Store;

pub const BLOCK_BYTES: usize = 4_096;
pub const BLOCKS_PER_UNIT: u64 = 16;
pub const UNIT_BYTES: u64 = 65_536;
pub const UNITS_PER_GROUP: u64 = 256;
/// Blocks of an allocation group.
pub const GROUP_BLOCKS: u64 = 16_384;
pub const MAX_BLOCKS: u64 = 65_536;
pub const MAX_PLACES: usize = 1_048_575;
pub const MAX_TRANSFER_BYTES: usize = 1_048_576;
/// The most runs at which a unit keeps old blocks.
pub const MAX_RUNS: usize = 4;
/// The same in an archive write.
pub const ARCHIVE_RUNS: usize = 2;
/// The most triples of a list.
pub const MAX_TRIPLES: usize = 64;
/// 2^63 - 1: the largest file size and the largest number of seconds.
pub const MAX_SIZE: u64 = 9_223_372_036_854_775_807;
/// 2^35 - 1: the largest count of allocated blocks on a card.
pub const MAX_ALLOCATED: u64 = 34_359_738_367;
