//! `crate::volume::namespace`: the card in place of the inode record.

use crate::tree::u64_le;
use crate::{Error, Result};

use super::{ObjectKind, Timestamp};

// `inode_key` as published.
include!(concat!(env!("OUT_DIR"), "/namespace.rs"));

/// Stands for the inode: the card's fields behind its object. The record's
/// value holds each in 8 bytes, as wide as the Rust computes them; the driver
/// packs them into the card's bits. Left out: kinds, flags, parents, children
/// and symlink targets. `metadata_change` is set together with `modification` in
/// every call of the oracle and is not kept.
pub(crate) struct Inode {
    pub(crate) kind: ObjectKind,
    pub(crate) size: u64,
    pub(crate) allocated_blocks: u64,
    pub(crate) creation: Timestamp,
    pub(crate) modification: Timestamp,
    pub(crate) metadata_change: Timestamp,
}

impl Inode {
    pub(crate) fn decode(value: &[u8]) -> Result<Self> {
        let field = |n: usize| {
            let bytes = value.get(n * 8..n * 8 + 8);
            u64_le(bytes.ok_or(Error::Corrupt("invalid inode length"))?)
        };
        let time = |n: usize| -> Result<Timestamp> {
            Ok(Timestamp {
                seconds: field(n)?,
                nanoseconds: field(n + 1)?,
            })
        };
        let modification = time(2)?;
        Ok(Self {
            kind: ObjectKind::File,
            size: field(0)?,
            allocated_blocks: field(1)?,
            creation: time(4)?,
            modification,
            metadata_change: modification,
        })
    }

    pub(crate) fn encode(&self) -> Vec<u8> {
        [
            self.size,
            self.allocated_blocks,
            self.modification.seconds,
            self.modification.nanoseconds,
            self.creation.seconds,
            self.creation.nanoseconds,
        ]
        .iter()
        .flat_map(|field| field.to_le_bytes())
        .collect()
    }
}
