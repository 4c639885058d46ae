//! `crate::format`: the group functions, `Page` and two constants are the
//! published text; the unit checksum is document 01's.

use crate::{Error, Result};

include!(concat!(env!("OUT_DIR"), "/format.rs"));

/// Stands for `carryfs_ondisk::crc::UNIT_BYTES`, whose file is not published.
pub(crate) const UNIT_BYTES: usize = 65_536;

/// Stands for `ondisk::format::TreeKind`. Left out: the trees beside the
/// catalog, since the allocation bitmaps are the lent used map.
#[derive(Clone, Copy)]
pub(crate) enum TreeKind {
    Catalog,
}

/// Stands for `carryfs_ondisk::crc::data_unit_crc`, whose file is not
/// published: document 01's unit checksum. Left out: its errors, of which
/// nothing is known.
pub(crate) fn data_unit_crc(uuid: &[u8; 16], object: u64, unit: u64, valid: &[u8]) -> Result<u32> {
    #[cfg(feature = "mounted")]
    let checksum = CHECKSUM.get();
    #[cfg(not(feature = "mounted"))]
    let checksum = model::crc32c::unit_checksum;
    Ok(checksum(uuid, object, unit, valid))
}

/// A way to compute the unit checksum.
#[cfg(feature = "mounted")]
pub type Checksum = fn(&[u8; 16], u64, u64, &[u8]) -> u32;

#[cfg(feature = "mounted")]
thread_local! {
    static CHECKSUM: std::cell::Cell<Checksum> =
        const { std::cell::Cell::new(model::crc32c::unit_checksum) };
}

/// From now on this thread's unit checksums are computed so.
#[cfg(feature = "mounted")]
pub fn compute_checksums_by(checksum: Checksum) {
    CHECKSUM.set(checksum);
}
