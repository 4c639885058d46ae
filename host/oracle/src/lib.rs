//! The oracle: `src/volume/file.rs` of carryfs, unchanged and from where it
//! is published, over substitutes of equal names.
//!
//! | name | what stands here | where |
//! |---|---|---|
//! | `volume::file` | the published file, by `#[path]` | `volume/mod.rs` |
//! | `archive::file` | the published file with `MAX_UNIT_RUNS` set to 2, made by `build.rs`, for the archive call | `volume/mod.rs` |
//! | `write_data`, `retire_data` | their published text, cut out by `build.rs` | `allocation.rs` |
//! | `allocate_data` | its published text behind one statement for W-208's run; as published it is `allocate_data_as_published` | `allocation.rs` |
//! | `Transaction` | one call a transaction, no tree pages | `allocation.rs` |
//! | `Forest`, `Edge` | an ordered map; `read_data`, `write_data` are the published text | `tree.rs` |
//! | group functions, `Page` | their published text | `format.rs` |
//! | `data_unit_crc` | document 01's unit checksum | `format.rs` |
//! | `BlockDevice` | a byte slice | `device.rs` |
//! | `Inode` | the card | `volume/namespace.rs` |
//! | `Timestamp::now` | the lent time | `volume/mod.rs` |
//! | `Volume`, `Handle`, `Registry` | the lent store, an object number | `volume/mod.rs` |
//! | `Error` | the kinds that are named, and document 01's number for each | `answer.rs` |
//!
//! `volume` and `archive` are compiled from the same files, `volume/`: only the
//! text of `file` is another. [`run`] takes a store in document 01's bytes and
//! gives it back in the same bytes (`volume/driver.rs`), by `archive` for an
//! archive write and by `volume` for every other call. The source is found by
//! `build.rs`; without it [`AVAILABLE`] is false and [`run`] answers
//! [`Outcome::Absent`].

use std::io::Write;

mod answer;
pub mod parts;
pub use answer::{Error, OracleAnswer, Outcome};

#[cfg(carryfs)]
mod allocation;
#[cfg(carryfs)]
mod device;
#[cfg(carryfs)]
mod format;
#[cfg(carryfs)]
mod name;
#[cfg(carryfs)]
pub mod private;
#[cfg(carryfs)]
mod tree;

// Which text of file.rs the next instance of `volume/` compiles.
#[cfg(carryfs)]
macro_rules! file_mod {
    () => {
        "/file_mod.rs"
    };
}
#[cfg(carryfs)]
mod volume;

#[cfg(carryfs)]
macro_rules! file_mod {
    () => {
        "/archive_mod.rs"
    };
}
#[cfg(carryfs)]
#[allow(clippy::duplicate_mod)] // it is meant to be another instance
#[path = "volume/mod.rs"]
mod archive;

#[cfg(carryfs)]
use device::BlockDevice;
#[cfg(carryfs)]
type Result<T> = std::result::Result<T, Error>;

#[cfg(all(carryfs, feature = "mounted"))]
pub use archive::{Kept as ArchiveKept, Mounted as ArchiveMounted};
#[cfg(carryfs)]
pub use format::compact_group;
#[cfg(all(carryfs, feature = "mounted"))]
pub use format::{Checksum, compute_checksums_by};
#[cfg(all(carryfs, feature = "mounted"))]
pub use volume::{Kept, Mounted};

/// Whether the published source was there when the crate was built.
pub const AVAILABLE: bool = cfg!(carryfs);

/// Whether a test has nothing to ask; if so, a line on the terminal says so,
/// past the test harness, which would hold it back.
pub fn skipped(test: &str) -> bool {
    if !AVAILABLE {
        let reason = "no carryfs source at CARRYFS_SRC or beside the checkout";
        let _ = writeln!(std::io::stderr(), "skipped: {test}: {reason}");
    }
    !AVAILABLE
}

/// Run a write, an archive write, a grow or a read on a store past refusals 1
/// and 2.
#[cfg(carryfs)]
pub fn run(store: &mut model::Store, call: &model::Call) -> OracleAnswer {
    match call {
        model::Call::WriteArchive { .. } => archive::run(store, call),
        _ => volume::run(store, call),
    }
}

#[cfg(not(carryfs))]
pub fn run(_: &mut model::Store, call: &model::Call) -> OracleAnswer {
    OracleAnswer {
        outcome: Outcome::Absent,
        output: call.blank_output(),
    }
}
