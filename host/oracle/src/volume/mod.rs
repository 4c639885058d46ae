//! `crate::volume`: the lent store as a `Volume`, and the published file.rs. And
//! `crate::archive`, the same over the file.rs of the archive call.

use std::cell::Cell;

use model::Time;

use crate::allocation::Transaction;
use crate::format::TreeKind;
use crate::name::Name;
use crate::tree::{Edge, Forest, Root};
use crate::{BlockDevice, Error, Result};

mod driver;
#[cfg(feature = "mounted")]
mod mounted;
mod namespace;

pub use driver::run;
#[cfg(feature = "mounted")]
pub use mounted::{Kept, Mounted};

// The published text, from where it stands, or build.rs's copy of it:
//     #[path = "<carryfs source>/src/volume/file.rs"] mod file;
//     #[path = "<OUT_DIR>/archive_file.rs"] mod file;
include!(concat!(env!("OUT_DIR"), file_mod!()));

use namespace::{Inode, inode_key};

thread_local! {
    static LENT_TIME: Cell<Time> = const { Cell::new(Time { seconds: 0, nanoseconds: 0 }) };
}

/// Stands for `volume::Timestamp`, and its `now` for the clock: the time that
/// the caller lends, refused as document 01's refusal 7 says. Left out: the
/// published range of years 1601 to 9999.
#[derive(Clone, Copy)]
pub struct Timestamp {
    pub(crate) seconds: u64,
    pub(crate) nanoseconds: u64,
}

impl From<Time> for Timestamp {
    fn from(time: Time) -> Self {
        Self {
            seconds: time.seconds,
            nanoseconds: time.nanoseconds,
        }
    }
}

impl From<Timestamp> for Time {
    fn from(time: Timestamp) -> Self {
        Self {
            seconds: time.seconds,
            nanoseconds: time.nanoseconds,
        }
    }
}

impl Timestamp {
    pub(crate) fn lend(time: Time) {
        LENT_TIME.set(time);
    }

    fn now() -> Result<Self> {
        let time = LENT_TIME.get();
        if time.seconds > model::MAX_SIZE || time.nanoseconds >= 1_000_000_000 {
            return Err(Error::InvalidInput("lent time out of range"));
        }
        Ok(time.into())
    }
}

#[derive(Clone, Copy)]
pub struct ObjectId(pub u64);

/// Stands for the kinds of an object; a card is a file.
#[derive(Clone, Copy, PartialEq, Eq)]
pub enum ObjectKind {
    File,
}

/// Stands for a handle's access; a lent store can always be written.
#[derive(Clone, Copy, PartialEq, Eq)]
pub enum Access {
    ReadWrite,
}

/// Stands for the opaque handle: the object's number itself.
pub struct Handle(pub(crate) ObjectId);

/// Stands for the registry of handles. Left out: slots, mounts, generations;
/// every handle is valid, so a missing object is found missing in the
/// catalog.
pub(crate) struct Registry;

impl Registry {
    fn has_room(&self) -> bool {
        true
    }

    fn open(&self, object: ObjectId, _: Access) -> Result<Handle> {
        Ok(Handle(object))
    }

    fn validate(&self, handle: &Handle) -> Result<ObjectId> {
        Ok(handle.0)
    }

    fn validate_access(&self, handle: &Handle) -> Result<(ObjectId, Access)> {
        Ok((handle.0, Access::ReadWrite))
    }
}

/// What `truncate` asks of an object.
pub(crate) struct Attributes {
    kind: ObjectKind,
    size: u64,
}

/// Stands for the mounted volume: the lent store. Left out: faults, batches,
/// checkpoints, caches, mount modes, and the directories through which
/// `create_file` and `open_file` go, which are not called.
pub struct Volume<D> {
    pub(crate) device: D,
    pub(crate) root: Root,
    pub(crate) catalog: Edge,
    pub(crate) used: Vec<u8>,
    pub(crate) retired: Vec<u8>,
    pub(crate) data_hint: u64,
    pub(crate) handles: Registry,
}

fn set_bit(map: &mut [u8], block: u64) {
    map[block as usize / 8] |= 1 << (block % 8);
}

impl<D: BlockDevice> Volume<D> {
    fn readable(&self) -> Result<()> {
        Ok(())
    }

    fn writable(&self) -> Result<()> {
        Ok(())
    }

    /// Stands for the publication of one edit: a failed one leaves no trace,
    /// a successful one stores its pages, bits and records.
    fn edit<T>(&mut self, mut edit: impl FnMut(&mut Transaction<'_, D>) -> Result<T>) -> Result<T> {
        let catalog = self.catalog.clone();
        let mut transaction = Transaction::new(&mut self.device, &self.root, catalog, &self.used);
        let result = edit(&mut transaction)?;
        let parts = transaction.into_parts();
        self.catalog = parts.catalog;
        for (block, page) in parts.pages {
            let offset = block * model::BLOCK_BYTES as u64;
            self.device.write_page(offset, page.0.as_slice())?;
        }
        for block in parts.allocated {
            set_bit(&mut self.used, block);
        }
        for block in parts.retired {
            set_bit(&mut self.retired, block);
        }
        Ok(result)
    }

    fn read_catalog<T>(
        &mut self,
        read: impl FnOnce(&mut Forest<'_, D>, Edge) -> Result<T>,
    ) -> Result<T> {
        let catalog = self.catalog.clone();
        read(&mut Forest::new(&mut self.device, &self.root), catalog)
    }

    fn attributes(&mut self, object: ObjectId) -> Result<Attributes> {
        self.read_catalog(|forest, catalog| {
            let value = forest
                .lookup(&catalog, TreeKind::Catalog, &inode_key(object.0))?
                .ok_or(Error::NotFound)?;
            let inode = Inode::decode(&value)?;
            Ok(Attributes {
                kind: inode.kind,
                size: inode.size,
            })
        })
    }

    fn create(&mut self, _: ObjectId, _: Name, _: ObjectKind) -> Result<ObjectId> {
        Err(Error::InvalidInput("directories are left out"))
    }

    fn lookup(&mut self, _: ObjectId, _: &Name) -> Result<ObjectId> {
        Err(Error::InvalidInput("directories are left out"))
    }
}
