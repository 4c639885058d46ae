//! A store that is decoded once and then stays mounted: file.rs as it would run
//! in a server, for the benchmark. Calls that are refused after they have
//! changed records are not undone.

use model::records::Head;
use model::{Store, Time};

use crate::device::BlockDevice;
use crate::tree::{Edge, Root};
use crate::{Error, Result};

use super::driver::{Books, catalog};
use super::{Handle, ObjectId, Registry, Timestamp, Volume};

/// The blocks in memory. Pages are written where they belong at once.
struct Memory(Vec<u8>);

impl Memory {
    fn range(&mut self, offset: u64, length: usize) -> Result<&mut [u8]> {
        let end = (offset as usize).checked_add(length);
        end.and_then(|end| self.0.get_mut(offset as usize..end))
            .ok_or(Error::InvalidInput("range past the device"))
    }
}

impl BlockDevice for Memory {
    fn read_data_exact_at(
        &mut self,
        offset: u64,
        out: &mut [u8],
        _run_end: u64,
        _next_run: Option<u64>,
    ) -> Result<()> {
        out.copy_from_slice(self.range(offset, out.len())?);
        Ok(())
    }

    fn write_page(&mut self, offset: u64, page: &[u8]) -> Result<()> {
        self.range(offset, page.len())?.copy_from_slice(page);
        Ok(())
    }
}

/// The published volume over a store's records and blocks.
pub struct Mounted(Volume<Memory>);

/// The records, maps and hint of a mounted store, as they were.
pub struct Kept {
    catalog: Edge,
    used: Vec<u8>,
    retired: Vec<u8>,
    hint: u64,
}

impl Mounted {
    /// The store, which is past refusals 1 and 2.
    pub fn new(store: &Store) -> Self {
        let head = Head::decode(&store.head);
        Self(Volume {
            catalog: catalog(store, &head),
            used: store.used.clone(),
            retired: store.retired.clone(),
            data_hint: head.hint,
            root: Root {
                uuid: head.uuid,
                blocks: head.blocks,
            },
            handles: Registry,
            device: Memory(store.image.clone()),
        })
    }

    pub fn read(&mut self, object: u64, offset: u64, out: &mut [u8]) -> Option<usize> {
        self.0.read(&Handle(ObjectId(object)), offset, out).ok()
    }

    pub fn write(&mut self, object: u64, offset: u64, bytes: &[u8], time: Time) -> Option<usize> {
        Timestamp::lend(time);
        self.0.write(&Handle(ObjectId(object)), offset, bytes).ok()
    }

    pub fn grow(&mut self, object: u64, size: u64, time: Time) -> Option<()> {
        Timestamp::lend(time);
        self.0.truncate(&Handle(ObjectId(object)), size).ok()
    }

    pub fn keep(&self) -> Kept {
        let Volume {
            catalog,
            used,
            retired,
            data_hint,
            ..
        } = &self.0;
        Kept {
            catalog: catalog.apart(),
            used: used.clone(),
            retired: retired.clone(),
            hint: *data_hint,
        }
    }

    /// The store as it was kept, but for blocks that were free: a call writes
    /// to those alone.
    pub fn set_back(&mut self, kept: &Kept) {
        self.0.catalog = kept.catalog.apart();
        self.0.used.clone_from(&kept.used);
        self.0.retired.clone_from(&kept.retired);
        self.0.data_hint = kept.hint;
    }

    /// Whether it is the store in these bytes: every record, bit and block.
    pub fn agrees(&self, store: &Store) -> bool {
        let mut records = Store::default();
        records.copy_records_from(store);
        Books::of(&self.0.catalog).store(&mut records, self.0.data_hint);
        records.used.clone_from(&self.0.used);
        records.retired.clone_from(&self.0.retired);
        records.records_equal(store) && self.0.device.0 == store.image
    }

    /// Frees what the calls so far have retired, as settle does.
    pub fn settle(&mut self) {
        for (used, retired) in self.0.used.iter_mut().zip(&mut self.0.retired) {
            *used &= !*retired;
            *retired = 0;
        }
    }
}
