//! `crate::tree`: an ordered map of catalog records in place of the tree.

#[cfg(feature = "mounted")]
use std::cell::RefCell;
use std::collections::BTreeMap;
use std::ops::Bound;
use std::rc::Rc;

use crate::format::{BLOCK_BYTES, Page, TreeKind};
use crate::{BlockDevice, Error, Result};

// `u64_le`, `u64_be` and, of `Forest`, `write_data`, `take_data` and
// `read_data` as published.
include!(concat!(env!("OUT_DIR"), "/tree.rs"));

pub(crate) type Record = (Vec<u8>, Vec<u8>);
type Records = BTreeMap<Rc<[u8]>, Rc<[u8]>>;

/// Stands for the root edge of the catalog: a snapshot of its records, as an
/// edge of the published tree is one. Left out: pages, levels, generations,
/// block totals.
///
/// Of a mounted store all edges are the same records, changed in place: file.rs
/// keeps copies of an edge while it changes another, and a snapshot for each
/// would be charged to its time. It never reads from an older edge what it has
/// changed in a newer one.
#[derive(Clone, Default)]
pub(crate) struct Edge(Shared);

#[cfg(not(feature = "mounted"))]
type Shared = Rc<Records>;
#[cfg(feature = "mounted")]
type Shared = Rc<RefCell<Records>>;

impl Edge {
    pub(crate) fn of(records: impl Iterator<Item = Record>) -> Self {
        let records = records.map(|(key, value)| (key.into(), value.into()));
        let records: Records = records.collect();
        #[cfg(feature = "mounted")]
        let records = RefCell::new(records);
        Self(Rc::new(records))
    }

    pub(crate) fn records(&self) -> Vec<Record> {
        let pair = |(key, value): (&Rc<[u8]>, &Rc<[u8]>)| (key.to_vec(), value.to_vec());
        self.look(|records| records.iter().map(pair).collect())
    }

    /// The same records, which changes to these leave as they are.
    #[cfg(feature = "mounted")]
    pub(crate) fn apart(&self) -> Self {
        Self(Rc::new(RefCell::clone(&self.0)))
    }

    #[cfg(not(feature = "mounted"))]
    fn look<T>(&self, look: impl FnOnce(&Records) -> T) -> T {
        look(&self.0)
    }

    #[cfg(not(feature = "mounted"))]
    fn change(&mut self, change: impl FnOnce(&mut Records)) {
        change(Rc::make_mut(&mut self.0));
    }

    #[cfg(feature = "mounted")]
    fn look<T>(&self, look: impl FnOnce(&Records) -> T) -> T {
        look(&self.0.borrow())
    }

    #[cfg(feature = "mounted")]
    fn change(&mut self, change: impl FnOnce(&mut Records)) {
        change(&mut self.0.borrow_mut());
    }
}

/// Stands for the fields of `format::Root` that file.rs and `allocate_data`
/// read.
pub(crate) struct Root {
    pub uuid: [u8; 16],
    pub blocks: u64,
}

/// Stands for the tree's draft forest: the operations of an ordered map on
/// [`Edge`]s, and the published queue of data pages. Left out: page reads and
/// their checks (document 01's refusal 2 stands in their place), drafts,
/// caches, limits on pages, and the validation of a record that is put.
pub(crate) struct Forest<'a, D> {
    pub device: &'a mut D,
    pub base: &'a Root,
    data: Vec<(u64, Page)>,
    data_index: BTreeMap<u64, usize>,
}

impl<'a, D: BlockDevice> Forest<'a, D> {
    pub(crate) fn new(device: &'a mut D, base: &'a Root) -> Self {
        Self {
            device,
            base,
            data: Vec::new(),
            data_index: BTreeMap::new(),
        }
    }

    pub fn lookup(&mut self, root: &Edge, _: TreeKind, key: &[u8]) -> Result<Option<Vec<u8>>> {
        Ok(root.look(|records| records.get(key).map(|value| value.to_vec())))
    }

    /// The record with the greatest key less than or equal to `key`.
    pub fn floor(&mut self, root: &Edge, _: TreeKind, key: &[u8]) -> Result<Option<Record>> {
        let upto = (Bound::Unbounded, Bound::Included(key));
        Ok(root.look(|records| {
            let last = records.range::<[u8], _>(upto).next_back();
            last.map(|(key, value)| (key.to_vec(), value.to_vec()))
        }))
    }

    /// At most `limit` records from `start` on, before `end`.
    pub fn scan_before(
        &mut self,
        root: &Edge,
        _: TreeKind,
        start: &[u8],
        end: Option<&[u8]>,
        limit: usize,
    ) -> Result<Vec<Record>> {
        if limit > 64 {
            return Err(Error::LimitExceeded);
        }
        let from = (Bound::Included(start), Bound::Unbounded);
        Ok(root.look(|records| {
            records
                .range::<[u8], _>(from)
                .take_while(|(key, _)| end.is_none_or(|end| &***key < end))
                .take(limit)
                .map(|(key, value)| (key.to_vec(), value.to_vec()))
                .collect()
        }))
    }

    pub fn put(&mut self, root: Edge, _: TreeKind, key: &[u8], value: &[u8]) -> Result<Edge> {
        let mut root = root;
        root.change(|records| {
            records.insert(key.into(), value.into());
        });
        Ok(root)
    }

    pub fn remove(&mut self, root: Edge, _: TreeKind, key: &[u8]) -> Result<Edge> {
        let mut root = root;
        root.change(|records| {
            records.remove(key);
        });
        Ok(root)
    }
}
