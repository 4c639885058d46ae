//! `crate::allocation`: `write_data` and `retire_data` as published, and
//! `allocate_data` with one run sought first, over a transaction of one call.

use std::collections::BTreeSet;

use crate::device::Image;
use crate::format::Page;
use crate::tree::{Edge, Forest, Root};
use crate::{BlockDevice, Error, Result};

include!(concat!(env!("OUT_DIR"), "/allocation.rs"));

/// Bytes of the used map for one allocation group.
const BITMAP: usize = 2048;

/// Stands for the published transaction, with one call in each: its catalog,
/// the blocks it allocated and those it retired. Left out: tree pages and the
/// workspace they come from, cleanup jobs, batches, generations, and the
/// reserve of free blocks that `seal` keeps for maintenance.
pub(crate) struct Transaction<'a, D> {
    pub(crate) forest: Forest<'a, D>,
    pub(crate) catalog: Edge,
    used: &'a [u8],
    allocated: BTreeSet<u64>,
    allocation_log: Vec<u64>,
    retired_data: Vec<Range>,
}

/// What a successful transaction leaves to be stored.
pub(crate) struct Parts {
    pub(crate) catalog: Edge,
    pub(crate) pages: Vec<(u64, Page)>,
    pub(crate) allocated: Vec<u64>,
    pub(crate) retired: Vec<u64>,
}

impl<'a, D: BlockDevice> Transaction<'a, D> {
    pub(crate) fn new(device: &'a mut D, base: &'a Root, catalog: Edge, used: &'a [u8]) -> Self {
        Self {
            forest: Forest::new(device, base),
            catalog,
            used,
            allocated: BTreeSet::new(),
            allocation_log: Vec::new(),
            retired_data: Vec::new(),
        }
    }

    /// Stands for the lookup of a group's bitmap: its part of the used map.
    fn bitmap(&mut self, group: u64) -> Result<Vec<u8>> {
        let from = group as usize * BITMAP;
        let to = (from + BITMAP).min(self.used.len());
        Ok(self.used[from..to].to_vec())
    }

    /// W-208, of which `build.rs` puts a call before the published text: "in the
    /// first group that has a run of free blocks, none taken by this call, at
    /// least as long as wanted it takes the first blocks of the lowest such run."
    /// Start and length of what it takes, as of a run of `allocate_data`.
    fn allocate_run(&mut self, count: u64, hint: u64) -> Result<Option<(u64, u64)>> {
        let blocks = self.forest.base.blocks;
        let groups = blocks.div_ceil(GROUP);
        for offset in 0..groups {
            let group = (hint % groups + offset) % groups;
            let first = group * GROUP;
            let end = (first + GROUP).min(blocks);
            let mut taken: Vec<u64> = self
                .bitmap(group)?
                .chunks_exact(8)
                .map(|word| u64::from_le_bytes(word.try_into().expect("eight bytes")))
                .collect();
            for block in self.allocated.range(first..end) {
                taken[((block - first) / 64) as usize] |= 1 << ((block - first) % 64);
            }
            if let Some(at) = clear_run(&taken, end - first, count) {
                let start = first + at;
                self.allocated.extend(start..start + count);
                self.allocation_log.extend(start..start + count);
                return Ok(Some((start, count)));
            }
        }
        Ok(None)
    }

    /// Stands for the detaching of records past a new, smaller size. Left
    /// out, as `shrink` is: no call of the oracle reaches it.
    pub(crate) fn detach_job(
        &mut self,
        _owner: u64,
        _low: &[u8],
        _high: &[u8],
        _kinds: (u8, u8),
    ) -> Result<u64> {
        Err(Error::InvalidInput("shrink is left out"))
    }

    /// Stands for `seal` and `publish`.
    pub(crate) fn into_parts(mut self) -> Parts {
        Parts {
            catalog: self.catalog,
            pages: self.forest.take_data(),
            allocated: self.allocation_log,
            retired: self
                .retired_data
                .iter()
                .flat_map(|range| range.start..range.start + range.count)
                .collect(),
        }
    }
}

/// Where the lowest `count` clear bits in a row begin, of the first `bits`: from
/// one change of the bits to the next, over the words' ends. None of no bit.
fn clear_run(words: &[u64], bits: u64, count: u64) -> Option<u64> {
    let (mut start, mut at) = (0, 0);
    while at < bits && count > 0 {
        let rest = words[(at / 64) as usize] >> (at % 64);
        if rest & 1 == 0 {
            at += u64::from(rest.trailing_zeros()).min(64 - at % 64);
            if at.min(bits) - start >= count {
                return Some(start);
            }
        } else {
            at += u64::from(rest.trailing_ones());
            start = at;
        }
    }
    None
}

/// `allocate_data` alone, or as it is published: what it gives for the units of
/// one call that want so many blocks each, and the hint after each. The first unit
/// for which too few are left ends the list.
pub(crate) fn allocate(
    used: &[u8],
    blocks: u64,
    hint: u64,
    wanted: &[u64],
    as_published: bool,
) -> Vec<(Vec<u64>, u64)> {
    with_transaction(used, blocks, |transaction| {
        let mut hint = hint;
        let mut units = Vec::new();
        for &count in wanted {
            let runs = match as_published {
                true => transaction.allocate_data_as_published(count, hint),
                false => transaction.allocate_data(count, hint),
            };
            let Ok(runs) = runs else {
                break;
            };
            let found = blocks_of(&runs);
            hint = found.last().map_or(hint, |last| last / GROUP);
            units.push((found, hint));
        }
        units
    })
}

/// `allocate_data` as it is published, for a unit of a call that has taken these
/// blocks; none where too few are left.
pub(crate) fn published_after(
    used: &[u8],
    blocks: u64,
    hint: u64,
    taken: &[u64],
    wanted: u64,
) -> Option<Vec<u64>> {
    with_transaction(used, blocks, |transaction| {
        transaction.allocated.extend(taken);
        let runs = transaction.allocate_data_as_published(wanted, hint);
        runs.ok().map(|runs| blocks_of(&runs))
    })
}

fn with_transaction<T>(
    used: &[u8],
    blocks: u64,
    run: impl FnOnce(&mut Transaction<'_, Image<'_>>) -> T,
) -> T {
    let uuid = [0; 16];
    let base = Root { uuid, blocks };
    let mut device = Image::new(&[]);
    run(&mut Transaction::new(
        &mut device,
        &base,
        Edge::default(),
        used,
    ))
}

fn blocks_of(runs: &[(u64, u64)]) -> Vec<u64> {
    runs.iter()
        .flat_map(|(start, n)| *start..start + n)
        .collect()
}
