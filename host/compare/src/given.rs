//! By which rule units were given their new blocks: counted of accepted writes,
//! archive writes and grows, from the store before and after.

use std::collections::BTreeMap;
use std::fmt::Write;

use model::records::{Head, map_bit};
use model::{BLOCKS_PER_UNIT, Call, GROUP_BLOCKS, Store, Volume};
use oracle::parts::published_after;

/// Units that were given new blocks.
#[derive(Clone, Debug, Default)]
pub struct Given {
    /// W-208's rule: in one run.
    pub one_run: u64,
    /// Of those, units that wanted more than one block.
    pub more_than_one: u64,
    /// Of those in one run, units that the present rule gives other blocks.
    pub other: u64,
    /// The present rule: no group had a run.
    pub present: u64,
    /// Of all, units on stores of several allocation groups.
    pub in_groups: u64,
}

impl Given {
    /// Count the units of an accepted call on a store with this head and used map.
    /// Which rule it was shows in the blocks: the present rule is asked where no
    /// group has a run, and so gives none.
    pub fn count(&mut self, call: &Call, head: &[u8], used: &[u8], after: &Store) {
        let (Call::Write { object, .. }
        | Call::WriteArchive { object, .. }
        | Call::Grow { object, .. }) = call
        else {
            return;
        };
        let Head {
            blocks, mut hint, ..
        } = Head::decode(head);
        let mut taken = Vec::new();
        for new in new_blocks(*object, used, after).into_values() {
            let (first, last) = (new[0], new[new.len() - 1]);
            let wanted = new.len() as u64;
            let adjoin = last - first + 1 == wanted;
            if adjoin && first / GROUP_BLOCKS == last / GROUP_BLOCKS {
                let published = published_after(used, blocks, hint, &taken, wanted);
                self.one_run += 1;
                self.more_than_one += u64::from(wanted > 1);
                self.other += u64::from(published.as_ref() != Some(&new));
            } else {
                self.present += 1;
            }
            self.in_groups += u64::from(blocks > GROUP_BLOCKS);
            hint = last / GROUP_BLOCKS;
            taken.extend(new);
        }
    }

    pub fn report(&self) -> String {
        let mut text = String::new();
        let all = self.one_run + self.present;
        let _ = writeln!(
            text,
            "units that were given new blocks: {all}, {} of them in several allocation groups",
            self.in_groups
        );
        let _ = writeln!(
            text,
            "  in one run: {} ({} wanted more than one block); the present rule gives {} of them other blocks",
            self.one_run, self.more_than_one, self.other
        );
        let _ = writeln!(text, "  by the present rule: {}", self.present);
        text
    }
}

/// The blocks of each unit of a file that were free before, by its number.
fn new_blocks(object: u64, used: &[u8], after: &Store) -> BTreeMap<u64, Vec<u64>> {
    let mut units: BTreeMap<u64, Vec<u64>> = BTreeMap::new();
    let extents = Volume::decode(after).extents;
    for extent in extents.iter().filter(|extent| extent.object == object) {
        for index in 0..extent.count {
            let block = extent.physical + index;
            if !map_bit(used, block) {
                let unit = (extent.logical + index) / BLOCKS_PER_UNIT;
                units.entry(unit).or_default().push(block);
            }
        }
    }
    units
}
