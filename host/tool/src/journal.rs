//! How a call's result is stored, so that a kill or a loss of power at any
//! moment leaves the folder as it was before the call or as it is after it.
//!
//! Seven files cannot be exchanged at once, but one name can. So the bytes that
//! a call changed are first written to `journal.new` and synced; the rename to
//! `journal` is the moment at which the call counts. Only then are the seven
//! files changed in place and synced, and the journal is removed. Whoever opens a
//! folder with a `journal` does that last part again: its entries say which bytes
//! stand where, not how they came about, so that doing it twice, or again after
//! half of it, gives the same. A `journal.new` is the rest of a call that never
//! counted, and is thrown away.
//!
//! Each sync is there for a loss of power, after which the disk may hold any part
//! of what was not synced:
//!
//! 1. `journal.new` written and synced: or the name `journal` could stand for
//!    bytes that are not there.
//! 2. renamed, the folder synced: or the files could be half changed with no
//!    journal beside them.
//! 3. the files changed and synced: or the journal could be gone before they are.
//! 4. the journal removed, the folder synced: or it could come back later and undo
//!    what another program has done to the files in the meantime.
//!
//! The format, numbers little-endian: the 16 bytes `sangueko journal`; the lengths
//! of the seven files, 8 bytes each, so that a journal that came from another
//! store is not applied; the number of entries, 8 bytes; the entries, each the
//! buffer (1 byte, 0 to 6), the offset (8), the length (8) and the bytes; at the
//! end the CRC-32C of all that, 4 bytes, so that a damaged one is not applied.

use std::io;
use std::ops::Range;

use sangueko::{BLOCK_BYTES, StoreBuf};

use crate::buffer::{Buffer, Lengths};
use crate::crc32c::crc32c;
use crate::disk::Disk;

pub const JOURNAL: &str = "journal";
pub const UNFINISHED: &str = "journal.new";

const MAGIC: &[u8; 16] = b"sangueko journal";

/// Why a call is not in the seven files.
#[derive(Debug)]
pub enum Unstored {
    /// The folder is as it was before the call.
    Before(io::Error),
    /// The call counts, and its journal waits to be applied.
    After(io::Error),
    /// There is a journal that cannot be applied, and why.
    Damaged(&'static str),
}

/// What the store held before a call, without the image.
pub struct Before(StoreBuf);

impl Before {
    pub fn of(store: &StoreBuf) -> Self {
        Self(StoreBuf {
            image: Vec::new(),
            head: store.head.clone(),
            cards: store.cards.clone(),
            extents: store.extents.clone(),
            groups: store.groups.clone(),
            used: store.used.clone(),
            retired: store.retired.clone(),
        })
    }

    /// The bytes that the call changed, in pieces of at most a block.
    ///
    /// Of the image these are blocks that became used: document 01 lets a call
    /// write to new blocks alone ("no other image byte changes"), and it is
    /// proved of the library. So no copy of the image has to be kept and compared.
    pub fn changes(&self, after: &StoreBuf) -> Vec<(Buffer, Range<usize>)> {
        let mut changes = new_blocks(&self.0.used, &after.used, after.image.len());
        for buffer in &Buffer::ALL[1..] {
            let (old, new) = (buffer.of(&self.0), buffer.of(after));
            let pieces = old.chunks(BLOCK_BYTES).zip(new.chunks(BLOCK_BYTES));
            for (at, (old, new)) in pieces.enumerate() {
                if old != new {
                    let from = at * BLOCK_BYTES;
                    changes.push((*buffer, from..from + new.len()));
                }
            }
        }
        changes
    }
}

fn new_blocks(old: &[u8], new: &[u8], image: usize) -> Vec<(Buffer, Range<usize>)> {
    let became = old.iter().zip(new).enumerate();
    became
        .filter(|(_, (old, new))| old != new)
        .flat_map(|(at, (old, new))| {
            let bits = new & !old;
            (0..8)
                .filter(move |bit| bits >> bit & 1 == 1)
                .map(move |bit| at * 8 + bit)
        })
        .map(|block| {
            (
                Buffer::Image,
                block * BLOCK_BYTES..(block + 1) * BLOCK_BYTES,
            )
        })
        .filter(|(_, bytes)| bytes.end <= image)
        .collect()
}

/// The journal of these changes.
pub fn encode(store: &StoreBuf, changes: &[(Buffer, Range<usize>)]) -> Vec<u8> {
    let mut journal = MAGIC.to_vec();
    for buffer in Buffer::ALL {
        put(&mut journal, buffer.of(store).len());
    }
    put(&mut journal, changes.len());
    for (buffer, range) in changes {
        journal.push(buffer.index() as u8);
        put(&mut journal, range.start);
        put(&mut journal, range.len());
        journal.extend_from_slice(&buffer.of(store)[range.clone()]);
    }
    let seal = crc32c(&[&journal]);
    journal.extend_from_slice(&seal.to_le_bytes());
    journal
}

fn put(journal: &mut Vec<u8>, number: usize) {
    journal.extend_from_slice(&(number as u64).to_le_bytes());
}

#[derive(Debug)]
struct Entry<'a> {
    buffer: Buffer,
    offset: u64,
    bytes: &'a [u8],
}

/// The lengths of the files that a journal is for, and its entries.
fn decode(journal: &[u8]) -> Option<(Lengths, Vec<Entry<'_>>)> {
    let (sealed, seal) = journal.split_last_chunk::<4>()?;
    if crc32c(&[sealed]) != u32::from_le_bytes(*seal) {
        return None;
    }
    let mut rest = sealed.strip_prefix(MAGIC)?;
    let mut lengths = Lengths::default();
    for length in &mut lengths {
        *length = take(&mut rest)?;
    }
    let mut entries = Vec::new();
    for _ in 0..take(&mut rest)? {
        let (&buffer, after) = rest.split_first()?;
        rest = after;
        let buffer = Buffer::of_index(buffer)?;
        let offset = take(&mut rest)?;
        let length = take(&mut rest)?;
        let (bytes, after) = rest.split_at_checked(usize::try_from(length).ok()?)?;
        rest = after;
        if offset.checked_add(length)? > lengths[buffer.index()] {
            return None;
        }
        entries.push(Entry {
            buffer,
            offset,
            bytes,
        });
    }
    rest.is_empty().then_some((lengths, entries))
}

fn take(rest: &mut &[u8]) -> Option<u64> {
    let (number, after) = rest.split_first_chunk::<8>()?;
    *rest = after;
    Some(u64::from_le_bytes(*number))
}

/// Stores a call by its journal.
pub fn store(disk: &mut impl Disk, journal: &[u8]) -> Result<(), Unstored> {
    let written = disk
        .create(UNFINISHED, journal)
        .and_then(|()| disk.sync(UNFINISHED))
        .and_then(|()| disk.rename(UNFINISHED, JOURNAL));
    if let Err(error) = written {
        // what is left of it takes room, and has no other use; the next one that
        // opens the folder tries again
        let _ = disk.remove(UNFINISHED);
        return Err(Unstored::Before(error));
    }
    disk.sync_folder().map_err(Unstored::After)?;
    apply(disk, journal)
}

/// Brings a folder that was left in the middle of a call to the call's end, or
/// to its beginning. Whoever calls it is alone with the folder.
pub fn recover(disk: &mut impl Disk) -> Result<(), Unstored> {
    if disk.length(UNFINISHED).map_err(Unstored::Before)?.is_some() {
        disk.remove(UNFINISHED).map_err(Unstored::Before)?;
    }
    match disk.read(JOURNAL).map_err(Unstored::After)? {
        None => Ok(()),
        Some(journal) => {
            // its name may have come without a sync of the folder
            disk.sync_folder().map_err(Unstored::After)?;
            apply(disk, &journal)
        }
    }
}

/// Whether [`recover`] would have something to do.
pub fn is_pending(disk: &mut impl Disk) -> io::Result<bool> {
    Ok(disk.length(JOURNAL)?.is_some() || disk.length(UNFINISHED)?.is_some())
}

fn apply(disk: &mut impl Disk, journal: &[u8]) -> Result<(), Unstored> {
    let (lengths, entries) = decode(journal).ok_or(Unstored::Damaged(
        "its bytes are not those that were written",
    ))?;
    for buffer in Buffer::ALL {
        let length = disk.length(buffer.name()).map_err(Unstored::After)?;
        if length != Some(lengths[buffer.index()]) {
            return Err(Unstored::Damaged("it is for files of other lengths"));
        }
    }
    put_in_place(disk, &entries).map_err(Unstored::After)
}

fn put_in_place(disk: &mut impl Disk, entries: &[Entry<'_>]) -> io::Result<()> {
    for entry in entries {
        disk.patch(entry.buffer.name(), entry.offset, entry.bytes)?;
    }
    for buffer in Buffer::ALL {
        if entries.iter().any(|entry| entry.buffer == buffer) {
            disk.sync(buffer.name())?;
        }
    }
    disk.remove(JOURNAL)?;
    disk.sync_folder()
}
