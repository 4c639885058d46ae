//! Storing a call, stopped at every operation: by a kill, after which the system
//! has all that was written, and by a loss of power, after which it has any part
//! of what was not synced.

mod common;

use std::collections::BTreeMap;
use std::io;

use common::*;
use random::Rng;
use sangueko::StoreBuf;
use tool::buffer::Buffer;
use tool::disk::{Disk, FolderDisk};
use tool::journal::{self, Before, JOURNAL, UNFINISHED, Unstored};

fn stopped() -> io::Error {
    io::Error::other("stopped")
}

/// A disk that stops at its operation `left`, having done a part of it.
struct Stops<D> {
    disk: D,
    left: usize,
}

impl<D: Disk> Stops<D> {
    fn step(&mut self) -> bool {
        let goes = self.left > 0;
        self.left = self.left.saturating_sub(1);
        goes
    }
}

impl<D: Disk> Disk for Stops<D> {
    fn create(&mut self, name: &str, bytes: &[u8]) -> io::Result<()> {
        if self.step() {
            return self.disk.create(name, bytes);
        }
        if self.left == 0 {
            self.disk.create(name, &bytes[..bytes.len() / 2])?;
        }
        Err(stopped())
    }

    fn patch(&mut self, name: &str, offset: u64, bytes: &[u8]) -> io::Result<()> {
        if self.step() {
            return self.disk.patch(name, offset, bytes);
        }
        self.disk.patch(name, offset, &bytes[..bytes.len() / 2])?;
        Err(stopped())
    }

    fn sync(&mut self, name: &str) -> io::Result<()> {
        if self.step() {
            self.disk.sync(name)
        } else {
            Err(stopped())
        }
    }

    fn rename(&mut self, from: &str, to: &str) -> io::Result<()> {
        if self.step() {
            self.disk.rename(from, to)
        } else {
            Err(stopped())
        }
    }

    fn remove(&mut self, name: &str) -> io::Result<()> {
        if self.step() {
            self.disk.remove(name)
        } else {
            Err(stopped())
        }
    }

    fn sync_folder(&mut self) -> io::Result<()> {
        if self.step() {
            self.disk.sync_folder()
        } else {
            Err(stopped())
        }
    }

    fn read(&mut self, name: &str) -> io::Result<Option<Vec<u8>>> {
        self.disk.read(name)
    }

    fn length(&mut self, name: &str) -> io::Result<Option<u64>> {
        self.disk.length(name)
    }
}

/// A disk in memory that knows what was synced.
#[derive(Clone, Default)]
struct Memory {
    names: BTreeMap<String, usize>,
    files: Vec<Vec<u8>>,
    synced_names: BTreeMap<String, usize>,
    synced_files: Vec<Vec<u8>>,
    /// The names as they were after each operation since the last sync.
    pending: Vec<BTreeMap<String, usize>>,
    syncs: usize,
    /// A sync that does nothing.
    lame: Option<usize>,
}

impl Memory {
    fn of(store: &StoreBuf) -> Self {
        let mut memory = Self::default();
        for buffer in Buffer::ALL {
            memory.create(buffer.name(), buffer.of(store)).unwrap();
            memory.sync(buffer.name()).unwrap();
        }
        memory.sync_folder().unwrap();
        memory.syncs = 0;
        memory
    }

    fn file(&self, name: &str) -> io::Result<usize> {
        self.names
            .get(name)
            .copied()
            .ok_or_else(|| io::ErrorKind::NotFound.into())
    }

    fn syncs(&mut self) -> bool {
        self.syncs += 1;
        self.lame != Some(self.syncs - 1)
    }

    /// The names after some of the operations, and of each file's sectors either
    /// the old or the new bytes.
    fn without_power(&self, random: &mut Rng) -> Self {
        let mut names = self.pending.clone();
        names.push(self.synced_names.clone());
        let names = names[random.index(names.len())].clone();
        let mut files = Vec::new();
        for (at, new) in self.files.iter().enumerate() {
            let old = self.synced_files.get(at).cloned().unwrap_or_default();
            if old == *new {
                files.push(old);
                continue;
            }
            let length = if random.percent(50) {
                old.len()
            } else {
                new.len()
            };
            let mut mixed = vec![0; length];
            for (n, sector) in mixed.chunks_mut(512).enumerate() {
                let from = if random.percent(50) { &old } else { new };
                let part = from.get(n * 512..).unwrap_or_default();
                let bytes = part.len().min(sector.len());
                sector[..bytes].copy_from_slice(&part[..bytes]);
            }
            files.push(mixed);
        }
        Self {
            synced_names: names.clone(),
            names,
            synced_files: files.clone(),
            files,
            ..Self::default()
        }
    }

    fn holds(&self, store: &StoreBuf) -> bool {
        Buffer::ALL.into_iter().all(|buffer| {
            let file = self.file(buffer.name()).unwrap();
            self.files[file] == *buffer.of(store)
        })
    }
}

impl Disk for Memory {
    fn create(&mut self, name: &str, bytes: &[u8]) -> io::Result<()> {
        self.names.insert(name.into(), self.files.len());
        self.files.push(bytes.to_vec());
        self.synced_files.push(Vec::new());
        self.pending.push(self.names.clone());
        Ok(())
    }

    fn patch(&mut self, name: &str, offset: u64, bytes: &[u8]) -> io::Result<()> {
        let file = self.file(name)?;
        let offset = offset as usize;
        self.files[file][offset..offset + bytes.len()].copy_from_slice(bytes);
        Ok(())
    }

    fn sync(&mut self, name: &str) -> io::Result<()> {
        let file = self.file(name)?;
        if self.syncs() {
            self.synced_files[file] = self.files[file].clone();
        }
        Ok(())
    }

    fn rename(&mut self, from: &str, to: &str) -> io::Result<()> {
        let file = self.file(from)?;
        self.names.remove(from);
        self.names.insert(to.into(), file);
        self.pending.push(self.names.clone());
        Ok(())
    }

    fn remove(&mut self, name: &str) -> io::Result<()> {
        self.file(name)?;
        self.names.remove(name);
        self.pending.push(self.names.clone());
        Ok(())
    }

    fn sync_folder(&mut self) -> io::Result<()> {
        if self.syncs() {
            self.synced_names = self.names.clone();
            self.pending.clear();
        }
        Ok(())
    }

    fn read(&mut self, name: &str) -> io::Result<Option<Vec<u8>>> {
        Ok(self.names.get(name).map(|file| self.files[*file].clone()))
    }

    fn length(&mut self, name: &str) -> io::Result<Option<u64>> {
        Ok(self
            .names
            .get(name)
            .map(|file| self.files[*file].len() as u64))
    }
}

/// A store before and after a call, and the call's journal.
fn change() -> (StoreBuf, StoreBuf, Vec<u8>) {
    let mut before = fresh(64, 1, PLACES);
    before.lend().enter(1, 1, 0).unwrap();
    before.lend().write(1, 0, &bytes(70_000, 1), 2, 0).unwrap();
    let mut after = before.clone();
    let old = Before::of(&after);
    after
        .lend()
        .write(1, 40_000, &bytes(50_000, 2), 3, 0)
        .unwrap();
    let changes = old.changes(&after);
    let journal = journal::encode(&after, &changes);
    (before, after, journal)
}

#[test]
fn the_changes_are_all_that_changed() {
    let (before, after, _) = change();
    let changes = Before::of(&before).changes(&after);
    let mut made = before.clone();
    for (buffer, range) in &changes {
        let to = match buffer {
            Buffer::Image => &mut made.image,
            Buffer::Head => &mut made.head,
            Buffer::Cards => &mut made.cards,
            Buffer::Extents => &mut made.extents,
            Buffer::Groups => &mut made.groups,
            Buffer::Used => &mut made.used,
            Buffer::Retired => &mut made.retired,
        };
        to[range.clone()].copy_from_slice(&buffer.of(&after)[range.clone()]);
    }
    assert_eq!(made, after);
    let blocks = changes
        .iter()
        .filter(|(buffer, _)| *buffer == Buffer::Image);
    assert!(
        blocks.count() < 32,
        "of 64 blocks only the new ones are in the journal"
    );
}

/// Operations of a call that is not stopped.
fn operations(before: &StoreBuf, journal: &[u8]) -> usize {
    let many = 1_000_000;
    let mut disk = Stops {
        disk: Memory::of(before),
        left: many,
    };
    journal::store(&mut disk, journal).unwrap();
    many - disk.left
}

#[test]
fn stopped_at_every_operation_the_folder_is_as_before_or_after() {
    let temporary = Temporary::new();
    let (before, after, journal) = change();
    let operations = operations(&before, &journal);
    assert!(operations > 20, "{operations}");
    let mut seen = (0, 0);
    for left in 0..operations {
        let folder = temporary.path(&format!("at-{left}"));
        put_store(&before, &folder);
        let disk = FolderDisk::new(&folder);
        let mut stops = Stops { disk, left };
        let why = journal::store(&mut stops, &journal).unwrap_err();
        // the same again while it recovers, at an operation further on each time
        for left in 0..3 {
            let disk = FolderDisk::new(&folder);
            let _ = journal::recover(&mut Stops { disk, left });
        }
        journal::recover(&mut FolderDisk::new(&folder)).unwrap();
        let now = store_in(&folder);
        match why {
            Unstored::Before(_) => {
                assert!(now == before, "operation {left}");
                seen.0 += 1;
            }
            Unstored::After(_) => {
                assert!(now == after, "operation {left}");
                seen.1 += 1;
            }
            Unstored::Damaged(why) => panic!("operation {left}: {why}"),
        }
        assert!(!folder.join(JOURNAL).exists() && !folder.join(UNFINISHED).exists());
        done(&["check", folder.to_str().unwrap()]);
    }
    assert!(seen.0 >= 3 && seen.1 > 10, "{seen:?}");
}

/// Losses of power at every operation; how many left neither of the two, and
/// whether a call that was answered was lost.
fn losses(lame: Option<usize>, times: usize) -> usize {
    let (before, after, journal) = change();
    let operations = operations(&before, &journal);
    let mut random = Rng::new(5);
    let mut wrong = 0;
    for left in 0..=operations {
        for _ in 0..times {
            let mut disk = Memory::of(&before);
            disk.lame = lame;
            let mut stops = Stops { disk, left };
            let stored = journal::store(&mut stops, &journal).is_ok();
            let mut disk = stops.disk.without_power(&mut random);
            // a second loss while it recovers
            let mut stops = Stops {
                disk: disk.clone(),
                left: random.index(operations),
            };
            if random.percent(50) {
                let _ = journal::recover(&mut stops);
                disk = stops.disk.without_power(&mut random);
            }
            let recovered = journal::recover(&mut disk).is_ok();
            let right = if stored {
                disk.holds(&after)
            } else {
                disk.holds(&before) || disk.holds(&after)
            };
            wrong += usize::from(!recovered || !right);
        }
    }
    wrong
}

#[test]
fn a_loss_of_power_leaves_before_or_after() {
    assert_eq!(losses(None, 40), 0);
}

/// Each sync is needed: without it some loss of power does harm. The last one
/// keeps the journal from coming back, which only a program without journal can
/// notice.
#[test]
fn without_one_of_the_syncs_a_loss_of_power_does_harm() {
    let (before, _, journal) = change();
    let mut disk = Memory::of(&before);
    journal::store(&mut disk, &journal).unwrap();
    assert!(disk.syncs >= 6);
    for lame in 0..disk.syncs - 1 {
        assert!(losses(Some(lame), 8) > 0, "sync {lame}");
    }
}

#[test]
fn a_damaged_or_foreign_journal_is_not_applied() {
    let (before, _, journal) = change();
    let mut random = Rng::new(9);
    for _ in 0..200 {
        let mut broken = journal.clone();
        match random.below(3) {
            0 => broken.truncate(random.index(journal.len())),
            1 => broken.push(0),
            _ => {
                let at = random.index(broken.len());
                broken[at] ^= 1 << random.below(8);
            }
        }
        let mut disk = Memory::of(&before);
        disk.create(JOURNAL, &broken).unwrap();
        assert!(matches!(
            journal::recover(&mut disk),
            Err(Unstored::Damaged(_))
        ));
        assert!(disk.holds(&before));
    }
    let other = layout();
    let mut disk = Memory::of(&other);
    disk.create(JOURNAL, &journal).unwrap();
    assert!(matches!(
        journal::recover(&mut disk),
        Err(Unstored::Damaged(_))
    ));
    assert!(disk.holds(&other));
}

/// What the program does with a folder that was left in the middle of a call.
#[test]
fn any_command_ends_an_interrupted_call() {
    let temporary = Temporary::new();
    let (before, after, journal) = change();
    for words in ["fill", "check", "show", "settle"] {
        let folder = temporary.path(words);
        put_store(&before, &folder);
        std::fs::write(folder.join(JOURNAL), &journal).unwrap();
        std::fs::write(folder.join(UNFINISHED), b"sangueko").unwrap();
        // half applied
        std::fs::write(folder.join("used"), &after.used).unwrap();
        done(&[words, folder.to_str().unwrap()]);
        let mut expected = after.clone();
        if words == "settle" {
            expected.lend().settle().unwrap();
        }
        assert!(store_in(&folder) == expected, "{words}");
        assert!(!folder.join(JOURNAL).exists() && !folder.join(UNFINISHED).exists());
    }
    let folder = temporary.path("damaged");
    put_store(&before, &folder);
    std::fs::write(folder.join(JOURNAL), &journal[1..]).unwrap();
    let message = refused(&["fill", folder.to_str().unwrap()], 74);
    assert!(
        message.contains("journal") && message.contains("nothing was changed"),
        "{message}"
    );
    assert!(store_in(&folder) == before);
}
