//! `new`: a store made whole or not at all.

use std::ffi::OsString;
use std::fmt;
use std::fs::{self, File};
use std::io::{self, Read, Write};
use std::os::unix::fs::MetadataExt;
use std::path::{Path, PathBuf};

use sangueko::{Places, Refusal, StoreBuf};

use crate::buffer::Buffer;
use crate::failure::Failure;
use crate::lock::{self, Kind, LOCK, Wait};
use crate::words::{counted, grouped};

pub struct Wanted {
    pub blocks: usize,
    pub reserved: u64,
    pub places: Places,
    pub uuid: [u8; 16],
}

impl fmt::Display for Wanted {
    fn fmt(&self, f: &mut fmt::Formatter<'_>) -> fmt::Result {
        let Places {
            cards,
            extents,
            groups,
        } = self.places;
        write!(
            f,
            "{}, {} reserved, and places for {}, {} and {}",
            counted(self.blocks, "block"),
            grouped(self.reserved),
            counted(cards, "card"),
            counted(extents, "extent"),
            counted(groups, "group")
        )
    }
}

pub fn random_uuid() -> Result<[u8; 16], Failure> {
    let path = Path::new("/dev/urandom");
    let mut uuid = [0; 16];
    File::open(path)
        .and_then(|mut file| file.read_exact(&mut uuid))
        .map_err(|error| Failure::on("reading", path, error))?;
    Ok(uuid)
}

/// The store is written to a folder beside and renamed, so that FOLDER is never a
/// part of a store. The image is written out, zeros and all: then the disk has
/// room for every later call but its journal, and a full disk stops a call before
/// it counts.
pub fn make(folder: &Path, wanted: &Wanted) -> Result<(), Failure> {
    let refused = |refusal: Refusal| Failure::Unmade {
        refusal,
        wanted: wanted.to_string(),
    };
    let mut store = StoreBuf::new(wanted.blocks, wanted.places).map_err(refused)?;
    store
        .lend()
        .fresh(&wanted.uuid, wanted.reserved)
        .map_err(refused)?;

    let beside = beside(folder)?;
    is_free(folder)?;
    make_folder(&beside)?;
    let lock = lock::take(&beside, Kind::Exclusive, Wait::Yes)?;
    if !is_lock_of(&beside, lock.as_ref()) {
        // while we waited, another `new` has renamed what we waited for
        return is_free(folder).and(Err(Failure::Locked(folder.to_path_buf())));
    }
    let made = is_free(folder)
        .and_then(|()| fill(&beside, &store))
        .and_then(|()| {
            fs::rename(&beside, folder)
                .and_then(|()| File::open(parent(folder))?.sync_all())
                .map_err(|error| Failure::on("making", folder, error))
        });
    if made.is_err() {
        // nobody else is in it: the lock is ours
        let _ = clear(&beside)
            .and_then(|()| fs::remove_file(beside.join(LOCK)))
            .and_then(|()| fs::remove_dir(&beside));
    }
    made
}

/// One that a killed `new` left is used again.
fn make_folder(path: &Path) -> Result<(), Failure> {
    match fs::create_dir(path) {
        Err(error) if error.kind() != io::ErrorKind::AlreadyExists => {
            Err(Failure::on("making", path, error))
        }
        _ => Ok(()),
    }
}

/// Takes away what an earlier attempt left, and nothing else.
fn clear(beside: &Path) -> io::Result<()> {
    for buffer in Buffer::ALL {
        match fs::remove_file(beside.join(buffer.name())) {
            Err(error) if error.kind() != io::ErrorKind::NotFound => return Err(error),
            _ => {}
        }
    }
    Ok(())
}

fn is_lock_of(folder: &Path, lock: Option<&File>) -> bool {
    let held = lock.and_then(|lock| lock.metadata().ok());
    let found = fs::metadata(folder.join(LOCK)).ok();
    let identity = |found: fs::Metadata| (found.dev(), found.ino());
    held.is_some() && held.map(identity) == found.map(identity)
}

fn parent(folder: &Path) -> PathBuf {
    match folder.parent() {
        Some(parent) if parent != Path::new("") => parent.to_path_buf(),
        _ => PathBuf::from("."),
    }
}

/// Where the store is written first: a name that nobody else uses.
fn beside(folder: &Path) -> Result<PathBuf, Failure> {
    let name = folder.file_name().ok_or_else(|| {
        Failure::Usage(format!(
            "new: `{}` has no name: name the folder from the one above it",
            folder.display()
        ))
    })?;
    let mut beside = OsString::from(name);
    beside.push(".sangueko-new");
    Ok(folder.with_file_name(beside))
}

fn is_free(folder: &Path) -> Result<(), Failure> {
    let folder_in_words = folder.display();
    match fs::read_dir(folder).map(|mut entries| entries.next().is_none()) {
        Err(error) if error.kind() == io::ErrorKind::NotFound => Ok(()),
        Err(error) if error.kind() == io::ErrorKind::NotADirectory => Err(Failure::NoStore(
            format!("{folder_in_words} is a file: choose another name; it is untouched"),
        )),
        Err(error) => Err(Failure::on("opening", folder, error)),
        Ok(true) => Ok(()),
        Ok(false) => Err(Failure::NoStore(format!(
            "{folder_in_words} is there already and not empty: choose another name, or move it away; it is untouched"
        ))),
    }
}

/// The seven files, and nothing that an earlier attempt left.
fn fill(beside: &Path, store: &StoreBuf) -> Result<(), Failure> {
    clear(beside).map_err(|error| Failure::on("clearing", beside, error))?;
    for buffer in Buffer::ALL {
        let path = beside.join(buffer.name());
        let written = File::create_new(&path).and_then(|mut file| {
            file.write_all(buffer.of(store))?;
            file.sync_all()
        });
        written.map_err(|error| Failure::on("writing", &path, error))?;
    }
    let synced = File::open(beside).and_then(|folder| folder.sync_all());
    synced.map_err(|error| Failure::on("writing", beside, error))
}
