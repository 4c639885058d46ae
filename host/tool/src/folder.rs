//! A store as a folder: the seven buffers as files of document 01's names, their
//! bytes exactly the lent bytes, so that any other program can lend them too.
//!
//! A command loads all of them, since a call is lent the whole store. A reader has
//! the lock only while it loads: so `read` can feed a `write` to the same folder.

use std::fs::{self, File};
use std::io::{self, Read};
use std::path::{Path, PathBuf};

use sangueko::{Refusal, Store, StoreBuf};

use crate::buffer::{Buffer, Lengths};
use crate::diagnose::{Finding, diagnose};
use crate::disk::FolderDisk;
use crate::failure::Failure;
use crate::journal::{self, Before, Unstored};
use crate::lock::{self, Kind, Wait};

/// A folder that has a store's files.
pub struct Folder {
    path: PathBuf,
    wait: Wait,
}

/// A store in memory.
pub struct Loaded {
    pub store: StoreBuf,
    /// Those of the files; a file that is longer than any store's is not read to
    /// its end.
    pub lengths: Lengths,
}

/// A folder that no other process changes.
pub struct Open {
    folder: Folder,
    loaded: Loaded,
    /// Held until the end.
    _lock: Option<File>,
}

impl Folder {
    pub fn find(path: &Path, wait: Wait) -> Result<Self, Failure> {
        let found = fs::metadata(path);
        if found.is_ok_and(|found| !found.is_dir()) {
            return Err(Failure::NoStore(format!(
                "{} is a file, and a store is a folder: name the folder that `sangueko new` made",
                path.display()
            )));
        }
        match fs::metadata(path) {
            Err(error) if error.kind() == io::ErrorKind::NotFound => {
                return Err(Failure::NoStore(format!(
                    "there is no folder {0}: see that the name is right, or make a store with `sangueko new {0}`",
                    path.display()
                )));
            }
            Err(error) => return Err(Failure::on("opening", path, error)),
            Ok(_) => {}
        }
        let missing = Buffer::ALL.map(Buffer::name);
        let missing: Vec<&str> = missing
            .into_iter()
            .filter(|name| !path.join(name).is_file())
            .collect();
        if missing.is_empty() {
            return Ok(Self {
                path: path.to_path_buf(),
                wait,
            });
        }
        Err(Failure::NoStore(missing_files(path, &missing)))
    }

    /// The store as it is now.
    pub fn load(&self) -> Result<Loaded, Failure> {
        let _lock = self.locked(Kind::Shared)?;
        self.read_files()
    }

    /// The store, to be changed by this process alone.
    pub fn open(self) -> Result<Open, Failure> {
        let lock = self.locked(Kind::Exclusive)?;
        let loaded = self.read_files()?;
        Ok(Open {
            folder: self,
            loaded,
            _lock: lock,
        })
    }

    /// The lock, with no call left half done behind it.
    fn locked(&self, kind: Kind) -> Result<Option<File>, Failure> {
        let mut disk = FolderDisk::new(&self.path);
        let mut lock = lock::take(&self.path, kind, self.wait)?;
        let pending = journal::is_pending(&mut disk);
        if pending.map_err(|error| Failure::on("reading", &self.path, error))? {
            if kind == Kind::Shared {
                drop(lock);
                lock = lock::take(&self.path, Kind::Exclusive, self.wait)?;
            }
            journal::recover(&mut disk)
                .map_err(|why| self.unstored("a call that was interrupted", why))?;
        }
        Ok(lock)
    }

    fn read_files(&self) -> Result<Loaded, Failure> {
        let mut lengths = Lengths::default();
        let mut read = |buffer: Buffer| {
            let path = self.path.join(buffer.name());
            let (bytes, length) = read_file(&path, buffer.most())
                .map_err(|error| Failure::on("reading", &path, error))?;
            lengths[buffer.index()] = length;
            Ok::<_, Failure>(bytes)
        };
        let store = StoreBuf {
            image: read(Buffer::Image)?,
            head: read(Buffer::Head)?,
            cards: read(Buffer::Cards)?,
            extents: read(Buffer::Extents)?,
            groups: read(Buffer::Groups)?,
            used: read(Buffer::Used)?,
            retired: read(Buffer::Retired)?,
        };
        Ok(Loaded { store, lengths })
    }

    fn unstored(&self, doing: &str, why: Unstored) -> Failure {
        let folder = self.path.display();
        match why {
            Unstored::Before(error) => {
                let doing = format!("{doing}: the folder is as it was before the call: writing in");
                Failure::on(&doing, &self.path, error)
            }
            Unstored::After(error) => Failure::System {
                doing: format!("{doing}: storing in {folder}"),
                error,
                next: format!(
                    "the call is kept in {folder}/journal and nothing is lost: see that there is \
                     room on the disk and that you may write there; the next command on the \
                     folder stores it"
                ),
            },
            Unstored::Damaged(why) => Failure::Journal {
                folder: self.path.clone(),
                why,
            },
        }
    }
}

/// One byte more than any store has is enough for the library to refuse it.
fn read_file(path: &Path, most: u64) -> io::Result<(Vec<u8>, u64)> {
    let file = File::open(path)?;
    let length = file.metadata()?.len();
    let mut bytes = Vec::new();
    let expected = usize::try_from(length.min(most + 1)).map_err(io::Error::other)?;
    bytes.try_reserve_exact(expected)?;
    file.take(most + 1).read_to_end(&mut bytes)?;
    Ok((bytes, length))
}

fn missing_files(path: &Path, missing: &[&str]) -> String {
    let folder = path.display();
    if missing.len() == Buffer::ALL.len() {
        return format!(
            "{folder} is a folder, but no store: it has none of the files {}. \
             See that the name is right, or make a store with `sangueko new`",
            missing.join(", ")
        );
    }
    let files = if missing.len() == 1 {
        "the file"
    } else {
        "the files"
    };
    format!(
        "{folder} lacks {files} {}: put back what was moved away, or restore the folder from a copy; \
         the other files are untouched",
        missing.join(", ")
    )
}

impl Loaded {
    pub fn diagnose(&self) -> Option<Finding> {
        diagnose(&self.store, &self.lengths)
    }

    /// The refusal, with what the diagnosis finds where it speaks of the store
    /// as a whole.
    pub fn refused(&self, doing: impl Into<String>, refusal: Refusal) -> Failure {
        if !matches!(refusal, Refusal::WrongLength | Refusal::BrokenRule) {
            return Failure::refused(doing, refusal, None);
        }
        let finding = self.diagnose();
        let doing = match self.disagreement(Some(refusal)) {
            None => doing.into(),
            Some(disagreement) => format!("{}: {disagreement}", doing.into()),
        };
        Failure::refused(doing, refusal, finding)
    }

    /// Where the library's answer and the diagnosis part on refusals 1 and 2, in
    /// words. The library's answer stands.
    pub fn disagreement(&self, refusal: Option<Refusal>) -> Option<String> {
        let finding = self.diagnose();
        let library = refusal.map_or(0, Refusal::number);
        let diagnosis = finding.as_ref().map_or(0, |finding| finding.number);
        let says = finding.map(|finding| format!(" ({})", finding.says));
        (library != diagnosis).then(|| {
            format!(
                "library and diagnosis disagree: the library answers {library}, the diagnosis \
                 {diagnosis}{}. The library's answer stands; please report the store",
                says.unwrap_or_default()
            )
        })
    }

    /// Refusals 1 and 2, by the library.
    pub fn tested(&mut self, doing: impl Into<String>) -> Result<u64, Failure> {
        let fill = self.store.lend().fill();
        fill.map_err(|refusal| self.refused(doing, refusal))
    }
}

impl Open {
    /// One call, stored. A refused call changes no byte, so that there is nothing
    /// to store.
    pub fn call<T>(
        &mut self,
        doing: &str,
        call: impl FnOnce(&mut Store<'_>) -> Result<T, Refusal>,
    ) -> Result<T, Failure> {
        let before = Before::of(&self.loaded.store);
        let answer = call(&mut self.loaded.store.lend());
        let answer = answer.map_err(|refusal| self.refused(doing, refusal))?;
        let changes = before.changes(&self.loaded.store);
        if !changes.is_empty() {
            let journal = journal::encode(&self.loaded.store, &changes);
            journal::store(&mut FolderDisk::new(&self.folder.path), &journal)
                .map_err(|why| self.folder.unstored(doing, why))?;
        }
        Ok(answer)
    }

    /// The refusal, as of a loaded store.
    pub fn refused(&self, doing: impl Into<String>, refusal: Refusal) -> Failure {
        self.loaded.refused(doing, refusal)
    }
}
