//! Processes on one folder, one after the other: a lock on the file `lock` in it.
//! The system takes the lock away when its process ends, however it ends.

use std::fs::{File, OpenOptions, TryLockError};
use std::io;
use std::path::Path;
use std::thread::sleep;
use std::time::{Duration, Instant};

use crate::failure::Failure;

pub const LOCK: &str = "lock";

/// How long the wait goes on without a word.
const PATIENCE: Duration = Duration::from_secs(1);
const PAUSE: Duration = Duration::from_millis(20);

#[derive(Clone, Copy, Debug, PartialEq, Eq)]
pub enum Kind {
    /// Beside other readers.
    Shared,
    /// Alone.
    Exclusive,
}

#[derive(Clone, Copy, Debug, PartialEq, Eq)]
pub enum Wait {
    Yes,
    No,
}

/// The lock, held until it is dropped. None where there is no lock file and a
/// reader may not make one: then no writer has been there either.
pub fn take(folder: &Path, kind: Kind, wait: Wait) -> Result<Option<File>, Failure> {
    let path = folder.join(LOCK);
    let file = match open(&path, kind) {
        Ok(file) => file,
        Err(error) if kind == Kind::Shared && is_read_only(&error) => return Ok(None),
        Err(error) => return Err(Failure::on("opening", &path, error)),
    };
    acquire(&file, kind, wait, folder)?;
    Ok(Some(file))
}

fn open(path: &Path, kind: Kind) -> io::Result<File> {
    if kind == Kind::Shared
        && let Ok(file) = File::open(path)
    {
        return Ok(file);
    }
    let mut options = OpenOptions::new();
    options.read(true).write(true).create(true).truncate(false);
    options.open(path)
}

fn is_read_only(error: &io::Error) -> bool {
    matches!(
        error.kind(),
        io::ErrorKind::PermissionDenied | io::ErrorKind::ReadOnlyFilesystem
    )
}

fn acquire(file: &File, kind: Kind, wait: Wait, folder: &Path) -> Result<(), Failure> {
    let failed = |error| Failure::on("locking", folder, error);
    let since = Instant::now();
    loop {
        let tried = match kind {
            Kind::Shared => file.try_lock_shared(),
            Kind::Exclusive => file.try_lock(),
        };
        match tried {
            Ok(()) => return Ok(()),
            Err(TryLockError::Error(error)) => return Err(failed(error)),
            Err(TryLockError::WouldBlock) if wait == Wait::No => {
                return Err(Failure::Locked(folder.to_path_buf()));
            }
            Err(TryLockError::WouldBlock) if since.elapsed() < PATIENCE => sleep(PAUSE),
            Err(TryLockError::WouldBlock) => break,
        }
    }
    eprintln!(
        "sangueko: another process is at work on {}: waiting for it",
        folder.display()
    );
    match kind {
        Kind::Shared => file.lock_shared(),
        Kind::Exclusive => file.lock(),
    }
    .map_err(failed)
}
