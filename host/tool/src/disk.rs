//! The operations on a folder's files that storing a call is made of. A trait,
//! so that a test can stop at any of them, or lose what was not synced.

use std::fs::{self, File, OpenOptions};
use std::io::{self, Write};
use std::os::unix::fs::FileExt;
use std::path::{Path, PathBuf};

pub trait Disk {
    /// A new file of these bytes, in the place of any old one.
    fn create(&mut self, name: &str, bytes: &[u8]) -> io::Result<()>;
    /// These bytes from the offset on, within the file's length.
    fn patch(&mut self, name: &str, offset: u64, bytes: &[u8]) -> io::Result<()>;
    /// The file's bytes are on the disk afterwards.
    fn sync(&mut self, name: &str) -> io::Result<()>;
    fn rename(&mut self, from: &str, to: &str) -> io::Result<()>;
    fn remove(&mut self, name: &str) -> io::Result<()>;
    /// The folder's names are on the disk afterwards.
    fn sync_folder(&mut self) -> io::Result<()>;
    /// The file's bytes, if there is one.
    fn read(&mut self, name: &str) -> io::Result<Option<Vec<u8>>>;
    /// The file's length, if there is one.
    fn length(&mut self, name: &str) -> io::Result<Option<u64>>;
}

/// A folder of the file system.
#[derive(Clone, Debug)]
pub struct FolderDisk {
    path: PathBuf,
}

impl FolderDisk {
    pub fn new(path: &Path) -> Self {
        Self {
            path: path.to_path_buf(),
        }
    }
}

impl Disk for FolderDisk {
    fn create(&mut self, name: &str, bytes: &[u8]) -> io::Result<()> {
        File::create(self.path.join(name))?.write_all(bytes)
    }

    fn patch(&mut self, name: &str, offset: u64, bytes: &[u8]) -> io::Result<()> {
        let file = OpenOptions::new().write(true).open(self.path.join(name))?;
        file.write_all_at(bytes, offset)
    }

    fn sync(&mut self, name: &str) -> io::Result<()> {
        File::open(self.path.join(name))?.sync_all()
    }

    fn rename(&mut self, from: &str, to: &str) -> io::Result<()> {
        fs::rename(self.path.join(from), self.path.join(to))
    }

    fn remove(&mut self, name: &str) -> io::Result<()> {
        fs::remove_file(self.path.join(name))
    }

    fn sync_folder(&mut self) -> io::Result<()> {
        File::open(&self.path)?.sync_all()
    }

    fn read(&mut self, name: &str) -> io::Result<Option<Vec<u8>>> {
        present(fs::read(self.path.join(name)))
    }

    fn length(&mut self, name: &str) -> io::Result<Option<u64>> {
        present(fs::metadata(self.path.join(name)).map(|found| found.len()))
    }
}

fn present<T>(found: io::Result<T>) -> io::Result<Option<T>> {
    match found {
        Ok(found) => Ok(Some(found)),
        Err(error) if error.kind() == io::ErrorKind::NotFound => Ok(None),
        Err(error) => Err(error),
    }
}
