//! `write` and `read`: bytes in as many calls as they take.

use std::ffi::{OsStr, OsString};
use std::fs::{self, File};
use std::io::{self, IsTerminal, Read, Write};
use std::path::{Path, PathBuf};

use sangueko::MOST_TRANSFER;

use crate::failure::Failure;
use crate::folder::{Folder, Loaded, Open};
use crate::progress::Progress;
use crate::records::{Records, UNIT_BYTES};
use crate::time::Time;
use crate::words::grouped;

/// Bytes of a call that starts there: as many as one may take, but up to the end
/// of a unit. The calls after the first one then start with a unit, and none has
/// to rewrite what the one before it wrote, or to check a unit again.
pub fn call_bytes(offset: u64) -> usize {
    MOST_TRANSFER - (offset % UNIT_BYTES) as usize
}

/// Where a command's input comes from.
pub struct Source {
    input: Box<dyn Read>,
    pub name: PathBuf,
    length: Option<u64>,
}

impl Source {
    pub fn of(file: Option<&OsStr>) -> Result<Self, Failure> {
        let Some(file) = file.filter(|file| *file != "-") else {
            return Ok(Self {
                input: Box::new(io::stdin()),
                name: "standard input".into(),
                length: None,
            });
        };
        let name = PathBuf::from(file);
        let opened = File::open(&name).and_then(|file| {
            let found = file.metadata()?;
            Ok((file, found))
        });
        let (file, found) = opened.map_err(|error| Failure::on("reading", &name, error))?;
        Ok(Self {
            input: Box::new(file),
            name,
            length: found.is_file().then_some(found.len()),
        })
    }

    /// The next bytes: fewer than asked for only at the end.
    fn next(&mut self, bytes: usize, stored: u64) -> Result<Vec<u8>, Failure> {
        let mut next = Vec::new();
        let read = (&mut self.input).take(bytes as u64).read_to_end(&mut next);
        read.map_err(|error| {
            let doing = format!("write ({}): reading", so_far(stored));
            Failure::on(&doing, &self.name, error)
        })?;
        Ok(next)
    }

    /// All of it, as text.
    pub fn text(&mut self) -> Result<String, Failure> {
        let mut bytes = Vec::new();
        let read = self.input.read_to_end(&mut bytes);
        read.map_err(|error| Failure::on("reading", &self.name, error))?;
        Ok(String::from_utf8_lossy(&bytes).into_owned())
    }
}

/// What a write that stops has done.
fn so_far(stored: u64) -> String {
    match stored {
        0 => "nothing was stored".into(),
        _ => format!("the first {} bytes are stored", grouped(stored)),
    }
}

/// How much was written, in how many calls.
pub struct Written {
    pub bytes: u64,
    pub calls: u64,
}

/// Where a write begins, when it was made, and whether by the call for archives.
pub struct To {
    pub object: u64,
    pub offset: u64,
    pub time: Time,
    pub archive: bool,
}

/// The first bytes are had before the folder is locked: what feeds them may need
/// the lock itself (`sangueko read A 1 | sangueko write A 2`).
pub fn write(folder: Folder, to: &To, mut source: Source) -> Result<Written, Failure> {
    let mut progress = Progress::new(source.length);
    let mut next = source.next(call_bytes(to.offset), 0)?;
    let mut open = folder.open()?;
    let mut written = Written { bytes: 0, calls: 0 };
    loop {
        // a call even for no bytes at all, which the library may refuse
        let taken = write_call(&mut open, to, written.bytes, &next)?;
        written.bytes += taken;
        written.calls += 1;
        progress.tell(written.bytes);
        let at = to.offset.saturating_add(written.bytes);
        let rest = next.split_off(usize::try_from(taken).unwrap_or(next.len()).min(next.len()));
        let whole = next.len() == call_bytes(at - taken);
        next = if rest.is_empty() && whole {
            source.next(call_bytes(at), written.bytes)?
        } else {
            rest
        };
        if next.is_empty() {
            return Ok(written);
        }
    }
}

fn write_call(open: &mut Open, to: &To, before: u64, bytes: &[u8]) -> Result<u64, Failure> {
    let To { object, time, .. } = *to;
    let at = to.offset.saturating_add(before);
    let stored = so_far(before);
    let write = if to.archive { "archive write" } else { "write" };
    let doing = format!(
        "{write} to file {object} at byte {} ({stored})",
        grouped(at)
    );
    open.call(&doing, |store| {
        if to.archive {
            store.write_archive(object, at, bytes, time.seconds, time.nanoseconds)
        } else {
            store.write(object, at, bytes, time.seconds, time.nanoseconds)
        }
    })
}

/// Bytes of a file that are asked for, a call's worth at a time.
pub trait Asked {
    /// How many there will be, for the bar.
    fn expected(&self, loaded: &Loaded) -> u64;

    /// The next of them, as all that `held` then holds; false where there are no
    /// more.
    fn next(&mut self, loaded: &mut Loaded, held: &mut Vec<u8>) -> Result<bool, Failure>;
}

/// One part of a file, to its end or of some length.
pub struct Part {
    object: u64,
    offset: u64,
    length: Option<u64>,
    done: u64,
}

impl Part {
    pub fn new(object: u64, offset: u64, length: Option<u64>) -> Self {
        Self {
            object,
            offset,
            length,
            done: 0,
        }
    }
}

impl Asked for Part {
    fn expected(&self, loaded: &Loaded) -> u64 {
        let there = size(loaded, self.object).saturating_sub(self.offset);
        self.length.map_or(there, |length| length.min(there))
    }

    fn next(&mut self, loaded: &mut Loaded, held: &mut Vec<u8>) -> Result<bool, Failure> {
        let at = self.offset.saturating_add(self.done);
        let left = self.length.map_or(u64::MAX, |length| length - self.done);
        let bytes = call_bytes(at).min(usize::try_from(left).unwrap_or(usize::MAX));
        held.resize(bytes, 0);
        let answer = loaded.store.lend().read(self.object, at, held);
        let count = answer.map_err(|refusal| loaded.refused(reading(self.object, at), refusal))?;
        held.truncate(usize::try_from(count).unwrap_or(bytes));
        self.done += held.len() as u64;
        Ok(!held.is_empty())
    }
}

/// A read as messages name it.
pub fn reading(object: u64, offset: u64) -> String {
    format!("read of file {object} at byte {}", grouped(offset))
}

/// The file's size; 0 where there is no such file, which the library refuses.
pub fn size(loaded: &Loaded, object: u64) -> u64 {
    let records = Records::of(&loaded.store);
    records.card(object).map_or(0, |card| card.size)
}

/// Where a read's bytes go.
pub enum Target {
    Standard,
    File(PathBuf),
}

pub fn read(loaded: &mut Loaded, asked: &mut impl Asked, target: &Target) -> Result<u64, Failure> {
    match target {
        Target::Standard => {
            let mut out = io::stdout().lock();
            let progress = if out.is_terminal() {
                Progress::hidden()
            } else {
                Progress::new(Some(asked.expected(loaded)))
            };
            let bytes = copy(loaded, asked, &mut out, progress, Failure::output)?;
            out.flush().map_err(Failure::output)?;
            Ok(bytes)
        }
        Target::File(path) => read_to_file(loaded, asked, path),
    }
}

/// A file changes only if all could be read: the bytes go to a file beside it,
/// which then takes its name. What is no plain file (a device, a pipe) is
/// written to as it is.
fn read_to_file(loaded: &mut Loaded, asked: &mut impl Asked, path: &Path) -> Result<u64, Failure> {
    let failed = |error| Failure::on("writing", path, error);
    let progress = Progress::new(Some(asked.expected(loaded)));
    let special = fs::metadata(path).is_ok_and(|found| !found.is_file());
    if special {
        let mut out = File::create(path).map_err(failed)?;
        return copy(loaded, asked, &mut out, progress, failed);
    }
    let mut name = path.file_name().map(OsString::from).unwrap_or_default();
    name.push(".sangueko-part");
    let beside = path.with_file_name(name);
    let mut out = File::create(&beside).map_err(failed)?;
    let copied = copy(loaded, asked, &mut out, progress, failed).and_then(|bytes| {
        out.sync_all()
            .and_then(|()| fs::rename(&beside, path))
            .map_err(failed)?;
        Ok(bytes)
    });
    if copied.is_err() {
        let _ = fs::remove_file(&beside);
    }
    copied
}

fn copy(
    loaded: &mut Loaded,
    asked: &mut impl Asked,
    out: &mut impl Write,
    mut progress: Progress,
    failed: impl Fn(io::Error) -> Failure,
) -> Result<u64, Failure> {
    let mut held = Vec::new();
    let mut done = 0;
    while asked.next(loaded, &mut held)? {
        out.write_all(&held).map_err(&failed)?;
        done += held.len() as u64;
        progress.tell(done);
    }
    Ok(done)
}
