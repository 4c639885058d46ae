//! `batch`: many writes of a list, in as few calls as batches of 64 allow.

use std::ffi::OsStr;
use std::fs::File;
use std::io::{self, Read};
use std::path::Path;

use sangueko::{Batched, MOST_RANGES, MOST_TRANSFER, Range};

use crate::args::number;
use crate::failure::Failure;
use crate::folder::{Folder, Open};
use crate::progress::Progress;
use crate::time::Time;
use crate::transfer::{Source, Written};
use crate::words::{counted, grouped};

/// A line of the list.
struct Write {
    /// Where it stands, for messages.
    place: String,
    object: u64,
    offset: u64,
    bytes: Vec<u8>,
}

impl Write {
    fn range(&self) -> Range {
        Range {
            object: self.object,
            offset: self.offset,
            length: self.bytes.len() as u64,
        }
    }

    /// The write as messages name it.
    fn said(&self) -> String {
        format!(
            "{}: write to file {} at byte {}",
            self.place,
            self.object,
            grouped(self.offset)
        )
    }
}

/// The writes of a list, all of them read before the first is made: so a line
/// that is wrong changes nothing.
pub struct List(Vec<Write>);

impl List {
    /// A line `OBJECT OFFSET BYTES` for each write.
    pub fn of(mut source: Source) -> Result<Self, Failure> {
        let text = source.text()?;
        let lines = text.lines().map(str::trim).zip(1..);
        let lines = lines.filter(|(line, _)| !line.is_empty() && !line.starts_with('#'));
        let writes = lines.map(|(line, at)| {
            let place = format!("{}, line {at}", source.name.display());
            write_of(line, place)
        });
        Ok(Self(writes.collect::<Result<_, _>>()?))
    }

    pub fn writes(&self) -> usize {
        self.0.len()
    }
}

fn write_of(line: &str, place: String) -> Result<Write, Failure> {
    let wrong = || {
        Failure::Usage(format!(
            "{place}: `{line}` is not OBJECT OFFSET BYTES, with spaces between them"
        ))
    };
    let (object, rest) = line.split_once(char::is_whitespace).ok_or_else(wrong)?;
    let (offset, bytes) = rest
        .trim_start()
        .split_once(char::is_whitespace)
        .ok_or_else(wrong)?;
    let bytes = bytes.trim_start();
    Ok(Write {
        object: number(OsStr::new(object), &place)?,
        offset: number(OsStr::new(offset), &place)?,
        bytes: match bytes.strip_prefix('@') {
            Some(file) => of_file(Path::new(file), &place)?,
            None => of_digits(bytes, &place)?,
        },
        place,
    })
}

/// All of a file, as far as one write takes it.
fn of_file(path: &Path, place: &str) -> Result<Vec<u8>, Failure> {
    let mut bytes = Vec::new();
    let read = |bytes: &mut Vec<u8>| -> io::Result<usize> {
        let file = File::open(path)?;
        file.take(MOST_TRANSFER as u64 + 1).read_to_end(bytes)
    };
    read(&mut bytes).map_err(|error| Failure::on(&format!("{place}: reading"), path, error))?;
    fits(bytes, place)
}

/// Two hexadecimal digits for each byte.
fn of_digits(digits: &str, place: &str) -> Result<Vec<u8>, Failure> {
    let digit = |digit: u8| char::from(digit).to_digit(16);
    let (pairs, rest) = digits.as_bytes().as_chunks::<2>();
    let bytes = pairs.iter().map(|&[high, low]| {
        let byte = digit(high)? << 4 | digit(low)?;
        u8::try_from(byte).ok()
    });
    let bytes: Option<Vec<u8>> = bytes.collect();
    let bytes = bytes.filter(|_| rest.is_empty());
    let bytes = bytes.ok_or_else(|| {
        Failure::Usage(format!(
            "{place}: `{digits}` is neither two hexadecimal digits for each byte nor @ and a file's name"
        ))
    })?;
    fits(bytes, place)
}

fn fits(bytes: Vec<u8>, place: &str) -> Result<Vec<u8>, Failure> {
    if bytes.len() <= MOST_TRANSFER {
        return Ok(bytes);
    }
    Err(Failure::Usage(format!(
        "{place}: one write takes at most {} bytes: use `sangueko write`, which makes several of more",
        grouped(MOST_TRANSFER)
    )))
}

/// The writes, as many in a call as a batch may have. Each call is stored by
/// itself, and of one that stops the writes that were done.
pub fn write(folder: Folder, list: &List, time: Time) -> Result<Written, Failure> {
    let mut progress = Progress::new(Some(length(&list.0)));
    let mut open = folder.open()?;
    let mut written = Written { bytes: 0, calls: 0 };
    let (mut rest, mut done) = (&list.0[..], 0);
    // a call even for no write at all, which the library may refuse
    while written.calls == 0 || !rest.is_empty() {
        let (now, later) = rest.split_at(rest.len().min(MOST_RANGES));
        let stored = so_far(done, list.writes());
        let batched = batch_call(&mut open, now, &stored, time)?;
        if let Batched::Stopped { by, .. } = batched {
            let at = now.get(batched.done()).map_or("batch".into(), Write::said);
            let stored = so_far(done + batched.done(), list.writes());
            return Err(open.refused(format!("{at} ({stored})"), by));
        }
        written.calls += 1;
        written.bytes += length(now);
        progress.tell(written.bytes);
        (rest, done) = (later, done + now.len());
    }
    Ok(written)
}

/// Bytes of all of them.
fn length(writes: &[Write]) -> u64 {
    writes.iter().map(|write| write.bytes.len() as u64).sum()
}

fn batch_call(
    open: &mut Open,
    writes: &[Write],
    stored: &str,
    time: Time,
) -> Result<Batched, Failure> {
    let ranges: Vec<Range> = writes.iter().map(Write::range).collect();
    let bytes: Vec<&[u8]> = writes.iter().map(|write| &write.bytes[..]).collect();
    let bytes = bytes.concat();
    let doing = format!("batch of {} ({stored})", counted(writes.len(), "write"));
    open.call(&doing, |store| {
        store.write_batch(&ranges, &bytes, time.seconds, time.nanoseconds)
    })
}

/// What a batch that ends has stored.
fn so_far(done: usize, all: usize) -> String {
    let all = counted(all, "write");
    match done {
        0 => format!("none of {all} is stored"),
        1 => format!("the first of {all} is stored"),
        _ => format!("the first {} of {all} are stored", grouped(done)),
    }
}

#[cfg(test)]
mod tests {
    use super::*;

    fn line(line: &str) -> Result<Write, Failure> {
        write_of(line, "list, line 3".into())
    }

    #[test]
    fn a_line_in_words() {
        let write = line("7  1_000\t00ffA9").unwrap();
        assert_eq!((write.object, write.offset), (7, 1_000));
        assert_eq!(write.bytes, [0, 255, 169]);
        for wrong in [
            "7",
            "7 0",
            "7 0 0",
            "7 0 0g",
            "7 0 +1",
            "7 0 00 11",
            "7 0 0x00",
            "x 0 00",
            "7 -1 00",
        ] {
            let says = line(wrong).map(|write| write.bytes).unwrap_err();
            assert!(says.to_string().starts_with("list, line 3: "), "{wrong}");
        }
    }

    #[test]
    fn what_is_stored_in_words() {
        assert_eq!(so_far(0, 1), "none of 1 write is stored");
        assert_eq!(so_far(1, 3), "the first of 3 writes is stored");
        assert_eq!(so_far(64, 1_000), "the first 64 of 1,000 writes are stored");
    }
}
