//! `read` of many ranges of a file: as few calls as lists of 64 reads allow.

use std::ffi::OsStr;
use std::iter;

use sangueko::{MOST_RANGES, Range, Refusal};

use crate::args::{Given, number};
use crate::failure::Failure;
use crate::folder::Loaded;
use crate::transfer::{Asked, Source, call_bytes, reading};
use crate::words::grouped;

/// The ranges of `--ranges` or `--ranges-from`, where one of them was given.
pub fn given(given: &Given, object: u64) -> Result<Option<Vec<Range>>, Failure> {
    let listed = given.value("--ranges");
    let file = given.value("--ranges-from");
    if listed.is_none() && file.is_none() {
        return Ok(None);
    }
    let others = [
        given.value("--at"),
        given.value("--length"),
        listed.and(file),
    ];
    if others.iter().any(Option::is_some) {
        return Err(Failure::Usage(
            "read: --ranges, --ranges-from, and --at with --length are three ways to say what is read: choose one"
                .into(),
        ));
    }
    match file {
        Some(file) => of_lines(&mut Source::of(Some(file))?, object).map(Some),
        None => of_list(&listed.unwrap_or_default().to_string_lossy(), object).map(Some),
    }
}

/// `OFFSET:LENGTH,OFFSET:LENGTH,..`
fn of_list(text: &str, object: u64) -> Result<Vec<Range>, Failure> {
    let ranges = text.split(',').map(|text| {
        let numbers = text.split_once(':').ok_or_else(|| {
            Failure::Usage(format!(
                "--ranges: `{text}` is not OFFSET:LENGTH; commas part the ranges, so write numbers without them"
            ))
        })?;
        range(object, numbers, "--ranges")
    });
    ranges.collect()
}

/// A line `OFFSET LENGTH` for each range.
fn of_lines(source: &mut Source, object: u64) -> Result<Vec<Range>, Failure> {
    let text = source.text()?;
    let lines = text.lines().map(str::trim).zip(1..);
    let lines = lines.filter(|(line, _)| !line.is_empty() && !line.starts_with('#'));
    let ranges = lines.map(|(line, at)| {
        let place = format!("{}, line {at}", source.name.display());
        let words: Vec<&str> = line.split_whitespace().collect();
        let [offset, length] = words[..] else {
            return Err(Failure::Usage(format!(
                "{place}: `{line}` is not OFFSET LENGTH, two numbers with a space between them"
            )));
        };
        range(object, (offset, length), &place)
    });
    ranges.collect()
}

fn range(object: u64, (offset, length): (&str, &str), place: &str) -> Result<Range, Failure> {
    Ok(Range {
        object,
        offset: number(OsStr::new(offset), place)?,
        length: number(OsStr::new(length), place)?,
    })
}

/// What one read of a call gives, and the number of the range that it is of.
type Piece = (usize, Range);

/// Ranges that are being read.
pub struct Ranges<'a> {
    ranges: &'a [Range],
    /// The file's size: a call of many reads does not tell how many bytes each of
    /// them gave, so that the ranges are cut off there beforehand.
    size: u64,
    pieces: Box<dyn Iterator<Item = Piece> + 'a>,
    calls: u64,
}

impl<'a> Ranges<'a> {
    pub fn new(ranges: &'a [Range], size: u64) -> Self {
        let numbered = (1..).zip(ranges);
        let pieces = numbered.flat_map(move |(number, range)| {
            pieces(cut_off(range, size)).map(move |piece| (number, piece))
        });
        Self {
            ranges,
            size,
            pieces: Box::new(pieces),
            calls: 0,
        }
    }

    /// Calls that were made.
    pub fn calls(&self) -> u64 {
        self.calls
    }

    /// What is to be said of ranges that end past the file's end.
    pub fn short(&self) -> Option<String> {
        let numbered = (1..).zip(self.ranges);
        let mut short = numbered.filter(|(_, range)| cut_off(range, self.size) != **range);
        let (number, first) = short.next()?;
        Some(format!(
            "the file ends at byte {}, so that {} of {} ranges gave fewer bytes than asked for; \
             the first is range {number}, with {} of {} bytes",
            grouped(self.size),
            grouped(1 + short.count()),
            grouped(self.ranges.len()),
            grouped(cut_off(first, self.size).length),
            grouped(first.length)
        ))
    }
}

impl Asked for Ranges<'_> {
    fn expected(&self, _: &Loaded) -> u64 {
        let lengths = self.ranges.iter();
        let lengths = lengths.map(|range| cut_off(range, self.size).length);
        lengths.fold(0, u64::saturating_add)
    }

    /// A call even for no range at all, which the library may refuse.
    fn next(&mut self, loaded: &mut Loaded, held: &mut Vec<u8>) -> Result<bool, Failure> {
        let pieces: Vec<Piece> = self.pieces.by_ref().take(MOST_RANGES).collect();
        if pieces.is_empty() && self.calls > 0 {
            return Ok(false);
        }
        let list: Vec<Range> = pieces.iter().map(|(_, piece)| *piece).collect();
        read_call(loaded, &list, held).map_err(|(refusal, at)| {
            let piece = at.and_then(|at| pieces.get(at));
            let doing = piece.map_or("read of no range".into(), |(number, piece)| {
                let read = reading(piece.object, piece.offset);
                format!("{read} (range {number})")
            });
            loaded.refused(doing, refusal)
        })?;
        self.calls += 1;
        Ok(true)
    }
}

/// The bytes of the range that are before the file's end.
fn cut_off(range: &Range, size: u64) -> Range {
    let there = size.saturating_sub(range.offset);
    Range {
        length: range.length.min(there),
        ..*range
    }
}

/// The range in parts that one read may take. An empty range is one: there may
/// be no such file.
pub fn pieces(range: Range) -> impl Iterator<Item = Range> {
    let mut left = Some(range);
    iter::from_fn(move || {
        let rest = left.take()?;
        let length = rest.length.min(call_bytes(rest.offset) as u64);
        left = (length < rest.length).then(|| Range {
            offset: rest.offset + length,
            length: rest.length - length,
            ..rest
        });
        Some(Range { length, ..rest })
    })
}

/// The reads of a list, whose bytes are then all that `held` holds, in one call.
/// Where it is refused: by what, and the place of the range that brought it about,
/// the first whose read is refused by itself.
pub fn read_call(
    loaded: &mut Loaded,
    list: &[Range],
    held: &mut Vec<u8>,
) -> Result<(), (Refusal, Option<usize>)> {
    held.resize(list.iter().map(|piece| piece.length as usize).sum(), 0);
    let answer = loaded.store.lend().read_many(list, held);
    answer.map(drop).map_err(|refusal| {
        let first = list.iter().position(|piece| {
            let out = held.get_mut(..piece.length as usize).unwrap_or_default();
            let read = loaded.store.lend().read(piece.object, piece.offset, out);
            read.is_err()
        });
        (refusal, first)
    })
}

#[cfg(test)]
mod tests {
    use super::*;

    const fn at(offset: u64, length: u64) -> Range {
        Range {
            object: 7,
            offset,
            length,
        }
    }

    #[test]
    fn a_range_in_pieces() {
        let cut = |range| pieces(range).collect::<Vec<Range>>();
        assert_eq!(cut(at(5, 0)), [at(5, 0)]);
        assert_eq!(cut(at(0, 1 << 20)), [at(0, 1 << 20)]);
        let long = [at(1, (1 << 20) - 1), at(1 << 20, 1 << 20), at(2 << 20, 3)];
        assert_eq!(cut(at(1, (2 << 20) + 2)), long);
    }

    #[test]
    fn a_range_ends_with_the_file() {
        assert_eq!(cut_off(&at(90, 10), 100), at(90, 10));
        assert_eq!(cut_off(&at(90, 11), 100), at(90, 10));
        assert_eq!(cut_off(&at(101, u64::MAX), 100), at(101, 0));
    }

    #[test]
    fn a_list_in_words() {
        let ranges = of_list("0:100,4_096:20", 7);
        assert_eq!(ranges.unwrap(), [at(0, 100), at(4_096, 20)]);
        for wrong in ["", "5", "5:", ":5", "5:6:7", "5:6,", "1,000:5", "5-6"] {
            assert!(of_list(wrong, 7).is_err(), "{wrong}");
        }
    }
}
