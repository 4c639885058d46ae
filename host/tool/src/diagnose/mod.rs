//! Why a store is refused by 1 or 2: the rules of document 01, tried again in its
//! order, and of the first that is broken the record and its bytes. The library
//! decides whether a store is refused; this says where to look.

mod books;
mod lengths;
mod maps;
mod narrow;

use std::fmt;
use std::ops::Range;

use sangueko::StoreBuf;

use crate::buffer::{Buffer, Lengths};
use crate::json::Json;
use crate::records::Records;
use crate::words::grouped;

/// A broken rule.
#[derive(Clone, Debug)]
pub struct Finding {
    /// Of the refusal.
    pub number: u32,
    /// In document 01's words.
    pub rule: &'static str,
    pub buffer: Buffer,
    /// Counted from 0; none where it is not about a record of a book.
    pub record: Option<u64>,
    /// Of the buffer's file.
    pub bytes: Range<u64>,
    pub says: String,
    /// What it may come from.
    pub note: Option<&'static str>,
}

/// A rule: what breaks it first, if anything does.
type Rule = fn(&Records<'_>) -> Option<Finding>;

/// Refusal 2's rules in document 01's order.
const RULES: [Rule; 14] = [
    books::order,
    books::zeros_after,
    books::fixed_and_spare,
    books::nanoseconds,
    books::count_zero,
    books::overlapping,
    books::past_device,
    books::past_size,
    books::without_card,
    books::absent_slot,
    maps::mapped_block,
    maps::reserved_block,
    maps::retired_block,
    maps::past_last,
];

/// The first broken rule. `lengths` are those of the files.
pub fn diagnose(store: &StoreBuf, lengths: &Lengths) -> Option<Finding> {
    let records = Records::of(store);
    let broken = lengths::broken(&records, lengths);
    let finding = broken.or_else(|| RULES.iter().find_map(|rule| rule(&records)))?;
    Some(Finding {
        note: narrow::note(&records),
        ..finding
    })
}

impl fmt::Display for Finding {
    fn fmt(&self, f: &mut fmt::Formatter<'_>) -> fmt::Result {
        writeln!(f, "  rule    refusal {}: \"{}\"", self.number, self.rule)?;
        write!(f, "  where   file {}", self.buffer.name())?;
        if let Some(record) = self.record {
            write!(f, ", record {}", grouped(record))?;
        }
        match self.bytes.end.saturating_sub(self.bytes.start) {
            0 => writeln!(f)?,
            1 => writeln!(f, ", byte {}", grouped(self.bytes.start))?,
            _ => writeln!(
                f,
                ", bytes {} to {}",
                grouped(self.bytes.start),
                grouped(self.bytes.end - 1)
            )?,
        }
        write!(f, "  what    {}", self.says)?;
        match self.note {
            Some(note) => write!(f, "\n  note    {note}"),
            None => Ok(()),
        }
    }
}

impl Finding {
    pub fn json(&self) -> Json {
        Json::Fields(vec![
            ("refusal", self.number.into()),
            ("rule", self.rule.into()),
            ("file", self.buffer.name().into()),
            ("record", self.record.into()),
            ("from", self.bytes.start.into()),
            ("to", self.bytes.end.into()),
            ("says", self.says.as_str().into()),
            ("note", self.note.into()),
        ])
    }
}
