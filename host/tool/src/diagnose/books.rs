//! Refusal 2's words on the books. Past refusal 1, so that every record that the
//! head counts has its place.

use std::ops::Range;

use sangueko::{CARD_BYTES, EXTENT_BYTES, GROUP_BYTES};

use super::Finding;
use crate::buffer::Buffer;
use crate::records::{Card, Extent, Records, map_bit};
use crate::time::SECOND;
use crate::words::{counted, grouped};

const KEY_BYTES: usize = 17;

/// A book: its buffer, and the bytes of a record and of its key.
struct Book {
    buffer: Buffer,
    record: usize,
    key: usize,
}

const CARDS: Book = Book {
    buffer: Buffer::Cards,
    record: CARD_BYTES,
    key: 8,
};
const EXTENTS: Book = Book {
    buffer: Buffer::Extents,
    record: EXTENT_BYTES,
    key: KEY_BYTES,
};
const GROUPS: Book = Book {
    buffer: Buffer::Groups,
    record: GROUP_BYTES,
    key: KEY_BYTES,
};
const BOOKS: [Book; 3] = [CARDS, EXTENTS, GROUPS];

impl Book {
    fn number(&self, records: &Records<'_>) -> usize {
        let head = &records.head;
        let number = match self.buffer {
            Buffer::Cards => head.cards,
            Buffer::Extents => head.extents,
            _ => head.groups,
        };
        number as usize
    }

    /// About bytes of a record, counted within it.
    fn finding(&self, at: usize, bytes: Range<usize>, rule: &'static str, says: String) -> Finding {
        let start = at * self.record;
        Finding {
            number: 2,
            rule,
            buffer: self.buffer,
            record: Some(at as u64),
            bytes: (start + bytes.start) as u64..(start + bytes.end) as u64,
            says,
            note: None,
        }
    }
}

/// A record in words.
fn named(records: &Records<'_>, book: &Book, at: usize) -> String {
    match book.buffer {
        Buffer::Cards => records
            .cards
            .get(at)
            .map(|card| format!("the card of file {}", card.object)),
        Buffer::Extents => records.extents.get(at).map(extent_named),
        _ => records
            .groups
            .get(at)
            .map(|group| format!("group {} of file {}", grouped(group.number), group.object)),
    }
    .unwrap_or_default()
}

fn extent_named(extent: &Extent) -> String {
    format!(
        "the extent of file {} at its block {} ({} from block {} of the image)",
        extent.object,
        grouped(extent.logical),
        counted(extent.count, "block"),
        grouped(extent.physical)
    )
}

pub fn order(records: &Records<'_>) -> Option<Finding> {
    BOOKS.iter().find_map(|book| {
        let bytes = book.buffer.of(records.store);
        let keys = bytes.chunks_exact(book.record).take(book.number(records));
        let keys: Vec<&[u8]> = keys.filter_map(|record| record.get(..book.key)).collect();
        let at = keys.windows(2).position(|pair| pair[0] >= pair[1])? + 1;
        let says = format!(
            "{} does not come after {}, the record before it",
            named(records, book, at),
            named(records, book, at - 1)
        );
        Some(book.finding(at, 0..book.key, "order", says))
    })
}

pub fn zeros_after(records: &Records<'_>) -> Option<Finding> {
    BOOKS.iter().find_map(|book| {
        let number = book.number(records);
        let bytes = book.buffer.of(records.store);
        let rest = bytes.get(number * book.record..)?;
        let at = number * book.record + rest.iter().position(|&byte| byte != 0)?;
        let says = format!(
            "the head counts {} in {}, and byte {} behind them is {}",
            counted(number, "record"),
            book.buffer.name(),
            grouped(at),
            bytes.get(at).copied().unwrap_or_default()
        );
        let within = at % book.record;
        Some(book.finding(
            at / book.record,
            within..within + 1,
            "zeros after the last record",
            says,
        ))
    })
}

pub fn fixed_and_spare(records: &Records<'_>) -> Option<Finding> {
    spare_bits(records)
        .or_else(|| extent_bytes(records))
        .or_else(|| group_kind(records))
}

const FIXED: &str = "fixed or spare bytes";

fn spare_bits(records: &Records<'_>) -> Option<Finding> {
    let mut cards = records.cards.iter().enumerate();
    let (at, bit) = cards.find_map(|(at, card)| Some((at, card.spare_bit()?)))?;
    let says = format!(
        "bit {bit} of {} is set, and its last 36, which are spare, have to be zero",
        named(records, &CARDS, at)
    );
    Some(CARDS.finding(at, bit / 8..bit / 8 + 1, FIXED, says))
}

fn extent_bytes(records: &Records<'_>) -> Option<Finding> {
    let book = records.store.extents.chunks_exact(EXTENT_BYTES);
    let mut extents = book.zip(&records.extents).enumerate();
    extents.find_map(|(at, (bytes, extent))| {
        if extent.kind != 3 {
            let says = format!(
                "the kind of {} is {}, not 3",
                extent_named(extent),
                extent.kind
            );
            return Some(EXTENTS.finding(at, 8..9, FIXED, says));
        }
        let zeros = bytes.get(29..)?;
        let byte = zeros.iter().position(|&byte| byte != 0)?;
        let says = format!(
            "the last four bytes of {} are not zero",
            extent_named(extent)
        );
        Some(EXTENTS.finding(at, 29 + byte..30 + byte, FIXED, says))
    })
}

fn group_kind(records: &Records<'_>) -> Option<Finding> {
    let at = records.groups.iter().position(|group| group.kind != 4)?;
    let says = format!(
        "the kind of {} is {}, not 4",
        named(records, &GROUPS, at),
        records.groups.get(at)?.kind
    );
    Some(GROUPS.finding(at, 8..9, FIXED, says))
}

pub fn nanoseconds(records: &Records<'_>) -> Option<Finding> {
    let mut cards = records.cards.iter().enumerate();
    cards.find_map(|(at, card)| {
        let times = [
            (card.changed, Card::NANOSECONDS, "last change"),
            (card.created, Card::CREATED_NANOSECONDS, "creation"),
        ];
        let mut times = times.into_iter();
        let (time, field, whose) = times.find(|(time, ..)| time.nanoseconds >= SECOND)?;
        let says = format!(
            "the card of file {} says {} nanoseconds in the time of its {whose}",
            card.object,
            grouped(time.nanoseconds)
        );
        Some(CARDS.finding(at, field.bytes(), "nanoseconds 1,000,000,000 or more", says))
    })
}

/// The first extent of which a test says something.
fn extent(
    records: &Records<'_>,
    bytes: Range<usize>,
    rule: &'static str,
    test: impl Fn(usize, &Extent) -> Option<String>,
) -> Option<Finding> {
    let mut extents = records.extents.iter().enumerate();
    extents.find_map(|(at, extent)| {
        let says = test(at, extent)?;
        Some(EXTENTS.finding(at, bytes.clone(), rule, says))
    })
}

pub fn count_zero(records: &Records<'_>) -> Option<Finding> {
    extent(records, 25..29, "an extent with count 0", |_, extent| {
        (extent.count == 0).then(|| format!("{} maps nothing", extent_named(extent)))
    })
}

pub fn overlapping(records: &Records<'_>) -> Option<Finding> {
    extent(
        records,
        9..17,
        "overlapping its neighbour in the file",
        |at, extent| {
            let before = records.extents.get(at.checked_sub(1)?)?;
            let overlaps = before.object == extent.object && before.end() > extent.logical.into();
            overlaps.then(|| {
                format!(
                    "{} begins before block {}, where {} ends",
                    extent_named(extent),
                    grouped(before.end()),
                    extent_named(before)
                )
            })
        },
    )
}

pub fn past_device(records: &Records<'_>) -> Option<Finding> {
    let blocks = records.head.blocks;
    extent(records, 17..29, "past the device", |_, extent| {
        (extent.device_end() > blocks.into()).then(|| {
            format!(
                "{} goes past the image's {}",
                extent_named(extent),
                counted(blocks, "block")
            )
        })
    })
}

pub fn past_size(records: &Records<'_>) -> Option<Finding> {
    extent(
        records,
        9..17,
        "past the blocks of its file's size",
        |_, extent| {
            let card = records.card(extent.object)?;
            (extent.end() > card.blocks().into()).then(|| {
                format!(
                    "{} goes past the {} that its {} take",
                    extent_named(extent),
                    counted(card.blocks(), "block"),
                    counted(card.size, "byte")
                )
            })
        },
    )
}

pub fn without_card(records: &Records<'_>) -> Option<Finding> {
    extent(records, 0..8, "without a card", |_, extent| {
        let missing = records.card(extent.object).is_none();
        missing.then(|| format!("{} is of a file that has no card", extent_named(extent)))
    })
}

pub fn absent_slot(records: &Records<'_>) -> Option<Finding> {
    let mut groups = records.groups.iter().enumerate();
    groups.find_map(|(at, group)| {
        let mut slots = group.slots.iter().enumerate();
        let (n, _) =
            slots.find(|(n, slot)| **slot != [0; 4] && !map_bit(group.presence, *n as u64))?;
        let says = format!(
            "slot {n} of {} is not present, and holds a checksum",
            named(records, &GROUPS, at)
        );
        Some(GROUPS.finding(
            at,
            49 + 4 * n..53 + 4 * n,
            "a slot not present but not zero",
            says,
        ))
    })
}
