//! Refusal 1: "A length is wrong".

use sangueko::{
    BLOCK_BYTES, CARD_BYTES, EXTENT_BYTES, GROUP_BYTES, HEAD_BYTES, MOST_BLOCKS, MOST_PLACES,
};

use super::Finding;
use crate::buffer::{Buffer, Lengths};
use crate::records::Records;
use crate::words::{counted, grouped};

pub fn broken(records: &Records<'_>, lengths: &Lengths) -> Option<Finding> {
    image(lengths)
        .or_else(|| maps(lengths))
        .or_else(|| books(lengths))
        .or_else(|| head(lengths))
        .or_else(|| blocks(records, lengths))
        .or_else(|| numbers(records, lengths))
        .or_else(|| reserved(records, lengths))
}

fn of(lengths: &Lengths, buffer: Buffer) -> u64 {
    lengths[buffer.index()]
}

/// A file's length: its end is where to look.
fn length(buffer: Buffer, lengths: &Lengths, rule: &'static str, says: String) -> Option<Finding> {
    let length = of(lengths, buffer);
    Some(Finding {
        number: 1,
        rule,
        buffer,
        record: None,
        bytes: length..length,
        says,
        note: None,
    })
}

fn image(lengths: &Lengths) -> Option<Finding> {
    let rule = "the image is not 1 to 65,536 whole blocks";
    let (bytes, block) = (of(lengths, Buffer::Image), BLOCK_BYTES as u64);
    let has = format!("image has {}", counted(bytes, "byte"));
    if !bytes.is_multiple_of(block) {
        let more = bytes % block;
        let says = format!(
            "{has}: {} and {more} more",
            counted(bytes / block, "whole block")
        );
        return length(Buffer::Image, lengths, rule, says);
    }
    let blocks = bytes / block;
    if !(1..=MOST_BLOCKS as u64).contains(&blocks) {
        let says = format!("{has}, which are {}", counted(blocks, "block"));
        return length(Buffer::Image, lengths, rule, says);
    }
    None
}

fn image_blocks(lengths: &Lengths) -> u64 {
    of(lengths, Buffer::Image) / BLOCK_BYTES as u64
}

fn maps(lengths: &Lengths) -> Option<Finding> {
    let blocks = image_blocks(lengths);
    let wanted = blocks.div_ceil(64) * 8;
    let wrong = [Buffer::Used, Buffer::Retired]
        .into_iter()
        .find(|&map| of(lengths, map) != wanted)?;
    let says = format!(
        "{} has {}; a map of the image's {} has {}",
        wrong.name(),
        counted(of(lengths, wrong), "byte"),
        counted(blocks, "block"),
        counted(wanted, "byte")
    );
    length(wrong, lengths, "a map does not fit it", says)
}

/// The books, each with the bytes of a record.
const BOOKS: [(Buffer, u64); 3] = [
    (Buffer::Cards, CARD_BYTES as u64),
    (Buffer::Extents, EXTENT_BYTES as u64),
    (Buffer::Groups, GROUP_BYTES as u64),
];

fn books(lengths: &Lengths) -> Option<Finding> {
    let rule = "a book is not whole records or has over 1,048,575 places";
    BOOKS.into_iter().find_map(|(book, record)| {
        let bytes = of(lengths, book);
        let has = format!("{} has {}", book.name(), counted(bytes, "byte"));
        if !bytes.is_multiple_of(record) {
            let more = bytes % record;
            let says = format!(
                "{has}: {} of {record} bytes and {more} more",
                counted(bytes / record, "record")
            );
            return length(book, lengths, rule, says);
        }
        if bytes / record > MOST_PLACES as u64 {
            let says = format!("{has}, which are {}", counted(bytes / record, "place"));
            return length(book, lengths, rule, says);
        }
        None
    })
}

fn head(lengths: &Lengths) -> Option<Finding> {
    let bytes = of(lengths, Buffer::Head);
    if bytes == HEAD_BYTES as u64 {
        return None;
    }
    let says = format!("head has {}", counted(bytes, "byte"));
    length(Buffer::Head, lengths, "a head is not 28 bytes", says)
}

/// A field of the head, at these bytes of it.
fn field(bytes: std::ops::Range<u64>, rule: &'static str, says: String) -> Finding {
    Finding {
        number: 1,
        rule,
        buffer: Buffer::Head,
        record: None,
        bytes,
        says,
        note: None,
    }
}

fn blocks(records: &Records<'_>, lengths: &Lengths) -> Option<Finding> {
    let (says, has) = (records.head.blocks, image_blocks(lengths));
    let rule = "a head [..] has blocks other than the image's";
    let text = format!(
        "the head says {}, the image has {}",
        counted(says, "block"),
        grouped(has)
    );
    (says != has).then(|| field(16..19, rule, text))
}

fn numbers(records: &Records<'_>, lengths: &Lengths) -> Option<Finding> {
    let head = &records.head;
    let numbers = [
        (head.cards, 20..23),
        (head.extents, 23..26),
        (head.groups, 25..28),
    ];
    let mut books = BOOKS.into_iter().zip(numbers);
    books.find_map(|((book, record), (number, bytes))| {
        let places = of(lengths, book) / record;
        let says = format!(
            "the head says {} in {}, which has {}",
            counted(number, "record"),
            book.name(),
            counted(places, "place")
        );
        (number > places).then(|| {
            field(
                bytes,
                "a head [..] has [..] record numbers above the places",
                says,
            )
        })
    })
}

fn reserved(records: &Records<'_>, lengths: &Lengths) -> Option<Finding> {
    let (reserved, blocks) = (records.head.reserved, image_blocks(lengths));
    let says = format!(
        "the head says {} reserved of {}",
        grouped(reserved),
        counted(blocks, "block")
    );
    (reserved > blocks).then(|| field(18..21, "reserved exceeds blocks", says))
}
