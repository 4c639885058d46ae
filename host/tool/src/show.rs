//! `show`: what a store holds, and where.

use std::io::{self, Write};

use crate::buffer::Buffer;
use crate::failure::Failure;
use crate::folder::Loaded;
use crate::json::Json;
use crate::picture::{Kind, LEGEND, MIXED, Measures, Picture, WRONG, kinds, painted};
use crate::records::{Extent, Group, Records};
use crate::words::{counted, date, grouped, hex, sized};

pub struct View {
    pub json: bool,
    pub colour: bool,
    pub columns: usize,
    /// All records, however many.
    pub all: bool,
}

/// Of each book, where not all are asked for.
const SHOWN: usize = 24;

pub fn show(loaded: &mut Loaded, view: &View, out: &mut impl Write) -> Result<(), Failure> {
    let per_mille = loaded.tested("show")?;
    let records = Records::of(&loaded.store);
    let printed = if view.json {
        writeln!(out, "{}", json(&records, per_mille))
    } else {
        text(&records, per_mille, view, out)
    };
    printed.map_err(Failure::output)
}

fn text(
    records: &Records<'_>,
    per_mille: u64,
    view: &View,
    out: &mut impl Write,
) -> io::Result<()> {
    head(records, out)?;
    let kinds = kinds(records);
    let measures = Measures::of(&kinds);
    fullness(&measures, per_mille, view, out)?;
    scatter(records, out)?;
    files(records, view, out)?;
    map(&kinds, &measures, view, out)?;
    extents(records, view, out)?;
    groups(records, view, out)
}

fn head(records: &Records<'_>, out: &mut impl Write) -> io::Result<()> {
    let head = &records.head;
    writeln!(out, "head")?;
    writeln!(out, "  uuid      {}", hex(&head.uuid))?;
    writeln!(
        out,
        "  blocks    {} of 4,096 bytes, {} reserved, hint {} (allocation group)",
        grouped(head.blocks),
        grouped(head.reserved),
        head.hint
    )?;
    let books = [
        (Buffer::Cards, head.cards, sangueko::CARD_BYTES),
        (Buffer::Extents, head.extents, sangueko::EXTENT_BYTES),
        (Buffer::Groups, head.groups, sangueko::GROUP_BYTES),
    ];
    for (book, number, bytes) in books {
        let places = book.of(records.store).len() / bytes;
        let (number, places) = (grouped(number), counted(places, "place"));
        writeln!(out, "  {:<9} {number} of {places}", book.name())?;
    }
    Ok(())
}

fn fullness(
    measures: &Measures,
    per_mille: u64,
    view: &View,
    out: &mut impl Write,
) -> io::Result<()> {
    writeln!(out, "fullness    {}", measures.fullness(per_mille))?;
    writeln!(out, "  {}", measures.bar(view.columns, view.colour))?;
    writeln!(
        out,
        "  {} reserved, {} of files, {} retired; {}",
        grouped(measures.reserved),
        grouped(measures.files),
        grouped(measures.retired),
        measures.scatter()
    )
}

/// A piece is needed wherever a file goes on after a hole, and no other.
fn scatter(records: &Records<'_>, out: &mut impl Write) -> io::Result<()> {
    let joints = records
        .extents
        .windows(2)
        .filter(|pair| pair[0].object == pair[1].object && pair[0].end() == pair[1].logical.into());
    let (pieces, joints) = (records.extents.len(), joints.count());
    writeln!(
        out,
        "  the files lie in {}; {} would do",
        counted(pieces, "piece"),
        grouped(pieces - joints)
    )
}

fn files(records: &Records<'_>, view: &View, out: &mut impl Write) -> io::Result<()> {
    writeln!(out, "files")?;
    let shown = shown(records.cards.len(), view);
    for (index, card) in records.cards.iter().enumerate().take(shown) {
        let kind = Kind::File(index);
        let letter = painted(crate::picture::Cell { kind, whole: true }, view.colour);
        writeln!(
            out,
            "  {letter}  file {}: {}, {} in {}, created {}, changed {}",
            card.object,
            sized(card.size),
            counted(card.allocated, "block"),
            counted(records.extents_of(card.object).len(), "piece"),
            date(card.created),
            date(card.changed)
        )?;
    }
    rest(records.cards.len(), shown, out)
}

fn map(kinds: &[Kind], measures: &Measures, view: &View, out: &mut impl Write) -> io::Result<()> {
    let picture = Picture::of(kinds, view.columns);
    writeln!(
        out,
        "map         {} a cell; {} of one kind in all",
        counted(picture.scale, "block"),
        counted(measures.stretches, "run")
    )?;
    write!(out, "{}", picture.rows(view.colour))?;
    writeln!(out, "  {LEGEND}")?;
    if picture.scale > 1 {
        writeln!(out, "  {MIXED}")?;
    }
    if measures.wrong > 0 {
        writeln!(out, "  {WRONG}")?;
    }
    Ok(())
}

fn extents(records: &Records<'_>, view: &View, out: &mut impl Write) -> io::Result<()> {
    writeln!(out, "extents     object logical physical count")?;
    let shown = shown(records.extents.len(), view);
    for extent in records.extents.iter().take(shown) {
        let Extent {
            object,
            logical,
            physical,
            count,
            ..
        } = extent;
        writeln!(out, "  {object} {logical} {physical} {count}")?;
    }
    rest(records.extents.len(), shown, out)
}

fn groups(records: &Records<'_>, view: &View, out: &mut impl Write) -> io::Result<()> {
    writeln!(out, "groups      object number checksums")?;
    let shown = shown(records.groups.len(), view);
    for group in records.groups.iter().take(shown) {
        writeln!(
            out,
            "  {} {} {}",
            group.object,
            group.number,
            group.present()
        )?;
    }
    rest(records.groups.len(), shown, out)
}

pub fn shown(number: usize, view: &View) -> usize {
    if view.all { number } else { number.min(SHOWN) }
}

pub fn rest(number: usize, shown: usize, out: &mut impl Write) -> io::Result<()> {
    if number > shown {
        writeln!(
            out,
            "  and {} more (--all lists them)",
            grouped(number - shown)
        )?;
    }
    Ok(())
}

fn json(records: &Records<'_>, per_mille: u64) -> Json {
    let kinds = kinds(records);
    let measures = Measures::of(&kinds);
    let head = &records.head;
    let number = |number: usize| Json::from(number as u64);
    let cards = records.cards.iter().map(|card| {
        Json::Fields(vec![
            ("object", card.object.into()),
            ("size", card.size.into()),
            ("allocated", card.allocated.into()),
            ("seconds", card.changed.seconds.into()),
            ("nanoseconds", card.changed.nanoseconds.into()),
            ("created_seconds", card.created.seconds.into()),
            ("created_nanoseconds", card.created.nanoseconds.into()),
            ("pieces", number(records.extents_of(card.object).len())),
        ])
    });
    let map: String = kinds.iter().map(|kind| kind.letters().0).collect();
    Json::Fields(vec![
        ("uuid", hex(&head.uuid).into()),
        ("blocks", head.blocks.into()),
        ("reserved", head.reserved.into()),
        ("hint", head.hint.into()),
        ("per_mille", per_mille.into()),
        ("used", number(measures.used())),
        ("usable", number(measures.usable())),
        ("free", number(measures.free)),
        ("retired", number(measures.retired)),
        ("gaps", number(measures.gaps)),
        ("longest_gap", number(measures.longest_gap)),
        ("cards", cards.collect()),
        ("extents", records.extents.iter().map(extent_json).collect()),
        ("groups", records.groups.iter().map(group_json).collect()),
        ("map", map.into()),
    ])
}

fn extent_json(extent: &Extent) -> Json {
    Json::Fields(vec![
        ("object", extent.object.into()),
        ("logical", extent.logical.into()),
        ("physical", extent.physical.into()),
        ("count", extent.count.into()),
    ])
}

fn group_json(group: &Group<'_>) -> Json {
    Json::Fields(vec![
        ("object", group.object.into()),
        ("number", group.number.into()),
        ("checksums", group.present().into()),
    ])
}
