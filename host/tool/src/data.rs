//! `data`: which units of a file hold data, and which were never written.

use std::io::{self, Write};
use std::ops::Range;

use sangueko::{STRETCH_BYTES, Stretch};

use crate::failure::Failure;
use crate::folder::Loaded;
use crate::json::Json;
use crate::picture::{Cell, Kind, Picture};
use crate::records::{Card, GROUP_UNITS, Records, UNIT_BYTES};
use crate::show::{View, rest, shown};
use crate::units;
use crate::words::{counted, grouped, sized};

/// What the library tells of a file's units, and what it leaves out.
pub struct Data {
    pub card: Card,
    /// The place of the card, which gives the file its letter and colour.
    index: usize,
    /// The units that are asked for and that the file has.
    range: Range<u64>,
    /// Each is so many units that follow one another and hold data.
    pub stretches: Vec<Range<u64>>,
    /// Units that are in no stretch and have blocks all the same: damage.
    pub unchecked: Vec<u64>,
}

/// So many units, and the bytes of the file in them.
#[derive(Clone, Copy)]
struct Total {
    units: u64,
    bytes: u64,
}

impl Data {
    /// Of so many units from the first on, which the library may refuse.
    pub fn of(
        loaded: &mut Loaded,
        doing: &str,
        object: u64,
        (first, units): (u64, u64),
    ) -> Result<Self, Failure> {
        let room = room(&Records::of(&loaded.store), object, units);
        let mut out = vec![0; room * STRETCH_BYTES];
        let lent = loaded.store.lend();
        let answer = lent.data_stretches(object, first, units, &mut out);
        let count = answer.map_err(|refusal| loaded.refused(doing, refusal))?;
        let stretches = Stretch::all(&out, count).map(|s| s.first..s.first + s.units);
        let stretches: Vec<Range<u64>> = stretches.collect();

        let records = Records::of(&loaded.store);
        let index = records.cards.partition_point(|card| card.object < object);
        // both by the library's answer: there is a card, and the sum is no larger
        let card = records.cards[index];
        let range = first.min(card.units())..(first + units).min(card.units());
        Ok(Self {
            card,
            index,
            unchecked: units::unchecked(&records, &card, &range, &stretches),
            range,
            stretches,
        })
    }

    /// Of the whole file.
    pub fn of_all(loaded: &mut Loaded, doing: &str, object: u64) -> Result<Self, Failure> {
        Self::of(loaded, doing, object, (0, u64::MAX))
    }

    /// The bytes of the file in units that follow one another.
    pub fn bytes(&self, units: &Range<u64>) -> Range<u64> {
        self.card.unit_bytes(units.start).start..self.card.unit_bytes(units.end).start
    }

    fn total(&self, units: &Range<u64>) -> Total {
        let bytes = self.bytes(units);
        Total {
            units: units.end - units.start,
            bytes: bytes.end - bytes.start,
        }
    }

    fn with_data(&self) -> Total {
        sum(self.stretches.iter().map(|units| self.total(units)))
    }

    fn without_checksum(&self) -> Total {
        let units = self.unchecked.iter();
        sum(units.map(|&unit| self.total(&(unit..unit + 1))))
    }

    fn never_written(&self) -> Total {
        let all = self.total(&self.range);
        let others = sum([self.with_data(), self.without_checksum()].into_iter());
        Total {
            units: all.units - others.units,
            bytes: all.bytes - others.bytes,
        }
    }

    /// The units that are asked for, in no more cells than `most`.
    pub fn picture(&self, columns: usize, most: usize) -> Picture {
        let scale = Picture::scale(self.range.end - self.range.start, most);
        let starts = self.range.clone().step_by(scale as usize);
        let cells = starts.map(|from| self.cell(from..(from + scale).min(self.range.end)));
        Picture {
            cells: cells.collect(),
            range: self.range.clone(),
            scale,
            columns,
        }
    }

    /// A cell of units without blocks is drawn like one of free blocks.
    fn cell(&self, units: Range<u64>) -> Cell {
        let length = units.end - units.start;
        let from = self.unchecked.partition_point(|unit| *unit < units.start);
        let to = self.unchecked.partition_point(|unit| *unit < units.end);
        let unchecked = (to - from) as u64;
        let from = self.stretches.partition_point(|s| s.end <= units.start);
        let to = self.stretches.partition_point(|s| s.start < units.end);
        let held = self.stretches.get(from..to).unwrap_or_default().iter();
        let held = held.map(|s| s.end.min(units.end) - s.start.max(units.start));
        let held: u64 = held.sum();
        let (kind, most) = if unchecked > 0 {
            // what should not be is shown wherever it is
            (Kind::Stray, unchecked)
        } else if held >= length - held {
            (Kind::File(self.index), held)
        } else {
            (Kind::Free, length - held)
        };
        Cell {
            kind,
            whole: most == length,
        }
    }

    pub fn text(&self, view: &View, out: &mut impl Write) -> io::Result<()> {
        writeln!(out, "{}", self.headline())?;
        let total = |Total { units, bytes }| (counted(units, "unit"), sized(bytes));
        let (units, bytes) = total(self.with_data());
        let stretches = self.number_of_stretches();
        writeln!(out, "  with data      {units} in {stretches}, {bytes}")?;
        let (units, bytes) = total(self.never_written());
        writeln!(out, "  never written  {units}, {bytes}")?;
        if let Some(first) = self.unchecked.first() {
            let (units, bytes) = total(self.without_checksum());
            writeln!(
                out,
                "  no checksum    {units}, {bytes}; the first is unit {}: it has blocks, and a read of it is refused by 9",
                grouped(first)
            )?;
        }
        self.list(view, out)?;
        self.map(view, out)
    }

    /// The file, and which units are looked at, where it is not all of them.
    pub fn headline(&self) -> String {
        let all = self.card.units();
        let asked = match self.range {
            Range { start: 0, end } if end == all => String::new(),
            Range { start, end } if start == end => "; none of them is asked for".into(),
            Range { start, end } => format!(
                "; asked for are units {} to {}",
                grouped(start),
                grouped(end - 1)
            ),
        };
        format!(
            "file {}: {}, {} of {} bytes{asked}",
            self.card.object,
            sized(self.card.size),
            counted(all, "unit"),
            grouped(UNIT_BYTES)
        )
    }

    /// What the colours of the picture mean.
    pub fn legend(&self) -> Vec<(Kind, String)> {
        let told = |kind, says: &str, total: Total| {
            let units = counted(total.units, "unit");
            (kind, format!("{says}: {units}, {}", sized(total.bytes)))
        };
        let mut entries = vec![
            told(Kind::File(self.index), "with data", self.with_data()),
            told(Kind::Free, "never written", self.never_written()),
        ];
        if !self.unchecked.is_empty() {
            let says = "blocks but no checksum";
            entries.push(told(Kind::Stray, says, self.without_checksum()));
        }
        entries
    }

    fn number_of_stretches(&self) -> String {
        match self.stretches.len() {
            1 => "1 stretch".into(),
            number => format!("{} stretches", grouped(number)),
        }
    }

    fn list(&self, view: &View, out: &mut impl Write) -> io::Result<()> {
        writeln!(out, "stretches   first units bytes")?;
        let shown = shown(self.stretches.len(), view);
        for stretch in self.stretches.iter().take(shown) {
            let Total { units, bytes } = self.total(stretch);
            writeln!(out, "  {} {units} {bytes}", stretch.start)?;
        }
        rest(self.stretches.len(), shown, out)
    }

    fn map(&self, view: &View, out: &mut impl Write) -> io::Result<()> {
        let picture = self.picture(view.columns, Picture::cells_of(view.columns));
        writeln!(out, "map         {} a cell", counted(picture.scale, "unit"))?;
        write!(out, "{}", picture.rows(view.colour))?;
        let (letter, small) = Kind::File(self.index).letters();
        writeln!(out, "  {letter} with data   . never written")?;
        if picture.scale > 1 {
            writeln!(
                out,
                "  of cells of several units: {small} and : where most of a cell is of the kind, not all"
            )?;
        }
        if !self.unchecked.is_empty() {
            writeln!(out, "  {UNCHECKED}")?;
        }
        Ok(())
    }

    pub fn json(&self) -> Json {
        let stretches = self.stretches.iter().map(|stretch| {
            let Total { units, bytes } = self.total(stretch);
            Json::Fields(vec![
                ("first", stretch.start.into()),
                ("units", units.into()),
                ("bytes", bytes.into()),
            ])
        });
        Json::Fields(vec![
            ("object", self.card.object.into()),
            ("size", self.card.size.into()),
            ("units", self.card.units().into()),
            ("from", self.range.start.into()),
            ("to", self.range.end.into()),
            ("with_data", self.with_data().units.into()),
            ("never_written", self.never_written().units.into()),
            ("without_checksum", self.without_checksum().units.into()),
            ("stretches", stretches.collect()),
        ])
    }

    /// What a cell of the picture stands for.
    pub fn named(cell: Cell) -> &'static str {
        match (cell.kind, cell.whole) {
            (Kind::Stray, _) => "blocks but no checksum",
            (Kind::Free, true) => "never written",
            (_, true) => "with data",
            (Kind::Free, false) => "most of them never written",
            (_, false) => "most of them with data",
        }
    }
}

const UNCHECKED: &str = "? blocks but no checksum: no list of calls leads there; something has changed the files; `sangueko check` says more";

/// As many stretches as there can be: two of them do not adjoin, so that half of
/// the units of a group or of a range can each be one.
fn room(records: &Records<'_>, object: u64, units: u64) -> usize {
    let groups = records.groups_of(object).len();
    let of_range = usize::try_from(units.div_ceil(2)).unwrap_or(usize::MAX);
    of_range.min(groups * GROUP_UNITS as usize / 2)
}

fn sum(totals: impl Iterator<Item = Total>) -> Total {
    let none = Total { units: 0, bytes: 0 };
    totals.fold(none, |sum, total| Total {
        units: sum.units + total.units,
        bytes: sum.bytes + total.bytes,
    })
}

#[cfg(test)]
pub mod tests {
    use super::*;
    use crate::time::Time;

    /// File 5, the second of its store, of 20 units and a byte.
    pub fn sample(range: Range<u64>, stretches: &[Range<u64>], unchecked: &[u64]) -> Data {
        let time = Time {
            seconds: 0,
            nanoseconds: 0,
        };
        Data {
            card: Card {
                object: 5,
                size: 20 * UNIT_BYTES + 1,
                allocated: 0,
                changed: time,
                created: time,
                spare: 0,
            },
            index: 1,
            range,
            stretches: stretches.to_vec(),
            unchecked: unchecked.to_vec(),
        }
    }

    #[test]
    fn units_and_bytes_add_up() {
        let data = sample(2..21, &[2..5, 9..10, 20..21], &[11, 12]);
        let told = |Total { units, bytes }| (units, bytes);
        assert_eq!(told(data.with_data()), (5, 4 * UNIT_BYTES + 1));
        assert_eq!(told(data.without_checksum()), (2, 2 * UNIT_BYTES));
        assert_eq!(told(data.never_written()), (12, 12 * UNIT_BYTES));
        let none = sample(21..21, &[], &[]);
        assert_eq!(told(none.never_written()), (0, 0));
    }

    #[test]
    fn a_cell_of_several_units_shows_what_most_of_them_are() {
        let drawn = |data: &Data, most| {
            let picture = data.picture(64, most);
            let cells = picture.cells.iter();
            (picture.scale, cells.map(|cell| cell.letter()).collect())
        };
        let data = sample(0..21, &[0..4, 6..9, 13..14, 20..21], &[]);
        let single: String = "BBBB..BBB....B......B".into();
        assert_eq!(drawn(&data, 21), (1, single.clone()));
        assert_eq!(drawn(&data, 32), (1, single));
        assert_eq!(drawn(&data, 20), (2, "BB.Bb.b...B".into()));
        assert_eq!(drawn(&data, 6), (4, "Bb::.B".into()));
        assert_eq!(drawn(&data, 1), (32, ":".into()));
        // from a unit on that is not the file's first
        let data = sample(1..21, &[1..4, 20..21], &[10]);
        assert_eq!(drawn(&data, 5), (4, "b.?.:".into()));
        let picture = data.picture(3, 5);
        assert_eq!(picture.rows(false), "   1  b.?\n  13  .:\n");
        assert_eq!(picture.numbers(0..2), 1..9);
        assert_eq!(picture.numbers(4..5), 17..21);
        assert_eq!(drawn(&sample(21..21, &[], &[]), 5), (1, String::new()));
    }
}
