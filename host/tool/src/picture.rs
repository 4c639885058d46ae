//! The block map as a picture: what every block of the image is, in cells that
//! stand for one block or, in a large store, for several.

use std::fmt::Write;
use std::ops::Range;

use crate::records::{Records, map_bit};
use crate::words::{counted, grouped};

/// What a block is.
#[derive(Clone, Copy, Debug, PartialEq, Eq, PartialOrd, Ord)]
pub enum Kind {
    Reserved,
    Free,
    Retired,
    /// Of the file whose card has this index.
    File(usize),
    /// At two places; passes refusals 1 and 2, but no list of calls leads there.
    Shared,
    /// Used by nothing; likewise.
    Stray,
}

/// Each block's kind, of a store past refusals 1 and 2.
pub fn kinds(records: &Records<'_>) -> Vec<Kind> {
    let head = &records.head;
    let mut kinds: Vec<Kind> = (0..head.blocks)
        .map(|block| {
            let used = map_bit(&records.store.used, block);
            match (
                block < head.reserved,
                used,
                map_bit(&records.store.retired, block),
            ) {
                (true, _, _) => Kind::Reserved,
                (_, false, _) => Kind::Free,
                (_, _, true) => Kind::Retired,
                _ => Kind::Stray,
            }
        })
        .collect();
    for extent in &records.extents {
        let file = records
            .cards
            .binary_search_by_key(&extent.object, |card| card.object);
        let Ok(file) = file else { continue };
        let (from, to) = (extent.physical as usize, extent.device_end() as usize);
        for kind in kinds.get_mut(from..to).unwrap_or_default() {
            *kind = if *kind == Kind::Stray {
                Kind::File(file)
            } else {
                Kind::Shared
            };
        }
    }
    kinds
}

impl Kind {
    /// Its letter where a cell is wholly of this kind, and where it is so for the
    /// most part. Files go through the alphabet again after Z.
    pub fn letters(self) -> (char, char) {
        match self {
            Self::Reserved => ('#', '+'),
            Self::Free => ('.', ':'),
            Self::Retired => ('~', '-'),
            Self::File(index) => {
                let letter = char::from(b'A' + (index % 26) as u8);
                (letter, letter.to_ascii_lowercase())
            }
            Self::Shared => ('!', '!'),
            Self::Stray => ('?', '?'),
        }
    }

    /// Red, green and blue. Neighbouring files get colours that differ.
    pub fn colour(self) -> (u8, u8, u8) {
        const FILES: [(u8, u8, u8); 12] = [
            (66, 133, 244),
            (251, 140, 0),
            (67, 160, 71),
            (171, 71, 188),
            (0, 172, 193),
            (240, 98, 146),
            (158, 157, 36),
            (121, 85, 72),
            (92, 107, 192),
            (255, 202, 40),
            (0, 137, 123),
            (186, 104, 200),
        ];
        match self {
            Self::Reserved => (84, 84, 84),
            Self::Free => (236, 239, 241),
            Self::Retired => (176, 190, 197),
            Self::File(index) => FILES[index % FILES.len()],
            Self::Shared | Self::Stray => (229, 57, 53),
        }
    }
}

/// A square of the picture: the kind that most of its blocks are, and whether all
/// of them are.
#[derive(Clone, Copy, Debug, PartialEq, Eq)]
pub struct Cell {
    pub kind: Kind,
    pub whole: bool,
}

impl Cell {
    fn of(blocks: &[Kind]) -> Option<Self> {
        let mut sorted = blocks.to_vec();
        sorted.sort_unstable();
        // what should not be is shown wherever it is
        let wrong = sorted.last().filter(|kind| **kind >= Kind::Shared).copied();
        let most = sorted
            .chunk_by(|a, b| a == b)
            .max_by_key(|same| same.len())?;
        Some(Self {
            kind: wrong.unwrap_or(*most.first()?),
            whole: most.len() == blocks.len(),
        })
    }

    pub fn letter(self) -> char {
        let (whole, mixed) = self.kind.letters();
        if self.whole { whole } else { mixed }
    }

    /// A mixed cell is greyer, so that it stands out from its neighbours.
    pub fn colour(self) -> (u8, u8, u8) {
        let (r, g, b) = self.kind.colour();
        let shade = |part: u8| if self.whole { part } else { part / 2 + 64 };
        (shade(r), shade(g), shade(b))
    }
}

/// Blocks of the image, or units of a file.
pub struct Picture {
    pub cells: Vec<Cell>,
    /// Their numbers.
    pub range: Range<u64>,
    /// How many a cell stands for.
    pub scale: u64,
    pub columns: usize,
}

/// More rows do not fit a screen.
const ROWS: usize = 32;

impl Picture {
    /// All blocks.
    pub fn of(kinds: &[Kind], columns: usize) -> Self {
        let scale = Self::scale(kinds.len() as u64, Self::cells_of(columns));
        Self {
            cells: kinds.chunks(scale as usize).filter_map(Cell::of).collect(),
            range: 0..kinds.len() as u64,
            scale,
            columns: columns.max(1),
        }
    }

    /// The cells of a screen of so many columns.
    pub fn cells_of(columns: usize) -> usize {
        columns.max(1) * ROWS
    }

    /// How many a cell has to stand for, so that so many fit into the cells.
    pub fn scale(number: u64, cells: usize) -> u64 {
        let each = number.div_ceil(cells as u64);
        each.max(1).next_power_of_two()
    }

    /// The number of the first block or unit of a cell.
    fn start(&self, cell: usize) -> u64 {
        self.range.start + cell as u64 * self.scale
    }

    /// The numbers of those that cells stand for.
    pub fn numbers(&self, cells: Range<usize>) -> Range<u64> {
        self.start(cells.start)..self.start(cells.end).min(self.range.end)
    }

    /// The rows, each with the number of its first block or unit.
    pub fn rows(&self, colour: bool) -> String {
        let last = self.start(self.cells.len().saturating_sub(1));
        let width = grouped(last).len();
        let mut text = String::new();
        for (row, cells) in self.cells.chunks(self.columns).enumerate() {
            let first = grouped(self.start(row * self.columns));
            let _ = write!(text, "  {first:>width$}  ");
            for cell in cells {
                text.push_str(&painted(*cell, colour));
            }
            text.push('\n');
        }
        text
    }
}

/// The letter, on its colour where there is a terminal.
pub fn painted(cell: Cell, colour: bool) -> String {
    if !colour {
        return cell.letter().into();
    }
    let (r, g, b) = cell.colour();
    // dark letters on light grounds
    let light = u32::from(r) + u32::from(g) + u32::from(b) > 380;
    let ink = if light { 16 } else { 231 };
    format!("\x1b[48;2;{r};{g};{b};38;5;{ink}m{}\x1b[0m", cell.letter())
}

/// How full and how scattered: numbers that belong to the picture.
pub struct Measures {
    pub blocks: usize,
    pub reserved: usize,
    pub free: usize,
    pub retired: usize,
    pub files: usize,
    pub wrong: usize,
    /// Stretches of free blocks, and the longest of them.
    pub gaps: usize,
    pub longest_gap: usize,
    /// Stretches of one kind in the whole image.
    pub stretches: usize,
}

impl Measures {
    pub fn of(kinds: &[Kind]) -> Self {
        let number = |test: fn(Kind) -> bool| kinds.iter().filter(|kind| test(**kind)).count();
        let stretches = || kinds.chunk_by(|a, b| a == b);
        let gaps = || stretches().filter(|same| same.first() == Some(&Kind::Free));
        Self {
            blocks: kinds.len(),
            reserved: number(|kind| kind == Kind::Reserved),
            free: number(|kind| kind == Kind::Free),
            retired: number(|kind| kind == Kind::Retired),
            files: number(|kind| matches!(kind, Kind::File(_))),
            wrong: number(|kind| kind >= Kind::Shared),
            gaps: gaps().count(),
            longest_gap: gaps().map(<[Kind]>::len).max().unwrap_or(0),
            stretches: stretches().count(),
        }
    }

    /// A bar of the whole store, its parts in the order of what cannot be had:
    /// reserved, files, retired, free.
    pub fn bar(&self, width: usize, colour: bool) -> String {
        let parts = [
            (Kind::Reserved, self.reserved),
            (Kind::File(0), self.files + self.wrong),
            (Kind::Retired, self.retired),
            (Kind::Free, self.free),
        ];
        let (mut text, mut blocks, mut drawn) = (String::from("["), 0, 0);
        for (kind, number) in parts {
            blocks += number;
            let end = blocks * width / self.blocks.max(1);
            // files together have no letter of their own
            let (letter, _) = kind.letters();
            let letter = if kind == Kind::File(0) { '=' } else { letter };
            let part: String = std::iter::repeat_n(letter, end - drawn).collect();
            if colour && !part.is_empty() {
                let (r, g, b) = kind.colour();
                let _ = write!(text, "\x1b[48;2;{r};{g};{b};38;5;16m{part}\x1b[0m");
            } else {
                text.push_str(&part);
            }
            drawn = end;
        }
        text.push(']');
        text
    }

    /// Blocks that files can have.
    pub fn usable(&self) -> usize {
        self.blocks - self.reserved
    }

    /// How many of them are used, retired ones among them.
    pub fn used(&self) -> usize {
        self.usable() - self.free
    }

    /// What the library answers, and what it divides by.
    pub fn fullness(&self, per_mille: u64) -> String {
        let of = match self.usable() {
            0 => "every block is reserved".into(),
            1 => format!("{} of the 1 block that is not reserved", self.used()),
            usable => format!(
                "{} of the {} that are not reserved",
                grouped(self.used()),
                counted(usable, "block")
            ),
        };
        format!("{per_mille} per mille used: {of}")
    }

    pub fn scatter(&self) -> String {
        if self.free == 0 {
            return "no free block".into();
        }
        format!(
            "{} in {}, the longest of {}",
            counted(self.free, "free block"),
            counted(self.gaps, "gap"),
            grouped(self.longest_gap)
        )
    }
}

/// What the letters mean.
pub const LEGEND: &str = "# reserved   . free   ~ retired   A to Z the files, as listed";
pub const MIXED: &str = "of cells of several blocks: small letters, + : and - where most of a cell is of the kind, not all";
pub const WRONG: &str = "! a block at two places   ? a used block of no file: no list of calls leads there; something has changed the files";

#[cfg(test)]
mod tests {
    use super::*;

    #[test]
    fn a_cell_of_several_blocks_shows_what_most_of_them_are() {
        let file = Kind::File(1);
        assert_eq!(Cell::of(&[file, file]).map(Cell::letter), Some('B'));
        assert_eq!(
            Cell::of(&[file, Kind::Free, file]).map(Cell::letter),
            Some('b')
        );
        assert_eq!(
            Cell::of(&[Kind::Free, Kind::Free, file]).map(Cell::letter),
            Some(':')
        );
        assert_eq!(
            Cell::of(&[Kind::Free, Kind::Free, Kind::Stray]).map(Cell::letter),
            Some('?')
        );
    }

    #[test]
    fn the_largest_store_fits_a_screen() {
        let picture = Picture::of(&vec![Kind::Free; 65_536], 64);
        assert_eq!((picture.scale, picture.cells.len()), (32, 2_048));
        assert_eq!(picture.rows(false).lines().count(), 32);
    }
}
