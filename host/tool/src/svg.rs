//! The block map as an SVG file: every block has its place, whatever the store's
//! size. The units of a file likewise, but for a file of very many.

use std::fmt::Write;
use std::ops::Range;

use crate::data::Data;
use crate::picture::{Kind, Measures, kinds};
use crate::records::Records;
use crate::words::{counted, grouped};

const WIDTH: usize = 768;
const MARGIN: usize = 16;
const LINE: usize = 20;

pub fn svg(records: &Records<'_>, per_mille: u64) -> String {
    let kinds = kinds(records);
    let measures = Measures::of(&kinds);
    let entries = legend_entries(records);
    let grid = Grid::new(kinds.len(), MARGIN + 4 * LINE);
    let mut text = opened(grid.end() + LINE + entries.len() * LINE);
    headline(&mut text, &measures, &kinds, per_mille);
    grid.draw(&mut text, &kinds, |kind, blocks| {
        let (first, last) = (blocks.start, blocks.end - 1);
        let says = format!("{}: blocks {first} to {last}", named(records, kind));
        (kind.colour(), says)
    });
    closed(text, grid.end() + LINE, &entries)
}

/// The most cells that a file's units are drawn in: as many as the largest store
/// has blocks.
const MOST_CELLS: usize = 65_536;

/// The units of a file that are asked for.
pub fn data(data: &Data) -> String {
    let picture = data.picture(1, MOST_CELLS);
    let entries = data.legend();
    let grid = Grid::new(picture.cells.len(), MARGIN + 2 * LINE);
    let mut text = opened(grid.end() + LINE + entries.len() * LINE);
    let each = match picture.scale {
        1 => String::new(),
        scale => format!("; a cell stands for {}", counted(scale, "unit")),
    };
    let _ = writeln!(
        text,
        "<text x=\"{MARGIN}\" y=\"{}\" font-size=\"16\">{}{each}</text>",
        MARGIN + LINE / 2,
        data.headline()
    );
    grid.draw(&mut text, &picture.cells, |cell, cells| {
        let units = picture.numbers(cells);
        let (first, last) = (units.start, units.end - 1);
        let says = format!("{}: units {first} to {last}", Data::named(cell));
        (cell.colour(), says)
    });
    closed(text, grid.end() + LINE, &entries)
}

/// The head of a file in which the last thing ends so far down.
fn opened(end: usize) -> String {
    let height = end + MARGIN;
    format!(
        "<svg xmlns=\"http://www.w3.org/2000/svg\" width=\"{0}\" height=\"{height}\" viewBox=\"0 0 {0} {height}\" \
         font-family=\"sans-serif\" font-size=\"13\">\n<rect width=\"100%\" height=\"100%\" fill=\"#ffffff\"/>\n",
        WIDTH + 2 * MARGIN
    )
}

/// The file, with what the colours mean.
fn closed(mut text: String, legend: usize, entries: &[(Kind, String)]) -> String {
    for (at, (kind, says)) in entries.iter().enumerate() {
        let y = legend + at * LINE;
        rect(&mut text, (MARGIN, y), (12, 12), kind.colour(), None);
        let _ = writeln!(
            text,
            "<text x=\"{}\" y=\"{}\">{says}</text>",
            MARGIN + 20,
            y + 11
        );
    }
    text.push_str("</svg>\n");
    text
}

/// Such that small stores have large squares and no store is out of shape.
fn columns(blocks: usize) -> usize {
    [(64, 8), (256, 16), (1_024, 32), (4_096, 64), (16_384, 128)]
        .into_iter()
        .find_map(|(most, columns)| (blocks <= most).then_some(columns))
        .unwrap_or(256)
}

fn headline(text: &mut String, measures: &Measures, kinds: &[Kind], per_mille: u64) {
    let (whole, tenth) = (per_mille / 10, per_mille % 10);
    let used = match measures.usable() {
        0 => "all reserved".into(),
        usable => format!(
            "{whole}.{tenth} % used of the {} not reserved",
            grouped(usable)
        ),
    };
    let _ = writeln!(
        text,
        "<text x=\"{MARGIN}\" y=\"{}\" font-size=\"16\">{}, {used}</text>",
        MARGIN + LINE / 2,
        counted(measures.blocks, "block")
    );
    let _ = writeln!(
        text,
        "<text x=\"{MARGIN}\" y=\"{}\">{}</text>",
        MARGIN + 3 * LINE - 3,
        measures.scatter()
    );
    let (mut blocks, mut drawn) = (0, 0);
    for (kind, number) in parts(kinds) {
        blocks += number;
        let end = blocks * WIDTH / measures.blocks.max(1);
        rect(
            text,
            (MARGIN + drawn, MARGIN + LINE),
            (end - drawn, LINE),
            kind.colour(),
            None,
        );
        drawn = end;
    }
}

/// The blocks of each kind, what cannot be had first; every file is a part of its
/// own, in the colour that it has below.
fn parts(kinds: &[Kind]) -> Vec<(Kind, usize)> {
    let order = |kind: &Kind| match *kind {
        Kind::Reserved => (0, 0),
        Kind::File(index) => (1, index),
        Kind::Shared | Kind::Stray => (2, 0),
        Kind::Retired => (3, 0),
        Kind::Free => (4, 0),
    };
    let mut sorted = kinds.to_vec();
    sorted.sort_by_key(order);
    sorted
        .chunk_by(|a, b| order(a) == order(b))
        .filter_map(|same| same.first().map(|kind| (*kind, same.len())))
        .collect()
}

/// Squares in rows.
struct Grid {
    squares: usize,
    columns: usize,
    side: usize,
    top: usize,
}

impl Grid {
    fn new(squares: usize, top: usize) -> Self {
        let columns = columns(squares);
        Self {
            squares,
            columns,
            side: WIDTH / columns,
            top,
        }
    }

    fn end(&self) -> usize {
        self.top + self.squares.div_ceil(self.columns) * self.side
    }

    /// Those of one kind that adjoin in a row are one rectangle, of which is told
    /// what colour it has and what it says.
    fn draw<T: Copy + PartialEq>(
        &self,
        text: &mut String,
        squares: &[T],
        told: impl Fn(T, Range<usize>) -> (Colour, String),
    ) {
        let side = self.side;
        for (row, squares) in squares.chunks(self.columns).enumerate() {
            let mut column = 0;
            for same in squares.chunk_by(|a, b| a == b) {
                let Some(&kind) = same.first() else { continue };
                let first = row * self.columns + column;
                let place = (MARGIN + column * side, self.top + row * side);
                let gap = usize::from(side > 4);
                let size = (same.len() * side - gap, side - gap);
                let (colour, says) = told(kind, first..first + same.len());
                rect(text, place, size, colour, Some(says));
                column += same.len();
            }
        }
    }
}

/// Red, green and blue.
type Colour = (u8, u8, u8);

fn rect(
    text: &mut String,
    (x, y): (usize, usize),
    (w, h): (usize, usize),
    (r, g, b): Colour,
    says: Option<String>,
) {
    let shape = format!(
        "<rect x=\"{x}\" y=\"{y}\" width=\"{w}\" height=\"{h}\" fill=\"#{r:02x}{g:02x}{b:02x}\""
    );
    let _ = match says {
        Some(says) => writeln!(text, "{shape}><title>{says}</title></rect>"),
        None => writeln!(text, "{shape}/>"),
    };
}

fn named(records: &Records<'_>, kind: Kind) -> String {
    match kind {
        Kind::Reserved => "reserved".into(),
        Kind::Free => "free".into(),
        Kind::Retired => "retired".into(),
        Kind::File(index) => records
            .cards
            .get(index)
            .map_or_else(String::new, |card| format!("file {}", card.object)),
        Kind::Shared => "at two places".into(),
        Kind::Stray => "used by nothing".into(),
    }
}

/// The colours go round after the twelfth file: the legend names as many.
const NAMED: usize = 12;

fn legend_entries(records: &Records<'_>) -> Vec<(Kind, String)> {
    let mut entries: Vec<(Kind, String)> = [Kind::Reserved, Kind::Free, Kind::Retired]
        .into_iter()
        .map(|kind| (kind, named(records, kind)))
        .collect();
    for (index, card) in records.cards.iter().enumerate().take(NAMED) {
        let pieces = counted(records.extents_of(card.object).len(), "piece");
        entries.push((
            Kind::File(index),
            format!(
                "file {}, {} in {pieces}",
                card.object,
                counted(card.allocated, "block")
            ),
        ));
    }
    if records.cards.len() > NAMED {
        let more = records.cards.len() - NAMED;
        entries.push((
            Kind::File(NAMED),
            format!("{} more, in the same colours again", grouped(more)),
        ));
    }
    entries
}
