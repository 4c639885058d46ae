//! Reads: of 1 MiB from a unit's start, of 1 MiB from within one, of 100 bytes;
//! of the same bytes again and again, and of bytes all over the file, which do
//! not stand in the processor's caches.

use std::hint::black_box;

use model::{Store, UNIT_BYTES};
use oracle::{Mounted, compute_checksums_by};

use crate::measure::{pair, times};
use crate::stores::{CHECKSUMS, OBJECT, lend, places};
use crate::{MIB, ROUNDS, SPAN, over};

/// How a read is asked for, and what our time over that of the Rust with the
/// instruction may be at most, with few extents and with 10,000.
struct Shape {
    name: &'static str,
    length: usize,
    within: u64,
    places: usize,
    limits: [f64; 2],
}

const SHAPES: [Shape; 6] = [
    shape("1 MiB", MIB, 0, 1),
    shape("1 MiB, not aligned", MIB, 1_000, 1),
    shape("1 MiB, all over the file", MIB, 0, 64),
    shape("1 MiB, not aligned, all over", MIB, 1_000, 64),
    shape("100 bytes", 100, 1_000, 1),
    shape("100 bytes, all over the file", 100, 1_000, 64),
];

const fn shape(name: &'static str, length: usize, within: u64, places: usize) -> Shape {
    Shape {
        name,
        length,
        within,
        places,
        limits: if length == MIB {
            [0.5, 0.7]
        } else {
            [0.6, 2.0]
        },
    }
}

impl Shape {
    fn offsets(&self) -> Vec<u64> {
        let units = places(self.places).into_iter();
        units.map(|unit| unit * UNIT_BYTES + self.within).collect()
    }

    /// The best time of one call of each; their bytes are compared first.
    fn timed(&self, store: &mut Store, mounted: &mut Mounted) -> (f64, f64) {
        let lent = lend(store);
        let offsets = self.offsets();
        let (mut ours, mut theirs) = (vec![0; self.length], vec![0; self.length]);
        for &offset in &offsets {
            lent.read(OBJECT, offset, &mut ours).expect("a read");
            mounted.read(OBJECT, offset, &mut theirs).expect("a read");
            assert!(ours == theirs, "{} at {offset}", self.name);
        }
        let (mut a, mut b) = (offsets.iter().cycle(), offsets.iter().cycle());
        pair(
            ROUNDS,
            SPAN,
            || {
                let offset = *a.next().expect("an offset");
                let _ = black_box(lent.read(OBJECT, offset, black_box(&mut ours)));
            },
            || {
                let offset = *b.next().expect("an offset");
                black_box(mounted.read(OBJECT, offset, black_box(&mut theirs)));
            },
        )
    }
}

/// Each shape on a store, ours and theirs.
pub fn compared(store: &mut Store, mounted: &mut Mounted, many: bool) {
    for shape in &SHAPES {
        for (with, checksum) in CHECKSUMS {
            compute_checksums_by(checksum);
            let best = shape.timed(store, mounted);
            times(&format!("read {}, and Rust with {with}", shape.name), best);
            over(with, shape.limits[usize::from(many)], best);
        }
    }
}

/// The small ones, each with its name.
pub fn small(store: &mut Store, mounted: &mut Mounted) -> [(&'static str, (f64, f64)); 2] {
    [&SHAPES[4], &SHAPES[5]].map(|shape| (shape.name, shape.timed(store, mounted)))
}
