//! The calls of the library against the published Rust, in one run: our time
//! over that of file.rs on a mounted store, with the processor's checksum
//! instruction and with slicing by 8. The calls here test the whole store each
//! time, which the Rust does not; what that costs is shown apart. Many reads in
//! one call and batches of writes, which the Rust does not have, stand beside as
//! many calls, and the list of what holds data beside plain walks. The call for
//! archives stands beside `write`, in time and in what it leaves of a long file.
//!
//! `bench [reads] [many] [writes] [batches] [archive] [extents] [stretches]`: those
//! parts, or all of them; `pieces` is what `archive` tells of the long file, alone.

mod archive;
mod batches;
mod checksum;
mod many;
#[path = "../../probe/src/bin/bench/measure.rs"]
#[allow(dead_code)]
mod measure;
mod reads;
mod stores;
mod stretches;
mod writes;

use std::hint::black_box;
use std::time::Duration;

use model::Store;
use oracle::{Mounted, compute_checksums_by};

use crate::checksum::by_instruction;
use crate::measure::{alone, times};
use crate::stores::{Extents, STORES, extents, lend, store};

const ROUNDS: u32 = 30;
const SPAN: Duration = Duration::from_millis(4);
const MIB: usize = 1 << 20;

fn main() {
    if !oracle::AVAILABLE {
        println!("no carryfs source: nothing to compare with");
        return;
    }
    let asked: Vec<String> = std::env::args().skip(1).collect();
    let part = |name: &str| asked.is_empty() || asked.iter().any(|asked| asked == name);
    for (on, shape, many) in STORES {
        if !["reads", "many", "writes"].into_iter().any(part) {
            break;
        }
        println!("-- {on}");
        let mut store = store(shape);
        let tests = tests_alone(&mut store) * 1e6;
        println!("{:<66} {tests:>8.2} us", "of each call, refusals 1 and 2");
        let mut mounted = Mounted::new(&store);
        if part("reads") {
            reads::compared(&mut store, &mut mounted, many);
        }
        if part("many") {
            many::compared(&mut store);
        }
        if part("writes") {
            writes::compared(&mut store, &mut mounted, many);
        }
    }
    if part("batches") {
        batches::compared();
    }
    if part("archive") {
        archive::compared();
    } else if part("pieces") {
        archive::pieces();
    }
    if part("extents") {
        by_extents();
    }
    if part("stretches") {
        stretches::compared();
    }
}

/// Says where the Rust has the instruction and our time is over the limit.
fn over(with: &str, limit: f64, (ours, theirs): (f64, f64)) {
    if with == "the instruction" && ours > limit * theirs {
        println!("over the limit of {limit}");
    }
}

/// What refusals 1 and 2 cost on a store: the call fill adds only a count of bits.
fn tests_alone(store: &mut Store) -> f64 {
    let lent = lend(store);
    alone(ROUNDS, SPAN, || {
        let _ = black_box(black_box(&lent).fill());
    })
}

/// Small calls over stores of more and more extents, beside the Rust with the
/// instruction: what a call costs beside the tests of the store, and what they
/// cost for each extent. The extents stand in front of the file's own, where a
/// search that walked the book would pass them all; the book of groups has few
/// places, so that what stands behind its records does not hide the extents.
fn by_extents() {
    println!(
        "-- so many extents of a file in front; refusals 1 and 2 (ns an extent); small calls and Rust with the instruction"
    );
    let mut few = None;
    for other in [10, 100, 1_000, 10_000, 100_000] {
        let shape = Extents {
            other_first: true,
            ..extents(10, other, 0)
        };
        let mut store = store(shape);
        let tests = tests_alone(&mut store);
        let (least, from) = *few.get_or_insert((tests, other));
        let each = if other == from {
            0.0
        } else {
            (tests - least) / (other - from) as f64
        };
        println!(
            "{other:>8} extents {:>10.2} ({:.2} ns)",
            tests * 1e6,
            each * 1e9
        );
        let mut mounted = Mounted::new(&store);
        compute_checksums_by(by_instruction);
        for (name, best) in reads::small(&mut store, &mut mounted) {
            times(&format!("{other} extents, read {name}"), best);
        }
        let (name, best) = writes::small(&mut store, &mut mounted);
        times(&format!("{other} extents, write {name}"), best);
    }
}
