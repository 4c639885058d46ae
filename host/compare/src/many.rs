//! Calls of many reads at the edges of their rules, each on a store made for
//! it.

use std::sync::Arc;

use model::{Call, MAX_SIZE, MAX_TRANSFER_BYTES, MAX_TRIPLES, Store, UNIT_BYTES};

use crate::edges::{Edge, Unit, after, edge, enter, grow, pair, write};
use crate::lists::read_many;

/// A read of a list: object, offset, length.
type Read = (u64, u64, u64);

const MIB: u64 = MAX_TRANSFER_BYTES as u64;

pub fn many() -> Vec<Edge> {
    let mut all = Vec::new();
    let files = files();
    lists(&mut all, &files);
    sums(&mut all, &files);
    pieces(&mut all, &files);
    cards(&mut all, &files);
    units(&mut all);
    transfers(&mut all);
    ends(&mut all);
    refused(&mut all);
    all
}

/// The files that [`files_on`] enters, on a store that they nearly fill.
pub fn files() -> Arc<Store> {
    files_on(Store::blank(30, 5, 8, 4))
}

/// Files 5 (empty), 6 (a hole of three units), 7 (two units) and 8 (one unit);
/// none of number 9.
pub fn files_on(blank: Store) -> Arc<Store> {
    let calls = [
        enter(5),
        enter(6),
        enter(7),
        enter(8),
        grow(6, 150_000),
        write(7, 0, 70_000),
        write(8, 0, 4_000),
    ];
    after(blank, 1, &calls)
}

/// A buffer of just the lengths.
fn fitting(reads: &[Read]) -> Call {
    let length: u64 = reads.iter().map(|read| read.2).sum();
    read_many(reads, length as usize)
}

/// Numbers of triples around 64, and lists that are not whole triples: each
/// also with a read that 3 would refuse.
fn lists(all: &mut Vec<Edge>, files: &Arc<Store>) {
    for object in [7, 9] {
        for number in [0, 1, 2, 63, 64, 65, 66, 127, 128, 129] {
            for length in [0, 10] {
                let call = fitting(&vec![(object, 5, length); number]);
                all.push(edge("a number of triples", files, call));
            }
        }
        let whole = [(object, 0, 10); MAX_TRIPLES + 1];
        for number in [1, 2, MAX_TRIPLES, MAX_TRIPLES + 1] {
            let Call::ReadMany { list, length } = fitting(&whole[..number]) else {
                unreachable!("a list")
            };
            for bytes in [1, 8, 16, 23] {
                let mut longer = list.clone();
                longer.resize(list.len() + bytes, 0);
                let shorter = list[..list.len() - bytes].to_vec();
                for list in [longer, shorter] {
                    let call = Call::ReadMany { list, length };
                    all.push(edge("not whole triples", files, call));
                }
            }
        }
    }
    for length in [0, 1, 100] {
        all.push(edge("an empty list", files, read_many(&[], length)));
    }
}

/// Lengths that fit the output, exceed it by little, and by so much that 64
/// bits do not hold their sum: each also with a read that 3 would refuse.
fn sums(all: &mut Vec<Edge>, files: &Arc<Store>) {
    for object in [7, 9] {
        for (first, second) in [(10, 10), (20, 0), (0, 20), (1, 19)] {
            for length in [0, 1, 10, 19, 20, 21, 100] {
                let call = read_many(&[(7, 0, first), (object, 0, second)], length);
                all.push(edge("lengths and an output", files, call));
            }
        }
        for lengths in [
            &[u64::MAX][..],
            &[u64::MAX, u64::MAX],
            &[u64::MAX, 1],
            &[u64::MAX, 11],
            &[1 << 63, 1 << 63],
            &[1 << 63, 1 << 63, 10],
            &[10, u64::MAX - 9, 10],
            &[1 << 32],
            &[(1 << 32) + 10],
            &[1 << 31, 1 << 31, 10],
        ] {
            let reads: Vec<Read> = lengths.iter().map(|&length| (object, 0, length)).collect();
            for length in [0, 10, 30] {
                let call = read_many(&reads, length);
                all.push(edge("lengths past every output", files, call));
            }
        }
        // The read that 3 refuses comes before the one that does not fit.
        let call = read_many(&[(object, 0, 10), (7, 0, 100)], 50);
        all.push(edge("a later length past the output", files, call));
    }
}

/// Where the pieces lie, what is handed out into them, and which units that
/// touches.
fn pieces(all: &mut Vec<Edge>, files: &Arc<Store>) {
    for reads in [
        &[(7, 0, 10)][..],
        &[(7, 0, 10), (7, 20, 10)],
        &[(7, 0, 10), (8, 0, 10)],
        &[(8, 3_000, 10), (7, 66_000, 10), (7, 0, 10)],
        // Equal ones, with and without another in between.
        &[(7, 5, 10), (7, 5, 10)],
        &[(7, 5, 10), (8, 5, 10), (7, 5, 10)],
        &[(7, 5, 10), (7, 65_540, 10), (7, 5, 10)],
        // Overlapping ones.
        &[(7, 5, 10), (7, 10, 10), (7, 0, 100)],
        &[(7, 0, 70_000), (7, 65_530, 10), (7, 65_536, 1)],
        &[(7, 65_530, 10), (7, 0, 70_000)],
        // At the border of two units.
        &[(7, 65_535, 1)],
        &[(7, 65_536, 1)],
        &[(7, 65_535, 2)],
        &[(7, 65_535, 1), (7, 65_536, 1)],
        &[(7, 0, 65_536)],
        &[(7, 0, 65_536), (8, 0, 10)],
        // In a hole, of one unit and of three, and up to its file's end.
        &[(6, 0, 10)],
        &[(6, 65_536, 10), (6, 0, 10)],
        &[(6, 0, 150_000)],
        &[(6, 0, 200_000), (7, 0, 10)],
        &[(6, 5, 10), (7, 5, 10), (8, 5, 10)],
        // Of no byte.
        &[(7, 0, 0)],
        &[(7, 0, 0), (8, 0, 0)],
        &[(8, 0, 5), (7, 65_536, 0), (8, 5, 5)],
        &[(7, 70_000, 0), (7, 10, 10)],
        // At the end, past it and over it: the next piece stays in its place.
        &[(7, 70_000, 10)],
        &[(7, 70_001, 10)],
        &[(7, 69_999, 10)],
        &[(7, 69_990, 10), (8, 0, 10)],
        &[(7, 69_999, 10), (8, 0, 10)],
        &[(7, 70_000, 10), (8, 0, 10)],
        &[(7, u64::MAX, 10), (8, 0, 10)],
        &[(8, 3_995, 100), (8, 3_000, 10), (8, 4_000, 10), (7, 0, 10)],
        &[(8, 4_000, 10), (8, 4_095, 10), (8, 65_536, 10)],
        &[(5, 0, 10)],
        &[(5, 0, 10), (7, 0, 10), (5, 1, 10)],
    ] {
        let Call::ReadMany { list, length } = fitting(reads) else {
            unreachable!("a list")
        };
        for more in [0, 1, 50] {
            let call = Call::ReadMany {
                list: list.clone(),
                length: length + more,
            };
            all.push(edge("pieces", files, call));
        }
    }
    let many: Vec<Read> = (0..64).map(|n| (7 + n % 2, n * 1_000, 100 + n)).collect();
    all.push(edge("64 reads of two files", files, fitting(&many)));
    let one: Vec<Read> = (0..64).map(|n| (7, 60_000 - n * 900, 100)).collect();
    all.push(edge("64 reads of one unit", files, fitting(&one)));
}

/// Reads of file 9, which has no card: of no byte, past every end, before and
/// after good ones.
fn cards(all: &mut Vec<Edge>, files: &Arc<Store>) {
    for reads in [
        &[(9, 0, 10)][..],
        &[(9, 0, 0)],
        &[(9, u64::MAX, 10)],
        &[(7, 0, 10), (9, 0, 10)],
        &[(7, 0, 10), (9, 0, 0)],
        &[(7, 0, 10), (9, u64::MAX, 10)],
        &[(9, 0, 10), (7, 0, 10)],
        &[(9, 0, 0), (7, 0, 10)],
        &[(7, 0, 10), (9, 0, 10), (8, 0, 10)],
        &[(6, 0, 70_000), (7, 0, 70_000), (u64::MAX, 0, 1)],
        &[(0, 0, 1)],
        &[(7 + (1 << 32), 0, 10)],
    ] {
        all.push(edge("no card", files, fitting(reads)));
    }
}

/// Units that are alike in their number or in their object, or in the low half
/// of either; lists that touch very many; and those touched in part before.
fn units(all: &mut Vec<Edge>) {
    let far = 1 << 48;
    let objects = [7, 8, 7 + (1 << 32)];
    let calls = objects.map(|object| [enter(object), grow(object, far + 9 * UNIT_BYTES)]);
    let store = after(Store::blank(2, 3, 1, 1), 0, calls.as_flattened());
    let of = |object: u64, unit: u64| (object, unit * UNIT_BYTES + 5, 10);
    for reads in [
        vec![of(7, 1), of(8, 1)],
        vec![of(7, 1), of(objects[2], 1)],
        vec![of(7, 1), of(7, 1 + (1 << 32))],
        vec![of(7, 1), of(7, 1 + (1 << 16))],
        vec![of(7, 1), of(7, 1 + 256)],
        vec![of(7, 1), of(7, 2), of(7, 1), of(7, 3), of(7, 2)],
        vec![of(7, 1), of(8, 2), of(8, 1), of(7, 2)],
        (0..64).map(|n| of(7, n)).collect(),
        (0..64).map(|n| of(7, n % 32)).collect(),
        (0..64)
            .map(|n| of(objects[n as usize % 3], n / 3))
            .collect(),
        // Each over the border of two units: 128 of them, and 65.
        (1..65).map(|n| (7, 2 * n * UNIT_BYTES - 1, 2)).collect(),
        (1..65).map(|n| (7, n * UNIT_BYTES - 1, 2)).collect(),
        (1..65).rev().map(|n| (7, n * UNIT_BYTES - 1, 2)).collect(),
        // Ranges of units that contain, cross or meet one another.
        vec![(7, 0, 200_000), (7, UNIT_BYTES, 10)],
        vec![(7, UNIT_BYTES, 10), (7, 0, 200_000)],
        vec![(7, 0, 200_000), (7, 100_000, 200_000)],
        vec![(7, 100_000, 200_000), (7, 0, 200_000)],
        vec![(7, 0, 131_072), (7, 131_072, 131_072)],
        vec![(7, 0, 70_000), (7, 140_000, 70_000), (7, 70_000, 70_000)],
        vec![(7, 0, 200_000), (8, 0, 200_000), (7, 300_000, 10)],
    ] {
        all.push(edge("units of holes", &store, fitting(&reads)));
    }
}

/// Pieces around 1 MiB: each may be so long, of all together and alone.
fn transfers(all: &mut Vec<Edge>) {
    let calls = [enter(7), grow(7, 3_000_000), enter(8), grow(8, 10)];
    let hole = after(Store::blank(2, 2, 1, 1), 0, &calls);
    for reads in [
        &[(7, 0, MIB - 1)][..],
        &[(7, 0, MIB)],
        &[(7, 0, MIB + 1)],
        &[(7, 0, 2 * MIB)],
        &[(7, 1, 2 * MIB)],
        &[(7, 65_535, MIB)],
        &[(7, 0, 2 * MIB), (8, 0, 20)],
        &[(7, 0, MIB), (7, MIB, MIB), (7, 0, 10)],
        &[(7, 1, MIB), (7, 1, MIB), (7, 65_537, MIB)],
        &[(7, 2_999_000, MIB + 1), (8, 0, 20)],
    ] {
        all.push(edge("long pieces", &hole, fitting(reads)));
    }
    let calls = [
        enter(7),
        write(7, 0, MAX_TRANSFER_BYTES),
        write(7, MIB, 200_000),
    ];
    let long = after(Store::blank(400, 1, 20, 2), 0, &calls);
    for reads in [&[(7, 0, 2 * MIB)][..], &[(7, 1, MIB), (7, 1_200_000, 100)]] {
        all.push(edge("long pieces of a long file", &long, fitting(reads)));
    }
}

/// Offsets around 2^63, at which a file can end.
fn ends(all: &mut Vec<Edge>) {
    let most = after(Store::blank(2, 1, 1, 1), 0, &[enter(7), grow(7, MAX_SIZE)]);
    for offset in [
        MAX_SIZE - 70_000,
        MAX_SIZE - 1,
        MAX_SIZE,
        MAX_SIZE + 1,
        u64::MAX - 1,
        u64::MAX,
    ] {
        let reads = [(7, offset, 70_001), (7, 0, 1), (7, offset, 2)];
        all.push(edge("reads near 2^63", &most, fitting(&reads)));
    }
}

/// Two units of file 7 in every state, beside a sound file 8: by every number
/// from 9 to 12 a call is refused early and late, by the first read in list
/// order, by a unit that a read touches and by no other.
fn refused(all: &mut Vec<Edge>) {
    use Unit::*;
    for (first, second) in [
        (Sound, Sound),
        (Sound, NoSlot),
        (Sound, Unbacked),
        (Sound, PastEnd),
        (Sound, BadChecksum),
        (NoSlot, Sound),
        (Unbacked, Sound),
        (BadChecksum, Sound),
        (NoSlot, BadChecksum),
        (BadChecksum, Unbacked),
        (Unbacked, PastEnd),
        (Hole, BadChecksum),
        (BadChecksum, Hole),
    ] {
        let store = Arc::new(pair(first, second, 40, None));
        let name = format!("many reads, {first:?} {second:?}");
        for reads in [
            &[(8, 0, 10), (7, 0, 10)][..],
            &[(8, 0, 10), (7, 65_536, 10)],
            &[(7, 0, 10), (7, 65_536, 10)],
            &[(7, 65_536, 10), (7, 0, 10)],
            &[(7, 0, 10), (7, 65_536, 0), (7, 70_000, 10)],
            &[(8, 0, 10), (7, 65_530, 10), (8, 0, 10)],
            &[(8, 0, 10), (8, 1, 10), (7, 0, 70_000)],
            &[(7, 65_536, 10), (9, 0, 10)],
            &[(9, 0, 10), (7, 65_536, 10)],
            &[(7, 0, 10), (9, 0, 10)],
            &[(7, 0, 10), (7, 65_536, 10), (9, 0, 10)],
        ] {
            all.push(edge(&name, &store, fitting(reads)));
        }
        // 17 is tried before any of them.
        let call = read_many(&[(7, 0, 10), (7, 65_536, 10), (8, 0, 10)], 29);
        all.push(edge(&name, &store, call));
    }
}
