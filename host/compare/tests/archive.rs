//! Document 02's W-207 on the model: archive writes beside writes, with the blocks
//! that they take and leave worked out here.

use std::ops::Range;

use compare::archive::{beside_writes, laid, left_free, places};
use compare::mixed::{exchanged, write_archive};
use compare::walk::{Event, Walk};
use compare::writes::write_batch;
use model::{Answer, Call, MAX_SIZE, Store, Time, UNIT_BYTES, Volume};

const BLOCK: u64 = 4_096;
const TIME: Time = Time {
    seconds: 50,
    nanoseconds: 60,
};
const LATE: Time = Time {
    seconds: MAX_SIZE + 1,
    nanoseconds: 0,
};

fn run(store: &Store, call: &Call) -> (Answer, Store) {
    let mut after = store.clone();
    let answer = model::run(&mut after, call);
    (answer, after)
}

fn bytes(length: usize) -> Vec<u8> {
    (0..length).map(|n| (n * 3 + n / 250) as u8).collect()
}

fn archive(offset: u64, length: usize) -> Call {
    write_archive(7, offset, &bytes(length), TIME)
}

fn write(offset: u64, length: usize) -> Call {
    exchanged(&archive(offset, length)).expect("a write")
}

/// These blocks of the file overwritten, by an archive write.
fn over(blocks: &Range<u64>) -> Call {
    let length = (blocks.end - blocks.start) * BLOCK;
    archive(blocks.start * BLOCK, length as usize)
}

fn retired(store: &Store) -> usize {
    let volume = Volume::decode(store);
    volume.retired.iter().filter(|retired| **retired).count()
}

/// How many blocks the call and the same by the other call retire.
fn retire(store: &Store, call: &Call) -> (usize, usize) {
    let other = exchanged(call).expect("a write");
    let retired_by = |call: &Call| {
        let (answer, after) = run(store, call);
        assert_eq!(answer.number, 0);
        retired(&after)
    };
    (retired_by(call), retired_by(&other))
}

/// A whole unit of 16 blocks: those at which one of these is left out are seams.
fn unit(seams: &[usize]) -> std::sync::Arc<Store> {
    laid(60, UNIT_BYTES, &places(16, |place| seams.contains(&place)))
}

/// Kept, new, kept are three runs: a write takes one block, an archive write 16.
#[test]
fn a_block_in_the_middle_of_a_piece() {
    let piece = unit(&[]);
    for block in 1..15 {
        assert_eq!(retire(&piece, &over(&(block..block + 1))), (16, 1));
    }
    let extents = |call: &Call| -> Vec<[u64; 3]> {
        let (_, after) = run(&piece, call);
        let extents = Volume::decode(&after).extents;
        extents
            .iter()
            .map(|e| [e.logical, e.physical, e.count])
            .collect()
    };
    let middle = over(&(5..6));
    assert_eq!(extents(&middle), [[0, 17, 16]]);
    let written = exchanged(&middle).expect("a write");
    assert_eq!(extents(&written), [[0, 1, 5], [5, 17, 1], [6, 7, 10]]);
}

/// At the unit's edge there are two runs, and both keep.
#[test]
fn blocks_at_the_edge_of_a_piece() {
    let piece = unit(&[]);
    for end in 1..16 {
        let number = end as usize;
        assert_eq!(retire(&piece, &over(&(0..end))), (number, number));
        let behind = 16 - number;
        assert_eq!(retire(&piece, &over(&(end..16))), (behind, behind));
    }
    assert_eq!(retire(&piece, &over(&(0..16))), (16, 16));
}

/// The runs before the write do not count: two pieces of which one is overwritten
/// whole become two runs, and one that is cut makes three.
#[test]
fn it_is_the_runs_afterwards_that_count() {
    let two = unit(&[8]);
    assert_eq!(retire(&two, &over(&(0..8))), (8, 8));
    assert_eq!(retire(&two, &over(&(8..16))), (8, 8));
    assert_eq!(retire(&two, &over(&(0..1))), (16, 1));
    assert_eq!(retire(&two, &over(&(15..16))), (16, 1));
    assert_eq!(retire(&two, &over(&(7..8))), (16, 1));
    let three = unit(&[5, 10]);
    assert_eq!(retire(&three, &over(&(0..10))), (10, 10));
    assert_eq!(retire(&three, &over(&(0..5))), (16, 5));
    assert_eq!(retire(&three, &over(&(5..10))), (16, 5));
    let four = unit(&[4, 8, 12]);
    assert_eq!(retire(&four, &over(&(0..12))), (12, 12));
    assert_eq!(retire(&four, &over(&(0..4))), (16, 4));
    // Five: neither keeps.
    assert_eq!(retire(&four, &over(&(0..1))), (16, 16));
    assert_eq!(retire(&four, &over(&(5..6))), (16, 16));
    // Every block apart from the next: a write still keeps three of them.
    let apart = unit(&(1..16).collect::<Vec<usize>>());
    assert_eq!(retire(&apart, &over(&(1..16))), (15, 15));
    assert_eq!(retire(&apart, &over(&(2..16))), (16, 14));
    assert_eq!(retire(&apart, &over(&(3..16))), (16, 13));
    assert_eq!(retire(&apart, &over(&(4..16))), (16, 16));
}

/// Six blocks in all 32 layouts with all 21 ranges overwritten. A run is counted
/// where it begins: at the first place, behind a seam between two kept blocks, and
/// at either end of the written ones.
#[test]
fn every_layout_and_range_of_six_blocks() {
    let mut met = [0; 7];
    for seams in 0..1_u64 << 5 {
        let seam = |place: u64| place > 0 && seams >> (place - 1) & 1 == 1;
        let store = laid(20, 6 * BLOCK, &places(6, |place| seam(place as u64)));
        for first in 0..6 {
            for end in first + 1..=6 {
                let begins = |place: u64| {
                    let within = first < place && place < end;
                    let at_an_end = place == first || place == end;
                    place == 0 || at_an_end || seam(place) && !within
                };
                let runs = (0..6).filter(|place| begins(*place)).count();
                let taken = |limit| {
                    if runs > limit {
                        6
                    } else {
                        (end - first) as usize
                    }
                };
                let expected = (taken(2), taken(4));
                assert_eq!(retire(&store, &over(&(first..end))), expected);
                met[runs] += 1;
            }
        }
    }
    assert!(met[1..].iter().all(|met| *met > 0), "{met:?}");
}

/// The old tail unit, where no written byte falls in it: its last block, which is
/// not whole, is new.
#[test]
fn the_old_tail_unit_has_the_limit_too() {
    let size = 6 * BLOCK - 5;
    for (seams, taken) in [
        (&[][..], (1, 1)),
        (&[5], (1, 1)),
        (&[3], (6, 1)),
        (&[2, 4], (6, 1)),
        (&[1, 2, 3], (6, 6)),
    ] {
        let store = laid(60, size, &places(6, |place| seams.contains(&place)));
        assert_eq!(retire(&store, &archive(UNIT_BYTES, 10)), taken, "{seams:?}");
        // A grow keeps four.
        let grown = Call::Grow {
            object: 7,
            size: UNIT_BYTES,
            time: TIME,
        };
        let (_, after) = run(&store, &grown);
        assert_eq!(retired(&after), taken.1, "{seams:?}");
    }
}

/// The limit is each unit's: over the end of two units there are two runs in each.
#[test]
fn each_unit_has_its_own_runs() {
    let two = laid(80, 2 * UNIT_BYTES, &places(32, |_| false));
    assert_eq!(retire(&two, &over(&(15..17))), (2, 2));
    assert_eq!(retire(&two, &over(&(10..20))), (10, 10));
    // Three in the first alone, then in the second alone.
    let first = laid(80, 2 * UNIT_BYTES, &places(32, |place| place == 4));
    assert_eq!(retire(&first, &over(&(15..17))), (17, 2));
    let second = laid(80, 2 * UNIT_BYTES, &places(32, |place| place == 28));
    assert_eq!(retire(&second, &over(&(15..17))), (17, 2));
}

/// 13 where a write is done: 16 blocks are wanted.
#[test]
fn more_blocks_are_wanted() {
    let piece = unit(&[]);
    for (free, archive, write) in [(0, 13, 13), (1, 13, 0), (15, 13, 0), (16, 0, 0)] {
        let store = left_free(&piece, free);
        let middle = over(&(5..6));
        let (answer, after) = run(&store, &middle);
        assert_eq!(answer.number, archive, "{free} free");
        assert!(archive == 0 || after == *store);
        let (answer, _) = run(&store, &exchanged(&middle).expect("a write"));
        assert_eq!(answer.number, write, "{free} free");
        let (answer, _) = run(&store, &over(&(0..1)));
        assert_eq!(answer.number, if free == 0 { 13 } else { 0 });
    }
}

/// 16 where an archive write is done: a write cuts the one extent in three.
#[test]
fn fewer_extents_are_left() {
    let mut store = Store::clone(&unit(&[]));
    store.extents.truncate(33);
    let (answer, after) = run(&store, &over(&(5..6)));
    assert_eq!((answer.number, answer.count), (0, 4_096));
    assert_eq!(Volume::decode(&after).extents.len(), 1);
    let (answer, after) = run(&store, &write(5 * BLOCK, 10));
    assert_eq!(answer.number, 16);
    assert!(after == store);
}

/// The writes of a batch keep four.
#[test]
fn a_batch_keeps_four() {
    let piece = unit(&[]);
    let (_, after) = run(&piece, &write_batch(&[(7, 5 * BLOCK, 5)]));
    assert_eq!(retired(&after), 1);
    let two = unit(&[8]);
    let (_, after) = run(&two, &write_batch(&[(7, 0, 5), (7, 15 * BLOCK, 5)]));
    assert_eq!(retired(&after), 2);
}

/// Refusals 3, 5 and 7, clipping and empty bytes, as write has them.
#[test]
fn in_all_else_it_is_a_write() {
    let store = unit(&[]);
    let answers = |call: &Call, number, count| {
        let (answer, after) = run(&store, call);
        assert_eq!((answer.number, answer.count), (number, count));
        assert_eq!(answer.refused, number != 0);
        assert!(number == 0 && count > 0 || after == *store);
        let other = exchanged(call).expect("a write");
        assert_eq!(run(&store, &other).0, answer);
    };
    let by = |object, offset, length, time| write_archive(object, offset, &bytes(length), time);
    answers(&by(9, 0, 0, TIME), 3, 0);
    answers(&by(9, MAX_SIZE, 1, LATE), 3, 0);
    answers(&by(7, u64::MAX, 0, LATE), 0, 0);
    answers(&by(7, MAX_SIZE, 1, LATE), 5, 0);
    answers(&by(7, 0, 1, LATE), 7, 0);
    answers(&by(7, MAX_SIZE - 1, 1, TIME), 0, 1);
    answers(&by(7, 0, 1, TIME), 0, 1);
    let room = laid(300, UNIT_BYTES, &places(16, |_| false));
    let (answer, after) = run(&room, &by(7, 0, 1_048_577, TIME));
    assert_eq!((answer.number, answer.count), (0, 1_048_576));
    let card = Volume::decode(&after).cards[0];
    assert_eq!((card.size, card.changed), (1_048_576, TIME));
    assert_eq!(card.created, Time::new(3, 4));
}

/// What is accepted by both calls leaves the same files, groups and times; they
/// part in blocks alone, and in 13, 14 and 16, which depend on these.
#[test]
fn the_two_calls_part_in_blocks_alone() {
    let (mut same, mut other) = (0, 0);
    for edge in beside_writes() {
        let Call::WriteArchive { .. } = edge.call else {
            continue;
        };
        let written = exchanged(&edge.call).expect("a write");
        let ((by_archive, left), (by_write, right)) =
            (run(&edge.store, &edge.call), run(&edge.store, &written));
        if by_archive != by_write {
            let blocks = [by_archive.number, by_write.number];
            assert!(
                blocks
                    .iter()
                    .all(|number| matches!(number, 0 | 13 | 14 | 16))
            );
            other += 1;
            continue;
        }
        assert_eq!(left.cards.len(), right.cards.len());
        let (left_volume, right_volume) = (Volume::decode(&left), Volume::decode(&right));
        assert_eq!(left_volume.cards, right_volume.cards, "{}", edge.name);
        assert_eq!(left.groups, right.groups, "{}", edge.name);
        if left == right {
            same += 1;
        } else {
            other += 1;
        }
    }
    assert!(same > 500 && other > 500, "{same} {other}");
}

/// The random archive writes meet the limit: many keep other blocks than the same
/// write would, and some find too few where it does not.
#[test]
fn random_archive_writes_meet_the_limit() {
    let (mut made, mut other, mut too_few) = (0, 0, 0);
    for number in 0..300 {
        let mut walk = Walk::with_lists(7, number);
        while let Some(event) = walk.event() {
            let Event::Call(call) = event else { continue };
            let before = walk.store.clone();
            let answer = model::run(&mut walk.store, &call);
            if answer.number == 2 {
                break;
            }
            if let Call::WriteArchive { .. } = call {
                let (by_write, after) = run(&before, &exchanged(&call).expect("a write"));
                made += 1;
                other += u32::from(answer.number == 0 && after != walk.store);
                too_few += u32::from(answer.number == 13 && by_write.number == 0);
            }
        }
    }
    println!("{made} archive writes: {other} leave another store, {too_few} find too few blocks");
    assert!(made > 1_000, "{made}");
    assert!(other > made / 12, "{other} of {made}");
    assert!(too_few > made / 50, "{too_few} of {made}");
}
