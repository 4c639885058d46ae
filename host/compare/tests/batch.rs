//! Document 02's W-204 on the model: batches of writes, with answers that are
//! worked out here.

use compare::batch::{batches, files, shared_block, two_free_blocks};
use compare::writes::{TIME, Write, batch_of, single_writes, write_batch};
use model::{Answer, Call, MAX_SIZE, Store, Time, Volume, passes_refusals_1_and_2};

const LATE: Time = Time {
    seconds: MAX_SIZE + 1,
    nanoseconds: 0,
};

fn run(store: &Store, call: &Call) -> (Answer, Store) {
    let mut after = store.clone();
    let answer = model::run(&mut after, call);
    (answer, after)
}

/// The store after the first writes of a batch, each by itself.
fn after_writes(store: &Store, batch: &Call, number: usize) -> Store {
    let mut after = store.clone();
    for write in single_writes(batch).iter().take(number) {
        assert_eq!(model::run(&mut after, write).number, 0);
    }
    after
}

/// The batch stops by this number, or does all for 0, after so many writes. They
/// remain, and it is not a refused call.
fn ends(store: &Store, batch: &Call, number: u32, done: u64) {
    let (answer, after) = run(store, batch);
    assert_eq!((answer.number, answer.count), (number, done), "{batch:?}");
    assert!(!answer.refused, "{batch:?}");
    assert!(after == after_writes(store, batch, done as usize));
}

fn done(store: &Store, writes: &[Write]) {
    ends(store, &write_batch(writes), 0, writes.len() as u64);
}

fn stops(store: &Store, writes: &[Write], number: u32, done: u64) {
    ends(store, &write_batch(writes), number, done);
}

/// A refused batch does nothing.
fn refused(store: &Store, batch: &Call, number: u32) {
    let (answer, after) = run(store, batch);
    assert_eq!((answer.number, answer.count), (number, 0), "{batch:?}");
    assert!(answer.refused, "{batch:?}");
    assert!(after == *store);
}

fn read(store: &Store, object: u64, offset: u64, length: usize) -> Vec<u8> {
    let call = Call::Read {
        object,
        offset,
        length,
    };
    let (answer, _) = run(store, &call);
    assert_eq!(answer.number, 0);
    answer.output[..answer.count as usize].to_vec()
}

#[test]
fn the_count_is_of_writes_and_empty_ones_count() {
    let files = &files();
    done(files, &[]);
    done(files, &[(7, 0, 10)]);
    done(files, &[(7, 0, 10), (8, 5, 20)]);
    done(files, &[(7, 5, 10), (7, 5, 10)]);
    done(files, &[(7, 0, 0)]);
    done(files, &[(7, u64::MAX, 0), (7, 5, 10), (5, 0, 0)]);
    done(files, &[(7, 5, 10); 64]);
    done(files, &[(7, 5, 0); 64]);
    // Writes of no byte change nothing.
    let (_, after) = run(files, &write_batch(&[(7, 5, 0); 64]));
    assert!(after == **files);
}

#[test]
fn writes_stand_in_list_order() {
    let files = &files();
    let batch = |writes: &[Write], bytes: &[u8]| {
        let Call::WriteBatch { list, .. } = write_batch(writes) else {
            unreachable!("a batch")
        };
        Call::WriteBatch {
            list,
            bytes: bytes.to_vec(),
            time: TIME,
        }
    };
    let (_, after) = run(files, &batch(&[(5, 0, 4), (5, 2, 4)], b"abcdwxyz"));
    assert_eq!(read(&after, 5, 0, 10), b"abwxyz");
    let (_, after) = run(files, &batch(&[(5, 2, 4), (5, 0, 4)], b"abcdwxyz"));
    assert_eq!(read(&after, 5, 0, 10), b"wxyzcd");
    let (_, after) = run(files, &batch(&[(5, 0, 1), (8, 0, 1), (5, 1, 1)], b"xyz"));
    assert_eq!(read(&after, 5, 0, 10), b"xz");
    assert_eq!(read(&after, 8, 0, 2), [b'y', 8]);
}

/// Each write is a call by itself: it retires the block that the one before it
/// took.
#[test]
fn each_write_retires_what_it_takes_the_place_of() {
    let store = two_free_blocks();
    let (answer, after) = run(&store, &write_batch(&[(7, 0, 10), (7, 20, 10)]));
    assert_eq!((answer.number, answer.count), (0, 2));
    let volume = Volume::decode(&after);
    assert_eq!(volume.retired, [false, true, true, false]);
    assert_eq!(volume.block_at(7, 0), Some(3));
}

#[test]
fn a_bad_batch_is_refused_before_a_write_of_it() {
    let files = &files();
    let refused_by_18 = |call: &Call| refused(files, call, 18);
    // 5 and 2^64 - 3: in 64 bits their sum is 2.
    refused_by_18(&batch_of(&[(7, 0, 5), (7, 0, u64::MAX - 2)], 2, TIME));
    refused_by_18(&batch_of(&[(7, 0, u64::MAX), (7, 0, 1)], 0, TIME));
    for object in [7, 9] {
        refused_by_18(&write_batch(&[(object, 0, 1); 65]));
        refused_by_18(&write_batch(&[(object, 0, 0); 65]));
        refused_by_18(&batch_of(&[(object, 0, 10), (object, 0, 10)], 19, TIME));
        refused_by_18(&batch_of(&[(object, 0, 10), (object, 0, 10)], 21, TIME));
        // 1,048,577 bytes, which a single write would clip.
        refused_by_18(&write_batch(&[(7, 0, 10), (object, 0, 1_048_577)]));
        refused_by_18(&batch_of(&[(object, 0, 1_048_577)], 1_048_576, TIME));
        refused_by_18(&batch_of(&[(object, 0, 1)], 2, LATE));
        for bytes in [1, 23, 25] {
            refused_by_18(&Call::WriteBatch {
                list: vec![object as u8; bytes],
                bytes: Vec::new(),
                time: TIME,
            });
        }
    }
    refused_by_18(&batch_of(&[], 1, TIME));
    stops(files, &[(9, 0, 1); 64], 3, 0);
    // 1 and 2 come before it.
    let mut broken = Store::clone(files);
    broken.used[2] &= !1;
    for batch in [
        batch_of(&[(7, 0, 10)], 9, TIME),
        write_batch(&[(7, 0, 10)]),
        write_batch(&[]),
    ] {
        refused(&broken, &batch, 2);
    }
    broken.head.pop();
    refused(&broken, &batch_of(&[(7, 0, 10)], 9, TIME), 1);
    refused(&broken, &write_batch(&[]), 1);
}

#[test]
fn a_batch_stops_at_the_first_write_that_is_refused() {
    let files = &files();
    // Before its first write: nothing is done, and it is not a refused call.
    stops(files, &[(9, 0, 10)], 3, 0);
    stops(files, &[(9, 0, 0), (7, 0, 10)], 3, 0);
    stops(files, &[(7, MAX_SIZE, 1), (9, 0, 10)], 5, 0);
    stops(files, &[(7, 0, 10), (9, 0, 10)], 3, 1);
    stops(files, &[(7, 0, 10), (8, 0, 10), (9, 0, 0), (7, 5, 5)], 3, 2);
    stops(files, &[(7, 0, 10), (7, MAX_SIZE - 1, 2), (9, 0, 1)], 5, 1);
    // Room for one block, and then for none.
    let store = two_free_blocks();
    stops(&store, &[(7, 0, 10), (8, 0, 8_192)], 13, 1);
    stops(
        &store,
        &[(7, 0, 10), (7, 5, 10), (7, 9, 10), (7, 0, 0)],
        13,
        2,
    );
    stops(&store, &[(8, 0, 12_288), (8, 0, 1)], 13, 0);
}

#[test]
fn a_bad_time_stops_the_first_write_that_has_bytes() {
    let files = &files();
    ends(files, &batch_of(&[(7, 0, 10)], 10, LATE), 7, 0);
    ends(files, &batch_of(&[(7, 0, 0), (8, 9, 0)], 0, LATE), 0, 2);
    ends(files, &batch_of(&[(7, 0, 0), (8, 9, 1)], 1, LATE), 7, 1);
    ends(files, &batch_of(&[(9, 0, 0), (8, 9, 1)], 1, LATE), 3, 0);
    ends(files, &batch_of(&[], 0, LATE), 0, 0);
}

/// Files 7 and 8 both have the same block at their start, which passes refusal
/// 2. The first write retires it, and 2 stops the second.
#[test]
fn two_is_tried_before_every_write() {
    let store = &shared_block();
    assert!(passes_refusals_1_and_2(store));
    stops(store, &[(7, 0, 4_096), (8, 0, 1)], 2, 1);
    stops(store, &[(7, 0, 4_096), (9, 0, 0)], 2, 1);
    stops(store, &[(8, 0, 0), (8, 0, 4_096), (8, 0, 0)], 2, 2);
    // It is not tried behind the last one.
    done(store, &[(7, 0, 4_096)]);
    let (_, after) = run(store, &write_batch(&[(7, 0, 4_096)]));
    refused(&after, &write_batch(&[(8, 0, 1)]), 2);
}

/// What the header says of a batch's number and count, on all the edges: they
/// tell a refused one from one that stopped.
#[test]
fn number_and_count_tell_whether_a_batch_was_refused() {
    let (mut refused, mut stopped) = (0, 0);
    for edge in batches() {
        let (answer, after) = run(&edge.store, &edge.call);
        let by_answer = edge.call.refused_by(answer.number, answer.count);
        assert_eq!(answer.refused, by_answer, "{}", edge.name);
        assert!(!answer.refused || after == *edge.store);
        refused += u32::from(answer.refused);
        stopped += u32::from(!answer.refused && answer.number != 0);
    }
    assert!(refused > 100 && stopped > 100, "{refused} {stopped}");
}
