//! Document 02's W-201 on the model: many reads in one call, with answers that
//! are worked out here.

use compare::lists::read_many;
use compare::many::files;
use model::{Call, READ_FILL, Store, Time, Volume};

type Read = (u64, u64, u64);

/// What the files hold: 6 is a hole, 7 and 8 were written from their start.
fn byte(object: u64, offset: u64) -> u8 {
    if object == 6 {
        0
    } else {
        (offset * 7 + 1) as u8
    }
}

fn answer(store: &Store, call: &Call) -> (u32, u64, Vec<u8>) {
    let mut after = store.clone();
    let answer = model::run(&mut after, call);
    assert!(after == *store, "many reads change no byte of a store");
    (answer.number, answer.count, answer.output)
}

/// The call is accepted with this count, and has handed out so many bytes into
/// each piece; no other byte of the buffer, which ends `more` bytes behind the
/// last piece, has changed.
fn accepted(store: &Store, reads: &[Read], more: usize, handed: &[u64], count: u64) {
    let mut expected = Vec::new();
    assert_eq!(reads.len(), handed.len());
    for (&(object, offset, length), &handed) in reads.iter().zip(handed) {
        expected.extend((offset..offset + handed).map(|offset| byte(object, offset)));
        expected.extend((handed..length).map(|_| READ_FILL));
    }
    expected.resize(expected.len() + more, READ_FILL);
    let told = answer(store, &read_many(reads, expected.len()));
    assert!(
        told == (0, count, expected),
        "{reads:?}: {} {}",
        told.0,
        told.1
    );
}

fn refused(store: &Store, call: &Call, number: u32) {
    let told = answer(store, call);
    assert!(
        told == (number, 0, call.blank_output()),
        "{call:?}: {}",
        told.0
    );
}

#[test]
fn pieces_lie_in_list_order_and_units_count_once() {
    let files = &files();
    accepted(files, &[], 0, &[], 0);
    accepted(files, &[], 5, &[], 0);
    accepted(files, &[(7, 0, 10)], 0, &[10], 1);
    accepted(files, &[(7, 0, 10)], 9, &[10], 1);
    // Two in one unit; the same unit of two files; two units of one.
    accepted(files, &[(7, 100, 10), (7, 0, 10)], 1, &[10, 10], 1);
    accepted(files, &[(7, 0, 10), (8, 0, 10)], 0, &[10, 10], 2);
    accepted(files, &[(7, 65_535, 2)], 0, &[2], 2);
    accepted(files, &[(7, 65_535, 1)], 0, &[1], 1);
    // Equal and overlapping ones, apart and side by side.
    accepted(files, &[(7, 5, 10), (7, 5, 10)], 0, &[10, 10], 1);
    let reads = [(7, 5, 10), (8, 5, 10), (7, 0, 70_000), (7, 5, 10)];
    accepted(files, &reads, 0, &[10, 10, 70_000, 10], 3);
    // A hole counts.
    accepted(files, &[(6, 0, 10)], 0, &[10], 1);
    accepted(files, &[(6, 65_530, 10), (6, 131_072, 1)], 0, &[10, 1], 3);
    accepted(files, &[(7, 1, 9); 64], 0, &[9; 64], 1);
}

#[test]
fn what_is_not_read_stays_and_touches_nothing() {
    let files = &files();
    accepted(files, &[(7, 0, 0)], 0, &[0], 0);
    accepted(files, &[(7, 70_000, 10)], 0, &[0], 0);
    accepted(files, &[(7, u64::MAX, 10), (5, 0, 10)], 3, &[0, 0], 0);
    let reads = [(7, 69_995, 10), (8, 3_990, 20), (5, 0, 4), (7, 0, 5)];
    accepted(files, &reads, 2, &[5, 10, 0, 5], 3);
}

#[test]
fn a_piece_gets_at_most_1_mib() {
    let mib = 1 << 20;
    let mut store = Store::blank(2, 1, 1, 1);
    let time = Time {
        seconds: 0,
        nanoseconds: 0,
    };
    let uuid = vec![1; 16];
    let object = 6;
    for call in [
        Call::Fresh { uuid, reserved: 0 },
        Call::Enter { object, time },
        Call::Grow {
            object,
            size: 3 * mib,
            time,
        },
    ] {
        assert_eq!(model::run(&mut store, &call).number, 0);
    }
    accepted(&store, &[(6, 0, 2 * mib)], 0, &[mib], 16);
    accepted(&store, &[(6, 1, 2 * mib)], 0, &[mib], 17);
    let reads = [(6, 0, 2 * mib), (6, mib, mib), (6, 3 * mib - 5, 10)];
    accepted(&store, &reads, 0, &[mib, mib, 5], 33);
}

#[test]
fn a_bad_list_is_refused_before_a_read_of_it() {
    let files = &files();
    let refused_by_17 = |call: &Call| refused(files, call, 17);
    // Lengths that a sum of 64 bits takes for 2^64 - 2, 0 and 10.
    for length in [0, 10, 100] {
        refused_by_17(&read_many(&[(7, 0, u64::MAX); 2], length));
        refused_by_17(&read_many(&[(7, 0, u64::MAX), (7, 0, 1)], length));
        refused_by_17(&read_many(&[(7, 0, u64::MAX), (7, 0, 11)], length));
    }
    for object in [7, 9] {
        refused_by_17(&read_many(&[(object, 0, 1); 65], 65));
        refused_by_17(&read_many(&[(object, 0, 10), (object, 0, 10)], 19));
        for bytes in [1, 23, 25] {
            refused_by_17(&Call::ReadMany {
                list: vec![object as u8; bytes],
                length: 1_000,
            });
        }
    }
    refused(files, &read_many(&[(9, 0, 1); 64], 64), 3);
    // 1 and 2 come before it.
    let mut broken = Store::clone(files);
    broken.used[2] &= !1;
    refused(&broken, &read_many(&[(7, 0, 10)], 9), 2);
    broken.head.pop();
    refused(&broken, &read_many(&[(7, 0, 10)], 9), 1);
}

#[test]
fn the_first_refused_read_refuses_all() {
    let files = &files();
    let no_card = |reads: &[Read]| refused(files, &read_many(reads, 100), 3);
    no_card(&[(7, 0, 10), (9, 0, 10)]);
    no_card(&[(7, 0, 10), (9, 0, 0)]);
    no_card(&[(9, u64::MAX, 10), (7, 0, 10)]);
    let second = 65_536;
    for (number, damaged) in damaged(files) {
        let refused = |reads: &[Read], number| refused(&damaged, &read_many(reads, 80_000), number);
        refused(&[(7, second, 10)], number);
        refused(&[(8, 0, 10), (7, second, 10)], number);
        refused(&[(7, 0, 10), (7, 0, 70_000)], number);
        refused(&[(7, second, 10), (9, 0, 10)], number);
        refused(&[(9, 0, 10), (7, second, 10)], 3);
        // Nothing of that unit is handed out.
        let reads = [(7, 0, 10), (7, second, 0), (7, 70_000, 5)];
        accepted(&damaged, &reads, 0, &[10, 0, 0], 1);
    }
}

/// The store with file 7's second unit damaged, for each number that a read can
/// then give.
fn damaged(files: &Store) -> Vec<(u32, Store)> {
    let volume = Volume::decode(files);
    let block = volume
        .block_at(7, 17)
        .expect("the last one of 70,000 bytes");
    let end = (block as usize + 1) * model::BLOCK_BYTES;
    let of = |damage: &dyn Fn(&mut Volume, &mut Vec<u8>)| {
        let (mut store, mut volume) = (files.clone(), volume.clone());
        damage(&mut volume, &mut store.image);
        volume.encode(&mut store);
        store
    };
    vec![
        (9, of(&|volume, _| volume.groups[0].slots[1] = None)),
        (10, of(&|volume, _| volume.extents[0].count = 17)),
        (11, of(&|_, image| image[end - 1] = 1)),
        (12, of(&|_, image| image[end - 4_096] ^= 1)),
    ]
}
