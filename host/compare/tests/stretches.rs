//! Document 02's W-206 on the model: which parts hold data, with answers that are
//! worked out here.

use compare::many::files;
use compare::ranges::data_stretches;
use compare::stretches::slotted;
use model::{Call, MAX_SIZE, READ_FILL, Store, Time, UNIT_BYTES};

/// First unit and number of units.
type Pair = (u64, u64);

fn answer(store: &Store, call: &Call) -> (u32, u64, Vec<u8>) {
    let mut after = store.clone();
    let answer = model::run(&mut after, call);
    assert!(after == *store, "a list of stretches changes no byte");
    assert_eq!(answer.refused, answer.number != 0);
    (answer.number, answer.count, answer.output)
}

/// The pairs of file 7 in this range: they stand at the head of an output that has
/// just their room, and of longer ones, of which no other byte has changed; a byte
/// less is refused by 19.
fn lists(store: &Store, first: u64, units: u64, pairs: &[Pair]) {
    let numbers = pairs.iter().flat_map(|&(first, units)| [first, units]);
    let bytes: Vec<u8> = numbers.flat_map(u64::to_le_bytes).collect();
    assert_eq!(bytes.len(), 16 * pairs.len());
    for more in [0, 1, 15, 16, 40] {
        let mut expected = bytes.clone();
        expected.resize(bytes.len() + more, READ_FILL);
        let told = answer(store, &data_stretches(7, first, units, expected.len()));
        assert_eq!(told, (0, pairs.len() as u64, expected), "{first} {units}");
    }
    if !pairs.is_empty() {
        for length in [bytes.len() - 1, bytes.len() - 16, 0] {
            refused(store, &data_stretches(7, first, units, length), 19);
        }
    }
}

fn refused(store: &Store, call: &Call, number: u32) {
    assert_eq!(answer(store, call), (number, 0, call.blank_output()));
}

#[test]
fn stretches_are_maximal_and_ascend() {
    let size = 600 * UNIT_BYTES;
    let store = slotted(&[(7, size)], &[(7, 0, &[0, 1, 3, 4, 5, 9]), (7, 1, &[2])]);
    lists(&store, 0, u64::MAX, &[(0, 2), (3, 3), (9, 1), (258, 1)]);
    lists(&store, 0, 600, &[(0, 2), (3, 3), (9, 1), (258, 1)]);
    lists(&store, 2, 1, &[]);
    lists(&store, 10, 248, &[]);
    lists(&store, 2, 256, &[(3, 3), (9, 1)]);
    lists(&store, 2, 257, &[(3, 3), (9, 1), (258, 1)]);
}

#[test]
fn a_stretch_is_cut_to_the_range() {
    let store = slotted(&[(7, 20 * UNIT_BYTES)], &[(7, 0, &[3, 4, 5, 6, 9])]);
    lists(&store, 4, 2, &[(4, 2)]);
    lists(&store, 4, 10, &[(4, 3), (9, 1)]);
    lists(&store, 0, 5, &[(3, 2)]);
    lists(&store, 5, 1, &[(5, 1)]);
    lists(&store, 6, 4, &[(6, 1), (9, 1)]);
    lists(&store, 7, 2, &[]);
    lists(&store, 5, 0, &[]);
}

#[test]
fn a_stretch_goes_on_over_the_ends_of_groups() {
    let whole: Vec<u64> = (0..256).collect();
    let size = 768 * UNIT_BYTES;
    let met = slotted(&[(7, size)], &[(7, 0, &[255]), (7, 1, &[0])]);
    lists(&met, 0, u64::MAX, &[(255, 2)]);
    lists(&met, 255, 1, &[(255, 1)]);
    lists(&met, 256, 1, &[(256, 1)]);
    let three = [(7, 0, &[254, 255][..]), (7, 1, &whole), (7, 2, &[0])];
    lists(&slotted(&[(7, size)], &three), 0, 768, &[(254, 259)]);
    // No slot in between, no group in between, and a group without slots.
    let apart = slotted(&[(7, size)], &[(7, 0, &[255]), (7, 1, &[1])]);
    lists(&apart, 0, 768, &[(255, 1), (257, 1)]);
    let missing = slotted(&[(7, size)], &[(7, 0, &[255]), (7, 2, &[0])]);
    lists(&missing, 0, 768, &[(255, 1), (512, 1)]);
    let empty = [(7, 0, &[255][..]), (7, 1, &[]), (7, 2, &[0])];
    lists(
        &slotted(&[(7, size)], &empty),
        0,
        768,
        &[(255, 1), (512, 1)],
    );
    // 128 of them in one group.
    let every_other: Vec<u64> = (0..256).step_by(2).collect();
    let pairs: Vec<Pair> = every_other.iter().map(|&unit| (unit, 1)).collect();
    let store = slotted(&[(7, size)], &[(7, 0, &every_other)]);
    lists(&store, 0, u64::MAX, &pairs);
}

/// A slot past the end is no breach of refusal 2.
#[test]
fn a_unit_that_starts_at_the_end_or_behind_it_is_in_no_pair() {
    let groups = [(7, 0, &[0, 1, 2, 255][..]), (7, 1, &[0])];
    for (size, pairs) in [
        (0, &[][..]),
        (1, &[(0, 1)]),
        (UNIT_BYTES - 1, &[(0, 1)]),
        (UNIT_BYTES, &[(0, 1)]),
        (UNIT_BYTES + 1, &[(0, 2)]),
        (2 * UNIT_BYTES, &[(0, 2)]),
        (3 * UNIT_BYTES, &[(0, 3)]),
        (255 * UNIT_BYTES, &[(0, 3)]),
        (255 * UNIT_BYTES + 1, &[(0, 3), (255, 1)]),
        (256 * UNIT_BYTES, &[(0, 3), (255, 1)]),
        (256 * UNIT_BYTES + 1, &[(0, 3), (255, 2)]),
    ] {
        lists(&slotted(&[(7, size)], &groups), 0, u64::MAX, pairs);
    }
}

/// What 64 bits make of these groups' units lies in the file, and so do the bytes
/// that they start at.
#[test]
fn groups_of_great_numbers_hold_no_data() {
    let last = (1 << 39) - 1;
    let groups = [
        (7, 0, &[1][..]),
        (7, last, &[254, 255]),
        (7, last + 1, &[0]),
        (7, 1 << 40, &[0, 2]),
        (7, (1 << 56) - 1, &[0, 255]),
        (7, 1 << 56, &[0, 2]),
        (7, u64::MAX, &[0, 255]),
    ];
    let short = slotted(&[(7, 3 * UNIT_BYTES)], &groups);
    lists(&short, 0, u64::MAX, &[(1, 1)]);
    lists(&short, 2, u64::MAX - 2, &[]);
    lists(&short, 1 << 48, 100, &[]);
    lists(&short, u64::MAX - 255, 255, &[]);
    // The longest file has 2^47 units.
    let unit = (1 << 47) - 1;
    let long = slotted(&[(7, MAX_SIZE)], &groups);
    lists(&long, 0, u64::MAX, &[(1, 1), (unit - 1, 2)]);
    lists(&long, unit, u64::MAX - unit, &[(unit, 1)]);
    lists(&long, unit + 1, u64::MAX - unit - 1, &[]);
    let even = slotted(&[(7, unit * UNIT_BYTES)], &groups);
    lists(&even, 0, u64::MAX, &[(1, 1), (unit - 1, 1)]);
    lists(&slotted(&[(7, MAX_SIZE)], &[]), 0, u64::MAX, &[]);
}

/// As many stretches as a thousand groups can have, all over the longest file.
#[test]
fn the_longest_range_ends_at_once() {
    let slots: Vec<u64> = (0..256).step_by(2).collect();
    let numbers = (0..1_000).map(|n| n << 29);
    let groups: Vec<_> = numbers.clone().map(|n| (7, n, slots.as_slice())).collect();
    let pairs = numbers.flat_map(|n| slots.iter().map(move |slot| (n * 256 + slot, 1)));
    let pairs: Vec<Pair> = pairs.collect();
    assert_eq!(pairs.len(), 128_000);
    lists(&slotted(&[(7, MAX_SIZE)], &groups), 0, u64::MAX, &pairs);
}

#[test]
fn a_range_up_to_2_64_minus_1_is_taken_and_no_longer_one() {
    let store = slotted(&[(7, 3 * UNIT_BYTES)], &[(7, 0, &[0, 2])]);
    lists(&store, 0, u64::MAX, &[(0, 1), (2, 1)]);
    lists(&store, 1, u64::MAX - 1, &[(2, 1)]);
    lists(&store, u64::MAX, 0, &[]);
    lists(&store, u64::MAX - 1, 1, &[]);
    lists(&store, 1 << 63, (1 << 63) - 1, &[]);
    for length in [0, 32, 100] {
        for (first, units) in [
            (u64::MAX, 1),
            (u64::MAX - 1, 2),
            (1, u64::MAX),
            (1 << 63, 1 << 63),
            // 64 bits take this for a range of the whole file.
            (u64::MAX, 4),
            (u64::MAX, u64::MAX),
        ] {
            refused(&store, &data_stretches(7, first, units, length), 19);
            refused(&store, &data_stretches(9, first, units, length), 3);
        }
    }
}

#[test]
fn one_two_and_three_are_tried_before_nineteen() {
    // A group may have no card.
    let store = slotted(&[(7, 3 * UNIT_BYTES)], &[(7, 0, &[0, 2]), (9, 0, &[0])]);
    for length in [0, 15, 16] {
        refused(&store, &data_stretches(9, 0, 1, length), 3);
        refused(&store, &data_stretches(9, 0, 0, length), 3);
        refused(&store, &data_stretches(9, u64::MAX, 1, length), 3);
    }
    let mut broken = Store::clone(&store);
    broken.used[0] = 2;
    let mut short = broken.clone();
    short.head.pop();
    for (store, number) in [(&broken, 2), (&short, 1)] {
        for object in [7, 9] {
            refused(store, &data_stretches(object, 0, 3, 32), number);
            refused(store, &data_stretches(object, 0, 3, 31), number);
            refused(store, &data_stretches(object, 0, 0, 0), number);
            refused(store, &data_stretches(object, u64::MAX, 1, 32), number);
        }
    }
}

/// Every file has its own, whichever groups stand beside them.
#[test]
fn the_slots_of_other_files_are_in_no_pair() {
    let alike = 7 + (1 << 32);
    let size = 9 * UNIT_BYTES;
    let store = slotted(
        &[(6, size), (7, size), (8, size), (alike, size)],
        &[
            (6, 0, &[0, 1, 4]),
            (7, 0, &[2, 3]),
            (8, 0, &[4]),
            (9, 0, &[5]),
            (alike, 0, &[6]),
        ],
    );
    lists(&store, 0, u64::MAX, &[(2, 2)]);
    let none = slotted(&[(6, size), (7, size)], &[(6, 0, &[0]), (8, 0, &[0])]);
    lists(&none, 0, u64::MAX, &[]);
}

/// Of the files that calls have made: 5 is empty, 6 a hole of three units, 7 has
/// two units and 8 one.
#[test]
fn written_units_are_data_and_holes_are_not() {
    let store = files();
    for (object, pair) in [(5, None), (6, None), (7, Some([0, 2])), (8, Some([0, 1]))] {
        let told = answer(&store, &data_stretches(object, 0, u64::MAX, 16));
        let output = match pair {
            Some(pair) => pair.iter().flat_map(|n: &u64| n.to_le_bytes()).collect(),
            None => vec![READ_FILL; 16],
        };
        assert_eq!(told, (0, u64::from(pair.is_some()), output), "{object}");
    }
    let time = Time::new(0, 0);
    let mut store = Store::blank(80, 1, 8, 2);
    let mut run = |call: &Call| assert_eq!(model::run(&mut store, call).number, 0);
    let object = 7;
    let write = |offset, bytes: &[u8]| Call::Write {
        object,
        offset,
        bytes: bytes.to_vec(),
        time,
    };
    let uuid = vec![1; 16];
    run(&Call::Fresh { uuid, reserved: 0 });
    run(&Call::Enter { object, time });
    // Zeros that were written are data; the tail unit stays alone where the file
    // grows; a byte on either side of the end of a group.
    run(&write(2 * UNIT_BYTES, &[0; 10]));
    run(&Call::Grow {
        object,
        size: 5 * UNIT_BYTES,
        time,
    });
    run(&write(256 * UNIT_BYTES - 1, &[1, 2]));
    lists(&store, 0, u64::MAX, &[(2, 1), (255, 2)]);
    lists(&store, 3, 253, &[(255, 1)]);
}
