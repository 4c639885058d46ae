//! The search for an object's last extent at or before a block: its answer in
//! ordered books against a walk through them, and its rounds in any book; and the
//! place of a key in each of the three books.

use std::collections::BTreeSet;

use probe::{first_card, first_extent, first_group, floor_extent, search_rounds};
use random::Rng;

/// The most extents of a book.
const MOST: usize = 1_048_575;

const CARD_BYTES: usize = 48;

fn record(object: u64, logical: u64) -> [u8; 33] {
    let mut record = [0; 33];
    record[..8].copy_from_slice(&object.to_be_bytes());
    record[8] = 3;
    record[9..17].copy_from_slice(&logical.to_be_bytes());
    record[25] = 1;
    record
}

fn book(keys: &[(u64, u64)]) -> Vec<u8> {
    keys.iter()
        .flat_map(|&(object, logical)| record(object, logical))
        .collect()
}

/// At most `n` of what is drawn, in order and each once.
fn ascending<T: Ord>(n: usize, draw: impl FnMut() -> T) -> Vec<T> {
    BTreeSet::from_iter(std::iter::repeat_with(draw).take(n))
        .into_iter()
        .collect()
}

/// The last that is one of the object and starts at the block or before.
fn walked(keys: &[(u64, u64)], object: u64, block: u64) -> Option<usize> {
    keys.iter()
        .rposition(|&(of, logical)| of == object && logical <= block)
}

/// The rounds of a search in which the record looked at leaves the range.
fn rounds(keys: &[(u64, u64)], object: u64, block: u64) -> u32 {
    let (mut low, mut high, mut rounds) = (0, keys.len(), 0);
    while low < high {
        let middle = low + (high - low) / 2;
        if keys[middle] <= (object, block) {
            low = middle + 1;
        } else {
            high = middle;
        }
        rounds += 1;
    }
    rounds
}

#[test]
fn a_full_book_takes_twenty_rounds_at_most() {
    let full: Vec<u8> = (0..MOST as u64)
        .flat_map(|i| record(7, 10 + 2 * i))
        .collect();
    let last = MOST - 1;
    let at = |i: usize| 10 + 2 * i as u64;
    for (object, block, place) in [
        (7, at(last), Some(last)),
        (7, at(last) + 1, Some(last)),
        (7, u64::MAX, Some(last)),
        (7, at(last) - 1, Some(last - 1)),
        (7, at(1), Some(1)),
        (7, at(1) - 1, Some(0)),
        (7, at(0), Some(0)),
        (7, at(0) - 1, None),
        (7, 0, None),
        (6, u64::MAX, None),
        (8, 0, None),
        (8, u64::MAX, None),
    ] {
        assert_eq!(
            floor_extent(&full, MOST, object, block),
            place,
            "object {object}, block {block}"
        );
        assert!(search_rounds(&full, MOST, object, block) <= 20);
    }
    // Behind the last record and before the first, all 20 are needed.
    assert_eq!(search_rounds(&full, MOST, 8, 0), 20);
    assert_eq!(search_rounds(&full, MOST, 6, 0), 20);
}

#[test]
fn the_floor_is_of_the_object() {
    let keys = [(3, 5), (3, 9), (4, 2), (9, 0)];
    let book = book(&keys);
    for object in 0..11 {
        for block in [0, 1, 2, 3, 4, 5, 6, 8, 9, 10, u64::MAX] {
            assert_eq!(
                floor_extent(&book, keys.len(), object, block),
                walked(&keys, object, block),
                "object {object}, block {block}"
            );
        }
    }
    // Fewer records than the book has places for.
    assert_eq!(floor_extent(&book, 1, 3, 9), Some(0));
    assert_eq!(floor_extent(&book, 0, 3, 9), None);
}

#[test]
fn ordered_books_of_every_length() {
    let mut random = Rng::new(203);
    for n in 0..400 {
        let keys = ascending(n, || (random.below(6), random.below(90)));
        let book = book(&keys);
        for _ in 0..60 {
            let (object, block) = (random.below(7), random.below(92));
            assert_eq!(
                floor_extent(&book, keys.len(), object, block),
                walked(&keys, object, block),
                "{keys:?}: object {object}, block {block}"
            );
            assert_eq!(
                search_rounds(&book, keys.len(), object, block),
                rounds(&keys, object, block)
            );
        }
    }
}

#[test]
fn books_out_of_order() {
    let mut random = Rng::new(20);
    for round in 0..2_000 {
        let n = random.below(if round % 10 == 0 { 5_000 } else { 40 });
        let keys: Vec<(u64, u64)> = (0..n).map(|_| (random.below(4), random.below(9))).collect();
        let book = book(&keys);
        let (object, block) = (random.below(5), random.below(10));
        let taken = search_rounds(&book, keys.len(), object, block);
        assert_eq!(taken, rounds(&keys, object, block));
        assert!(taken <= keys.len().checked_ilog2().map_or(0, |bits| bits + 1));
        // What is found, if anything, is a record of the object at the block or before.
        if let Some(place) = floor_extent(&book, keys.len(), object, block) {
            let (of, logical) = keys[place];
            assert!(of == object && logical <= block);
        }
    }
}

#[test]
fn the_first_at_or_after_a_key() {
    let mut random = Rng::new(101);
    for n in 0..200 {
        let keys = ascending(n, || (random.below(5), random.below(70)));
        let extents = book(&keys);
        let groups: Vec<u8> = keys
            .iter()
            .flat_map(|&(object, number)| padded(&record(object, number), 1073, &mut random))
            .collect();
        let objects = ascending(n, || random.below(600));
        // What follows a card's object is anything.
        let cards: Vec<u8> = objects
            .iter()
            .flat_map(|object| padded(&object.to_be_bytes(), CARD_BYTES, &mut random))
            .collect();
        for _ in 0..60 {
            let key = (random.below(6), random.below(72));
            let place = keys.partition_point(|&at| at < key);
            assert_eq!(first_extent(&extents, keys.len(), key.0, key.1), place);
            assert_eq!(first_group(&groups, keys.len(), key.0, key.1), place);
            let object = random.below(600);
            let place = objects.partition_point(|&at| at < object);
            assert_eq!(first_card(&cards, objects.len(), object), place);
        }
    }
}

/// A record's first bytes, and others up to its width.
fn padded(first: &[u8], width: usize, random: &mut Rng) -> Vec<u8> {
    let mut record = first[..first.len().min(17)].to_vec();
    record.resize_with(width, || random.next_u64() as u8);
    record
}
