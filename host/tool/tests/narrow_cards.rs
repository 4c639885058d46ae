//! Stores whose cards have 32 bytes, as they had before W-205: they are not
//! converted, and the tool says so where it can tell.

mod common;

use std::fs;

use common::*;
use sangueko::{CARD_BYTES, Places, StoreBuf};
use tool::journal::{self, Before, JOURNAL};

const NARROW_BYTES: usize = 32;

/// What the diagnosis adds where a book of cards is such a one.
const NOTE: &str = "\n  note    as cards of 32 bytes, which older stores have, the book of cards is in order: \
                    such a store is not converted; ";

/// The store with its cards cut to 32 bytes, in so many places.
fn narrowed(store: &StoreBuf, cards: usize, places: usize) -> StoreBuf {
    let wide = store.cards.chunks_exact(CARD_BYTES).take(cards);
    let mut narrow: Vec<u8> = wide
        .flat_map(|card| &card[..NARROW_BYTES])
        .copied()
        .collect();
    narrow.resize(places * NARROW_BYTES, 0);
    StoreBuf {
        cards: narrow,
        ..store.clone()
    }
}

/// So many files with bytes.
fn files(number: usize) -> StoreBuf {
    let places = Places {
        cards: number,
        ..PLACES
    };
    let mut store = fresh(32, 1, places);
    for object in 1..=number as u64 {
        let mut lent = store.lend();
        lent.enter(object, 1_700_000_000, 5).unwrap();
        lent.write(object, 0, b"bytes", 1_700_000_001, 6).unwrap();
    }
    store
}

fn narrow(cards: usize, places: usize) -> StoreBuf {
    narrowed(&files(cards), cards, places)
}

/// Every command that looks at the store ends with the number and says why, and
/// leaves the files as they are.
fn refused_with_note(store: &StoreBuf, number: i32, says: &str) {
    let temporary = Temporary::new();
    let path = temporary.path("store");
    let folder = path.to_str().unwrap();
    put_store(store, &path);
    let commands: [&[&str]; 10] = [
        &["check", folder],
        &["show", folder],
        &["fill", folder],
        &["settle", folder],
        &["read", folder, "1"],
        &["data", folder, "1"],
        &["flags", folder, "1"],
        &["write", folder, "1"],
        &["enter", folder, "9"],
        &["grow", folder, "1", "100"],
    ];
    for words in commands {
        let message = refused(words, number);
        assert!(message.contains(says), "{words:?}: {message}");
        assert!(message.contains(NOTE), "{words:?}: {message}");
    }
    let json = out(&run(&["check", folder, "--json"]));
    assert!(json.contains("\"note\":\"as cards of 32 bytes"), "{json}");
    assert!(store_in(&path) == *store);
}

#[test]
fn a_book_that_is_no_whole_cards_is_told() {
    // as many places as `new` makes where it is not told otherwise
    for cards in 0..=3 {
        let store = narrow(cards, 64);
        let says = "cards has 2,048 bytes: 42 records of 48 bytes and 32 more";
        refused_with_note(&store, 1, says);
    }
    let says = "cards has 64 bytes: 1 record of 48 bytes and 16 more";
    refused_with_note(&narrow(1, 2), 1, says);
}

#[test]
fn more_cards_than_places_are_told() {
    let says = "the head says 3 records in cards, which has 2 places";
    refused_with_note(&narrow(3, 3), 1, says);
}

#[test]
fn cards_that_break_a_rule_are_told() {
    refused_with_note(&narrow(2, 3), 2, "where   file cards, record");
    refused_with_note(&narrow(4, 6), 2, "where   file cards, record");
}

#[test]
fn explain_has_a_word_on_them() {
    for number in ["1", "2"] {
        let text = done(&["explain", number]);
        assert!(text.contains("cards have 32"), "{text}");
        assert!(text.contains("not converted"), "{text}");
    }
}

/// The rule of W-205: "one that passes 1 and 2 is read as 48-byte cards".
#[test]
fn a_single_card_in_96_bytes_is_read() {
    let temporary = Temporary::new();
    let path = temporary.path("store");
    let folder = path.to_str().unwrap();
    put_store(&narrow(1, 3), &path);
    assert!(done(&["check", folder]).ends_with("accepted\n"));
    let shown = done(&["show", folder]);
    assert!(shown.contains("cards     1 of 2 places\n"), "{shown}");
    let times =
        "created 1970-01-01 00:00:00.000000000 UTC, changed 2023-11-14 22:13:21.000000006 UTC";
    assert!(shown.contains(times), "{shown}");
    assert_eq!(run(&["read", folder, "1"]).stdout, b"bytes");
}

/// Damage to a store with cards of 48 bytes does not make it look like one, nor
/// does a store that is wrong with either width.
#[test]
fn no_other_store_is_taken_for_one() {
    let temporary = Temporary::new();
    let path = temporary.path("store");
    let says_nothing = |store: &StoreBuf, number: i32| {
        put_store(store, &path);
        let message = refused(&["check", path.to_str().unwrap()], number);
        assert!(!message.contains("note"), "{message}");
    };
    let wide = files(2);
    for length in [0, 32, 64, 95, 160] {
        let mut store = wide.clone();
        store.cards.resize(length, 0);
        says_nothing(&store, 1);
    }
    let mut store = wide.clone();
    store.used[0] = 0;
    says_nothing(&store, 2);
    // the last bit of a card of 32 bytes, its nanoseconds, and a byte behind
    for (at, to) in [(31, 13), (28, 0x7f), (200, 1)] {
        let mut store = narrow(2, 64);
        store.cards[at] = to;
        says_nothing(&store, 1);
    }
}

/// A call that an older tool has left in its journal counts, whatever the width of
/// the cards: it is stored, and then the store is refused.
#[test]
fn a_pending_call_is_stored_first() {
    let before = narrow(1, 64);
    let mut after = before.clone();
    after.cards[27] ^= 0x80;
    let changes = Before::of(&before).changes(&after);
    let temporary = Temporary::new();
    let path = temporary.path("store");
    put_store(&before, &path);
    let pending = path.join(JOURNAL);
    fs::write(&pending, journal::encode(&after, &changes)).unwrap();
    let message = refused(&["fill", path.to_str().unwrap()], 1);
    assert!(message.contains(NOTE), "{message}");
    assert!(store_in(&path) == after && !pending.exists());
}
