//! W-205, worked out by hand: a card says when its file was created and when it
//! last changed; and stores whose cards have 32 bytes.

use sangueko::{Batched, CARD_BYTES, Places, Range, Refusal, Store, StoreBuf};

/// A field of a card: its first bit, and how many it has.
type Field = (usize, usize);

const SIZE: Field = (64, 63);
const SECONDS: Field = (162, 63);
const NANOSECONDS: Field = (225, 30);
const CREATED_SECONDS: Field = (255, 63);
const CREATED_NANOSECONDS: Field = (318, 30);
const SPARE: Field = (348, 36);

const MOST_SECONDS: u64 = (1 << 63) - 1;

fn get(card: &[u8], (at, width): Field) -> u64 {
    (at..at + width).fold(0, |value, bit| {
        value << 1 | u64::from(card[bit / 8] >> (7 - bit % 8) & 1)
    })
}

fn put(card: &mut [u8], (at, width): Field, value: u64) {
    for n in 0..width {
        let bit = at + n;
        let mask = 0x80 >> (bit % 8);
        card[bit / 8] &= !mask;
        if value >> (width - 1 - n) & 1 == 1 {
            card[bit / 8] |= mask;
        }
    }
}

type Time = (u64, u64);

#[derive(Debug, PartialEq)]
struct Times {
    changed: Time,
    created: Time,
}

/// The times on the n-th card, whose spare bits are zero.
fn times(buffers: &StoreBuf, n: usize) -> Times {
    let card = &buffers.cards[n * CARD_BYTES..][..CARD_BYTES];
    assert_eq!(get(card, SPARE), 0);
    Times {
        changed: (get(card, SECONDS), get(card, NANOSECONDS)),
        created: (get(card, CREATED_SECONDS), get(card, CREATED_NANOSECONDS)),
    }
}

/// An empty store with places for so many cards.
fn empty(cards: usize) -> StoreBuf {
    let places = Places {
        cards,
        extents: 16,
        groups: 4,
    };
    let mut buffers = StoreBuf::new(32, places).unwrap();
    buffers.lend().fresh(&[3; 16], 1).unwrap();
    buffers
}

/// File 7, with bytes.
fn with_file() -> StoreBuf {
    let mut buffers = empty(2);
    buffers.lend().enter(7, 100, 200).unwrap();
    buffers.lend().write(7, 0, b"bytes", 101, 201).unwrap();
    buffers
}

/// A call, and what it is refused by.
type Call = fn(&mut Store<'_>) -> Option<Refusal>;

/// The calls that read the cards, all but fresh.
const CALLS: [(&str, Call); 10] = [
    ("enter", |store| store.enter(9, 0, 0).err()),
    ("write", |store| store.write(7, 0, b"b", 0, 0).err()),
    ("write_archive", |store| {
        store.write_archive(7, 0, b"b", 0, 0).err()
    }),
    ("grow", |store| store.grow(7, 100, 0, 0).err()),
    ("read", |store| store.read(7, 0, &mut [0]).err()),
    ("read_many", |store| store.read_many(&[], &mut []).err()),
    ("write_batch", |store| {
        store.write_batch(&[], &[], 0, 0).err()
    }),
    ("data_stretches", |store| {
        store.data_stretches(7, 0, u64::MAX, &mut [0; 16]).err()
    }),
    ("settle", |store| store.settle().err()),
    ("fill", |store| store.fill().err()),
];

/// Each of them is accepted, or refused so and changes nothing.
fn answer(buffers: &StoreBuf, refusal: Option<Refusal>, what: &str) {
    for (name, call) in CALLS {
        let mut lent = buffers.clone();
        assert_eq!(call(&mut lent.lend()), refusal, "{what}: {name}");
        assert!(refusal.is_none() || lent == *buffers, "{what}: {name}");
    }
}

#[test]
fn enter_sets_both_times() {
    for time in [
        (0, 0),
        (1, 999_999_999),
        (1_700_000_000, 5),
        (MOST_SECONDS, 0),
        (MOST_SECONDS, 999_999_999),
    ] {
        let mut buffers = empty(1);
        buffers.lend().enter(u64::MAX, time.0, time.1).unwrap();
        let (changed, created) = (time, time);
        assert_eq!(times(&buffers, 0), Times { changed, created });
        assert_eq!(get(&buffers.cards, SIZE), 0);
        assert_eq!(get(&buffers.cards, (0, 64)), u64::MAX);
        assert_eq!(get(&buffers.cards, (127, 35)), 0);
    }
    let mut buffers = empty(1);
    for time in [(MOST_SECONDS + 1, 0), (0, 1_000_000_000)] {
        let refused = buffers.lend().enter(7, time.0, time.1);
        assert_eq!(refused, Err(Refusal::BadTime));
    }
    assert_eq!(buffers, empty(1));
}

#[test]
fn what_changes_a_file_keeps_the_time_of_its_creation() {
    let mut buffers = empty(2);
    let created = (100, 200);
    buffers.lend().enter(7, 100, 200).unwrap();
    buffers.lend().enter(9, 300, 400).unwrap();
    let expect = |buffers: &StoreBuf, changed: Time| {
        assert_eq!(times(buffers, 0), Times { changed, created });
    };

    assert_eq!(buffers.lend().write(7, 0, &[1; 9_000], 101, 201), Ok(9_000));
    expect(&buffers, (101, 201));
    // also where the time given is an earlier one, or the largest
    assert_eq!(buffers.lend().write(7, 5_000, b"over", 50, 0), Ok(4));
    expect(&buffers, (50, 0));
    let archived = buffers.lend().write_archive(7, 5_000, b"over", 102, 202);
    assert_eq!(archived, Ok(4));
    expect(&buffers, (102, 202));
    let most = (MOST_SECONDS, 999_999_999);
    assert_eq!(buffers.lend().grow(7, 70_000, most.0, most.1), Ok(0));
    expect(&buffers, most);
    assert_eq!(buffers.lend().grow(7, 80_000, 103, 203), Ok(0));
    expect(&buffers, (103, 203));

    let range = |object, offset, length| Range {
        object,
        offset,
        length,
    };
    let ranges = [range(7, 0, 2), range(9, 0, 1), range(7, 1, 2)];
    let batched = buffers.lend().write_batch(&ranges, b"batch", 104, 204);
    assert_eq!(batched, Ok(Batched::All { writes: 3 }));
    expect(&buffers, (104, 204));
    let other = Times {
        changed: (104, 204),
        created: (300, 400),
    };
    assert_eq!(times(&buffers, 1), other);

    // a batch that stops sets the time of the files that it has written
    let ranges = [range(7, 0, 1), range(8, 0, 1), range(9, 0, 1)];
    let batched = buffers.lend().write_batch(&ranges, b"bat", 105, 205);
    let by = Refusal::NoCard;
    assert_eq!(batched, Ok(Batched::Stopped { done: 1, by }));
    expect(&buffers, (105, 205));
    assert_eq!(times(&buffers, 1), other);

    assert!(buffers.lend().settle().unwrap() > 0);
    expect(&buffers, (105, 205));
    assert_eq!(times(&buffers, 1), other);
}

#[test]
fn what_changes_nothing_keeps_both_times() {
    let mut buffers = with_file();
    let kept = buffers.clone();
    let mut store = buffers.lend();
    assert_eq!(store.write(7, 0, &[], 500, 600), Ok(0));
    assert_eq!(store.write_archive(7, 0, &[], 500, 600), Ok(0));
    assert_eq!(store.grow(7, 5, 500, 600), Ok(0));
    let nothing = [Range {
        object: 7,
        offset: 0,
        length: 0,
    }];
    let batched = store.write_batch(&nothing, &[], 500, 600);
    assert_eq!(batched, Ok(Batched::All { writes: 1 }));
    assert_eq!(store.enter(7, 500, 600), Err(Refusal::CardExists));
    assert_eq!(store.grow(7, 4, 500, 600), Err(Refusal::BelowSize));
    let bad = store.write(7, 0, b"b", 500, 1_000_000_000);
    assert_eq!(bad, Err(Refusal::BadTime));
    assert_eq!(
        store.write(7, 0, &[1; 200_000], 500, 600),
        Err(Refusal::NoSpace)
    );
    assert_eq!(store.read(7, 0, &mut [0; 5]), Ok(5));
    assert_eq!(store.settle(), Ok(0));
    assert_eq!(buffers, kept);
}

#[test]
fn nanoseconds_of_a_creation_are_tested() {
    let kept = with_file();
    for (nanoseconds, refusal) in [
        (0, None),
        (999_999_999, None),
        (1_000_000_000, Some(Refusal::BrokenRule)),
        ((1 << 30) - 1, Some(Refusal::BrokenRule)),
    ] {
        for field in [NANOSECONDS, CREATED_NANOSECONDS] {
            let mut buffers = kept.clone();
            put(&mut buffers.cards, field, nanoseconds);
            answer(&buffers, refusal, &format!("{nanoseconds} at {field:?}"));
        }
    }
    // of the second card, too
    let mut buffers = kept.clone();
    buffers.lend().enter(8, 0, 0).unwrap();
    let second = &mut buffers.cards[CARD_BYTES..];
    put(second, CREATED_NANOSECONDS, 1_000_000_000);
    assert_eq!(buffers.lend().fill(), Err(Refusal::BrokenRule));
}

#[test]
fn each_spare_bit_is_tested() {
    let kept = with_file();
    let (first, width) = SPARE;
    assert_eq!(first + width, 8 * CARD_BYTES);
    for bit in first..8 * CARD_BYTES {
        let mut buffers = kept.clone();
        put(&mut buffers.cards, (bit, 1), 1);
        let refusal = Some(Refusal::BrokenRule);
        answer(&buffers, refusal, &format!("bit {bit}"));
    }
}

/// The last bit of a card of 32 bytes, which had to be zero there, is the first
/// of the creation's seconds.
#[test]
fn every_number_of_seconds_is_a_time_of_creation() {
    let kept = with_file();
    for seconds in [0, 1 << 62, MOST_SECONDS] {
        let mut buffers = kept.clone();
        put(&mut buffers.cards, CREATED_SECONDS, seconds);
        assert_eq!(buffers.cards[31] & 1, (seconds >> 62) as u8);
        answer(&buffers, None, &format!("{seconds} seconds"));
        buffers.lend().write(7, 0, b"b", 300, 400).unwrap();
        buffers.lend().grow(7, 100, 301, 401).unwrap();
        let (changed, created) = ((301, 401), (seconds, 200));
        assert_eq!(times(&buffers, 0), Times { changed, created });
    }
}

/// A card's bytes before it had the time of creation.
const NARROW: usize = 32;

/// A store of the files 7, 8, .. with so many cards of 32 bytes, in so many
/// places.
fn narrow(cards: usize, places: usize) -> StoreBuf {
    let mut buffers = empty(cards);
    for n in 0..cards as u64 {
        buffers.lend().enter(7 + n, 1_700_000_000, 200).unwrap();
        let written = buffers.lend().write(7 + n, 0, b"bytes", 1_700_000_001, 201);
        assert_eq!(written, Ok(5));
    }
    let wide = buffers.cards.chunks_exact(CARD_BYTES);
    buffers.cards = wide.flat_map(|card| &card[..NARROW]).copied().collect();
    buffers.cards.resize(places * NARROW, 0);
    buffers
}

#[test]
fn a_single_card_of_32_bytes_in_96_is_read_as_one_of_48() {
    let mut buffers = narrow(1, 3);
    assert_eq!(buffers.cards.len(), 96);
    answer(&buffers, None, "one card in 96 bytes");
    let expect = |buffers: &StoreBuf, changed: Time| {
        let created = (0, 0);
        assert_eq!(times(buffers, 0), Times { changed, created });
    };
    expect(&buffers, (1_700_000_001, 201));
    let mut store = buffers.lend();
    let mut out = [0; 5];
    assert_eq!(store.read(7, 0, &mut out), Ok(5));
    assert_eq!(&out, b"bytes");
    store.grow(7, 6, 1_700_000_002, 202).unwrap();
    // two places of 48 bytes, not three
    store.enter(8, 0, 0).unwrap();
    assert_eq!(store.enter(9, 0, 0), Err(Refusal::NoCardPlace));
    expect(&buffers, (1_700_000_002, 202));
}

#[test]
fn other_stores_with_cards_of_32_bytes_are_refused() {
    // the book is no multiple of 48 bytes
    for cards in 0..=2 {
        let mut buffers = narrow(cards, 2);
        assert_eq!(buffers.cards.len(), 64);
        let refusal = Some(Refusal::WrongLength);
        answer(&buffers, refusal, &format!("{cards} cards in 64 bytes"));
        let fresh = buffers.lend().fresh(&[3; 16], 1);
        assert_eq!(fresh, Err(Refusal::WrongLength));
    }
    // the head counts more cards than there are places
    let buffers = narrow(3, 3);
    answer(&buffers, Some(Refusal::WrongLength), "3 cards in 96 bytes");
    // there are places enough, but the bytes are no cards of 48
    for (cards, places) in [(2, 3), (3, 6), (4, 6)] {
        let what = format!("{cards} cards in {} bytes", places * NARROW);
        answer(&narrow(cards, places), Some(Refusal::BrokenRule), &what);
    }
}
