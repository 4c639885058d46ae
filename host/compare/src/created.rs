//! Calls at the edges of W-205, each on a store made for it: the width of a
//! card, its creation time and its spare bits.

use std::sync::Arc;

use model::records::{CARD_BYTES, CARD_SPARE, Head, put_bits};
use model::{Call, Card, MAX_SIZE, Store, Time, Volume};

use crate::alone::{TIME, fresh};
use crate::edges::{Edge, after, edge, enter, grow, read, with, write, write_at};
use crate::lists::read_many;
use crate::writes::{batch_of, write_batch};

/// The width of a card before W-205.
const OLD_CARD_BYTES: usize = 32;
/// The old card's spare bit, since then the highest of the creation seconds.
const OLD_SPARE: usize = 255;

pub fn created() -> Vec<Edge> {
    let mut all = recorded();
    widths(&mut all);
    places(&mut all);
    old_cards(&mut all);
    nanoseconds(&mut all);
    single_bits(&mut all);
    kept(&mut all);
    all
}

/// Files 6 (empty), 7 (a block) and 8 (a hole), entered at times of their own
/// and changed at others; a block is retired.
fn files() -> Arc<Store> {
    let calls = [
        enter(6),
        enter(7),
        enter(8),
        write_at(7, 0, 5, Time::new(71, 70)),
        write_at(7, 3, 5, Time::new(72, 70)),
        Call::Grow {
            object: 8,
            size: 10,
            time: Time::new(81, 80),
        },
    ];
    after(Store::blank(8, 4, 4, 2), 1, &calls)
}

/// The store with a card of it changed.
fn with_card(store: &Store, at: usize, change: impl FnOnce(&mut Card)) -> Arc<Store> {
    with(store, |store| {
        let mut volume = Volume::decode(store);
        change(&mut volume.cards[at]);
        volume.encode(store);
    })
}

/// The store with one bit of a card set.
fn with_bit(store: &Store, at: usize, bit: usize) -> Arc<Store> {
    with(store, |store| {
        put_bits(&mut store.cards[at * CARD_BYTES..], bit, 1, 1);
    })
}

/// The store with so many cards in its head, and this card book.
fn with_book(store: &Store, cards: usize, book: Vec<u8>) -> Arc<Store> {
    with(store, |store| {
        Head {
            cards,
            ..Head::decode(&store.head)
        }
        .encode(&mut store.head);
        store.cards = book;
    })
}

/// A book of so many bytes with cards as they were before W-205.
fn old_book(cards: &[Card], length: usize) -> Vec<u8> {
    let mut book = Vec::new();
    for card in cards {
        let mut bytes = [0; CARD_BYTES];
        card.encode(&mut bytes);
        book.extend_from_slice(&bytes[..OLD_CARD_BYTES]);
    }
    book.resize(length, 0);
    book
}

/// A card whose creation time an old book does not have.
fn old_card(object: u64, size: u64, seconds: u64) -> Card {
    Card {
        object,
        size,
        allocated: 0,
        changed: Time::new(seconds, 60),
        created: Time::new(0, 0),
    }
}

/// Those that are recorded, too: on stores so small that the proof checker
/// computes some of them from the definitions.
pub fn recorded() -> Vec<Edge> {
    let mut all = Vec::new();
    the_latest(&mut all);
    old_cards_in_two_places(&mut all);
    broken_cards(&mut all);
    all
}

/// Calls that keep the latest creation time that there is.
fn the_latest(all: &mut Vec<Edge>) {
    let store = with_card(&files(), 1, |card| {
        card.created = Time::new(MAX_SIZE, 999_999_999);
    });
    for call in [write(7, 2, 3), grow(7, 20), Call::Settle, write(7, 2, 0)] {
        all.push(edge("the latest creation time", &store, call));
    }
}

/// In a book of 96 bytes one old card, which passes; two, which 2 refuses; and
/// three, which are more than its places.
fn old_cards_in_two_places(all: &mut Vec<Edge>) {
    let bare = after(Store::blank(2, 0, 1, 1), 0, &[]);
    let cards = [7, 8, 9].map(|object| old_card(object, 10, 50));
    let old = |number, length| with_book(&bare, number, old_book(&cards[..number], length));
    let one = old(1, 96);
    for call in [write(7, 2, 3), grow(7, 20), read(7, 5, 9), enter(9)] {
        all.push(edge("an old card in 96 bytes", &one, call));
    }
    let (two, three, odd) = (old(2, 96), old(3, 96), old(1, 64));
    all.push(edge("two old cards in 96 bytes", &two, write(7, 2, 3)));
    all.push(edge("three old cards in 96 bytes", &three, grow(7, 20)));
    all.push(edge("an old card in 64 bytes", &odd, enter(9)));
}

/// Creation nanoseconds and spare bits that 2 refuses, and the old spare bit,
/// which it does not.
fn broken_cards(all: &mut Vec<Edge>) {
    let files = files();
    for (at, nanoseconds, call) in [(0, 1_000_000_000, Call::Fill), (2, (1 << 30) - 1, enter(9))] {
        let store = with_card(&files, at, |card| card.created.nanoseconds = nanoseconds);
        all.push(edge("creation nanoseconds", &store, call));
    }
    let both = with_card(&files, 1, |card| {
        card.changed.nanoseconds = 1_000_000_000;
        card.created.nanoseconds = 1_000_000_000;
    });
    all.push(edge("nanoseconds of both times", &both, Call::Settle));
    for (name, at, bit, call) in [
        ("the first spare bit", 1, CARD_SPARE.start, grow(7, 20)),
        ("the last spare bit", 2, CARD_SPARE.end - 1, read(7, 0, 9)),
        ("the old spare bit", 0, OLD_SPARE, Call::Fill),
    ] {
        all.push(edge(name, &with_bit(&files, at, bit), call));
    }
}

/// Card books of zeros around one, two and three places of 48 bytes and of 32,
/// with heads of no card to three.
fn widths(all: &mut Vec<Edge>) {
    let bare = after(Store::blank(3, 0, 2, 1), 1, &[]);
    for length in [0, 32, 47, 48, 49, 64, 95, 96, 97, 144] {
        for cards in 0..=3 {
            let store = with_book(&bare, cards, vec![0; length]);
            for call in [
                Call::Fill,
                Call::Settle,
                enter(7),
                write(0, 0, 3),
                grow(0, 10),
                read(0, 0, 3),
                read_many(&[(0, 0, 3)], 3),
                write_batch(&[(0, 0, 3)]),
                fresh(16, 0),
            ] {
                let name = format!("{cards} cards in {length} bytes");
                all.push(edge(name, &store, call));
            }
        }
    }
}

/// Books of one place to three, with every number of files in them: one more
/// goes before, between and behind them where a place is free.
fn places(all: &mut Vec<Edge>) {
    for places in 1..=3 {
        for number in 0..=places {
            let entered: Vec<Call> = (0..number).map(|at| enter(10 + 10 * at)).collect();
            let store = after(Store::blank(2, places as usize, 1, 1), 0, &entered);
            for at in 0..=number {
                let name = format!("{number} files on {places} places");
                all.push(edge(name, &store, enter(5 + 10 * at)));
            }
        }
    }
}

/// Stores with cards of 32 bytes: where they pass 1 and 2 they are read as
/// those of 48.
fn old_cards(all: &mut Vec<Edge>) {
    let bare = after(Store::blank(4, 0, 2, 1), 1, &[]);
    let plain = [7, 8, 9, 10].map(|object| old_card(object, 10, 50));
    let empty = [7, 8, 9, 10].map(|object| old_card(object, 0, 50));
    // Their second cards are read half as the first one's creation time, half
    // as a card: the high bits of their seconds as its object.
    let far = [old_card(0, 10, 50), old_card(8, 0, 1 << 33)];
    let odd = [old_card(0, 10, 50), old_card(7, 0, 9 << 33)];
    for (name, cards) in [
        ("old cards", &plain[..]),
        ("old cards of empty files", &empty),
        ("old cards of a far time", &far),
        ("old cards of another far time", &odd),
    ] {
        for number in 1..=cards.len() {
            for length in [32, 64, 96, 128, 160, 192] {
                if length < number * OLD_CARD_BYTES {
                    continue;
                }
                let store = with_book(&bare, number, old_book(&cards[..number], length));
                for call in [
                    Call::Fill,
                    read(cards[0].object, 0, 9),
                    write(cards[0].object, 2, 3),
                    grow(cards[0].object, 20),
                    enter(6),
                    write_batch(&[(cards[0].object, 2, 3)]),
                ] {
                    let name = format!("{name}: {number} in {length} bytes");
                    all.push(edge(name, &store, call));
                }
            }
        }
    }
}

/// Nanoseconds around 1,000,000,000 and at their most, of either time and of
/// both, on each of three cards and beside other seconds on each.
fn nanoseconds(all: &mut Vec<Edge>) {
    let files = files();
    let values = [999_999_999, 1_000_000_000, (1 << 30) - 1];
    for (at, seconds) in [0, 3, MAX_SIZE].into_iter().enumerate() {
        for changed in values {
            for created in values {
                let store = with_card(&files, at, |card| {
                    card.changed = Time::new(seconds, changed);
                    card.created = Time::new(seconds, created);
                });
                for call in [
                    Call::Fill,
                    write(7, 2, 3),
                    grow(8, 20),
                    enter(5),
                    write_batch(&[(8, 2, 3), (7, 2, 3)]),
                ] {
                    let name = format!("card {at}: nanoseconds {changed}, {created}");
                    all.push(edge(name, &store, call));
                }
            }
        }
    }
}

/// Each bit of the creation time, which a call keeps where 2 passes it, and
/// each spare bit, which it does not pass: on each of three cards.
fn single_bits(all: &mut Vec<Edge>) {
    let store = with(&files(), |store| {
        let mut volume = Volume::decode(store);
        for card in &mut volume.cards {
            card.created = Time::new(0, 0);
        }
        volume.encode(store);
    });
    for at in 0..3 {
        for bit in OLD_SPARE..CARD_SPARE.end {
            let store = with_bit(&store, at, bit);
            for call in [Call::Settle, write(7, 2, 3)] {
                all.push(edge(format!("card {at}: bit {bit}"), &store, call));
            }
        }
    }
}

/// A creation time that every call keeps, whatever time it is lent, and with it
/// those of the other files.
fn kept(all: &mut Vec<Edge>) {
    let files = files();
    for created in [
        Time::new(0, 0),
        Time::new(1, 1),
        TIME,
        Time::new((1 << 62) - 1, 1 << 28),
        Time::new(1 << 62, 1 << 29),
        Time::new(MAX_SIZE, 999_999_999),
    ] {
        let store = with_card(&files, 1, |card| card.created = created);
        let mut push = |call| all.push(edge(format!("created {created:?}"), &store, call));
        for time in [
            TIME,
            created,
            Time::new(0, 0),
            Time::new(MAX_SIZE, 999_999_999),
        ] {
            for (offset, length) in [(2, 3), (0, 8), (8, 9), (70_000, 1), (2, 0)] {
                push(write_at(7, offset, length, time));
            }
            for (object, size) in [(7, 8), (7, 9), (7, 200_000), (8, 20), (6, 1)] {
                push(Call::Grow { object, size, time });
            }
            for writes in [
                &[(7, 2, 3)][..],
                &[(7, 2, 0)],
                &[(6, 0, 1), (7, 2, 3), (8, 0, 1)],
                &[(7, 2, 3), (7, 9, 1), (8, 0, 0)],
                &[(8, 1, 1), (9, 0, 1), (7, 2, 3)],
            ] {
                let length: u64 = writes.iter().map(|write| write.2).sum();
                push(batch_of(writes, length as usize, time));
            }
            for object in [5, 9] {
                push(Call::Enter { object, time });
            }
        }
        push(Call::Settle);
        push(read(7, 0, 9));
        push(fresh(16, 1));
    }
}

#[cfg(test)]
mod tests {
    use super::*;

    fn number(store: &Store, call: &Call) -> u32 {
        model::run(&mut store.clone(), call).number
    }

    /// The numbers of these edges' fills, by their names.
    fn fills(edges: impl Fn(&mut Vec<Edge>)) -> Vec<(String, u32)> {
        let mut all = Vec::new();
        edges(&mut all);
        all.retain(|edge| edge.call == Call::Fill);
        all.into_iter()
            .map(|edge| (edge.name, number(&edge.store, &edge.call)))
            .collect()
    }

    #[test]
    fn a_card_book_is_whole_places_of_48_bytes() {
        let expected = [0, 32, 47, 48, 49, 64, 95, 96, 97, 144]
            .into_iter()
            .flat_map(|length| {
                (0..=3).map(move |cards| {
                    let number = match length {
                        0 | 48 | 96 | 144 if cards > length / 48 => 1,
                        // Two cards of zeros are equal.
                        0 | 48 | 96 | 144 if cards > 1 => 2,
                        0 | 48 | 96 | 144 => 0,
                        _ => 1,
                    };
                    (format!("{cards} cards in {length} bytes"), number)
                })
            });
        assert_eq!(fills(widths), expected.collect::<Vec<_>>());
        // 96 bytes have two places, not three.
        let mut store = Store::clone(&after(Store::blank(2, 2, 1, 1), 0, &[]));
        assert_eq!(store.cards.len(), 96);
        let numbers = [7, 8, 9].map(|object| model::run(&mut store, &enter(object)).number);
        assert_eq!(numbers, [0, 0, 8]);
    }

    #[test]
    fn old_cards_are_read_where_they_pass() {
        let told = fills(old_cards);
        let number = |name: &str| {
            let found = told.iter().find(|(told, _)| told == name);
            found.expect("a name of the list").1
        };
        for (name, expected) in [
            ("old cards: 1 in 32 bytes", 1),
            ("old cards: 1 in 64 bytes", 1),
            ("old cards: 1 in 96 bytes", 0),
            ("old cards: 1 in 192 bytes", 0),
            ("old cards: 2 in 96 bytes", 2),
            ("old cards: 3 in 96 bytes", 1),
            ("old cards: 4 in 192 bytes", 2),
            ("old cards of empty files: 2 in 96 bytes", 2),
            ("old cards of a far time: 2 in 96 bytes", 0),
            ("old cards of another far time: 2 in 96 bytes", 0),
        ] {
            assert_eq!(number(name), expected, "{name}");
        }
        let bare = after(Store::blank(2, 0, 1, 1), 0, &[]);
        let cards = [old_card(7, 10, 50)];
        let mut store = Store::clone(&with_book(&bare, 1, old_book(&cards, 96)));
        assert_eq!(Volume::decode(&store).cards, cards);
        assert_eq!(model::run(&mut store, &grow(7, 20)).number, 0);
        let grown = Card {
            size: 20,
            changed: TIME,
            ..cards[0]
        };
        assert_eq!(Volume::decode(&store).cards, [grown]);
    }

    #[test]
    fn nanoseconds_of_either_time_are_tried() {
        let fine = fills(nanoseconds).iter().filter(|(_, n)| *n == 0).count();
        assert_eq!(fine, 3, "999,999,999 twice, on each card");
        assert!(fills(nanoseconds).iter().all(|(_, n)| matches!(n, 0 | 2)));
    }

    /// A bit of the creation time stays where it is, and so does every other
    /// card; a spare bit is refused by 2.
    #[test]
    fn a_write_keeps_every_bit_of_the_creation_time() {
        let mut all = Vec::new();
        single_bits(&mut all);
        all.retain(|edge| matches!(edge.call, Call::Write { .. }));
        let mut refused = 0;
        for Edge { name, store, call } in all {
            let mut after = Store::clone(&store);
            match model::run(&mut after, &call).number {
                0 => {
                    let (before, after) = (Volume::decode(&store), Volume::decode(&after));
                    for (before, after) in before.cards.iter().zip(after.cards) {
                        assert_eq!(before.created, after.created, "{name}");
                        assert_eq!(before == &after, after.object != 7, "{name}");
                    }
                }
                number => {
                    assert_eq!(number, 2, "{name}");
                    refused += 1;
                }
            }
        }
        assert_eq!(refused, 3 * 36);
    }
}
