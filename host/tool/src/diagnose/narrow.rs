//! Stores whose cards have 32 bytes, as they had before the time of creation stood
//! on them. They are not converted, and nothing in a store tells how wide its
//! cards are: where refusal 1 or 2 comes, the book of cards may show it.

use sangueko::CARD_BYTES;

use crate::records::{Card, Extent, Records};
use crate::time::{SECOND, Time};

/// Bytes of such a card. Its fields are the first ones of the wider card, and its
/// last bit, which is spare, the first bit of the time of creation.
const NARROW_BYTES: usize = 32;

const NOTE: &str = "as cards of 32 bytes, which older stores have, the book of cards is in order: \
                    such a store is not converted; copy its files out with the tool or library that it was made with";

/// Said where the book of cards is in order with the one width and not with the
/// other.
pub fn note(records: &Records<'_>) -> Option<&'static str> {
    let narrow = in_order(records, NARROW_BYTES, narrow_is_right);
    (narrow && !in_order(records, CARD_BYTES, card_is_right)).then_some(NOTE)
}

/// What refusals 1 and 2 ask of the book, as cards of so many bytes, and that every
/// extent has its card there.
fn in_order(records: &Records<'_>, width: usize, is_right: fn(&Card) -> bool) -> bool {
    let (book, number) = (&records.store.cards, records.head.cards as usize);
    let Some((cards, rest)) = book.split_at_checked(number * width) else {
        return false;
    };
    let cards: Vec<Card> = cards.chunks_exact(width).map(Card::decode).collect();
    let has_card = |extent: &Extent| {
        let found = cards.binary_search_by_key(&extent.object, |card| card.object);
        found.is_ok()
    };
    book.len().is_multiple_of(width)
        && cards.is_sorted_by(|a, b| a.object < b.object)
        && cards.iter().all(is_right)
        && rest.iter().all(|&byte| byte == 0)
        && records.extents.iter().all(has_card)
}

fn card_is_right(card: &Card) -> bool {
    card.changed.nanoseconds < SECOND && card.created.nanoseconds < SECOND && card.spare == 0
}

/// Bits that are not there are read as zero.
fn narrow_is_right(card: &Card) -> bool {
    let none = Time {
        seconds: 0,
        nanoseconds: 0,
    };
    card.created == none && card_is_right(card)
}
