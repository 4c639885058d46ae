//! Bytes and lengths of a store changed at random, whatever refusals 1 and 2
//! make of them.

use model::records::{CARD_BYTES, CARD_SPARE, EXTENT_BYTES, GROUP_BYTES, Head, put_bits};
use model::{BLOCK_BYTES, Card, MAX_SIZE, Store};
use random::Rng;

/// Change the store: bits, fields, times or lengths.
pub fn roughen(rng: &mut Rng, store: &mut Store) {
    match rng.below(9) {
        0..4 => {
            for _ in 0..rng.between(1, 2) {
                flip(rng, store);
            }
        }
        4 | 5 => field(rng, store),
        6 => length(rng, store),
        7 => times(rng, store),
        _ => image(rng, store),
    }
}

/// Bytes of records that are there, per buffer.
fn live(store: &Store) -> [usize; 7] {
    let head = Head::decode(&store.head);
    let mut live = store.buffers().map(Vec::len);
    live[2] = live[2].min(head.cards * CARD_BYTES);
    live[3] = live[3].min(head.extents * EXTENT_BYTES);
    live[4] = live[4].min(head.groups * GROUP_BYTES);
    live
}

/// A place in one of the records' buffers, mostly within the records.
fn place(rng: &mut Rng, store: &Store) -> Option<(usize, usize)> {
    if store.head.len() < 28 {
        return None;
    }
    let buffer = rng.between(1, 6) as usize;
    let whole = store.buffers()[buffer].len();
    let within = match live(store)[buffer] {
        0 => whole,
        _ if rng.percent(10) => whole,
        live => live,
    };
    (within > 0).then(|| (buffer, rng.index(within)))
}

fn flip(rng: &mut Rng, store: &mut Store) {
    if let Some((buffer, at)) = place(rng, store) {
        store.buffers_mut()[buffer][at] ^= 1 << rng.below(8);
    }
}

/// Add or take one from a byte, or set it to an extreme.
fn field(rng: &mut Rng, store: &mut Store) {
    if let Some((buffer, at)) = place(rng, store) {
        let byte = &mut store.buffers_mut()[buffer][at];
        *byte = match rng.below(4) {
            0 => byte.wrapping_add(1),
            1 => byte.wrapping_sub(1),
            2 => 0,
            _ => 255,
        };
    }
}

/// A time of a card at or past its bounds, or a spare bit behind it.
fn times(rng: &mut Rng, store: &mut Store) {
    let cards = live(store)[2] / CARD_BYTES;
    if cards == 0 {
        return;
    }
    let place = &mut store.cards[rng.index(cards) * CARD_BYTES..][..CARD_BYTES];
    let mut card = Card::decode(place);
    let time = if rng.percent(50) {
        &mut card.created
    } else {
        &mut card.changed
    };
    match rng.below(3) {
        0 => time.seconds = rng.pick(&[0, 1 << 62, MAX_SIZE]),
        1 => time.nanoseconds = rng.pick(&[0, 999_999_999, 1_000_000_000, (1 << 30) - 1]),
        _ => {
            let bit = CARD_SPARE.start + rng.index(CARD_SPARE.len());
            put_bits(place, bit, 1, 1);
            return;
        }
    }
    card.encode(place);
}

/// Another length of one buffer: by a byte, a record, or to nothing.
fn length(rng: &mut Rng, store: &mut Store) {
    let buffer = rng.index(7);
    let record = [BLOCK_BYTES, 28, CARD_BYTES, EXTENT_BYTES, GROUP_BYTES, 8, 8][buffer];
    let buffer = &mut store.buffers_mut()[buffer];
    let step = if rng.percent(50) { record } else { 1 };
    let length = match rng.below(5) {
        0 | 1 => buffer.len() + step,
        2 | 3 => buffer.len().saturating_sub(step),
        _ => 0,
    };
    buffer.resize(length, 0);
}

fn image(rng: &mut Rng, store: &mut Store) {
    if !store.image.is_empty() {
        let at = rng.index(store.image.len());
        store.image[at] ^= 1 << rng.below(8);
    }
}
