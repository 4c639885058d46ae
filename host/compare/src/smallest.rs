//! The smallest inputs that show each listed difference.

use model::{Call, Card, Group, MAX_ALLOCATED, MAX_SIZE, Store, Time, Volume};
use oracle::{Error, Outcome};

use crate::differences::Difference;

pub struct Smallest {
    pub difference: Difference,
    pub store: Store,
    pub call: Call,
    /// Document 01's number.
    pub number: u32,
    /// What the Rust answers.
    pub rust: Outcome,
    /// What the Rust leaves in the output buffer.
    pub output: Vec<u8>,
}

const TIME: Time = Time {
    seconds: 0,
    nanoseconds: 0,
};

/// One block, none reserved, and at most one card.
fn store(card: Option<Card>) -> Store {
    store_of(1, card)
}

fn store_of(blocks: u64, card: Option<Card>) -> Store {
    let mut store = Store::blank(blocks, 1, 1, 1);
    let fresh = Call::Fresh {
        uuid: vec![0; 16],
        reserved: 0,
    };
    model::run(&mut store, &fresh);
    let mut volume = Volume::decode(&store);
    volume.cards.extend(card);
    volume.encode(&mut store);
    store
}

fn card(size: u64, allocated: u64) -> Option<Card> {
    Some(Card {
        object: 0,
        size,
        allocated,
        changed: TIME,
        created: TIME,
    })
}

fn write(offset: u64, bytes: &[u8], time: Time) -> Call {
    Call::Write {
        object: 0,
        offset,
        bytes: bytes.to_vec(),
        time,
    }
}

fn grow(size: u64) -> Call {
    Call::Grow {
        object: 0,
        size,
        time: TIME,
    }
}

/// How many of them stand at the head of the recorded answers; the others
/// came later and stand at the end, so that the entries keep their numbers.
pub const RECORDED_FIRST: usize = 7;

pub fn smallest() -> Vec<Smallest> {
    let late = Time {
        seconds: MAX_SIZE + 1,
        nanoseconds: 0,
    };
    // Unit 0 is a hole, unit 1 has a slot and no block.
    let mut unbacked = store(card(65_537, 0));
    let mut volume = Volume::decode(&unbacked);
    let mut group = Group::empty(0, 0);
    group.slots[1] = Some(0);
    volume.groups.push(group);
    volume.encode(&mut unbacked);
    let show = |difference, store, call, number, rust| Smallest {
        difference,
        store,
        call,
        number,
        rust,
        output: Vec::new(),
    };
    vec![
        show(
            Difference::EmptyWriteWithoutCard,
            store(None),
            write(0, &[], TIME),
            3,
            Outcome::Accepted(0),
        ),
        show(
            Difference::LimitBeforeCard,
            store(None),
            write(MAX_SIZE, &[1], TIME),
            3,
            Outcome::Refused(Error::LimitExceeded),
        ),
        show(
            Difference::LimitBeforeCard,
            store(None),
            grow(MAX_SIZE + 1),
            3,
            Outcome::Refused(Error::LimitExceeded),
        ),
        show(
            Difference::TimeBeforeCard,
            store(None),
            write(0, &[1], late),
            3,
            Outcome::Refused(Error::InvalidInput("lent time out of range")),
        ),
        show(
            Difference::Shrink,
            store(card(1, 0)),
            grow(0),
            6,
            Outcome::Shrinks,
        ),
        show(
            Difference::CountBound,
            store(card(0, MAX_ALLOCATED)),
            write(0, &[1], TIME),
            14,
            Outcome::CountBeyondCard(MAX_ALLOCATED + 1),
        ),
        Smallest {
            difference: Difference::OutputOfRefusedRead,
            store: unbacked,
            call: Call::Read {
                object: 0,
                offset: 65_535,
                length: 2,
            },
            number: 10,
            rust: Outcome::Refused(Error::Corrupt("checksummed data unit is not fully backed")),
            output: vec![0, model::READ_FILL],
        },
        // Unit 0 takes the 16 blocks and is refused by 14; the Rust goes on
        // to unit 1, for which no block is left.
        show(
            Difference::CountBound,
            store_of(16, card(0, MAX_ALLOCATED)),
            write(65_535, &[1, 1], TIME),
            14,
            Outcome::Refused(Error::NoSpace),
        ),
    ]
}
