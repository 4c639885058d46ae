//! Lists of many reads in one call: made of triples, and at random beside a
//! history, whose own calls stay as they are without them.

use std::collections::BTreeSet;

use model::records::TRIPLE_BYTES;
use model::{Call, MAX_TRIPLES, READ_FILL, Store, Triple, UNIT_BYTES, Volume};
use oracle::{OracleAnswer, Outcome};
use random::Rng;

use crate::generate::History;

/// The reads of these triples (object, offset, length) into one buffer of
/// `length` bytes.
pub fn read_many(triples: &[(u64, u64, u64)], length: usize) -> Call {
    let triples: Vec<Triple> = triples
        .iter()
        .map(|&(object, offset, length)| Triple {
            object,
            offset,
            length,
        })
        .collect();
    Call::ReadMany {
        list: Triple::list(&triples),
        length,
    }
}

/// The read of one triple into a buffer of its length.
pub fn single_read(triple: &Triple) -> Call {
    Call::Read {
        object: triple.object,
        offset: triple.offset,
        length: triple.length as usize,
    }
}

/// The sum of the lengths, as a number without bound.
pub fn lengths(triples: &[Triple]) -> u128 {
    let lengths = triples.iter().map(|triple| u128::from(triple.length));
    lengths.sum()
}

/// The different pairs of object and unit in which bytes lie that were handed
/// out: each part is given as object, offset and number of bytes.
pub fn different_units(parts: impl Iterator<Item = (u64, u64, u64)>) -> u64 {
    let mut units = BTreeSet::new();
    for (object, offset, count) in parts.filter(|(_, _, count)| *count > 0) {
        let last = (offset + count - 1) / UNIT_BYTES;
        units.extend((offset / UNIT_BYTES..=last).map(|unit| (object, unit)));
    }
    units.len() as u64
}

/// What single reads in list order make of a list that 17 does not refuse: the
/// first one that is refused stands for the whole call, which then hands out
/// nothing (a refused read of the Rust may have changed its own buffer); else
/// their buffers stand one after another.
pub fn by_single_reads(
    list: &[u8],
    length: usize,
    mut read: impl FnMut(&Call) -> OracleAnswer,
) -> OracleAnswer {
    let (mut output, mut parts) = (Vec::new(), Vec::new());
    for triple in Triple::all(list) {
        let told = read(&single_read(&triple));
        let Outcome::Accepted(count) = told.outcome else {
            return OracleAnswer {
                outcome: told.outcome,
                output: vec![READ_FILL; length],
            };
        };
        parts.push((triple.object, triple.offset, count));
        output.extend(told.output);
    }
    output.resize(length, READ_FILL);
    OracleAnswer {
        outcome: Outcome::Accepted(different_units(parts.into_iter())),
        output,
    }
}

/// The random lists of one history.
pub struct Lists {
    rng: Rng,
    /// Whether most triples repeat or overlap an earlier one of their list.
    overlapping: bool,
}

/// How often a list comes between the calls of a history.
const PERCENT: u64 = 15;
/// Lists whose lengths add up to more are cut.
const MOST_BYTES: u128 = 3 << 20;
/// Where two triples of one file stand to each other.
const SHIFTS: [i64; 12] = [
    0, 0, 1, -1, 10, -10, 4_096, -4_096, 65_535, 65_536, -65_536, 131_072,
];

/// So many triples, each made with those before it in sight, up to so many bytes
/// together. A length past every buffer stands: the list that has it is refused.
pub fn up_to(number: u64, most: u128, mut next: impl FnMut(&[Triple]) -> Triple) -> Vec<Triple> {
    let mut triples = Vec::new();
    let mut sum = 0;
    for _ in 0..number {
        let triple = next(&triples);
        sum += u128::from(triple.length);
        if (most..1 << 32).contains(&sum) {
            break;
        }
        triples.push(triple);
    }
    triples
}

/// The bytes of a list, now and then not whole triples.
pub fn list_of(rng: &mut Rng, triples: &[Triple]) -> Vec<u8> {
    let mut list = Triple::list(triples);
    if rng.percent(2) {
        let bytes = list.len() + rng.between(1, TRIPLE_BYTES as u64 - 1) as usize;
        list.resize(bytes, 0);
    }
    list
}

impl Lists {
    pub fn new(seed: u64, number: u64) -> Self {
        let mut rng = Rng::new(seed.rotate_left(24) ^ number.wrapping_mul(0xa076_1d64_78bd_642f));
        let overlapping = rng.percent(40);
        Self { rng, overlapping }
    }

    /// A call of many reads, now and then. `store` passes refusals 1 and 2.
    pub fn next(&mut self, history: &History, store: &Store) -> Option<Call> {
        if !history.begun() || !self.rng.percent(PERCENT) {
            return None;
        }
        let volume = Volume::decode(store);
        let triples = self.triples(history, &volume);
        let rng = &mut self.rng;
        // As 64 bits hold it, so that lengths that are added so are met.
        let sum = lengths(&triples) as u64 as usize;
        let sum = sum.min(MOST_BYTES as usize);
        let length = match rng.below(20) {
            0 => sum.saturating_sub(rng.between(1, 100) as usize),
            1..5 => sum + rng.between(1, 5_000) as usize,
            _ => sum,
        };
        let list = list_of(rng, &triples);
        Some(Call::ReadMany { list, length })
    }

    fn triples(&mut self, history: &History, volume: &Volume) -> Vec<Triple> {
        let number = match self.rng.below(30) {
            0 => MAX_TRIPLES as u64,
            1 => self.rng.between(60, MAX_TRIPLES as u64 + 2),
            2..5 => self.rng.between(9, 40),
            _ => self.rng.below(9),
        };
        up_to(number, MOST_BYTES, |earlier| {
            self.triple(history, volume, earlier)
        })
    }

    fn triple(&mut self, history: &History, volume: &Volume, earlier: &[Triple]) -> Triple {
        let rng = &mut self.rng;
        if self.overlapping && !earlier.is_empty() && rng.percent(75) {
            let triple = rng.pick(earlier);
            return near(rng, volume, triple);
        }
        let (object, offset) = history.place(rng, volume);
        let length = match rng.below(200) {
            0 => rng.pick(&[u64::MAX, 1 << 63, (1 << 32) + 10]),
            1..4 => rng.between(1, 17) * UNIT_BYTES,
            4..10 => rng.between(60_000, 200_000),
            10..25 => 0,
            25..60 => rng.between(1_000, 9_000),
            _ => rng.between(1, 300),
        };
        Triple {
            object,
            offset,
            length,
        }
    }
}

/// The same triple, one that overlaps it or lies beside it, or the same place
/// of another file.
pub fn near(rng: &mut Rng, volume: &Volume, triple: Triple) -> Triple {
    match rng.below(4) {
        0 => triple,
        1 if !volume.cards.is_empty() => Triple {
            object: volume.cards[rng.index(volume.cards.len())].object,
            ..triple
        },
        2 => Triple {
            length: rng.between(0, 400),
            ..triple
        },
        _ => Triple {
            offset: triple.offset.saturating_add_signed(rng.pick(&SHIFTS)),
            ..triple
        },
    }
}
