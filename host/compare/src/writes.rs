//! Batches of writes: made of their parts, as the single writes that they stand
//! for, and at random within a history.

use model::{
    Answer, BLOCK_BYTES, Call, MAX_TRANSFER_BYTES, MAX_TRIPLES, Store, Time, Triple, Volume,
};
use oracle::{OracleAnswer, Outcome};
use random::Rng;

use crate::generate::{History, Profile, bytes, time};
use crate::lists::{lengths, list_of, near, up_to};

/// A write of a batch: object, offset and length.
pub type Write = (u64, u64, u64);

/// The time of a batch, which is no other call's.
pub const TIME: Time = Time {
    seconds: 70,
    nanoseconds: 80,
};

/// The batch of these writes, with so many bytes for all of them.
pub fn batch_of(writes: &[Write], length: usize, time: Time) -> Call {
    let triples: Vec<Triple> = writes
        .iter()
        .map(|&(object, offset, length)| Triple {
            object,
            offset,
            length,
        })
        .collect();
    Call::WriteBatch {
        list: Triple::list(&triples),
        bytes: (0..length).map(|n| (n * 7 + n / 256 + 1) as u8).collect(),
        time,
    }
}

/// The batch of these writes, with the bytes that they want.
pub fn write_batch(writes: &[Write]) -> Call {
    let length: u64 = writes.iter().map(|write| write.2).sum();
    batch_of(writes, length as usize, TIME)
}

/// The parts of a batch.
fn parts(batch: &Call) -> (&[u8], &[u8], Time) {
    let Call::WriteBatch { list, bytes, time } = batch else {
        unreachable!("a batch")
    };
    (list, bytes, *time)
}

/// The single writes that a batch stands for, where 18 does not refuse it.
pub fn single_writes(batch: &Call) -> Vec<Call> {
    let (list, mut rest, time) = parts(batch);
    let single = |triple: Triple| {
        let (bytes, behind) = rest.split_at(triple.length as usize);
        rest = behind;
        Call::Write {
            object: triple.object,
            offset: triple.offset,
            bytes: bytes.to_vec(),
            time,
        }
    };
    Triple::all(list).map(single).collect()
}

/// A call as two sides answer it.
pub struct Compared {
    pub call: Call,
    pub answer: Answer,
    pub told: OracleAnswer,
}

/// What is compared of a batch that was not refused, where the other side makes
/// the writes one by one: those that the document has done are accepted, and
/// the one that stopped it is answered as a single write. 1 and 2, which the
/// other side does not have, stop it as well: then only the writes before are
/// compared, and the stores that they leave.
pub fn by_single_writes(
    batch: &Call,
    answer: &Answer,
    mut write: impl FnMut(&Call) -> OracleAnswer,
) -> Compared {
    let mut compared = |single: &Call, number, count| {
        let answer = Answer {
            number,
            count,
            refused: number != 0,
            output: Vec::new(),
        };
        Compared {
            told: write(single),
            call: single.clone(),
            answer,
        }
    };
    let singles = single_writes(batch);
    let (done, later) = singles.split_at(answer.count as usize);
    for single in done {
        let Call::Write { bytes, .. } = single else {
            unreachable!("a write")
        };
        let told = compared(single, 0, bytes.len() as u64);
        if told.told.outcome != Outcome::Accepted(told.answer.count) {
            return told;
        }
    }
    let as_batch = |number, all: &[Call]| Compared {
        call: batch.clone(),
        answer: Answer {
            number,
            ..answer.clone()
        },
        told: OracleAnswer {
            outcome: Outcome::Accepted(all.len() as u64),
            output: Vec::new(),
        },
    };
    match (answer.number, later.first()) {
        (1 | 2, Some(_)) => as_batch(0, done),
        (number @ 3.., Some(single)) => compared(single, number, 0),
        // All were done, or the document has to say what stopped it.
        (number, _) => as_batch(number, &singles),
    }
}

/// The random batches of one history.
pub struct Batches {
    rng: Rng,
    /// Whether the history has any. They change its store, so that one with none
    /// makes the calls that it makes where it is recorded.
    some: bool,
    /// Whether most writes lie on or beside an earlier one of their batch.
    overlapping: bool,
}

/// Of a hundred histories those that have batches.
const HISTORIES: u64 = 50;
/// How often one comes between their calls.
const PERCENT: u64 = 15;
/// Batches whose lengths add up to more are cut.
const MOST_BYTES: u128 = 2 << 20;
/// Writes of a batch on a store of many blocks, where each takes long.
const MOST_ON_GROUPS: u64 = 4;

impl Batches {
    pub fn new(seed: u64, number: u64) -> Self {
        let mut rng = Rng::new(seed.rotate_left(40) ^ number.wrapping_mul(0xe703_7ed1_a0b4_28db));
        let (some, overlapping) = (rng.percent(HISTORIES), rng.percent(40));
        Self {
            rng,
            some,
            overlapping,
        }
    }

    /// A batch, now and then. `store` passes refusals 1 and 2.
    pub fn next(&mut self, history: &History, store: &Store) -> Option<Call> {
        if !self.some || !history.begun() || !self.rng.percent(PERCENT) {
            return None;
        }
        let volume = Volume::decode(store);
        let mut triples = self.triples(history, &volume);
        if let Some(shared) = self.shared(&volume)
            && self.rng.percent(60)
        {
            triples.truncate(self.rng.index(4));
            triples.extend(shared);
        }
        let rng = &mut self.rng;
        // As 64 bits hold it, so that lengths that are added so are met.
        let sum = u128::from(lengths(&triples) as u64).min(MOST_BYTES) as usize;
        let length = match rng.below(40) {
            0 => sum.saturating_sub(rng.between(1, 100) as usize),
            1 => sum + rng.between(1, 100) as usize,
            _ => sum,
        };
        let list = list_of(rng, &triples);
        Some(Call::WriteBatch {
            list,
            bytes: bytes(rng, length),
            time: time(rng),
        })
    }

    fn triples(&mut self, history: &History, volume: &Volume) -> Vec<Triple> {
        let number = match self.rng.below(40) {
            _ if history.profile == Profile::Groups => self.rng.below(MOST_ON_GROUPS + 1),
            0 => MAX_TRIPLES as u64,
            1 => self.rng.between(60, MAX_TRIPLES as u64 + 2),
            2..6 => self.rng.between(9, 40),
            _ => self.rng.below(9),
        };
        // Each write takes a block: mostly all of them, and some later ones, fit.
        let free = volume.used.iter().filter(|used| !**used).count() as u64;
        let number = if self.rng.percent(80) {
            number.min(free / 3 + 1)
        } else {
            number
        };
        up_to(number, MOST_BYTES, |earlier| {
            self.triple(history, volume, earlier)
        })
    }

    fn triple(&mut self, history: &History, volume: &Volume, earlier: &[Triple]) -> Triple {
        let rng = &mut self.rng;
        if self.overlapping && !earlier.is_empty() && rng.percent(75) {
            let triple = rng.pick(earlier);
            return near(rng, volume, triple);
        }
        let (object, offset) = history.place(rng, volume);
        let most = MAX_TRANSFER_BYTES as u64;
        let length = match rng.below(400) {
            0 => rng.pick(&[u64::MAX, 1 << 63, (1 << 32) + 10]),
            1 => rng.pick(&[most - 1, most, most + 1]),
            2..8 => rng.between(60_000, 140_000),
            8..40 => 0,
            40..60 => BLOCK_BYTES as u64,
            60..110 => rng.between(1_000, 9_000),
            _ => rng.between(1, 300),
        };
        Triple {
            object,
            offset,
            length,
        }
    }

    /// Where a block is at two places: a write over the one, after which 2
    /// refuses the store, and one behind it.
    fn shared(&mut self, volume: &Volume) -> Option<[Triple; 2]> {
        let block_bytes = BLOCK_BYTES as u64;
        let mut places = vec![None; volume.used.len()];
        let all = volume.extents.iter().flat_map(|extent| {
            (0..extent.count).map(|n| (extent.object, extent.logical + n, extent.physical + n))
        });
        let mut shared = Vec::new();
        for (object, logical, physical) in all {
            let place = (object, logical);
            match places.get_mut(physical as usize)? {
                Some(first) => shared.push((*first, place)),
                free => *free = Some(place),
            }
        }
        if shared.is_empty() {
            return None;
        }
        let (first, second) = self.rng.pick(&shared);
        let triple = |(object, logical): (u64, u64), length| Triple {
            object,
            offset: logical * block_bytes,
            length,
        };
        Some([triple(first, block_bytes), triple(second, 1)])
    }
}
