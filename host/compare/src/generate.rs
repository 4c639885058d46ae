//! Histories of calls from fresh, seeded and repeatable.

use std::collections::VecDeque;

use model::{
    BLOCK_BYTES, Call, GROUP_BLOCKS, MAX_SIZE, MAX_TRANSFER_BYTES, Store, Time, UNIT_BYTES, Volume,
};

use random::Rng;

/// What kind of store a history runs on.
#[derive(Clone, Copy, Debug, PartialEq, Eq, PartialOrd, Ord)]
pub enum Profile {
    /// 1 to 8 blocks.
    Tiny,
    /// 9 to 64 blocks.
    Small,
    /// 65 to 400 blocks: several units, sparse files.
    Medium,
    /// Room for whole transfers of 1 MiB and beyond.
    Transfers,
    /// More than one allocation group, most blocks used beforehand.
    Groups,
    /// Files near 2^63 bytes.
    End,
}

/// One step of a history.
#[derive(Clone)]
pub enum Step {
    Call(Call),
    /// Damage the store that stands.
    Damage,
    /// Use up most blocks, so that few are left around the groups' edges.
    Crowd,
    /// Cut every extent into single blocks.
    Split,
}

#[derive(Clone)]
pub struct History {
    pub rng: Rng,
    pub profile: Profile,
    damaged: bool,
    /// Where the history's files mostly live: at 0, or where a checksum group
    /// ends.
    home: u64,
    objects: Vec<u64>,
    places: [u64; 4],
    opening: VecDeque<Step>,
    steps: u64,
}

/// Places for so many extents that one read cannot hold them all ahead.
const MANY_EXTENTS: u64 = 400;

const LENGTHS: [usize; 27] = [
    1, 1, 2, 10, 100, 1_000, 4_095, 4_096, 4_097, 5_000, 8_191, 8_192, 8_193, 12_288, 20_000,
    40_960, 65_535, 65_536, 65_537, 70_000, 131_071, 131_072, 131_073, 200_000, 1_048_575,
    1_048_576, 1_048_577,
];

impl History {
    pub fn new(seed: u64, number: u64) -> Self {
        let mut rng = Rng::new(seed ^ number.wrapping_mul(0xd134_2543_de82_ef95));
        let profile = match rng.below(1_000) {
            0..150 => Profile::Tiny,
            150..600 => Profile::Small,
            600..840 => Profile::Medium,
            840..848 => Profile::Transfers,
            848..850 => Profile::Groups,
            _ => Profile::End,
        };
        Self::of(rng, profile)
    }

    pub fn of(mut rng: Rng, profile: Profile) -> Self {
        let blocks = match profile {
            Profile::Tiny => rng.between(1, 8),
            Profile::Small | Profile::End => rng.between(9, 64),
            Profile::Medium => rng.between(65, 400),
            Profile::Transfers => rng.between(290, 900),
            Profile::Groups => match rng.below(6) {
                0 => GROUP_BLOCKS + 1,
                1 => rng.between(GROUP_BLOCKS, GROUP_BLOCKS + 200),
                2 => rng.between(2 * GROUP_BLOCKS - 70, 2 * GROUP_BLOCKS + 70),
                3 => rng.between(2 * GROUP_BLOCKS, 3 * GROUP_BLOCKS),
                4 => rng.between(3 * GROUP_BLOCKS, 4 * GROUP_BLOCKS),
                _ => 4 * GROUP_BLOCKS,
            },
        };
        let reserved = match rng.below(4) {
            0 => 0,
            1 => 1,
            2 => rng.below(blocks.min(5) + 1),
            _ => rng.below(blocks / 4 + 1),
        };
        // Books that are nearly full, or have room.
        let extents = match rng.below(10) {
            0 => rng.below(4),
            1 | 2 => rng.between(4, 10),
            3 if profile == Profile::Medium => MANY_EXTENTS,
            _ => rng.between(10, 80),
        };
        let groups = match rng.below(10) {
            0 => rng.below(2),
            1 | 2 => rng.between(2, 3),
            _ => rng.between(4, 12),
        };
        let cards = rng.between(1, 4);
        let pool = [0, 1, 7, 8, 255, 1 << 40, u64::MAX - 1, u64::MAX];
        let objects: Vec<u64> = (0..cards + 1).map(|_| rng.pick(&pool)).collect();
        let mut opening = VecDeque::new();
        let uuid: Vec<u8> = (0..16).map(|_| rng.next_u64() as u8).collect();
        opening.push_back(Step::Call(Call::Fresh { uuid, reserved }));
        if profile == Profile::Groups || rng.percent(10) {
            opening.push_back(Step::Crowd);
        }
        for &object in &objects[..objects.len().min(2)] {
            let time = good_time(&mut rng);
            opening.push_back(Step::Call(Call::Enter { object, time }));
        }
        let steps = match profile {
            Profile::Groups | Profile::Medium => rng.between(10, 40),
            _ => rng.between(6, 30),
        };
        let damaged = rng.percent(55);
        let home = match (profile, rng.below(8)) {
            (Profile::Small | Profile::Medium | Profile::Transfers, 0) => 254 * UNIT_BYTES,
            (Profile::Medium, 1) => 510 * UNIT_BYTES,
            _ => 0,
        };
        Self {
            rng,
            profile,
            damaged,
            home,
            objects,
            places: [blocks, cards, extents, groups],
            opening,
            steps,
        }
    }

    pub fn blocks(&self) -> u64 {
        self.places[0]
    }

    /// Whether the opening calls were made.
    pub fn begun(&self) -> bool {
        self.opening.is_empty()
    }

    /// Make the store afresh, with its files, before the next step.
    pub fn renew(&mut self) {
        let uuid = (0..16).map(|_| self.rng.next_u64() as u8).collect();
        let reserved = self.rng.below(self.blocks().min(3) + 1);
        self.opening
            .push_back(Step::Call(Call::Fresh { uuid, reserved }));
        for object in self.objects.clone() {
            let time = good_time(&mut self.rng);
            self.opening
                .push_back(Step::Call(Call::Enter { object, time }));
        }
    }

    /// The buffers that the history starts with, before its fresh.
    pub fn blank(&self) -> Store {
        let [blocks, cards, extents, groups] = self.places;
        Store::blank(blocks, cards as usize, extents as usize, groups as usize)
    }

    /// An object, mostly one with a card, and an offset in or near its file,
    /// by a generator of the caller's.
    pub fn place(&self, rng: &mut Rng, volume: &Volume) -> (u64, u64) {
        let object = object(rng, &self.objects, volume);
        let size = volume.card(object).map_or(0, |card| card.size);
        (object, position(rng, self.profile, self.home, size))
    }

    /// The step after those that led to `store`, or `None` at the end.
    pub fn next(&mut self, store: &Store) -> Option<Step> {
        if let Some(step) = self.opening.pop_front() {
            return Some(step);
        }
        self.steps = self.steps.checked_sub(1)?;
        let volume = Volume::decode(store);
        let free = volume.used.iter().filter(|used| !**used).count();
        let retired = volume.retired.iter().filter(|retired| **retired).count();
        if free < 18 && retired > 0 && self.rng.percent(60) {
            return Some(Step::Call(Call::Settle));
        }
        if self.places[2] == MANY_EXTENTS && self.rng.percent(10) {
            return Some(Step::Split);
        }
        if self.damaged && self.rng.percent(14) {
            return Some(Step::Damage);
        }
        let rng = &mut self.rng;
        let object = object(rng, &self.objects, &volume);
        let size = volume.card(object).map_or(0, |card| card.size);
        let call = match rng.below(100) {
            0..50 => {
                let length = write_length(rng, self.profile, free);
                let mut offset = position(rng, self.profile, self.home, size);
                // Append and overwrite often: they are what files live on.
                match rng.below(8) {
                    0 => offset = size,
                    1 => offset = self.home,
                    2 | 3 => offset = rng.below(size.clamp(1, 1 << 22)),
                    _ => {}
                }
                if offset > MAX_SIZE - length as u64 && rng.percent(80) {
                    offset = MAX_SIZE - length as u64;
                }
                Call::Write {
                    object,
                    offset,
                    bytes: bytes(rng, length),
                    time: time(rng),
                }
            }
            50..80 => {
                let (offset, length) = if rng.percent(35) {
                    // Whole units, as the contiguous read wants them.
                    let units = size.saturating_sub(self.home) / UNIT_BYTES;
                    let offset = self.home + rng.below(units.min(20) + 1) * UNIT_BYTES;
                    (offset, rng.between(1, 17) as usize * UNIT_BYTES as usize)
                } else if rng.percent(20) {
                    (0, size.min(1_200_000) as usize)
                } else {
                    let length = if rng.percent(3) {
                        0
                    } else {
                        rng.pick(&LENGTHS)
                    };
                    (position(rng, self.profile, self.home, size), length)
                };
                Call::Read {
                    object,
                    offset,
                    length,
                }
            }
            80..92 => {
                let mut target = position(rng, self.profile, self.home, size);
                if target < size && rng.percent(80) {
                    target = size.saturating_add(target % 200_000);
                }
                if rng.percent(6) {
                    target = size;
                }
                Call::Grow {
                    object,
                    size: target,
                    time: time(rng),
                }
            }
            92..95 => Call::Settle,
            95..98 => Call::Enter {
                object: rng.pick(&self.objects),
                time: time(rng),
            },
            98 => Call::Fill,
            _ if rng.percent(10) => Call::Fresh {
                uuid: vec![3; 16],
                reserved: rng.below(volume.blocks() + 2),
            },
            _ => Call::Fill,
        };
        Some(Step::Call(call))
    }
}

/// Mostly one that has a card, now and then another of the history's, seldom
/// any.
fn object(rng: &mut Rng, objects: &[u64], volume: &Volume) -> u64 {
    let object = if rng.percent(2) || volume.cards.is_empty() {
        rng.pick(objects)
    } else {
        let at = rng.index(volume.cards.len());
        volume.cards[at].object
    };
    if rng.percent(1) {
        rng.next_u64()
    } else {
        object
    }
}

/// A time that refusal 7 passes.
pub fn good_time(rng: &mut Rng) -> Time {
    let seconds = if rng.percent(10) {
        MAX_SIZE
    } else {
        rng.below(4_000_000_000)
    };
    let nanoseconds = if rng.percent(10) {
        999_999_999
    } else {
        rng.below(1_000_000_000)
    };
    Time {
        seconds,
        nanoseconds,
    }
}

pub fn time(rng: &mut Rng) -> Time {
    let mut time = good_time(rng);
    match rng.below(60) {
        0 => time.seconds = rng.pick(&[MAX_SIZE + 1, u64::MAX]),
        1 => time.nanoseconds = rng.pick(&[1_000_000_000, 1 << 30, u64::MAX]),
        _ => {}
    }
    time
}

/// Mostly what the store can hold, sometimes anything.
fn write_length(rng: &mut Rng, profile: Profile, free: usize) -> usize {
    if rng.percent(2) {
        return 0;
    }
    let length = if profile == Profile::Transfers && rng.percent(50) {
        rng.pick(&[
            MAX_TRANSFER_BYTES - 1,
            MAX_TRANSFER_BYTES,
            MAX_TRANSFER_BYTES + 1,
            MAX_TRANSFER_BYTES + 70_000,
            500_000,
        ])
    } else if rng.percent(20) {
        rng.between(1, 30_000) as usize
    } else {
        rng.pick(&LENGTHS)
    };
    if length > free * BLOCK_BYTES && rng.percent(97) {
        // Half of what is free, so that rewritten neighbours fit too.
        rng.between(1, (free * BLOCK_BYTES / 2).max(1) as u64) as usize
    } else {
        length
    }
}

/// An offset at or around an edge: of the file, of a block, of a unit, of a
/// checksum group, of 2^63, of 2^64, or anywhere.
fn position(rng: &mut Rng, profile: Profile, home: u64, size: u64) -> u64 {
    let block = BLOCK_BYTES as u64;
    let whole = size;
    let size = size.saturating_sub(home);
    let anchor = match rng.below(if profile == Profile::End { 16 } else { 12 }) {
        0 | 1 => whole,
        2 => whole / block * block,
        3 => whole / UNIT_BYTES * UNIT_BYTES,
        4 | 5 => home + rng.below((size / block).min(80) + 4) * block,
        6 | 7 => home + rng.below((size / UNIT_BYTES).min(300) + 3) * UNIT_BYTES,
        8 => home + rng.below(size.clamp(1, 1 << 22)),
        9 => rng.below(whole.max(1)),
        10 => match rng.below(8) {
            0 => rng.between(254, 258) * UNIT_BYTES,
            1 => rng.below(4) * 256 * UNIT_BYTES,
            2 => rng.below(1 << 45),
            _ => home + rng.below(40) * block,
        },
        11 => match rng.below(12) {
            0 => rng.next_u64(),
            1 => rng.pick(&[u64::MAX, MAX_SIZE, MAX_SIZE + 1, MAX_SIZE - 65_535]),
            _ => home + rng.below(30_000),
        },
        12 => MAX_SIZE,
        13 => MAX_SIZE / UNIT_BYTES * UNIT_BYTES,
        14 => MAX_SIZE - rng.below(6) * UNIT_BYTES,
        _ => MAX_SIZE - rng.below(40) * block,
    };
    let delta = rng.pick(&[
        0, 0, 0, 0, 1, -1, 2, -2, 10, -10, 4_095, 4_096, -4_096, 4_097, 5_000,
    ]);
    anchor.saturating_add_signed(delta)
}

/// Bytes to write: ramps of different steps, which tell neighbouring places
/// apart and pack well, with some zeros and some noise.
pub fn bytes(rng: &mut Rng, length: usize) -> Vec<u8> {
    let mut bytes = Vec::with_capacity(length);
    while bytes.len() < length {
        let run = rng.between(1, 9_000).min((length - bytes.len()) as u64) as usize;
        let (first, step) = match rng.below(10) {
            0 => (0, 0),
            1 => (rng.next_u64() as u8, 0),
            _ => (rng.next_u64() as u8, rng.next_u64() as u8 | 1),
        };
        let mut byte = first;
        for _ in 0..run {
            bytes.push(byte);
            byte = byte.wrapping_add(step);
        }
    }
    bytes
}

/// Use up all but a few blocks, most of them at the groups' edges. They are
/// used and neither mapped nor reserved, which refusal 2 allows.
pub fn crowd(rng: &mut Rng, store: &mut Store) {
    let mut volume = Volume::decode(store);
    let blocks = volume.blocks();
    let mut keep_free = vec![false; blocks as usize];
    let groups = blocks.div_ceil(GROUP_BLOCKS);
    for _ in 0..rng.between(3, 40) {
        let edge = rng.below(groups + 1) * GROUP_BLOCKS;
        let from = (edge + rng.below(30)).saturating_sub(15);
        for block in from..(from + rng.between(1, 9)).min(blocks) {
            keep_free[block as usize] = true;
        }
    }
    for (used, free) in volume.used.iter_mut().zip(keep_free) {
        *used |= !free;
    }
    volume.hint = rng.below(4);
    volume.encode(store);
}
