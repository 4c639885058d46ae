//! What the bytes of head and books say. Read only: the library writes them.

use std::ops::Range;

use sangueko::{CARD_BYTES, EXTENT_BYTES, GROUP_BYTES, StoreBuf};

use crate::time::Time;

pub const UNIT_BYTES: u64 = sangueko::UNIT_BYTES;
pub const UNIT_BLOCKS: u64 = 16;
pub const GROUP_UNITS: u64 = 256;
pub const BLOCK: u64 = sangueko::BLOCK_BYTES as u64;

/// The `width` bits at `at`, the most significant first. Bits that are not there
/// are zero.
fn bits(bytes: &[u8], at: usize, width: usize) -> u64 {
    (at..at + width).fold(0, |value, bit| {
        let byte = bytes.get(bit / 8).copied().unwrap_or(0);
        value << 1 | u64::from(byte >> (7 - bit % 8) & 1)
    })
}

/// Bit n of a map, counted from the low bit of each byte. A bit that is not there
/// is clear.
pub fn map_bit(map: &[u8], n: u64) -> bool {
    let byte = usize::try_from(n / 8).ok().and_then(|at| map.get(at));
    byte.is_some_and(|byte| byte >> (n % 8) & 1 == 1)
}

#[derive(Clone, Debug)]
pub struct Head {
    pub uuid: [u8; 16],
    pub blocks: u64,
    pub reserved: u64,
    pub hint: u64,
    pub cards: u64,
    pub extents: u64,
    pub groups: u64,
}

impl Head {
    pub fn decode(bytes: &[u8]) -> Self {
        Self {
            uuid: bytes.first_chunk().copied().unwrap_or_default(),
            blocks: bits(bytes, 128, 17),
            reserved: bits(bytes, 145, 17),
            hint: bits(bytes, 162, 2),
            cards: bits(bytes, 164, 20),
            extents: bits(bytes, 184, 20),
            groups: bits(bytes, 204, 20),
        }
    }
}

/// A field of a card: its first bit, counted from the most significant one of the
/// record, and how many it has.
#[derive(Clone, Copy, Debug)]
pub struct Field {
    first: usize,
    width: usize,
}

impl Field {
    const fn end(self) -> usize {
        self.first + self.width
    }

    /// The one behind it.
    const fn then(self, width: usize) -> Self {
        Self {
            first: self.end(),
            width,
        }
    }

    fn of(self, record: &[u8]) -> u64 {
        bits(record, self.first, self.width)
    }

    /// The bytes of the record that it lies in.
    pub const fn bytes(self) -> Range<usize> {
        self.first / 8..self.end().div_ceil(8)
    }
}

#[derive(Clone, Copy, Debug)]
pub struct Card {
    pub object: u64,
    pub size: u64,
    pub allocated: u64,
    pub changed: Time,
    pub created: Time,
    /// Zero in every store past refusal 2.
    pub spare: u64,
}

impl Card {
    const OBJECT: Field = Field {
        first: 0,
        width: 64,
    };
    const SIZE: Field = Self::OBJECT.then(63);
    const ALLOCATED: Field = Self::SIZE.then(35);
    const SECONDS: Field = Self::ALLOCATED.then(63);
    pub const NANOSECONDS: Field = Self::SECONDS.then(30);
    const CREATED_SECONDS: Field = Self::NANOSECONDS.then(63);
    pub const CREATED_NANOSECONDS: Field = Self::CREATED_SECONDS.then(30);
    const SPARE: Field = Self::CREATED_NANOSECONDS.then(36);

    pub fn decode(bytes: &[u8]) -> Self {
        Self {
            object: Self::OBJECT.of(bytes),
            size: Self::SIZE.of(bytes),
            allocated: Self::ALLOCATED.of(bytes),
            changed: Time {
                seconds: Self::SECONDS.of(bytes),
                nanoseconds: Self::NANOSECONDS.of(bytes),
            },
            created: Time {
                seconds: Self::CREATED_SECONDS.of(bytes),
                nanoseconds: Self::CREATED_NANOSECONDS.of(bytes),
            },
            spare: Self::SPARE.of(bytes),
        }
    }

    /// The first spare bit that is set, counted in the record.
    pub fn spare_bit(&self) -> Option<usize> {
        let from_end = self.spare.checked_ilog2()? as usize;
        Some(Self::SPARE.end() - 1 - from_end)
    }

    pub fn blocks(&self) -> u64 {
        self.size.div_ceil(BLOCK)
    }

    pub fn units(&self) -> u64 {
        self.size.div_ceil(UNIT_BYTES)
    }

    /// The bytes of the file that lie in a unit.
    pub fn unit_bytes(&self, unit: u64) -> Range<u64> {
        let from = unit.saturating_mul(UNIT_BYTES).min(self.size);
        from..from.saturating_add(UNIT_BYTES).min(self.size)
    }
}

/// The fields take up a card.
const _: () = assert!(Card::SPARE.end() == 8 * CARD_BYTES);

#[derive(Clone, Copy, Debug)]
pub struct Extent {
    pub object: u64,
    pub kind: u8,
    pub logical: u64,
    pub physical: u64,
    pub count: u64,
}

impl Extent {
    fn decode(bytes: &[u8]) -> Self {
        Self {
            object: bits(bytes, 0, 64),
            kind: bits(bytes, 64, 8) as u8,
            logical: bits(bytes, 72, 64),
            physical: bits(bytes, 136, 64).swap_bytes(),
            count: u64::from((bits(bytes, 200, 32) as u32).swap_bytes()),
        }
    }

    /// Ends cannot overflow in this many bits.
    pub fn end(&self) -> u128 {
        u128::from(self.logical) + u128::from(self.count)
    }

    pub fn device_end(&self) -> u128 {
        u128::from(self.physical) + u128::from(self.count)
    }
}

#[derive(Clone, Debug)]
pub struct Group<'a> {
    pub object: u64,
    pub kind: u8,
    pub number: u64,
    pub presence: &'a [u8],
    pub slots: &'a [[u8; 4]],
}

impl<'a> Group<'a> {
    fn decode(bytes: &'a [u8]) -> Self {
        let (presence, slots) = bytes.split_at(17).1.split_at(32);
        Self {
            object: bits(bytes, 0, 64),
            kind: bits(bytes, 64, 8) as u8,
            number: bits(bytes, 72, 64),
            presence,
            slots: slots.as_chunks().0,
        }
    }

    /// The unit's checksum, if it has one.
    pub fn slot(&self, n: u64) -> Option<u32> {
        let slot = usize::try_from(n).ok().and_then(|at| self.slots.get(at))?;
        map_bit(self.presence, n).then(|| u32::from_le_bytes(*slot))
    }

    pub fn present(&self) -> u64 {
        (0..GROUP_UNITS)
            .filter(|&n| map_bit(self.presence, n))
            .count() as u64
    }
}

/// The records of a store, as many of each as the head says and the book has
/// place for.
pub struct Records<'a> {
    pub store: &'a StoreBuf,
    pub head: Head,
    pub cards: Vec<Card>,
    pub extents: Vec<Extent>,
    pub groups: Vec<Group<'a>>,
}

impl<'a> Records<'a> {
    pub fn of(store: &'a StoreBuf) -> Self {
        let head = Head::decode(&store.head);
        let cards = store.cards.chunks_exact(CARD_BYTES);
        let extents = store.extents.chunks_exact(EXTENT_BYTES);
        let groups = store.groups.chunks_exact(GROUP_BYTES);
        Self {
            store,
            cards: cards.take(head.cards as usize).map(Card::decode).collect(),
            extents: extents
                .take(head.extents as usize)
                .map(Extent::decode)
                .collect(),
            groups: groups
                .take(head.groups as usize)
                .map(Group::decode)
                .collect(),
            head,
        }
    }

    pub fn card(&self, object: u64) -> Option<&Card> {
        let at = self.cards.binary_search_by_key(&object, |card| card.object);
        at.ok().and_then(|at| self.cards.get(at))
    }

    /// The extents of a file, in a store past refusal 2.
    pub fn extents_of(&self, object: u64) -> &[Extent] {
        let from = self
            .extents
            .partition_point(|extent| extent.object < object);
        let to = self
            .extents
            .partition_point(|extent| extent.object <= object);
        self.extents.get(from..to).unwrap_or_default()
    }

    /// The groups of a file, in a store past refusal 2.
    pub fn groups_of(&self, object: u64) -> &[Group<'a>] {
        let from = self.groups.partition_point(|group| group.object < object);
        let to = self.groups.partition_point(|group| group.object <= object);
        self.groups.get(from..to).unwrap_or_default()
    }

    /// The unit's checksum, if it has one.
    pub fn slot(&self, object: u64, unit: u64) -> Option<u32> {
        let number = unit / GROUP_UNITS;
        let group = self
            .groups_of(object)
            .iter()
            .find(|group| group.number == number);
        group.and_then(|group| group.slot(unit % GROUP_UNITS))
    }

    /// The block at a place of a file, if an extent puts one there.
    pub fn block_at(&self, object: u64, logical: u64) -> Option<u64> {
        let extents = self.extents_of(object);
        let after = extents.partition_point(|extent| extent.logical <= logical);
        let extent = extents.get(after.checked_sub(1)?)?;
        let within = logical - extent.logical;
        (within < extent.count).then(|| extent.physical + within)
    }

    /// Bytes of a block of the image.
    pub fn block(&self, block: u64) -> Option<&'a [u8]> {
        let from = usize::try_from(block.checked_mul(BLOCK)?).ok()?;
        self.store
            .image
            .get(from..from.checked_add(BLOCK as usize)?)
    }
}

#[cfg(test)]
mod tests {
    use super::*;

    /// Every field ends with a bit that is set, and begins with one but for the
    /// first and the spare one.
    #[test]
    fn a_card_is_read() {
        let words: [u64; 6] = [
            0x0000_0000_0000_0007,
            0x8000_0000_0003_0d43,
            0x0000_0001_6000_0000,
            0x32a9_f880_f735_93ff,
            0x0000_0000_17d7_8407,
            0xade6_8b10_0000_0001,
        ];
        let bytes = words.map(u64::to_be_bytes);
        let card = Card::decode(bytes.as_flattened());
        assert_eq!(card.object, 7);
        assert_eq!(card.size, (1 << 62) + 100_001);
        assert_eq!(card.allocated, (1 << 34) + 5);
        let changed = Time {
            seconds: (1 << 62) + 1_700_000_001,
            nanoseconds: 999_999_999,
        };
        assert_eq!(card.changed, changed);
        let created = Time {
            seconds: (1 << 62) + 100_000_001,
            nanoseconds: 987_654_321,
        };
        assert_eq!(card.created, created);
        assert_eq!((card.spare, card.spare_bit()), (1, Some(383)));
        assert_eq!(Card::NANOSECONDS.bytes(), 28..32);
        assert_eq!(Card::CREATED_NANOSECONDS.bytes(), 39..44);
        assert_eq!(Card::SPARE.bytes(), 43..48);
    }

    #[test]
    fn the_first_spare_bit_is_found() {
        let spare_bit = |bits: &[usize]| {
            let mut bytes = [0; CARD_BYTES];
            for bit in bits {
                bytes[bit / 8] |= 0x80 >> (bit % 8);
            }
            Card::decode(&bytes).spare_bit()
        };
        assert_eq!(spare_bit(&[255, 318, 347]), None);
        for bit in 348..384 {
            assert_eq!(spare_bit(&[bit]), Some(bit));
            assert_eq!(spare_bit(&[bit, 383]), Some(bit));
        }
    }
}
