//! The records of document 01: head, card, extent, group and block maps, and
//! the volume that they make up; of document 02 the card's creation time, the
//! triples of its lists and the pairs that a list of stretches is made of.

use std::ops::Range;

use crate::call::Time;
use crate::store::Store;
use crate::{BLOCK_BYTES, UNITS_PER_GROUP};

pub const HEAD_BYTES: usize = 28;
/// W-205: "The card grows to 48 bytes".
pub const CARD_BYTES: usize = 48;
/// The bits behind a card's fields, which are zero.
pub const CARD_SPARE: Range<usize> = 348..CARD_BYTES * 8;
pub const EXTENT_BYTES: usize = 33;
pub const GROUP_BYTES: usize = 1_073;
pub const KEY_BYTES: usize = 17;
pub const TRIPLE_BYTES: usize = 24;
pub const STRETCH_BYTES: usize = 16;

/// The `width` bits at `at`, the most significant first.
pub fn bits(bytes: &[u8], at: usize, width: usize) -> u128 {
    (at..at + width).fold(0, |value, bit| {
        value << 1 | u128::from(bytes[bit / 8] >> (7 - bit % 8) & 1)
    })
}

pub fn put_bits(bytes: &mut [u8], at: usize, width: usize, value: u128) {
    assert!(width == 128 || value >> width == 0, "field of {width} bits");
    for bit in 0..width {
        let (byte, mask) = ((at + bit) / 8, 128 >> ((at + bit) % 8));
        if value >> (width - 1 - bit) & 1 == 1 {
            bytes[byte] |= mask;
        } else {
            bytes[byte] &= !mask;
        }
    }
}

/// Bit n of a block map or of a group's presence bits: bit n mod 8 of byte n
/// div 8, counted from the low bit.
pub fn map_bit(map: &[u8], n: u64) -> bool {
    map[n as usize / 8] >> (n % 8) & 1 == 1
}

/// uuid 128 bits, blocks 17, reserved 17, hint 2, then the numbers of cards,
/// extents and groups, 20 each.
#[derive(Clone, Debug, PartialEq, Eq)]
pub struct Head {
    pub uuid: [u8; 16],
    pub blocks: u64,
    pub reserved: u64,
    pub hint: u64,
    pub cards: usize,
    pub extents: usize,
    pub groups: usize,
}

impl Head {
    pub fn decode(bytes: &[u8]) -> Self {
        Self {
            uuid: bytes[..16].try_into().expect("a head is 28 bytes"),
            blocks: bits(bytes, 128, 17) as u64,
            reserved: bits(bytes, 145, 17) as u64,
            hint: bits(bytes, 162, 2) as u64,
            cards: bits(bytes, 164, 20) as usize,
            extents: bits(bytes, 184, 20) as usize,
            groups: bits(bytes, 204, 20) as usize,
        }
    }

    pub fn encode(&self, bytes: &mut [u8]) {
        bytes[..16].copy_from_slice(&self.uuid);
        put_bits(bytes, 128, 17, self.blocks.into());
        put_bits(bytes, 145, 17, self.reserved.into());
        put_bits(bytes, 162, 2, self.hint.into());
        put_bits(bytes, 164, 20, self.cards as u128);
        put_bits(bytes, 184, 20, self.extents as u128);
        put_bits(bytes, 204, 20, self.groups as u128);
    }
}

/// object 64, size 63, allocated blocks 35, seconds 63, nanoseconds 30; W-205:
/// "its first 255 bits as before, then creation seconds 63 bits and nanoseconds
/// 30, then 36 zero bits."
#[derive(Clone, Copy, Debug, PartialEq, Eq)]
pub struct Card {
    pub object: u64,
    pub size: u64,
    pub allocated: u64,
    pub changed: Time,
    pub created: Time,
}

impl Card {
    pub fn decode(bytes: &[u8]) -> Self {
        Self {
            object: bits(bytes, 0, 64) as u64,
            size: bits(bytes, 64, 63) as u64,
            allocated: bits(bytes, 127, 35) as u64,
            changed: Time {
                seconds: bits(bytes, 162, 63) as u64,
                nanoseconds: bits(bytes, 225, 30) as u64,
            },
            created: Time {
                seconds: bits(bytes, 255, 63) as u64,
                nanoseconds: bits(bytes, 318, 30) as u64,
            },
        }
    }

    pub fn encode(&self, bytes: &mut [u8]) {
        put_bits(bytes, 0, 64, self.object.into());
        put_bits(bytes, 64, 63, self.size.into());
        put_bits(bytes, 127, 35, self.allocated.into());
        put_bits(bytes, 162, 63, self.changed.seconds.into());
        put_bits(bytes, 225, 30, self.changed.nanoseconds.into());
        put_bits(bytes, 255, 63, self.created.seconds.into());
        put_bits(bytes, 318, 30, self.created.nanoseconds.into());
        put_bits(bytes, CARD_SPARE.start, CARD_SPARE.len(), 0);
    }
}

/// `extent_key` and `group_key`: object 8 bytes big-endian, a kind byte, and
/// a number 8 bytes big-endian.
pub fn key(object: u64, kind: u8, number: u64) -> [u8; KEY_BYTES] {
    let mut key = [kind; KEY_BYTES];
    key[..8].copy_from_slice(&object.to_be_bytes());
    key[9..].copy_from_slice(&number.to_be_bytes());
    key
}

fn be64(bytes: &[u8]) -> u64 {
    u64::from_be_bytes(bytes.try_into().expect("8 bytes"))
}

#[derive(Clone, Copy, Debug, PartialEq, Eq)]
pub struct Extent {
    pub object: u64,
    pub logical: u64,
    pub physical: u64,
    pub count: u64,
}

impl Extent {
    pub fn decode(bytes: &[u8]) -> Self {
        Self {
            object: be64(&bytes[..8]),
            logical: be64(&bytes[9..17]),
            physical: u64::from_le_bytes(bytes[17..25].try_into().expect("8 bytes")),
            count: u32::from_le_bytes(bytes[25..29].try_into().expect("4 bytes")).into(),
        }
    }

    pub fn encode(&self, bytes: &mut [u8]) {
        bytes[..17].copy_from_slice(&key(self.object, 3, self.logical));
        bytes[17..25].copy_from_slice(&self.physical.to_le_bytes());
        let count = u32::try_from(self.count).expect("an extent's count is 32 bits");
        bytes[25..29].copy_from_slice(&count.to_le_bytes());
        bytes[29..33].fill(0);
    }

    /// The block after the last one in the file.
    pub fn end(&self) -> u64 {
        self.logical + self.count
    }

    /// "Two extents of one object join when logical and physical ends both
    /// meet the next starts without overflow and the counts add to at most
    /// 4,294,967,295."
    pub fn joins(&self, next: &Self) -> bool {
        self.object == next.object
            && self.logical.checked_add(self.count) == Some(next.logical)
            && self.physical.checked_add(self.count) == Some(next.physical)
            && self.count + next.count <= 4_294_967_295
    }

    /// The block at the file's logical block, if this extent holds it.
    pub fn block_at(&self, logical: u64) -> Option<u64> {
        let at = logical.checked_sub(self.logical)?;
        (at < self.count).then(|| self.physical + at)
    }
}

/// 32 bytes of presence bits and 256 slots.
#[derive(Clone, Debug, PartialEq, Eq)]
pub struct Group {
    pub object: u64,
    pub number: u64,
    pub slots: Vec<Option<u32>>,
}

impl Group {
    pub fn empty(object: u64, number: u64) -> Self {
        Self {
            object,
            number,
            slots: vec![None; UNITS_PER_GROUP as usize],
        }
    }

    pub fn decode(bytes: &[u8]) -> Self {
        let (presence, slots) = bytes[KEY_BYTES..].split_at(32);
        let slot = |n: usize| {
            let value = slots[n * 4..n * 4 + 4].try_into().expect("4 bytes");
            map_bit(presence, n as u64).then(|| u32::from_le_bytes(value))
        };
        Self {
            object: be64(&bytes[..8]),
            number: be64(&bytes[9..17]),
            slots: (0..UNITS_PER_GROUP as usize).map(slot).collect(),
        }
    }

    pub fn encode(&self, bytes: &mut [u8]) {
        bytes.fill(0);
        bytes[..17].copy_from_slice(&key(self.object, 4, self.number));
        for (n, slot) in self.slots.iter().enumerate() {
            if let Some(value) = slot {
                bytes[17 + n / 8] |= 1 << (n % 8);
                bytes[49 + n * 4..53 + n * 4].copy_from_slice(&value.to_le_bytes());
            }
        }
    }
}

fn le64(bytes: &[u8]) -> u64 {
    u64::from_le_bytes(bytes.try_into().expect("8 bytes"))
}

/// One read or write of a list: three "64-bit numbers (here and later 8 bytes
/// each, little-endian)".
#[derive(Clone, Copy, Debug, PartialEq, Eq, PartialOrd, Ord)]
pub struct Triple {
    pub object: u64,
    pub offset: u64,
    pub length: u64,
}

impl Triple {
    pub fn decode(bytes: &[u8]) -> Self {
        Self {
            object: le64(&bytes[..8]),
            offset: le64(&bytes[8..16]),
            length: le64(&bytes[16..24]),
        }
    }

    pub fn encode(&self) -> [u8; TRIPLE_BYTES] {
        let mut bytes = [0; TRIPLE_BYTES];
        bytes[..8].copy_from_slice(&self.object.to_le_bytes());
        bytes[8..16].copy_from_slice(&self.offset.to_le_bytes());
        bytes[16..].copy_from_slice(&self.length.to_le_bytes());
        bytes
    }

    /// The whole triples of a list; bytes after the last one are left out.
    pub fn all(list: &[u8]) -> impl Iterator<Item = Self> {
        list.chunks_exact(TRIPLE_BYTES).map(Self::decode)
    }

    /// The list of these triples.
    pub fn list(triples: &[Self]) -> Vec<u8> {
        triples.iter().flat_map(Self::encode).collect()
    }
}

/// Consecutive units of a file that have a slot: W-206's "pairs of 64-bit
/// numbers, first unit and number of units".
#[derive(Clone, Copy, Debug, PartialEq, Eq)]
pub struct Stretch {
    pub first: u64,
    pub units: u64,
}

impl Stretch {
    pub fn decode(bytes: &[u8]) -> Self {
        Self {
            first: le64(&bytes[..8]),
            units: le64(&bytes[8..]),
        }
    }

    pub fn encode(&self) -> [u8; STRETCH_BYTES] {
        let mut bytes = [0; STRETCH_BYTES];
        bytes[..8].copy_from_slice(&self.first.to_le_bytes());
        bytes[8..].copy_from_slice(&self.units.to_le_bytes());
        bytes
    }
}

/// What the head, the books and the maps of a store past refusals 1 and 2
/// say.
#[derive(Clone, Debug, PartialEq, Eq)]
pub struct Volume {
    pub uuid: [u8; 16],
    pub reserved: u64,
    pub hint: u64,
    pub cards: Vec<Card>,
    pub extents: Vec<Extent>,
    pub groups: Vec<Group>,
    /// One for each block.
    pub used: Vec<bool>,
    pub retired: Vec<bool>,
}

fn decode_map(map: &[u8], blocks: u64) -> Vec<bool> {
    (0..blocks).map(|block| map_bit(map, block)).collect()
}

fn encode_map(bits: &[bool], map: &mut [u8]) {
    map.fill(0);
    for (block, _) in bits.iter().enumerate().filter(|(_, bit)| **bit) {
        map[block / 8] |= 1 << (block % 8);
    }
}

impl Volume {
    pub fn decode(store: &Store) -> Self {
        let head = Head::decode(&store.head);
        let records = |book: &'_ [u8], bytes: usize, number: usize| -> Vec<Vec<u8>> {
            book.chunks(bytes)
                .take(number)
                .map(<[u8]>::to_vec)
                .collect()
        };
        let blocks = (store.image.len() / BLOCK_BYTES) as u64;
        Self {
            uuid: head.uuid,
            reserved: head.reserved,
            hint: head.hint,
            cards: records(&store.cards, CARD_BYTES, head.cards)
                .iter()
                .map(|record| Card::decode(record))
                .collect(),
            extents: records(&store.extents, EXTENT_BYTES, head.extents)
                .iter()
                .map(|record| Extent::decode(record))
                .collect(),
            groups: records(&store.groups, GROUP_BYTES, head.groups)
                .iter()
                .map(|record| Group::decode(record))
                .collect(),
            used: decode_map(&store.used, blocks),
            retired: decode_map(&store.retired, blocks),
        }
    }

    /// Put the volume into the store's head, books and maps: each book
    /// packed, zeros after its last record. The caller has seen that it fits.
    pub fn encode(&self, store: &mut Store) {
        let head = Head {
            uuid: self.uuid,
            blocks: self.used.len() as u64,
            reserved: self.reserved,
            hint: self.hint,
            cards: self.cards.len(),
            extents: self.extents.len(),
            groups: self.groups.len(),
        };
        head.encode(&mut store.head);
        store.cards.fill(0);
        for (card, place) in self.cards.iter().zip(store.cards.chunks_mut(CARD_BYTES)) {
            card.encode(place);
        }
        store.extents.fill(0);
        let places = store.extents.chunks_mut(EXTENT_BYTES);
        for (extent, place) in self.extents.iter().zip(places) {
            extent.encode(place);
        }
        store.groups.fill(0);
        for (group, place) in self.groups.iter().zip(store.groups.chunks_mut(GROUP_BYTES)) {
            group.encode(place);
        }
        encode_map(&self.used, &mut store.used);
        encode_map(&self.retired, &mut store.retired);
    }

    pub fn blocks(&self) -> u64 {
        self.used.len() as u64
    }

    pub fn card(&self, object: u64) -> Option<&Card> {
        self.cards.iter().find(|card| card.object == object)
    }

    /// The block at a place, if an extent puts one there.
    pub fn block_at(&self, object: u64, logical: u64) -> Option<u64> {
        self.extents
            .iter()
            .filter(|extent| extent.object == object)
            .find_map(|extent| extent.block_at(logical))
    }

    /// The unit's slot, if present.
    pub fn slot(&self, object: u64, unit: u64) -> Option<u32> {
        self.groups
            .iter()
            .find(|group| group.object == object && group.number == unit / UNITS_PER_GROUP)
            .and_then(|group| group.slots[(unit % UNITS_PER_GROUP) as usize])
    }
}

#[cfg(test)]
mod tests {
    use super::*;

    #[test]
    fn head_fields_stand_most_significant_first() {
        let head = Head {
            uuid: [0xab; 16],
            blocks: 65_536,
            reserved: 1,
            hint: 2,
            cards: 0xabcde,
            extents: 0x12345,
            groups: 0xfffff,
        };
        let mut bytes = [0; HEAD_BYTES];
        head.encode(&mut bytes);
        // 1 0000000000000000 | 00000000000000001 | 10 | 0xabcde 0x12345 0xfffff
        assert_eq!(
            bytes[16..],
            [
                0x80, 0x00, 0x00, 0x00, 0x6a, 0xbc, 0xde, 0x12, 0x34, 0x5f, 0xff, 0xff
            ]
        );
        assert_eq!(Head::decode(&bytes), head);
    }

    #[test]
    fn card_fields_stand_most_significant_first() {
        let card = Card {
            object: 0x0102_0304_0506_0708,
            size: 1,
            allocated: 1,
            changed: Time::new(1, 1),
            created: Time::new(1, 1),
        };
        let mut bytes = [0xff; CARD_BYTES];
        card.encode(&mut bytes);
        assert_eq!(bytes[..8], [1, 2, 3, 4, 5, 6, 7, 8]);
        // Sizes end at bit 127, counts at 162, seconds at 225, nanoseconds at
        // 255; creation seconds at 318, their nanoseconds at 348.
        assert_eq!(bytes[8..16], [0, 0, 0, 0, 0, 0, 0, 2]);
        assert_eq!(bytes[16..24], [0, 0, 0, 0, 0x40, 0, 0, 0]);
        assert_eq!(bytes[24..32], [0, 0, 0, 0, 0x80, 0, 0, 2]);
        assert_eq!(bytes[32..40], [0, 0, 0, 0, 0, 0, 0, 4]);
        assert_eq!(bytes[40..], [0, 0, 0, 0x10, 0, 0, 0, 0]);
        assert_eq!(Card::decode(&bytes), card);
    }

    /// A field of ones between fields of zeros, and of zeros between ones: every
    /// bit on either side of a border between two fields.
    #[test]
    fn card_fields_meet_without_a_gap() {
        let ones = |from: usize, to: usize| {
            let mut bytes = [0; CARD_BYTES];
            for bit in from..to {
                bytes[bit / 8] |= 0x80 >> (bit % 8);
            }
            bytes
        };
        let fields: [(usize, usize, fn(&mut Card) -> &mut u64); 7] = [
            (0, 64, |card| &mut card.object),
            (64, 127, |card| &mut card.size),
            (127, 162, |card| &mut card.allocated),
            (162, 225, |card| &mut card.changed.seconds),
            (225, 255, |card| &mut card.changed.nanoseconds),
            (255, 318, |card| &mut card.created.seconds),
            (318, 348, |card| &mut card.created.nanoseconds),
        ];
        let zero = Card::decode(&[0; CARD_BYTES]);
        let mut full = Card::decode(&[0xff; CARD_BYTES]);
        for (from, to, field) in fields {
            let most = u64::MAX >> (64 - (to - from));
            assert_eq!(*field(&mut full), most);
            let mut card = zero;
            *field(&mut card) = most;
            let mut bytes = [0xff; CARD_BYTES];
            card.encode(&mut bytes);
            assert_eq!(bytes, ones(from, to));
            assert_eq!(Card::decode(&bytes), card);
        }
        let mut bytes = [0xff; CARD_BYTES];
        full.encode(&mut bytes);
        assert_eq!(bytes, ones(0, CARD_SPARE.start));
    }

    /// The bits on both sides of every border between two fields are set, but
    /// for the spare ones.
    #[test]
    fn a_card_worked_out_by_hand() {
        let card = Card {
            object: 7,
            size: 100_001,
            allocated: (1 << 34) + 5,
            changed: Time::new((1 << 62) + 1_700_000_001, 999_999_999),
            created: Time::new((1 << 62) + 100_000_001, 987_654_321),
        };
        // 0x186a1, 0x4_0000_0005, 0x4000_0000_6553_f101 and 0x3b9a_c9ff,
        // 0x4000_0000_05f5_e101 and 0x3ade_68b1.
        let expected = [
            [0, 0, 0, 0, 0, 0, 0, 7],
            [0, 0, 0, 0, 0, 0x03, 0x0d, 0x43],
            [0, 0, 0, 0x01, 0x60, 0, 0, 0],
            [0x32, 0xa9, 0xf8, 0x80, 0xf7, 0x35, 0x93, 0xff],
            [0, 0, 0, 0, 0x17, 0xd7, 0x84, 0x07],
            [0xad, 0xe6, 0x8b, 0x10, 0, 0, 0, 0],
        ];
        let mut bytes = [0xff; CARD_BYTES];
        card.encode(&mut bytes);
        assert_eq!(bytes, *expected.as_flattened());
        assert_eq!(Card::decode(&bytes), card);
    }

    #[test]
    fn extents_and_groups_have_the_published_keys() {
        let mut bytes = [0xff; EXTENT_BYTES];
        let extent = Extent {
            object: 7,
            logical: 258,
            physical: 259,
            count: 3,
        };
        extent.encode(&mut bytes);
        let mut expected = [0; EXTENT_BYTES];
        (expected[7], expected[8]) = (7, 3);
        (expected[15], expected[16]) = (1, 2);
        (expected[17], expected[18], expected[25]) = (3, 1, 3);
        assert_eq!(bytes, expected);
        assert_eq!(Extent::decode(&bytes), extent);

        let mut group = Group::empty(7, 1);
        group.slots[9] = Some(0x0403_0201);
        let mut bytes = [0xff; GROUP_BYTES];
        group.encode(&mut bytes);
        assert_eq!((bytes[8], bytes[16], bytes[17 + 1]), (4, 1, 2));
        assert_eq!(bytes[49 + 36..49 + 40], [1, 2, 3, 4]);
        assert_eq!(Group::decode(&bytes), group);
    }

    #[test]
    fn a_stretch_is_two_numbers_least_significant_byte_first() {
        let stretch = Stretch {
            first: 0x0807_0605_0403_0201,
            units: 0x100f_0e0d_0c0b_0a09,
        };
        let ascending: [u8; STRETCH_BYTES] = std::array::from_fn(|at| at as u8 + 1);
        assert_eq!(stretch.encode(), ascending);
        assert_eq!(Stretch::decode(&ascending), stretch);
    }
}
