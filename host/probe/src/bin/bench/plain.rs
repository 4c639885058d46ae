//! The same jobs in plain Rust, written for speed: what the proved functions are held against.

use std::collections::BTreeMap;

/// The generator less x^32, from the low bit up.
const FEEDBACK: u32 = 0x82f6_3b78;

/// The register after one bit of zero.
fn turn(crc: u32) -> u32 {
    (crc >> 1) ^ if crc & 1 == 1 { FEEDBACK } else { 0 }
}

/// CRC-32C by tables, `N` bytes at a time.
pub struct Slicing<const N: usize> {
    tables: [[u32; 256]; N],
}

impl<const N: usize> Slicing<N> {
    pub fn new() -> Self {
        let mut tables = [[0u32; 256]; N];
        for (byte, entry) in tables[0].iter_mut().enumerate() {
            *entry = (0..8).fold(byte as u32, |crc, _| turn(crc));
        }
        for k in 1..N {
            for byte in 0..256 {
                let before = tables[k - 1][byte];
                tables[k][byte] = (before >> 8) ^ tables[0][(before & 0xff) as usize];
            }
        }
        Self { tables }
    }

    /// The register after these bytes.
    #[inline(never)]
    pub fn feed(&self, mut crc: u32, bytes: &[u8]) -> u32 {
        let t = &self.tables;
        let mut chunks = bytes.chunks_exact(N);
        for chunk in &mut chunks {
            let mut next = 0;
            // The last bytes first: they do not wait for the register.
            for k in (0..N / 8).rev() {
                let word = u64::from_le_bytes(chunk[8 * k..8 * k + 8].try_into().unwrap());
                let x = if k == 0 { word ^ u64::from(crc) } else { word };
                for j in (0..8).rev() {
                    next ^= t[N - 1 - 8 * k - j][(x >> (8 * j) & 0xff) as usize];
                }
            }
            crc = next;
        }
        for &byte in chunks.remainder() {
            crc = (crc >> 8) ^ t[0][((crc ^ u32::from(byte)) & 0xff) as usize];
        }
        crc
    }
}

/// CRC-32C by the processor's own instruction.
#[cfg(target_arch = "x86_64")]
pub mod instruction {
    use std::arch::x86_64::{_mm_crc32_u8, _mm_crc32_u64};

    pub fn present() -> bool {
        is_x86_feature_detected!("sse4.2")
    }

    /// The register after these bytes, in one stream.
    #[target_feature(enable = "sse4.2")]
    #[inline(never)]
    pub fn one(crc: u32, bytes: &[u8]) -> u32 {
        let mut words = bytes.chunks_exact(8);
        let mut crc = u64::from(crc);
        for word in &mut words {
            crc = _mm_crc32_u64(crc, u64::from_le_bytes(word.try_into().unwrap()));
        }
        let mut crc = crc as u32;
        for &byte in words.remainder() {
            crc = _mm_crc32_u8(crc, byte);
        }
        crc
    }

    /// Bytes of each of the three streams, long ones first.
    const STREAMS: [usize; 2] = [8192, 256];

    /// What a register becomes after so many bytes of zero, by four tables, for each length of stream.
    pub struct Three {
        after: [[[u32; 256]; 4]; 2],
    }

    impl Three {
        pub fn new() -> Self {
            let after = STREAMS.map(|len| {
                // The bits of the register, each after `len` bytes of zero.
                let bits: Vec<u32> = (0..32)
                    .map(|bit| (0..8 * len).fold(1u32 << bit, |crc, _| super::turn(crc)))
                    .collect();
                let sum = |k: usize, byte: usize| {
                    (0..8)
                        .filter(|j| byte >> j & 1 == 1)
                        .fold(0, |x, j| x ^ bits[8 * k + j])
                };
                std::array::from_fn(|k| std::array::from_fn(|byte| sum(k, byte)))
            });
            Self { after }
        }

        /// The register after these bytes, in three streams that are put together again.
        #[target_feature(enable = "sse4.2")]
        #[inline(never)]
        pub fn feed(&self, mut crc: u32, mut bytes: &[u8]) -> u32 {
            for (len, t) in STREAMS.into_iter().zip(&self.after) {
                let shift = |crc: u32| {
                    t[0][(crc & 0xff) as usize]
                        ^ t[1][(crc >> 8 & 0xff) as usize]
                        ^ t[2][(crc >> 16 & 0xff) as usize]
                        ^ t[3][(crc >> 24) as usize]
                };
                while bytes.len() >= 3 * len {
                    let (a, rest) = bytes.split_at(len);
                    let (b, rest) = rest.split_at(len);
                    let (c, rest) = rest.split_at(len);
                    let (mut x, mut y, mut z) = (u64::from(crc), 0, 0);
                    let words =
                        |s: &[u8], k: usize| u64::from_le_bytes(s[k..k + 8].try_into().unwrap());
                    for k in (0..len).step_by(8) {
                        x = _mm_crc32_u64(x, words(a, k));
                        y = _mm_crc32_u64(y, words(b, k));
                        z = _mm_crc32_u64(z, words(c, k));
                    }
                    crc = shift(shift(x as u32) ^ y as u32) ^ z as u32;
                    bytes = rest;
                }
            }
            one(crc, bytes)
        }
    }
}

/// The set bits of a map, word by word.
pub fn count_set(map: &[u8]) -> u64 {
    map.chunks_exact(8)
        .map(|word| u64::from(u64::from_le_bytes(word.try_into().unwrap()).count_ones()))
        .sum()
}

/// Whether every bit of the map is clear, word by word.
pub fn all_clear(map: &[u8]) -> bool {
    map.chunks_exact(8)
        .all(|word| u64::from_le_bytes(word.try_into().unwrap()) == 0)
}

/// An extent's record: object and logical block big-endian around a 3, then
/// physical block and count little-endian, and four zeros.
#[derive(Clone, Copy)]
pub struct Extent {
    pub object: u64,
    pub logical: u64,
    pub physical: u64,
    pub count: u32,
}

pub fn encode(e: Extent) -> [u8; 33] {
    let mut record = [0; 33];
    record[..8].copy_from_slice(&e.object.to_be_bytes());
    record[8] = 3;
    record[9..17].copy_from_slice(&e.logical.to_be_bytes());
    record[17..25].copy_from_slice(&e.physical.to_le_bytes());
    record[25..29].copy_from_slice(&e.count.to_le_bytes());
    record
}

fn decode(record: &[u8]) -> Extent {
    Extent {
        object: u64::from_be_bytes(record[..8].try_into().unwrap()),
        logical: u64::from_be_bytes(record[9..17].try_into().unwrap()),
        physical: u64::from_le_bytes(record[17..25].try_into().unwrap()),
        count: u32::from_le_bytes(record[25..29].try_into().unwrap()),
    }
}

/// Whether the extents ascend and those of one file keep clear of each other.
pub fn extents_ordered(book: &[u8]) -> bool {
    let mut records = book.chunks_exact(33).map(decode);
    let Some(mut last) = records.next() else {
        return true;
    };
    for next in records {
        let before = (last.object, last.logical) < (next.object, next.logical);
        let clear = last.object != next.object
            || last
                .logical
                .checked_add(u64::from(last.count))
                .is_some_and(|end| end <= next.logical);
        if !before || !clear {
            return false;
        }
        last = next;
    }
    true
}

/// The bytes of a record that its order goes by.
pub fn key(record: &[u8]) -> [u8; 17] {
    record[..17].try_into().unwrap()
}

/// The place of the last extent of an object at a block or before, by halves.
#[inline(never)]
pub fn floor_extent(book: &[u8], object: u64, block: u64) -> Option<usize> {
    let (mut low, mut high) = (0, book.len() / 33);
    while low < high {
        let middle = low + (high - low) / 2;
        let e = decode(&book[33 * middle..33 * middle + 33]);
        if (e.object, e.logical) <= (object, block) {
            low = middle + 1;
        } else {
            high = middle;
        }
    }
    let last = low.checked_sub(1)?;
    (decode(&book[33 * last..33 * last + 33]).object == object).then_some(last)
}

/// The key of the same extent in an ordered map.
#[inline(never)]
pub fn floor_in(map: &BTreeMap<[u8; 17], [u8; 16]>, object: u64, block: u64) -> Option<[u8; 17]> {
    let at = |block| {
        key(&encode(Extent {
            object,
            logical: block,
            physical: 0,
            count: 0,
        }))
    };
    let (key, _) = map.range(at(0)..=at(block)).next_back()?;
    Some(*key)
}
