//! The probes of `crates/probe`, each behind a safe function: slices pass as a
//! pointer and a length, and no probe asks anything of its caller.

mod probe {
    unsafe extern "C" {
        pub fn sangueko_probe_crc32c(bytes: *const u8, len: usize) -> u32;
        pub fn sangueko_probe_crc32c_repeated(bytes: *const u8, len: usize, times: usize) -> u32;
        pub fn sangueko_probe_unit_checksum(
            uuid: *const u8,
            uuid_len: usize,
            object: u64,
            unit: u64,
            bytes: *const u8,
            len: usize,
            piece: usize,
        ) -> u32;
        pub fn sangueko_probe_is_zero(bytes: *const u8, len: usize) -> bool;
        pub fn sangueko_probe_copy(to: *mut u8, to_len: usize, from: *const u8, from_len: usize);
        pub fn sangueko_probe_count_set(map: *const u8, len: usize) -> usize;
        pub fn sangueko_probe_all_clear(map: *const u8, len: usize) -> bool;
        pub fn sangueko_probe_compact_group(group: *const u8, len: usize) -> usize;
        pub fn sangueko_probe_checksum_slot(group: *const u8, len: usize, n: usize) -> u64;
        pub fn sangueko_probe_set_checksum_slot(group: *mut u8, len: usize, n: usize, crc: u64);
        pub fn sangueko_probe_extents_ordered(book: *const u8, len: usize) -> bool;
        pub fn sangueko_probe_splice_extents(
            book: *mut u8,
            len: usize,
            n: usize,
            i: usize,
            k: usize,
            new: *const u8,
            new_len: usize,
        ) -> bool;
        pub fn sangueko_probe_floor_extent(
            book: *const u8,
            len: usize,
            n: usize,
            object: u64,
            block: u64,
        ) -> usize;
        pub fn sangueko_probe_search_rounds(
            book: *const u8,
            len: usize,
            n: usize,
            object: u64,
            block: u64,
        ) -> u32;
        pub fn sangueko_probe_first_card(
            book: *const u8,
            len: usize,
            n: usize,
            object: u64,
        ) -> usize;
        pub fn sangueko_probe_first_extent(
            book: *const u8,
            len: usize,
            n: usize,
            object: u64,
            logical: u64,
        ) -> usize;
        pub fn sangueko_probe_first_group(
            book: *const u8,
            len: usize,
            n: usize,
            object: u64,
            number: u64,
        ) -> usize;
        pub fn sangueko_probe_allocate(
            map: *mut u8,
            map_len: usize,
            blocks: u64,
            hint: u64,
            past: *mut u8,
            past_len: usize,
            want: usize,
            out: *mut u8,
            out_len: usize,
        ) -> usize;
        pub fn sangueko_probe_allocate_scattered(
            map: *mut u8,
            map_len: usize,
            blocks: u64,
            hint: u64,
            past: *mut u8,
            past_len: usize,
            want: usize,
            out: *mut u8,
            out_len: usize,
        ) -> usize;
    }
}

// SAFETY of each: the pointers and lengths are those of slices that live
// through the call, and no two of one call overlap.

pub fn crc32c(bytes: &[u8]) -> u32 {
    unsafe { probe::sangueko_probe_crc32c(bytes.as_ptr(), bytes.len()) }
}

/// The CRC-32C of the bytes as many times one behind the other.
pub fn crc32c_repeated(bytes: &[u8], times: usize) -> u32 {
    unsafe { probe::sangueko_probe_crc32c_repeated(bytes.as_ptr(), bytes.len(), times) }
}

/// The checksum of a unit, its bytes fed in pieces of this length.
pub fn unit_checksum(uuid: &[u8], object: u64, unit: u64, bytes: &[u8], piece: usize) -> u32 {
    let (at, len) = (bytes.as_ptr(), bytes.len());
    unsafe {
        probe::sangueko_probe_unit_checksum(uuid.as_ptr(), uuid.len(), object, unit, at, len, piece)
    }
}

pub fn is_zero(bytes: &[u8]) -> bool {
    unsafe { probe::sangueko_probe_is_zero(bytes.as_ptr(), bytes.len()) }
}

pub fn copy(to: &mut [u8], from: &[u8]) {
    unsafe { probe::sangueko_probe_copy(to.as_mut_ptr(), to.len(), from.as_ptr(), from.len()) }
}

pub fn count_set(map: &[u8]) -> usize {
    unsafe { probe::sangueko_probe_count_set(map.as_ptr(), map.len()) }
}

pub fn all_clear(map: &[u8]) -> bool {
    unsafe { probe::sangueko_probe_all_clear(map.as_ptr(), map.len()) }
}

/// A slot that is not present, as the probes say it.
const ABSENT: u64 = 1 << 32;

/// A group's record: 17 bytes of key, 32 presence bytes, 256 slots.
pub type GroupRecord = [u8; 1073];

pub fn compact_group(group: &GroupRecord) -> usize {
    unsafe { probe::sangueko_probe_compact_group(group.as_ptr(), group.len()) }
}

pub fn checksum_slot(group: &GroupRecord, n: usize) -> Option<u32> {
    let slot = unsafe { probe::sangueko_probe_checksum_slot(group.as_ptr(), group.len(), n) };
    u32::try_from(slot).ok()
}

pub fn set_checksum_slot(group: &mut GroupRecord, n: usize, crc: Option<u32>) {
    let slot = crc.map_or(ABSENT, u64::from);
    unsafe { probe::sangueko_probe_set_checksum_slot(group.as_mut_ptr(), group.len(), n, slot) }
}

pub fn extents_ordered(book: &[u8]) -> bool {
    unsafe { probe::sangueko_probe_extents_ordered(book.as_ptr(), book.len()) }
}

/// In a book of `n` extents, the `k` from place `i` on exchanged for `new`.
pub fn splice_extents(book: &mut [u8], n: usize, i: usize, k: usize, new: &[u8]) -> bool {
    let (to, len) = (book.as_mut_ptr(), book.len());
    unsafe { probe::sangueko_probe_splice_extents(to, len, n, i, k, new.as_ptr(), new.len()) }
}

/// The place of the last of the first `n` extents that is one of `object` and
/// starts at `block` or before, in a book that is ordered.
pub fn floor_extent(book: &[u8], n: usize, object: u64, block: u64) -> Option<usize> {
    let (at, len) = (book.as_ptr(), book.len());
    unsafe { probe::sangueko_probe_floor_extent(at, len, n, object, block) }.checked_sub(1)
}

/// The rounds that this search takes, in any book.
pub fn search_rounds(book: &[u8], n: usize, object: u64, block: u64) -> u32 {
    let (at, len) = (book.as_ptr(), book.len());
    unsafe { probe::sangueko_probe_search_rounds(at, len, n, object, block) }
}

/// The place of the first of `n` cards whose object is `object` or more.
pub fn first_card(book: &[u8], n: usize, object: u64) -> usize {
    unsafe { probe::sangueko_probe_first_card(book.as_ptr(), book.len(), n, object) }
}

/// The place of the first of `n` extents at or after a key.
pub fn first_extent(book: &[u8], n: usize, object: u64, logical: u64) -> usize {
    unsafe { probe::sangueko_probe_first_extent(book.as_ptr(), book.len(), n, object, logical) }
}

/// The place of the first of `n` groups at or after a key.
pub fn first_group(book: &[u8], n: usize, object: u64, number: u64) -> usize {
    unsafe { probe::sangueko_probe_first_group(book.as_ptr(), book.len(), n, object, number) }
}

/// One call's allocations, unit after unit: a copy of the used map in which
/// the blocks taken are set, and what is past the highest of each group.
pub struct Call {
    map: Vec<u8>,
    blocks: u64,
    hint: u64,
    past: [u8; 32],
}

/// How a unit's blocks are found.
#[derive(Clone, Copy, Debug, PartialEq)]
pub enum Way {
    /// As one run where a group has one that is long enough, and else one by one.
    Run,
    /// One by one, as `allocate_data` did before runs were sought. No call of the
    /// library allocates so; it is kept to be compared with.
    Scattered,
}

/// What a probe of `allocate_data` answers in bytes: sixteen blocks, then the hint.
struct Answer([u8; 136]);

impl Answer {
    fn number(&self, at: usize) -> u64 {
        u64::from_le_bytes(self.0[8 * at..8 * at + 8].try_into().unwrap())
    }

    fn blocks(&self, count: usize) -> impl Iterator<Item = u64> {
        (0..count).map(|at| self.number(at))
    }
}

impl Call {
    pub fn new(used: &[u8], blocks: u64, hint: u64) -> Self {
        let past = [0; 32];
        Self {
            map: used.to_vec(),
            blocks,
            hint,
            past,
        }
    }

    /// The used map with the blocks that were taken.
    pub fn map(&self) -> &[u8] {
        &self.map
    }

    /// The blocks of the next unit and the hint after it, or nothing where
    /// fewer than wanted are free.
    pub fn allocate(&mut self, want: usize) -> Option<(Vec<u64>, u64)> {
        self.unit(Way::Run, want)
    }

    /// The same by the rule of before: the blocks are found one by one.
    pub fn allocate_scattered(&mut self, want: usize) -> Option<(Vec<u64>, u64)> {
        self.unit(Way::Scattered, want)
    }

    pub fn unit(&mut self, way: Way, want: usize) -> Option<(Vec<u64>, u64)> {
        let (answer, found) = self.asked(way, want);
        let found = found?;
        self.hint = answer.number(16);
        Some((answer.blocks(found).collect(), self.hint))
    }

    /// For the benchmark: a unit is asked for, and all is as before it, so that the
    /// next time is the same. Only what the unit changed is put back: a copy of
    /// the map would take longer than most searches. Answers how many blocks it got.
    #[inline]
    pub fn unit_and_back(&mut self, way: Way, want: usize) -> usize {
        let past = self.past;
        let (answer, found) = self.asked(way, want);
        self.past = past;
        let found = found.unwrap_or(0);
        for block in answer.blocks(found) {
            self.map[block as usize / 8] &= !(1 << (block % 8));
        }
        found
    }

    #[inline]
    fn asked(&mut self, way: Way, want: usize) -> (Answer, Option<usize>) {
        let probe = match way {
            Way::Run => probe::sangueko_probe_allocate,
            Way::Scattered => probe::sangueko_probe_allocate_scattered,
        };
        let mut answer = Answer([0; 136]);
        let found = unsafe {
            probe(
                self.map.as_mut_ptr(),
                self.map.len(),
                self.blocks,
                self.hint,
                self.past.as_mut_ptr(),
                self.past.len(),
                want,
                answer.0.as_mut_ptr(),
                answer.0.len(),
            )
        };
        assert_ne!(found, 18, "the arguments do not fit");
        (answer, (found != 17).then_some(found))
    }
}
