//! The calls on a store in lent buffers.

use crate::range::with_list;
use crate::{Batched, Range, Refusal, ffi};

/// The seven buffers of a store, lent. They may hold anything: a call that
/// cannot work on them is refused.
///
/// ```
/// use sangueko::{Refusal, Store};
///
/// let (mut image, mut head) = ([0; 2 * 4096], [0; 28]);
/// let (mut used, mut retired) = ([0; 8], [0; 8]);
/// let mut store = Store {
///     image: &mut image,
///     head: &mut head,
///     cards: &mut [],
///     extents: &mut [],
///     groups: &mut [],
///     used: &mut used,
///     retired: &mut retired,
/// };
/// assert_eq!(store.fresh(&[1; 16], 3), Err(Refusal::WrongLength)); // it has two blocks
/// assert_eq!(store.fresh(&[1; 16], 1), Ok(0));
/// assert_eq!(store.fill(), Ok(0)); // one block is reserved, the other free
/// assert_eq!(used, [1, 0, 0, 0, 0, 0, 0, 0]);
/// ```
#[derive(Debug)]
pub struct Store<'a> {
    /// 1 to [`MOST_BLOCKS`](crate::MOST_BLOCKS) blocks of
    /// [`BLOCK_BYTES`](crate::BLOCK_BYTES).
    pub image: &'a mut [u8],
    /// [`HEAD_BYTES`](crate::HEAD_BYTES).
    pub head: &'a mut [u8],
    /// Places of [`CARD_BYTES`](crate::CARD_BYTES), one for each file.
    pub cards: &'a mut [u8],
    /// Places of [`EXTENT_BYTES`](crate::EXTENT_BYTES).
    pub extents: &'a mut [u8],
    /// Places of [`GROUP_BYTES`](crate::GROUP_BYTES).
    pub groups: &'a mut [u8],
    /// [`map_bytes`](crate::map_bytes) of the number of blocks.
    pub used: &'a mut [u8],
    /// The same.
    pub retired: &'a mut [u8],
}

impl Store<'_> {
    /// Makes an empty store, whatever the buffers hold: no files, the first
    /// `reserved` blocks used and kept from files for good, all others free.
    /// The image stays as it is. Answers 0.
    ///
    /// # Errors
    ///
    /// [`WrongLength`](Refusal::WrongLength): of a buffer, or of the uuid,
    /// which has 16 bytes; or there are fewer blocks than `reserved`.
    pub fn fresh(&mut self, uuid: &[u8], reserved: u64) -> Result<u64, Refusal> {
        ffi::fresh(self, uuid, reserved)
    }

    /// Adds the file `object`, of size 0 and without blocks, created and last
    /// changed at the time given. Answers 0.
    ///
    /// # Errors
    ///
    /// In this order: [`WrongLength`](Refusal::WrongLength),
    /// [`BrokenRule`](Refusal::BrokenRule),
    /// [`CardExists`](Refusal::CardExists), [`BadTime`](Refusal::BadTime),
    /// [`NoCardPlace`](Refusal::NoCardPlace).
    ///
    /// ```
    /// # use sangueko::{Places, Refusal, StoreBuf};
    /// # let mut buffers = StoreBuf::new(1, Places { cards: 1, extents: 0, groups: 0 })?;
    /// # let mut store = buffers.lend();
    /// # store.fresh(&[0; 16], 0)?;
    /// assert_eq!(store.enter(7, 0, 1_000_000_000), Err(Refusal::BadTime));
    /// assert_eq!(store.enter(7, 0, 999_999_999), Ok(0));
    /// assert_eq!(store.enter(8, 0, 0), Err(Refusal::NoCardPlace));
    /// # Ok::<(), Refusal>(())
    /// ```
    pub fn enter(&mut self, object: u64, seconds: u64, nanoseconds: u64) -> Result<u64, Refusal> {
        ffi::enter(self, object, seconds, nanoseconds)
    }

    /// Writes the first bytes of `bytes`, at most
    /// [`MOST_TRANSFER`](crate::MOST_TRANSFER), into the file from `offset` on,
    /// over what was there; past its end the file grows, and what lies between
    /// reads as zeros. Answers how many bytes were taken: all, or `MOST_TRANSFER`
    /// of more, and the caller writes the rest. The time of the file's last
    /// change becomes the one given; that of its creation stays. Empty `bytes`
    /// answer 0 and change nothing.
    ///
    /// New bytes go to free blocks. Those they take the place of stay used, as
    /// retired blocks, until [`settle`](Store::settle) lets them go.
    ///
    /// The new blocks of a unit, of [`UNIT_BYTES`](crate::UNIT_BYTES), lie side by
    /// side wherever an allocation group of 16,384 blocks has so many free ones side
    /// by side: the lowest such place in the first group that has one, from the
    /// group of the block on that was taken last, around. Where no group has one,
    /// they are single free blocks. That holds for each unit by itself: units of one
    /// write may lie apart, a run does not go over a group's end, and blocks that a
    /// unit keeps stay where they are. Retired blocks are not free, so that a
    /// `settle` before a write makes longer runs.
    ///
    /// # Errors
    ///
    /// In this order: [`WrongLength`](Refusal::WrongLength),
    /// [`BrokenRule`](Refusal::BrokenRule), [`NoCard`](Refusal::NoCard),
    /// [`PastLimit`](Refusal::PastLimit), [`BadTime`](Refusal::BadTime); then,
    /// unit by unit, [`NoChecksum`](Refusal::NoChecksum),
    /// [`NotBacked`](Refusal::NotBacked),
    /// [`NonzeroPastEnd`](Refusal::NonzeroPastEnd) and
    /// [`ChecksumDiffers`](Refusal::ChecksumDiffers) where old bytes of the unit
    /// stay, [`NoSpace`](Refusal::NoSpace),
    /// [`CountDisagrees`](Refusal::CountDisagrees); at last
    /// [`NoGroupPlace`](Refusal::NoGroupPlace),
    /// [`NoExtentPlace`](Refusal::NoExtentPlace). Empty `bytes` meet only the
    /// first three.
    ///
    /// ```
    /// # use sangueko::{Places, Refusal, StoreBuf};
    /// # let mut buffers = StoreBuf::new(4, Places { cards: 1, extents: 8, groups: 1 })?;
    /// # let mut store = buffers.lend();
    /// # store.fresh(&[0; 16], 1)?;
    /// store.enter(7, 1_700_000_000, 0)?;
    /// assert_eq!(store.write(7, 2, b"store", 1_700_000_001, 0), Ok(5));
    /// let mut out = [1; 8];
    /// assert_eq!(store.read(7, 0, &mut out), Ok(7));
    /// assert_eq!(&out, b"\0\0store\x01");
    /// assert_eq!(store.write(7, 3, b"ee", 1_700_000_002, 0), Ok(2));
    /// assert_eq!(store.fill(), Ok(666)); // of three, one is the file's and one retired
    /// assert_eq!(store.write(7, 0, &[1; 4097], 0, 0), Err(Refusal::NoSpace));
    /// assert_eq!(store.settle(), Ok(1));
    /// assert_eq!(store.write(7, 0, &[1; 4097], 0, 0), Ok(4097));
    /// # Ok::<(), Refusal>(())
    /// ```
    pub fn write(
        &mut self,
        object: u64,
        offset: u64,
        bytes: &[u8],
        seconds: u64,
        nanoseconds: u64,
    ) -> Result<u64, Refusal> {
        ffi::write(self, object, offset, bytes, seconds, nanoseconds)
    }

    /// Writes as [`write`](Store::write) does, for files that are read end to
    /// end. What the file then holds, its size, its times and the answer are the
    /// same; only where its bytes lie can differ.
    ///
    /// A write rewrites a unit, of [`UNIT_BYTES`](crate::UNIT_BYTES), in new
    /// blocks. The old ones that it writes no byte into, and that the file fills
    /// before and after it, stay if the unit then has few runs; else none does. A
    /// run is blocks of the unit side by side that are all new, or all kept and
    /// side by side in the image too. `write`, each write of a batch and
    /// [`grow`](Store::grow) keep blocks at four runs or fewer, and this call at
    /// two or fewer. So it leaves at most one run of old blocks in a unit that it
    /// rewrites. Where the new ones lie side by side, as `write` says, the unit is
    /// then in at most two pieces, and by the others in at most four; else each new
    /// block may be a piece of its own.
    ///
    /// One changed byte can take as many new blocks as its unit has, up to 16, and
    /// retire as many, where `write` takes one. Both may be called on one store,
    /// and on one file, in any order.
    ///
    /// # Errors
    ///
    /// Those of `write`, in the same order. Since it can take more blocks,
    /// [`NoSpace`](Refusal::NoSpace) can come where `write` is accepted; and
    /// [`NoExtentPlace`](Refusal::NoExtentPlace) can come by one of the two alone,
    /// as the number of extents that they leave differs.
    ///
    /// ```
    /// # use sangueko::{Places, Refusal, StoreBuf};
    /// # let mut buffers = StoreBuf::new(40, Places { cards: 1, extents: 8, groups: 1 })?;
    /// # let mut store = buffers.lend();
    /// # store.fresh(&[0; 16], 0)?;
    /// store.enter(7, 1_700_000_000, 0)?;
    /// store.write(7, 0, &[1; 65_536], 1_700_000_001, 0)?; // a unit, in 16 blocks
    /// // In its middle: kept, new and kept blocks are three runs.
    /// assert_eq!(store.write(7, 30_000, b"one", 1_700_000_002, 0), Ok(3));
    /// assert_eq!(store.settle(), Ok(1));
    /// assert_eq!(store.write_archive(7, 30_000, b"all", 1_700_000_003, 0), Ok(3));
    /// assert_eq!(store.settle(), Ok(16));
    /// // At its beginning there are two, by both.
    /// assert_eq!(store.write_archive(7, 0, b"new", 1_700_000_004, 0), Ok(3));
    /// assert_eq!(store.settle(), Ok(1));
    ///
    /// // Of 40 blocks 16 are the file's. 16 more leave 8: enough for one, not for 16.
    /// assert_eq!(store.write_archive(7, 30_000, b"all", 1_700_000_005, 0), Ok(3));
    /// assert_eq!(store.write_archive(7, 30_000, b"all", 0, 0), Err(Refusal::NoSpace));
    /// assert_eq!(store.write(7, 30_000, b"one", 0, 0), Ok(3));
    /// # Ok::<(), Refusal>(())
    /// ```
    pub fn write_archive(
        &mut self,
        object: u64,
        offset: u64,
        bytes: &[u8],
        seconds: u64,
        nanoseconds: u64,
    ) -> Result<u64, Refusal> {
        ffi::write_archive(self, object, offset, bytes, seconds, nanoseconds)
    }

    /// Makes the file `size` bytes long; the new bytes read as zeros, and take
    /// blocks only as far as the unit that the file ended in. Answers 0. The
    /// time of the file's last change becomes the one given; that of its creation
    /// stays. Its present size changes nothing, and files do not shrink.
    ///
    /// # Errors
    ///
    /// In this order: [`WrongLength`](Refusal::WrongLength),
    /// [`BrokenRule`](Refusal::BrokenRule), [`NoCard`](Refusal::NoCard),
    /// [`PastLimit`](Refusal::PastLimit), [`BelowSize`](Refusal::BelowSize);
    /// where the size is another, [`BadTime`](Refusal::BadTime) and, where the
    /// file ended within a unit, the others of [`write`](Store::write).
    ///
    /// ```
    /// # use sangueko::{Places, Refusal, StoreBuf};
    /// # let mut buffers = StoreBuf::new(4, Places { cards: 1, extents: 8, groups: 1 })?;
    /// # let mut store = buffers.lend();
    /// # store.fresh(&[0; 16], 1)?;
    /// store.enter(7, 1_700_000_000, 0)?;
    /// assert_eq!(store.grow(7, 1 << 40, 1_700_000_001, 0), Ok(0));
    /// let mut out = [1; 4];
    /// assert_eq!(store.read(7, 1 << 39, &mut out), Ok(4));
    /// assert_eq!(out, [0; 4]);
    /// assert_eq!(store.grow(7, 10, 0, 0), Err(Refusal::BelowSize));
    /// assert_eq!(store.fill(), Ok(0)); // a hole takes no blocks
    /// # Ok::<(), Refusal>(())
    /// ```
    pub fn grow(
        &mut self,
        object: u64,
        size: u64,
        seconds: u64,
        nanoseconds: u64,
    ) -> Result<u64, Refusal> {
        ffi::grow(self, object, size, seconds, nanoseconds)
    }

    /// Reads the file's bytes from `offset` on to the head of `out`: as many as
    /// it has room for, as there are before the file's end, and at most
    /// [`MOST_TRANSFER`](crate::MOST_TRANSFER). Answers how many; the rest of
    /// `out` stays as it is. At or past the end, and for an empty `out`, that is
    /// 0. What was never written reads as zeros.
    ///
    /// Every unit of 64 KiB that a byte of the answer lies in is checked whole
    /// against its checksum before the first byte is handed out.
    ///
    /// # Errors
    ///
    /// In this order: [`WrongLength`](Refusal::WrongLength),
    /// [`BrokenRule`](Refusal::BrokenRule), [`NoCard`](Refusal::NoCard); then,
    /// unit by unit, [`NoChecksum`](Refusal::NoChecksum),
    /// [`NotBacked`](Refusal::NotBacked),
    /// [`NonzeroPastEnd`](Refusal::NonzeroPastEnd),
    /// [`ChecksumDiffers`](Refusal::ChecksumDiffers).
    ///
    /// ```
    /// # use sangueko::{Places, Refusal, StoreBuf};
    /// # let mut buffers = StoreBuf::new(8, Places { cards: 1, extents: 8, groups: 1 })?;
    /// # let mut store = buffers.lend();
    /// # store.fresh(&[0; 16], 1)?;
    /// store.enter(7, 1_700_000_000, 0)?;
    /// let mut out = [1; 4];
    /// assert_eq!(store.read(7, 0, &mut out), Ok(0)); // the file is empty
    /// assert_eq!(store.read(8, 0, &mut out), Err(Refusal::NoCard));
    /// assert_eq!(out, [1; 4]);
    /// # Ok::<(), Refusal>(())
    /// ```
    pub fn read(&self, object: u64, offset: u64, out: &mut [u8]) -> Result<u64, Refusal> {
        ffi::read(self, object, offset, out)
    }

    /// Makes up to [`MOST_RANGES`](crate::MOST_RANGES) reads in one call, of one
    /// file or of several. `out` is cut into pieces that lie one after another
    /// in the order of `ranges`, each as long as its range, and a piece becomes
    /// what [`read`](Store::read) gives in a buffer of its length. Where the file
    /// ends before the range does, or it has more than
    /// [`MOST_TRANSFER`](crate::MOST_TRANSFER) bytes, the rest of the piece stays
    /// as it is, and so does what lies behind the last piece.
    ///
    /// Answers the number of different units, of 64 KiB and each of one file, in
    /// which bytes of the answer lie, never written ones too. The store is tested
    /// once for all of the reads and each unit once, before the first byte is
    /// handed out. Nothing is allocated.
    ///
    /// # Errors
    ///
    /// In this order: [`WrongLength`](Refusal::WrongLength),
    /// [`BrokenRule`](Refusal::BrokenRule), [`BadReads`](Refusal::BadReads);
    /// then, range by range, what its read is refused by:
    /// [`NoCard`](Refusal::NoCard), for an empty range too, and
    /// [`NoChecksum`](Refusal::NoChecksum) and the others that speak of a unit.
    ///
    /// ```
    /// # use sangueko::{MOST_RANGES, Places, Range, Refusal, StoreBuf};
    /// # let mut buffers = StoreBuf::new(8, Places { cards: 1, extents: 8, groups: 1 })?;
    /// # let mut store = buffers.lend();
    /// # store.fresh(&[0; 16], 1)?;
    /// store.enter(7, 1_700_000_000, 0)?;
    /// store.write(7, 0, b"many reads", 1_700_000_001, 0)?;
    /// let range = |offset, length| Range { object: 7, offset, length };
    /// let mut out = *b"..........";
    /// assert_eq!(store.read_many(&[range(5, 3), range(0, 2), range(8, 4)], &mut out), Ok(1));
    /// assert_eq!(&out, b"reamads..."); // the file ends within the last range
    ///
    /// let missing = Range { object: 8, ..range(0, 0) };
    /// assert_eq!(store.read_many(&[range(0, 4), missing], &mut out), Err(Refusal::NoCard));
    /// assert_eq!(store.read_many(&[range(0, 11)], &mut out), Err(Refusal::BadReads));
    /// assert_eq!(store.read_many(&[range(0, 0); MOST_RANGES + 1], &mut out), Err(Refusal::BadReads));
    /// assert_eq!(&out, b"reamads...");
    /// # Ok::<(), Refusal>(())
    /// ```
    pub fn read_many(&self, ranges: &[Range], out: &mut [u8]) -> Result<u64, Refusal> {
        with_list(ranges, |list| self.read_many_bytes(list, out))
    }

    /// [`read_many`](Store::read_many) of a list that is bytes already: of each
    /// range its [`to_bytes`](Range::to_bytes), one behind the other. Any bytes
    /// may be given: the library decides whether they are a list.
    ///
    /// # Errors
    ///
    /// Those of `read_many`.
    ///
    /// ```
    /// # use sangueko::{Places, Refusal, StoreBuf};
    /// # let mut buffers = StoreBuf::new(8, Places { cards: 1, extents: 8, groups: 1 })?;
    /// # let mut store = buffers.lend();
    /// # store.fresh(&[0; 16], 1)?;
    /// assert_eq!(store.read_many_bytes(&[], &mut []), Ok(0));
    /// assert_eq!(store.read_many_bytes(&[0; 23], &mut []), Err(Refusal::BadReads));
    /// assert_eq!(store.read_many_bytes(&[0; 24], &mut []), Err(Refusal::NoCard)); // of file 0
    /// # Ok::<(), Refusal>(())
    /// ```
    pub fn read_many_bytes(&self, list: &[u8], out: &mut [u8]) -> Result<u64, Refusal> {
        ffi::read_many(self, list, out)
    }

    /// Tells which of `units` units of the file, from unit `first` on, hold data:
    /// which have a checksum and begin before the file's end. A unit is
    /// [`UNIT_BYTES`](crate::UNIT_BYTES) of a file. They are given as stretches,
    /// ascending: each is all units with data that follow one another within the
    /// range. The range may be any, as from 0 with `u64::MAX` units for the whole
    /// file; what it costs depends on the file's groups, not on the range.
    ///
    /// A unit that is in no stretch reads as zeros, or is past the end; or it has
    /// blocks but no checksum, which no list of calls leads to, and a read of it
    /// is refused by [`NoChecksum`](Refusal::NoChecksum). No unit is read here:
    /// its bytes are not compared with its checksum.
    ///
    /// The stretches stand at the head of `out`, each of
    /// [`STRETCH_BYTES`](crate::STRETCH_BYTES), where
    /// [`Stretch::all`](crate::Stretch::all) finds them; the rest of `out` stays as
    /// it is. Answers how many they are: at most half of `units`, rounded up, and at
    /// most 128 for each group of the file.
    ///
    /// # Errors
    ///
    /// In this order: [`WrongLength`](Refusal::WrongLength),
    /// [`BrokenRule`](Refusal::BrokenRule), [`NoCard`](Refusal::NoCard),
    /// [`BadRange`](Refusal::BadRange): `first` and `units` add up to more than
    /// 2^64 - 1, or `out` has no place for all stretches.
    ///
    /// ```
    /// # use sangueko::{Places, Refusal, STRETCH_BYTES, Stretch, StoreBuf, UNIT_BYTES};
    /// # let mut buffers = StoreBuf::new(64, Places { cards: 1, extents: 8, groups: 2 })?;
    /// # let mut store = buffers.lend();
    /// # store.fresh(&[0; 16], 1)?;
    /// store.enter(7, 1_700_000_000, 0)?;
    /// store.write(7, 3 * UNIT_BYTES, b"unit 3", 1_700_000_001, 0)?;
    /// store.write(7, 256 * UNIT_BYTES - 3, b"255 and 256", 1_700_000_002, 0)?;
    /// let mut out = [0; 3 * STRETCH_BYTES];
    /// assert_eq!(store.data_stretches(7, 0, u64::MAX, &mut out), Ok(2));
    /// let found: Vec<Stretch> = Stretch::all(&out, 2).collect();
    /// assert_eq!(found, [Stretch { first: 3, units: 1 }, Stretch { first: 255, units: 2 }]);
    ///
    /// // From unit 256 on the stretch is cut; of units 4 to 200 none holds data.
    /// assert_eq!(store.data_stretches(7, 256, 745, &mut out), Ok(1));
    /// assert!(Stretch::all(&out, 1).eq([Stretch { first: 256, units: 1 }]));
    /// assert_eq!(store.data_stretches(7, 4, 197, &mut []), Ok(0));
    ///
    /// assert_eq!(store.data_stretches(7, 0, u64::MAX, &mut out[..31]), Err(Refusal::BadRange));
    /// assert_eq!(store.data_stretches(7, 1, u64::MAX, &mut out), Err(Refusal::BadRange));
    /// # Ok::<(), Refusal>(())
    /// ```
    pub fn data_stretches(
        &self,
        object: u64,
        first: u64,
        units: u64,
        out: &mut [u8],
    ) -> Result<u64, Refusal> {
        ffi::data_stretches(self, object, first, units, out)
    }

    /// Makes up to [`MOST_RANGES`](crate::MOST_RANGES) writes in one call, into
    /// one file or several, each as [`write`](Store::write) would and all with
    /// the one time, which is that of the files' last change; the times of their
    /// creation stay. `bytes` is cut into pieces that lie one after another in the
    /// order of `ranges`, each as long as its range, and has no byte more. The
    /// writes are made in that order. The store is tested once for all of them,
    /// but for one that something else has changed so that a block is at two
    /// places: then before each. Nothing is allocated.
    ///
    /// It stops at the first write that is refused. What was done before it
    /// remains, and this is not an error but [`Batched::Stopped`], also where it
    /// is the first write of all. An empty range is a write, and counts.
    ///
    /// # Errors
    ///
    /// In this order: [`WrongLength`](Refusal::WrongLength),
    /// [`BrokenRule`](Refusal::BrokenRule), [`BadBatch`](Refusal::BadBatch):
    /// nothing was tried then, and no byte has changed.
    ///
    /// ```
    /// # use sangueko::{Batched, Places, Range, Refusal, StoreBuf};
    /// # let mut buffers = StoreBuf::new(8, Places { cards: 2, extents: 8, groups: 2 })?;
    /// # let mut store = buffers.lend();
    /// # store.fresh(&[0; 16], 1)?;
    /// store.enter(7, 1_700_000_000, 0)?;
    /// store.enter(8, 1_700_000_000, 0)?;
    /// let range = |object, offset, length| Range { object, offset, length };
    /// let ranges = [range(7, 0, 4), range(8, 2, 3), range(7, 2, 4)];
    /// let batched = store.write_batch(&ranges, b"manysetakes", 1_700_000_001, 0)?;
    /// assert_eq!(batched, Batched::All { writes: 3 });
    /// let mut out = [1; 6];
    /// assert_eq!(store.read(7, 0, &mut out), Ok(6));
    /// assert_eq!(&out, b"maakes"); // the later write stands over the first
    ///
    /// // There is no file 9: the write before it remains, the one behind is not made.
    /// let ranges = [range(7, 0, 1), range(9, 0, 1), range(7, 1, 1)];
    /// match store.write_batch(&ranges, b"bat", 1_700_000_002, 0)? {
    ///     Batched::All { .. } => unreachable!(),
    ///     Batched::Stopped { done, by } => {
    ///         assert_eq!((done, by), (1, Refusal::NoCard));
    ///         assert_eq!(ranges[done].object, 9);
    ///     }
    /// }
    /// assert_eq!(store.read(7, 0, &mut out), Ok(6));
    /// assert_eq!(&out, b"baakes");
    ///
    /// // A byte too many: nothing is tried.
    /// assert_eq!(store.write_batch(&ranges, b"bats", 0, 0), Err(Refusal::BadBatch));
    /// # Ok::<(), Refusal>(())
    /// ```
    pub fn write_batch(
        &mut self,
        ranges: &[Range],
        bytes: &[u8],
        seconds: u64,
        nanoseconds: u64,
    ) -> Result<Batched, Refusal> {
        with_list(ranges, |list| {
            self.write_batch_bytes(list, bytes, seconds, nanoseconds)
        })
    }

    /// [`write_batch`](Store::write_batch) of a list that is bytes already, as
    /// that of [`read_many_bytes`](Store::read_many_bytes) is.
    ///
    /// # Errors
    ///
    /// Those of `write_batch`.
    ///
    /// ```
    /// # use sangueko::{Batched, Places, Refusal, StoreBuf};
    /// # let mut buffers = StoreBuf::new(8, Places { cards: 1, extents: 8, groups: 1 })?;
    /// # let mut store = buffers.lend();
    /// # store.fresh(&[0; 16], 1)?;
    /// assert_eq!(store.write_batch_bytes(&[], &[], 0, 0), Ok(Batched::All { writes: 0 }));
    /// assert_eq!(store.write_batch_bytes(&[0; 23], &[], 0, 0), Err(Refusal::BadBatch));
    /// let by = Refusal::NoCard; // of file 0
    /// assert_eq!(store.write_batch_bytes(&[0; 24], &[], 0, 0), Ok(Batched::Stopped { done: 0, by }));
    /// # Ok::<(), Refusal>(())
    /// ```
    pub fn write_batch_bytes(
        &mut self,
        list: &[u8],
        bytes: &[u8],
        seconds: u64,
        nanoseconds: u64,
    ) -> Result<Batched, Refusal> {
        ffi::write_batch(self, list, bytes, seconds, nanoseconds)
    }

    /// Lets the retired blocks go, which files have given up: they are free
    /// afterwards. Answers how many they were.
    ///
    /// # Errors
    ///
    /// In this order: [`WrongLength`](Refusal::WrongLength),
    /// [`BrokenRule`](Refusal::BrokenRule).
    ///
    /// ```
    /// # use sangueko::{Places, Refusal, StoreBuf};
    /// # let mut buffers = StoreBuf::new(8, Places { cards: 1, extents: 0, groups: 0 })?;
    /// # let mut store = buffers.lend();
    /// # store.fresh(&[0; 16], 1)?;
    /// assert_eq!(store.settle(), Ok(0)); // none in a fresh store
    /// # Ok::<(), Refusal>(())
    /// ```
    pub fn settle(&mut self) -> Result<u64, Refusal> {
        ffi::settle(self)
    }

    /// How full the store is, from 0 to 1,000: of the blocks that are not
    /// reserved the used ones, retired ones among them, times 1,000, divided by
    /// how many are not reserved, rounded down. Where every block is reserved
    /// it is 0.
    ///
    /// # Errors
    ///
    /// In this order: [`WrongLength`](Refusal::WrongLength),
    /// [`BrokenRule`](Refusal::BrokenRule).
    ///
    /// ```
    /// # use sangueko::{Places, Refusal, StoreBuf};
    /// # let mut buffers = StoreBuf::new(8, Places { cards: 1, extents: 4, groups: 1 })?;
    /// # let mut store = buffers.lend();
    /// store.fresh(&[0; 16], 1)?;
    /// assert_eq!(store.fill(), Ok(0));
    /// store.enter(7, 1_700_000_000, 0)?;
    /// store.write(7, 0, &[1; 24_576], 1_700_000_001, 0)?;
    /// assert_eq!(store.fill(), Ok(857)); // six of seven
    /// store.fresh(&[0; 16], 8)?;
    /// assert_eq!(store.fill(), Ok(0)); // no block can be used
    /// # Ok::<(), Refusal>(())
    /// ```
    pub fn fill(&self) -> Result<u64, Refusal> {
        ffi::fill(self)
    }
}
