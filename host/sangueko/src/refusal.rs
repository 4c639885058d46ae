//! Why a call was refused.

use std::error::Error;
use std::fmt;

/// The cases in which a call is refused, with the numbers of documents 01 and
/// 02. A call tries them in the order of their numbers, but 17 and 18 right
/// behind 2, and gives the first that applies; 9 to 14 are tried unit by unit.
///
/// ```
/// use sangueko::Refusal;
///
/// assert_eq!(Refusal::CardExists.number(), 4);
/// assert_eq!(Refusal::of(4), Some(Refusal::CardExists));
/// assert_eq!(Refusal::of(0), None); // an accepted call
/// ```
#[derive(Clone, Copy, Debug, PartialEq, Eq, PartialOrd, Ord, Hash)]
#[repr(u32)]
pub enum Refusal {
    WrongLength = 1,
    BrokenRule = 2,
    NoCard = 3,
    CardExists = 4,
    PastLimit = 5,
    BelowSize = 6,
    BadTime = 7,
    NoCardPlace = 8,
    NoChecksum = 9,
    NotBacked = 10,
    NonzeroPastEnd = 11,
    ChecksumDiffers = 12,
    NoSpace = 13,
    CountDisagrees = 14,
    NoGroupPlace = 15,
    NoExtentPlace = 16,
    BadReads = 17,
    BadBatch = 18,
    BadRange = 19,
}

impl Refusal {
    /// Every refusal, in the order of their numbers.
    pub const ALL: [Self; 19] = [
        Self::WrongLength,
        Self::BrokenRule,
        Self::NoCard,
        Self::CardExists,
        Self::PastLimit,
        Self::BelowSize,
        Self::BadTime,
        Self::NoCardPlace,
        Self::NoChecksum,
        Self::NotBacked,
        Self::NonzeroPastEnd,
        Self::ChecksumDiffers,
        Self::NoSpace,
        Self::CountDisagrees,
        Self::NoGroupPlace,
        Self::NoExtentPlace,
        Self::BadReads,
        Self::BadBatch,
        Self::BadRange,
    ];

    /// The number in document 01 or 02.
    pub const fn number(self) -> u32 {
        self as u32
    }

    /// The refusal of a number, if it is one's.
    pub fn of(number: u32) -> Option<Self> {
        Self::ALL.into_iter().find(|r| r.number() == number)
    }
}

impl fmt::Display for Refusal {
    fn fmt(&self, f: &mut fmt::Formatter<'_>) -> fmt::Result {
        f.write_str(match self {
            Self::WrongLength => {
                "a buffer has a wrong length, or the head was made for other lengths: \
                 lend the buffers that the store was made with"
            }
            Self::BrokenRule => {
                "the store's records or maps are damaged: restore the store from a copy"
            }
            Self::NoCard => "there is no file of this number: enter it first",
            Self::CardExists => {
                "there is a file of this number already: use it, or choose another number"
            }
            Self::PastLimit => {
                "the file would end past byte 9,223,372,036,854,775,807: \
                 choose a smaller offset or size"
            }
            Self::BelowSize => {
                "the file is larger than the size asked for, and files do not shrink: \
                 ask for its size or more"
            }
            Self::BadTime => {
                "the time is out of range: give at most 9,223,372,036,854,775,807 seconds \
                 and fewer than 1,000,000,000 nanoseconds"
            }
            Self::NoCardPlace => {
                "the store has no place for another file: make one with more places for cards"
            }
            Self::NoChecksum => {
                "a part of the file has data but no checksum, so the data cannot be trusted: \
                 restore the file from a copy"
            }
            Self::NotBacked => {
                "a part of the file has a checksum but lacks some of its data: \
                 restore the file from a copy"
            }
            Self::NonzeroPastEnd => {
                "there are bytes behind the file's end that should be zero: \
                 restore the file from a copy"
            }
            Self::ChecksumDiffers => {
                "a part of the file does not match its checksum: restore the file from a copy"
            }
            Self::NoSpace => {
                "the store has too few free blocks: settle to let retired blocks go, \
                 or make a store with more blocks"
            }
            Self::CountDisagrees => {
                "the file's count of blocks does not match its blocks, or would pass \
                 34,359,738,367: restore the file from a copy"
            }
            Self::NoGroupPlace => {
                "the store has too few places for checksums: make one with more places for groups"
            }
            Self::NoExtentPlace => {
                "the store has too few places for extents: make one with more of them"
            }
            Self::BadReads => {
                "the list of reads is not whole ranges, has too many, or asks for more bytes than \
                 the output has: give at most 64 ranges of 24 bytes, and an output as long as \
                 their lengths together"
            }
            Self::BadBatch => {
                "the list of writes is not whole ranges, has too many or too long ones, or their \
                 lengths do not add up to the bytes: give at most 64 ranges of 24 bytes, of at \
                 most 1,048,576 bytes each, and just the bytes of all of them"
            }
            Self::BadRange => {
                "the range's first unit and number of units add up to more than \
                 18,446,744,073,709,551,615, or the output has no place for all stretches: give a \
                 smaller range, or 16 bytes of output for each stretch"
            }
        })
    }
}

impl Error for Refusal {}
