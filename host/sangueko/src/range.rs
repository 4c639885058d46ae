//! Ranges of files, and lists of them as the library is lent them.

use crate::{MOST_RANGES, RANGE_BYTES};

/// So many bytes of a file, from an offset on.
///
/// ```
/// use sangueko::Range;
///
/// let range = Range { object: 7, offset: 0x0102, length: 100 };
/// assert_eq!(range.to_bytes()[..10], [7, 0, 0, 0, 0, 0, 0, 0, 2, 1]);
/// ```
#[derive(Clone, Copy, Debug, Default, PartialEq, Eq, Hash)]
pub struct Range {
    pub object: u64,
    pub offset: u64,
    pub length: u64,
}

impl Range {
    /// The range in a list: object, offset and length, each of 8 bytes with the
    /// least significant first.
    pub fn to_bytes(self) -> [u8; RANGE_BYTES] {
        let mut bytes = [0; RANGE_BYTES];
        let numbers = [self.object, self.offset, self.length];
        for (place, number) in bytes.as_chunks_mut::<8>().0.iter_mut().zip(numbers) {
            *place = number.to_le_bytes();
        }
        bytes
    }
}

/// Hands over the list as bytes that stand on the stack. There is room for one
/// range more than a list may have: so the library itself refuses a list that is
/// too long, however long it is, and only after the refusals that come first.
pub fn with_list<T>(ranges: &[Range], call: impl FnOnce(&[u8]) -> T) -> T {
    let mut list = [[0; RANGE_BYTES]; MOST_RANGES + 1];
    let length = ranges.len().min(list.len());
    for (place, range) in list.iter_mut().zip(ranges) {
        *place = range.to_bytes();
    }
    call(list[..length].as_flattened())
}

#[cfg(test)]
mod tests {
    use super::*;

    #[test]
    fn numbers_stand_in_order_least_significant_byte_first() {
        let range = Range {
            object: 0x0807_0605_0403_0201,
            offset: 0x100f_0e0d_0c0b_0a09,
            length: 0x1817_1615_1413_1211,
        };
        let ascending: [u8; RANGE_BYTES] = std::array::from_fn(|at| at as u8 + 1);
        assert_eq!(range.to_bytes(), ascending);
    }

    #[test]
    fn a_list_that_is_too_long_stays_so() {
        for (ranges, handed) in [(0, 0), (1, 1), (64, 64), (65, 65), (66, 65), (1_000, 65)] {
            let list = vec![Range::default(); ranges];
            let length = with_list(&list, <[u8]>::len);
            assert_eq!(length, handed * RANGE_BYTES, "{ranges}");
        }
    }
}
