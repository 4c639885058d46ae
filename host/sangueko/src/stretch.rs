//! Stretches of units that hold data, as the library hands them out.

use crate::STRETCH_BYTES;

/// So many units of a file that follow one another, each with data.
///
/// ```
/// use sangueko::Stretch;
///
/// let mut out = [0; 40];
/// (out[0], out[8], out[16], out[24]) = (3, 1, 255, 2);
/// let all: Vec<Stretch> = Stretch::all(&out, 2).collect();
/// assert_eq!(all, [Stretch { first: 3, units: 1 }, Stretch { first: 255, units: 2 }]);
/// ```
#[derive(Clone, Copy, Debug, Default, PartialEq, Eq, Hash)]
pub struct Stretch {
    /// The first of them.
    pub first: u64,
    pub units: u64,
}

impl Stretch {
    /// The stretch of its bytes: the first unit and the number of units, each of
    /// 8 bytes with the least significant first.
    pub fn from_bytes(bytes: [u8; STRETCH_BYTES]) -> Self {
        let number = |at: usize| u64::from_le_bytes(std::array::from_fn(|n| bytes[at + n]));
        Self {
            first: number(0),
            units: number(8),
        }
    }

    /// The stretches at the head of `out`, as many as
    /// [`Store::data_stretches`](crate::Store::data_stretches) answered for it,
    /// or fewer where it has not so many.
    pub fn all(out: &[u8], count: u64) -> impl Iterator<Item = Self> {
        let places = out.as_chunks().0;
        let count = usize::try_from(count).map_or(places.len(), |n| n.min(places.len()));
        places[..count].iter().map(|bytes| Self::from_bytes(*bytes))
    }
}

#[cfg(test)]
mod tests {
    use super::*;

    #[test]
    fn numbers_stand_in_order_least_significant_byte_first() {
        let ascending: [u8; STRETCH_BYTES] = std::array::from_fn(|at| at as u8 + 1);
        let stretch = Stretch {
            first: 0x0807_0605_0403_0201,
            units: 0x100f_0e0d_0c0b_0a09,
        };
        assert_eq!(Stretch::from_bytes(ascending), stretch);
    }

    #[test]
    fn no_more_stretches_than_were_answered_or_than_are_there() {
        let out = [0; 3 * STRETCH_BYTES + 15];
        for (answered, given) in [(0, 0), (1, 1), (3, 3), (4, 3), (u64::MAX, 3)] {
            assert_eq!(Stretch::all(&out, answered).count(), given, "{answered}");
        }
    }
}
