//! `flags`: a file that holds a bit for each coverage bin, set where the bin
//! counts and clear where it is excluded. A unit that was never written reads as
//! zeros, so that its bins are excluded without anyone having said so: that is
//! what the last number tells. The library tells which units hold data, and no
//! other is read.

use std::io::Write;

use sangueko::{MOST_RANGES, Range};

use crate::data::Data;
use crate::failure::Failure;
use crate::folder::Loaded;
use crate::json::Json;
use crate::ranges::{pieces, read_call};
use crate::words::grouped;

#[derive(Debug, PartialEq, Eq)]
pub struct Flags {
    pub bins: u128,
    /// Ones.
    pub counted: u128,
    /// Zeros.
    pub excluded: u128,
    /// Zeros in units without checksum and extent.
    pub never_written: u128,
}

/// Counts the first `bins` flags, or all that the file has.
pub fn count(loaded: &mut Loaded, object: u64, bins: Option<u128>) -> Result<Flags, Failure> {
    let doing = format!("flags of file {object}");
    let data = Data::of_all(loaded, &doing, object)?;
    let all = u128::from(data.card.size) * 8;
    let bins = bins.unwrap_or(all);
    if bins > all {
        return Err(Failure::Usage(format!(
            "file {object} has {} flags, and {} bins are asked for",
            grouped(all),
            grouped(bins)
        )));
    }
    let with_data = bins_with_data(&data, bins);
    let counted = ones(loaded, &doing, &data, with_data)?;
    Ok(Flags {
        bins,
        counted,
        excluded: bins - counted,
        never_written: bins - with_data,
    })
}

/// How many of the first `bins` flags lie in units with data.
fn bins_with_data(data: &Data, bins: u128) -> u128 {
    let stretches = data.stretches.iter().map(|stretch| {
        let bytes = data.bytes(stretch);
        let (from, to) = (u128::from(bytes.start) * 8, u128::from(bytes.end) * 8);
        to.min(bins).saturating_sub(from)
    });
    stretches.sum()
}

/// What is read of the file, ascending: the stretches, and the units that have
/// blocks but no checksum. The library refuses to read those, and so no number is
/// told that leaves their flags out.
fn read_of(data: &Data) -> Vec<Range> {
    let unchecked = data.unchecked.iter().map(|&unit| unit..unit + 1);
    let mut units: Vec<std::ops::Range<u64>> = data.stretches.to_vec();
    units.extend(unchecked);
    units.sort_unstable_by_key(|units| units.start);
    let ranges = units.iter().map(|units| {
        let bytes = data.bytes(units);
        Range {
            object: data.card.object,
            offset: bytes.start,
            length: bytes.end - bytes.start,
        }
    });
    ranges.flat_map(pieces).collect()
}

/// Ones among the first flags of all that is read. Since the units ascend, these
/// are the file's first flags as far as they lie in units with data.
fn ones(loaded: &mut Loaded, doing: &str, data: &Data, flags: u128) -> Result<u128, Failure> {
    let (mut held, mut ones, mut left) = (Vec::new(), 0, flags);
    for list in read_of(data).chunks(MOST_RANGES) {
        read_call(loaded, list, &mut held).map_err(|(refusal, at)| {
            let offset = at.and_then(|at| list.get(at)).map_or(0, |read| read.offset);
            let doing = format!("{doing}, read from byte {}", grouped(offset));
            loaded.refused(doing, refusal)
        })?;
        ones += first_ones(&held, left);
        left = left.saturating_sub(held.len() as u128 * 8);
    }
    Ok(ones)
}

/// Ones among the first flags: flag n is bit n mod 8 of byte n div 8, counted from
/// the low bit, as in a block map.
fn first_ones(bytes: &[u8], flags: u128) -> u128 {
    let whole = usize::try_from(flags / 8)
        .unwrap_or(usize::MAX)
        .min(bytes.len());
    let (whole, rest) = bytes.split_at(whole);
    let mask = (1u8 << (flags % 8)) - 1;
    let last = rest.first().map_or(0, |byte| (byte & mask).count_ones());
    whole
        .iter()
        .map(|byte| u128::from(byte.count_ones()))
        .sum::<u128>()
        + u128::from(last)
}

impl Flags {
    pub fn text(&self, object: u64, out: &mut impl Write) -> std::io::Result<()> {
        let width = grouped(self.bins).len();
        writeln!(out, "file {object}: {} bins", grouped(self.bins))?;
        writeln!(out, "  {:>width$} count (ones)", grouped(self.counted))?;
        writeln!(
            out,
            "  {:>width$} excluded (zeros), of which",
            grouped(self.excluded)
        )?;
        writeln!(
            out,
            "  {:>width$} lie in units that were never written (no checksum, no extent)",
            grouped(self.never_written)
        )
    }

    pub fn json(&self, object: u64) -> Json {
        Json::Fields(vec![
            ("object", object.into()),
            ("bins", self.bins.into()),
            ("counted", self.counted.into()),
            ("excluded", self.excluded.into()),
            ("never_written", self.never_written.into()),
        ])
    }
}

#[cfg(test)]
mod tests {
    use sangueko::MOST_TRANSFER;

    use super::*;
    use crate::data::tests::sample;

    /// Units with data and those that lost their checksum, and no byte of another.
    #[test]
    fn what_was_never_written_is_not_read() {
        const UNIT: u64 = 65_536;
        let data = sample(0..21, &[0..2, 3..21], &[2]);
        let read: Vec<(u64, u64)> = read_of(&data)
            .iter()
            .map(|range| (range.offset, range.length))
            .collect();
        let most = MOST_TRANSFER as u64;
        let parts = [(0, 2 * UNIT), (2 * UNIT, UNIT), (3 * UNIT, most)];
        assert_eq!(read[..3], parts);
        assert_eq!(read[3..], [(19 * UNIT, UNIT + 1)]);
        assert!(read_of(&sample(0..21, &[], &[])).is_empty());
    }

    #[test]
    fn bins_end_with_data_or_in_a_hole() {
        let data = sample(0..21, &[1..2, 20..21], &[]);
        let unit = 8 * 65_536;
        let ends = [(0, 0), (unit, 0), (unit + 3, 3), (2 * unit, unit)];
        for (bins, with_data) in ends {
            assert_eq!(bins_with_data(&data, bins), with_data, "{bins}");
        }
        assert_eq!(bins_with_data(&data, 20 * unit), unit);
        assert_eq!(bins_with_data(&data, 20 * unit + 8), unit + 8);
    }

    #[test]
    fn flags_are_counted_from_the_low_bit() {
        assert_eq!(first_ones(&[0b1000_0001, 0b11], 7), 1);
        assert_eq!(first_ones(&[0b1000_0001, 0b11], 8), 2);
        assert_eq!(first_ones(&[0b1000_0001, 0b11], 9), 3);
        assert_eq!(first_ones(&[0b1000_0001, 0b11], 1_000), 4);
        assert_eq!(first_ones(&[], 5), 0);
    }
}
