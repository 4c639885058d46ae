use crate::{Error, Result};

/// Stands for `crate::BlockDevice` (its file is not published): the two
/// calls that the cut functions and the commit below make. Left out: flushes,
/// mount modes, geometry, errors of a device.
pub trait BlockDevice {
    /// `run_end` and `next_run` are hints for reading ahead and change no
    /// byte.
    fn read_data_exact_at(
        &mut self,
        offset: u64,
        out: &mut [u8],
        run_end: u64,
        next_run: Option<u64>,
    ) -> Result<()>;

    fn write_page(&mut self, offset: u64, page: &[u8]) -> Result<()>;
}

/// The lent image as a device. Pages are held until the driver has seen that
/// document 01's books can hold the call's records. A range past the end
/// cannot be asked for on a store past refusal 2; it would be an error without
/// a number.
pub struct Image<'a> {
    bytes: &'a [u8],
    pub written: Vec<(usize, Vec<u8>)>,
}

impl<'a> Image<'a> {
    pub fn new(bytes: &'a [u8]) -> Self {
        Self {
            bytes,
            written: Vec::new(),
        }
    }

    fn range(&self, offset: u64, length: usize) -> Result<std::ops::Range<usize>> {
        usize::try_from(offset)
            .ok()
            .and_then(|at| Some(at..at.checked_add(length)?))
            .filter(|range| range.end <= self.bytes.len())
            .ok_or(Error::InvalidInput("range past the device"))
    }
}

impl BlockDevice for Image<'_> {
    fn read_data_exact_at(
        &mut self,
        offset: u64,
        out: &mut [u8],
        _run_end: u64,
        _next_run: Option<u64>,
    ) -> Result<()> {
        out.copy_from_slice(&self.bytes[self.range(offset, out.len())?]);
        Ok(())
    }

    fn write_page(&mut self, offset: u64, page: &[u8]) -> Result<()> {
        let range = self.range(offset, page.len())?;
        self.written.push((range.start, page.to_vec()));
        Ok(())
    }
}
