//! Lent buffers between pages without access: a byte read or written beside a
//! buffer ends the process. All unsafe code of the comparison is here.

use std::ffi::c_void;
use std::ptr;

use model::Call;

use crate::library::{Lent, Library, Request, Told};

unsafe extern "C" {
    fn mmap(
        at: *mut c_void,
        length: usize,
        access: i32,
        flags: i32,
        file: i32,
        offset: i64,
    ) -> *mut c_void;
    fn mprotect(at: *mut c_void, length: usize, access: i32) -> i32;
    fn munmap(at: *mut c_void, length: usize) -> i32;
    fn sysconf(name: i32) -> i64;
}

const NO_ACCESS: i32 = 0;
const READ: i32 = 1;
const READ_WRITE: i32 = 3;
/// MAP_PRIVATE and MAP_ANONYMOUS of Linux.
const PRIVATE_ANONYMOUS: i32 = 0x22;
/// _SC_PAGESIZE of Linux.
const PAGE_SIZE: i32 = 30;

/// Which side of a buffer touches the page without access. A buffer of whole
/// pages touches it on both.
#[derive(Clone, Copy, Debug, PartialEq, Eq)]
pub enum Side {
    Start,
    End,
}

/// A buffer with a page without access before and after its pages.
pub struct Pages {
    base: *mut u8,
    mapped: usize,
    /// Where the pages with access lie, and how long they are.
    inner: (usize, usize),
    at: usize,
    length: usize,
}

impl Pages {
    pub fn new(bytes: &[u8], side: Side) -> Self {
        // SAFETY: sysconf reads a constant of the system; mmap is asked for
        // new memory that nothing else knows; mprotect changes pages of it.
        unsafe {
            let page = usize::try_from(sysconf(PAGE_SIZE)).expect("a page size");
            let inner = bytes.len().div_ceil(page) * page;
            let mapped = inner + 2 * page;
            let base = mmap(ptr::null_mut(), mapped, NO_ACCESS, PRIVATE_ANONYMOUS, -1, 0);
            assert!(base as isize != -1, "mmap of {mapped} bytes");
            let base = base.cast::<u8>();
            if inner > 0 {
                let opened = mprotect(base.add(page).cast(), inner, READ_WRITE);
                assert_eq!(opened, 0, "mprotect");
            }
            let at = match side {
                Side::Start => page,
                Side::End => page + inner - bytes.len(),
            };
            let mut pages = Self {
                base,
                mapped,
                inner: (page, inner),
                at,
                length: bytes.len(),
            };
            pages.bytes_mut().copy_from_slice(bytes);
            pages
        }
    }

    /// The same, not to be written.
    pub fn read_only(bytes: &[u8], side: Side) -> Self {
        let pages = Self::new(bytes, side);
        let (at, length) = pages.inner;
        if length > 0 {
            // SAFETY: the pages are this value's own.
            let closed = unsafe { mprotect(pages.base.add(at).cast(), length, READ) };
            assert_eq!(closed, 0, "mprotect");
        }
        pages
    }

    pub fn bytes(&self) -> &[u8] {
        // SAFETY: the bytes lie in the pages with access, or there are none
        // and the address is not null.
        unsafe { std::slice::from_raw_parts(self.base.add(self.at), self.length) }
    }

    /// Not for pages made read-only.
    pub fn bytes_mut(&mut self) -> &mut [u8] {
        // SAFETY: as above, and the value is borrowed alone.
        unsafe { std::slice::from_raw_parts_mut(self.base.add(self.at), self.length) }
    }

    /// The byte `beside` places after the buffer's end, or before its start
    /// where it is negative: it has no access. To see that the guard works.
    pub fn read_beside(&self, beside: isize) -> u8 {
        let end = if beside < 0 { 0 } else { self.length as isize };
        // SAFETY: none; the process is meant to end here.
        unsafe { self.base.add(self.at).offset(end + beside).read_volatile() }
    }
}

impl Drop for Pages {
    fn drop(&mut self) {
        // SAFETY: the mapping is this value's own, and no borrow is left.
        let freed = unsafe { munmap(self.base.cast(), self.mapped) };
        assert_eq!(freed, 0, "munmap");
    }
}

/// A library whose every lent buffer stands between pages without access, and
/// whose inputs cannot be written.
pub struct Guarded<'a> {
    pub library: &'a dyn Library,
    pub side: Side,
}

impl Guarded<'_> {
    /// A call with its output buffer between pages, whose bytes then become
    /// the output's.
    fn between_pages(&self, out: &mut [u8], call: impl FnOnce(&mut [u8]) -> Told) -> Told {
        let mut pages = Pages::new(out, self.side);
        let told = call(pages.bytes_mut());
        out.copy_from_slice(pages.bytes());
        told
    }
}

impl Library for Guarded<'_> {
    fn supports(&self, call: &Call) -> bool {
        self.library.supports(call)
    }

    fn lent(&self, store: Lent<'_>, request: Request<'_>) -> Told {
        let buffers = store.buffers();
        let mut pages = buffers
            .each_ref()
            .map(|buffer| Pages::new(buffer, self.side));
        let guarded = Lent::of(pages.each_mut().map(Pages::bytes_mut));
        let told = match request {
            Request::Fresh { uuid, reserved } => {
                let uuid = Pages::read_only(uuid, self.side);
                let uuid = uuid.bytes();
                self.library
                    .lent(guarded, Request::Fresh { uuid, reserved })
            }
            Request::Write {
                object,
                offset,
                bytes,
                seconds,
                nanoseconds,
            } => {
                let bytes = Pages::read_only(bytes, self.side);
                let request = Request::Write {
                    object,
                    offset,
                    bytes: bytes.bytes(),
                    seconds,
                    nanoseconds,
                };
                self.library.lent(guarded, request)
            }
            Request::WriteArchive {
                object,
                offset,
                bytes,
                seconds,
                nanoseconds,
            } => {
                let bytes = Pages::read_only(bytes, self.side);
                let request = Request::WriteArchive {
                    object,
                    offset,
                    bytes: bytes.bytes(),
                    seconds,
                    nanoseconds,
                };
                self.library.lent(guarded, request)
            }
            Request::Read {
                object,
                offset,
                out,
            } => {
                let read = |out: &mut [u8]| {
                    let request = Request::Read {
                        object,
                        offset,
                        out,
                    };
                    self.library.lent(guarded, request)
                };
                self.between_pages(out, read)
            }
            Request::ReadMany { list, out } => {
                let list = Pages::read_only(list, self.side);
                let list = list.bytes();
                let read = |out: &mut [u8]| {
                    let request = Request::ReadMany { list, out };
                    self.library.lent(guarded, request)
                };
                self.between_pages(out, read)
            }
            Request::WriteBatch {
                list,
                bytes,
                seconds,
                nanoseconds,
            } => {
                let list = Pages::read_only(list, self.side);
                let bytes = Pages::read_only(bytes, self.side);
                let request = Request::WriteBatch {
                    list: list.bytes(),
                    bytes: bytes.bytes(),
                    seconds,
                    nanoseconds,
                };
                self.library.lent(guarded, request)
            }
            Request::DataStretches {
                object,
                first,
                units,
                out,
            } => {
                let list = |out: &mut [u8]| {
                    let request = Request::DataStretches {
                        object,
                        first,
                        units,
                        out,
                    };
                    self.library.lent(guarded, request)
                };
                self.between_pages(out, list)
            }
            request => self.library.lent(guarded, request),
        };
        for (to, from) in buffers.into_iter().zip(&pages) {
            to.copy_from_slice(from.bytes());
        }
        told
    }
}
