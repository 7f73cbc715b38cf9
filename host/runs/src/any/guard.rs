//! Memory to lend that lies between pages which can't be touched, and that is seen twice: the host writes it in one
//! view, and lends it in the other, in which it can be written or only read. A slice that is only read can't be written
//! by the call, or the process ends.

use crate::store::UNWRITTEN;
use std::ffi::{c_char, c_int, c_void};

const PAGE: usize = 4_096;

extern "C" {
    fn mmap(at: *mut c_void, length: usize, access: c_int, flags: c_int, file: c_int, offset: i64) -> *mut c_void;
    fn mprotect(at: *mut c_void, length: usize, access: c_int) -> c_int;
    fn memfd_create(name: *const c_char, flags: u32) -> c_int;
    fn ftruncate(file: c_int, length: i64) -> c_int;
    fn munmap(at: *mut c_void, length: usize) -> c_int;
    fn close(file: c_int) -> c_int;
}

// Numbers of Linux on x86-64.
const NO_ACCESS: c_int = 0;
const READ: c_int = 1;
const READ_WRITE: c_int = 3;
const SHARED: c_int = 1;
const FIXED: c_int = 0x10;

/// Which end of the memory a slice lies at.
#[derive(Debug, Clone, Copy, PartialEq, Eq)]
pub enum Side {
    /// It begins right after a page that can't be touched.
    Begin,
    /// It ends right before one.
    End,
}

/// Whether a call may write what it is lent.
#[derive(Debug, Clone, Copy, PartialEq, Eq)]
pub enum Access {
    Read,
    Write,
}

/// Memory in three views: the host's own, one to lend for writing and one to lend for reading.
pub struct Guarded {
    own: *mut u8,
    write: *mut u8,
    read: *mut u8,
    bytes: usize,
}

impl Guarded {
    /// Memory for slices of up to so many bytes.
    pub fn new(most: usize) -> Result<Self, String> {
        let bytes = most.div_ceil(PAGE).max(1) * PAGE;
        let file = unsafe { memfd_create(c"lent".as_ptr(), 0) };
        if file < 0 || unsafe { ftruncate(file, bytes as i64) } != 0 {
            return Err("there is no memory to lend".to_string());
        }
        let view = |access| view(file, bytes, access);
        let mut guarded = Guarded { own: view(READ_WRITE)?, write: view(READ_WRITE)?, read: view(READ)?, bytes };
        // The views keep the memory.
        unsafe { close(file) };
        guarded.all().fill(UNWRITTEN);
        Ok(guarded)
    }

    /// All of the memory, for the host.
    pub fn all(&mut self) -> &mut [u8] {
        unsafe { std::slice::from_raw_parts_mut(self.own, self.bytes) }
    }

    fn place(&self, length: usize, side: Side) -> usize {
        match side {
            Side::Begin => 0,
            Side::End => self.bytes - length,
        }
    }

    /// A slice of the memory, for the host.
    pub fn own(&mut self, length: usize, side: Side) -> &mut [u8] {
        let place = self.place(length, side);
        &mut self.all()[place..place + length]
    }

    /// The same slice as it is lent. One that is lent for reading must not be written through.
    pub fn lent<'a>(&self, length: usize, side: Side, access: Access) -> &'a mut [u8] {
        let view = if access == Access::Write { self.write } else { self.read };
        // The place is inside the view, or at its very end where the length is 0.
        unsafe { std::slice::from_raw_parts_mut(view.add(self.place(length, side)), length) }
    }

    /// Whether the bytes beside a slice are unwritten, up to a page of them.
    pub fn edge_stands(&mut self, length: usize, side: Side) -> bool {
        let free = self.bytes - length;
        let edge = match side {
            Side::Begin => length..length + free.min(PAGE),
            Side::End => free - free.min(PAGE)..free,
        };
        self.all()[edge].iter().all(|&byte| byte == UNWRITTEN)
    }
}

impl Drop for Guarded {
    /// Nothing that was lent is in use any more: a slice of it is only held for the time of a call.
    fn drop(&mut self) {
        for view in [self.own, self.write, self.read] {
            unsafe { munmap(view.sub(PAGE).cast(), self.bytes + 2 * PAGE) };
        }
    }
}

/// A view of the file between two pages that can't be touched.
fn view(file: c_int, bytes: usize, access: c_int) -> Result<*mut u8, String> {
    let failed = |at: *mut c_void| at as isize == -1;
    // First all of it from the file's own length and two pages, none of which can be touched; then the middle is
    // opened.
    let whole = unsafe { mmap(std::ptr::null_mut(), bytes + 2 * PAGE, NO_ACCESS, SHARED, file, 0) };
    if failed(whole) {
        return Err("memory can't be mapped".to_string());
    }
    let middle = unsafe { whole.cast::<u8>().add(PAGE) }.cast::<c_void>();
    let mapped = unsafe { mmap(middle, bytes, NO_ACCESS, SHARED | FIXED, file, 0) };
    if failed(mapped) || unsafe { mprotect(middle, bytes, access) } != 0 {
        return Err("memory can't be opened".to_string());
    }
    Ok(middle.cast())
}
