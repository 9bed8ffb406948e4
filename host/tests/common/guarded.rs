//! Memory between two pages that cannot be touched. Linux on x86-64.

use super::Script;
use mitrophel::Record;
use std::ffi::{c_int, c_long, c_void};
use std::ops::Range;

pub const PAGE: usize = 4096;
const PROT_NONE: c_int = 0;
const PROT_READ: c_int = 1;
const PROT_WRITE: c_int = 2;
/// Private, anonymous, and no memory set aside for pages that nobody touches.
const MAP_FLAGS: c_int = 0x02 | 0x20 | 0x4000;

extern "C" {
    fn mmap(
        address: *mut c_void,
        length: usize,
        protection: c_int,
        flags: c_int,
        file: c_int,
        at: c_long,
    ) -> *mut c_void;
    fn mprotect(address: *mut c_void, length: usize, protection: c_int) -> c_int;
    fn munmap(address: *mut c_void, length: usize) -> c_int;
}

/// On which side of a buffer the page lies that cannot be touched.
#[derive(Clone, Copy, Debug, PartialEq, Eq)]
pub enum Side {
    Before,
    After,
}

/// What fills the part of a mapping that is not lent.
pub const FILL: u8 = 0x6B;

/// Whole pages between two pages that cannot be touched.
pub struct Guarded {
    base: *mut u8,
    pub room: usize,
}

// SAFETY: the mapping is its owner's alone, whichever thread that is.
unsafe impl Send for Guarded {}

impl Guarded {
    /// At least this many bytes, all [`FILL`].
    pub fn new(bytes: usize) -> Guarded {
        let mut guarded = Guarded::zeros(bytes);
        guarded.whole().fill(FILL);
        guarded
    }

    /// At least this many bytes, all zero; pages that nobody touches cost nothing.
    pub fn zeros(bytes: usize) -> Guarded {
        let room = bytes.next_multiple_of(PAGE);
        // SAFETY: a new private mapping at an address that the kernel chooses.
        let base = unsafe { mmap(std::ptr::null_mut(), room + 2 * PAGE, PROT_NONE, MAP_FLAGS, -1, 0) };
        assert_ne!(base as isize, -1, "mmap");
        let mut guarded = Guarded { base: base.cast::<u8>().wrapping_add(PAGE), room };
        guarded.protect(PROT_READ | PROT_WRITE);
        guarded
    }

    fn protect(&mut self, protection: c_int) {
        // SAFETY: these are the pages of our own mapping, and no slice of them is alive.
        let result = unsafe { mprotect(self.base.cast(), self.room, protection) };
        assert_eq!(result, 0, "mprotect");
    }

    pub fn whole(&mut self) -> &mut [u8] {
        // SAFETY: `room` readable and writable bytes, borrowed for as long as `self` is.
        unsafe { std::slice::from_raw_parts_mut(self.base, self.room) }
    }

    /// Where a buffer of this length lies.
    fn place(&self, length: usize, side: Side) -> Range<usize> {
        match side {
            Side::Before => 0..length,
            Side::After => self.room - length..self.room,
        }
    }

    /// A buffer of this length.
    pub fn part(&mut self, length: usize, side: Side) -> &mut [u8] {
        let place = self.place(length, side);
        &mut self.whole()[place]
    }

    /// Hands out a buffer of this length that cannot be written.
    pub fn read_only<T>(&mut self, length: usize, side: Side, with: impl FnOnce(&[u8]) -> T) -> T {
        let place = self.place(length, side);
        self.protect(PROT_READ);
        // SAFETY: `place` lies inside the mapping, whose pages can be read.
        let result = with(unsafe { std::slice::from_raw_parts(self.base.wrapping_add(place.start), length) });
        self.protect(PROT_READ | PROT_WRITE);
        result
    }

    /// Whether the bytes beside the buffer are still [`FILL`]; then the buffer is filled too.
    pub fn is_clean_beside(&mut self, length: usize, side: Side) -> bool {
        let place = self.place(length, side);
        let whole = self.whole();
        whole[place].fill(FILL);
        whole.iter().all(|&byte| byte == FILL)
    }
}

impl Drop for Guarded {
    fn drop(&mut self) {
        // SAFETY: the mapping made in `zeros`, which nobody uses any more.
        unsafe { munmap(self.base.wrapping_sub(PAGE).cast(), self.room + 2 * PAGE) };
    }
}

/// A list for the ends of a memory of `top` bytes: the first and the last word of each page of a table at this base are
/// used for the last page of memory and for the first, by their registers, through the window and by the parser.
pub fn ends_of_tables(base: u32, top: u32) -> Script {
    let mut script = Script::new();
    script.graphics();
    script.register_write(0x2020, base | 1);
    let words = (0..16).flat_map(|page| [1024 * page, 1024 * page + 1023]);
    for (number, entry) in words.flat_map(|number| [(number, top - 0x1000 + 1), (number, 1)]) {
        script.entry(number, entry);
        script.register_read(0x1_0000 + 4 * number);
        for offset in [0, 0xFFC] {
            script.window_read(number << 12 | offset, 4);
            script.push(Record::write(Script::WINDOW + (number << 12 | offset), 4, entry, false));
        }
        script.ring(number << 12, 1, 0xFFC, 8);
        script.run(u32::MAX);
    }
    script
}
