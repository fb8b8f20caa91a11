//! Memory between two pages that nobody may touch.
use harness::buffer::Element;
use harness::random::Random;
use std::ffi::c_void;
use std::marker::PhantomData;

unsafe extern "C" {
    fn mmap(at: *mut c_void, size: usize, may: i32, sort: i32, file: i32, from: i64)
    -> *mut c_void;
    fn mprotect(at: *mut c_void, size: usize, may: i32) -> i32;
}

const PAGE: usize = 4096;
const NOTHING: i32 = 0;
const READ: i32 = 1;
const READ_AND_WRITE: i32 = 3;
const PRIVATE_AND_OF_NO_FILE: i32 = 0x22;

/// Bytes on the open side of a slice that are looked at.
const MARGIN: usize = 128;
const CANARY: u8 = 0xc5;

/// A slice that stands right at one of the guards.
pub struct Mapping<T> {
    /// the first byte after the first guard
    start: *mut u8,
    size: usize,
    length: usize,
    at_end: bool,
    /// what may be done to it now
    may: i32,
    of: PhantomData<T>,
}

impl<T: Element> Mapping<T> {
    /// Room for slices of up to `most` elements.
    pub fn new(most: usize) -> Mapping<T> {
        let size = (most * size_of::<T>() + MARGIN).next_multiple_of(PAGE);
        let null = std::ptr::null_mut();
        // Safe: new memory, of which only the part between the guards is used.
        let start = unsafe {
            let all = mmap(
                null,
                size + 2 * PAGE,
                NOTHING,
                PRIVATE_AND_OF_NO_FILE,
                -1,
                0,
            );
            assert_ne!(all as isize, -1, "mmap");
            all.cast::<u8>().add(PAGE)
        };
        let mut mapping = Mapping {
            start,
            size,
            length: 0,
            at_end: false,
            may: NOTHING,
            of: PhantomData,
        };
        mapping.allow(READ_AND_WRITE);
        mapping
    }

    fn allow(&mut self, may: i32) {
        if self.may == may {
            return;
        }
        self.may = may;
        // Safe: whole pages of our own.
        let done = unsafe { mprotect(self.start.cast(), self.size, may) };
        assert_eq!(done, 0, "mprotect");
    }

    fn bytes(&self) -> usize {
        self.length * size_of::<T>()
    }

    /// Where the slice begins, in bytes after the first guard.
    fn from(&self) -> usize {
        if self.at_end {
            self.size - self.bytes()
        } else {
            0
        }
    }

    /// Where the margin on its open side begins.
    fn margin(&self) -> usize {
        if self.at_end {
            self.from() - MARGIN
        } else {
            self.bytes()
        }
    }

    /// Puts a slice at the end or at the start. The one before is no longer used.
    pub fn put(&mut self, data: &[T], random: &mut Random) {
        (self.length, self.at_end) = (data.len(), random.once_in(2));
        assert!(self.bytes() + MARGIN <= self.size);
        self.allow(READ_AND_WRITE);
        // Safe: the margin and the slice lie between the guards.
        unsafe { self.start.add(self.margin()).write_bytes(CANARY, MARGIN) };
        self.slice_mut().copy_from_slice(data);
    }

    /// Puts a slice that may only be read until the next is put.
    pub fn lend(&mut self, data: &[T], random: &mut Random) {
        self.put(data, random);
        self.allow(READ);
    }

    pub fn slice(&self) -> &[T] {
        // Safe: `length` elements stand there since `put`, rightly aligned, as both ends are pages'.
        unsafe { std::slice::from_raw_parts(self.start.add(self.from()).cast(), self.length) }
    }

    pub fn slice_mut(&mut self) -> &mut [T] {
        // Safe: as above, and the mapping is borrowed.
        unsafe { std::slice::from_raw_parts_mut(self.start.add(self.from()).cast(), self.length) }
    }

    /// The open side is as it was; the other would have been a fault.
    pub fn is_kept_around(&self) {
        // Safe: the margin lies between the guards.
        let margin = unsafe { std::slice::from_raw_parts(self.start.add(self.margin()), MARGIN) };
        assert!(
            margin.iter().all(|byte| *byte == CANARY),
            "written outside of a slice"
        );
    }
}
