//! A place in memory that a file is read into or written from.

use std::marker::PhantomData;

/// A pointer and a length; it lives no longer than what it points to.
#[derive(Clone, Copy)]
pub struct FileVolatileSlice<'a> {
    start: *mut u8,
    length: usize,
    lent: PhantomData<&'a mut [u8]>,
}

impl FileVolatileSlice<'_> {
    /// The place from `start` on.
    ///
    /// # Safety
    /// These bytes are the caller's for as long as the slice is used.
    pub unsafe fn from_raw_ptr(start: *mut u8, length: usize) -> Self {
        FileVolatileSlice { start, length, lent: PhantomData }
    }

    pub fn as_ptr(&self) -> *mut u8 {
        self.start
    }

    pub fn len(&self) -> usize {
        self.length
    }

    pub fn is_empty(&self) -> bool {
        self.length == 0
    }

    /// What is left behind the first `count` bytes; none where there are fewer.
    pub fn offset(&self, count: usize) -> Option<Self> {
        let length = self.length.checked_sub(count)?;
        Some(FileVolatileSlice { start: self.start.wrapping_add(count), length, lent: PhantomData })
    }
}
