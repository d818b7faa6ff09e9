//! A cell of 1 to 64 words that several threads read and write, each read whole.
//!
//! The reads and writes are those of a library that is proved (its contracts are in `crates/cell_c/src/lib.rt`). This crate is
//! the safe Rust over it: it is not proved, and what it has to keep to is below, under `SAFETY`.
//!
//! ```
//! use solero_cell::Seat;
//!
//! let mut seat = Seat::open(&[1, 2]).unwrap();
//! let mut other = seat.split().unwrap();
//! let writer = std::thread::spawn(move || other.write(&[3, 4]));
//! assert_eq!(writer.join().unwrap(), Ok(1));
//! let mut out = [0; 2];
//! assert_eq!(seat.read(&mut out), Ok(1));
//! assert_eq!(out, [3, 4]);
//! ```

use std::fmt;

/// The most words of a cell.
pub const MOST_WORDS: usize = 64;

#[repr(C)]
struct RawSeat {
    at: *mut u8,
}

// In `crates/cell_c/src/lib.rt` a `Global` takes no bytes, and a slice is a pointer and a length.
unsafe extern "C" {
    fn cell_c_open(values: *const u64, len: usize, count: u64, seat: *mut RawSeat) -> u32;
    fn cell_c_open_latch(values: *const u64, len: usize, count: u64, seat: *mut RawSeat) -> u32;
    fn cell_c_close(seat: *mut RawSeat);
    fn cell_c_split(seat: *mut RawSeat, other: *mut RawSeat) -> u32;
    fn cell_c_read(seat: *mut RawSeat, out: *mut u64, len: usize, count: *mut u64) -> u32;
    fn cell_c_read_into(seat: *mut RawSeat, out: *mut u64, len: usize, count: *mut u64) -> u32;
    fn cell_c_write(seat: *mut RawSeat, values: *const u64, len: usize, count: *mut u64) -> u32;
}

/// What opens a cell of either kind.
type Open = unsafe extern "C" fn(*const u64, usize, u64, *mut RawSeat) -> u32;

/// A seat at a cell, from which one thread at a time reads and writes it.
pub struct Seat {
    raw: RawSeat,
}

// SAFETY: the library is proved to let a seat go to another thread (`Send` of `Seat`, in `crates/cell_c`), and `&Seat` gives no
// access.
unsafe impl Send for Seat {}
unsafe impl Sync for Seat {}

/// Why a cell was not opened, or a seat not split.
#[derive(Clone, Copy, Debug, PartialEq, Eq)]
pub enum OpenError {
    /// A cell has 1 to 64 words.
    Length,
    /// A count is below 2^62.
    Count,
    /// There was no memory.
    Memory,
}

/// Why a read or a write did not succeed. Nothing was changed, but for the words of `read_into`.
#[derive(Clone, Copy, Debug, PartialEq, Eq)]
pub enum TryError {
    /// The cell has another number of words.
    Length,
    /// Another write is under way. Try again. No read of a latch cell answers this.
    NotFree,
    /// Another write came between. Try again.
    Changed,
    /// The cell has its last count, 2^62 - 1: it can't be written any more.
    Full,
}

impl fmt::Display for OpenError {
    fn fmt(&self, f: &mut fmt::Formatter<'_>) -> fmt::Result {
        f.write_str(match self {
            OpenError::Length => "a cell has 1 to 64 words",
            OpenError::Count => "a count is below 2^62",
            OpenError::Memory => "out of memory",
        })
    }
}

impl std::error::Error for OpenError {}

impl fmt::Display for TryError {
    fn fmt(&self, f: &mut fmt::Formatter<'_>) -> fmt::Result {
        f.write_str(match self {
            TryError::Length => "the cell has another number of words",
            TryError::NotFree => "another write is under way",
            TryError::Changed => "another write came between",
            TryError::Full => "the cell has its last count",
        })
    }
}

impl std::error::Error for TryError {}

fn tried(answer: u32, count: u64) -> Result<u64, TryError> {
    match answer {
        0 => Ok(count),
        2 => Err(TryError::Length),
        5 => Err(TryError::NotFree),
        6 => Err(TryError::Changed),
        7 => Err(TryError::Full),
        other => unreachable!("{other}"),
    }
}

impl Seat {
    /// A new cell with these words, under the count 0.
    pub fn open(values: &[u64]) -> Result<Seat, OpenError> {
        Seat::open_at(values, 0)
    }

    /// A new cell with these words, under this count.
    pub fn open_at(values: &[u64], count: u64) -> Result<Seat, OpenError> {
        Seat::opened(cell_c_open, values, count)
    }

    /// A new latch cell with these words, under the count 0. It has two copies of its words, and no write holds up its reads:
    /// they fail with `Changed` alone, where in each of two attempts a whole write ended.
    pub fn open_latch(values: &[u64]) -> Result<Seat, OpenError> {
        Seat::open_latch_at(values, 0)
    }

    /// A new latch cell with these words, under this count.
    pub fn open_latch_at(values: &[u64], count: u64) -> Result<Seat, OpenError> {
        Seat::opened(cell_c_open_latch, values, count)
    }

    fn opened(open: Open, values: &[u64], count: u64) -> Result<Seat, OpenError> {
        let mut raw = RawSeat {
            at: std::ptr::null_mut(),
        };
        // SAFETY: the pointers are those of references that are held for the call; `raw` is no seat.
        match unsafe { open(values.as_ptr(), values.len(), count, &mut raw) } {
            0 => Ok(Seat { raw }),
            2 => Err(OpenError::Length),
            3 => Err(OpenError::Count),
            _ => Err(OpenError::Memory),
        }
    }

    /// One more seat of the same cell, for another thread.
    pub fn split(&mut self) -> Result<Seat, OpenError> {
        let mut raw = RawSeat {
            at: std::ptr::null_mut(),
        };
        // SAFETY: as in `opened`; `&mut self` makes this the one call that has the seat.
        match unsafe { cell_c_split(&mut self.raw, &mut raw) } {
            0 => Ok(Seat { raw }),
            _ => Err(OpenError::Memory),
        }
    }

    /// Reads all words of one count into `out`, and answers that count. After an error `out` is as it was.
    #[inline]
    pub fn read(&mut self, out: &mut [u64]) -> Result<u64, TryError> {
        let mut count = 0;
        // SAFETY: as in `split`.
        let answer = unsafe { cell_c_read(&mut self.raw, out.as_mut_ptr(), out.len(), &mut count) };
        tried(answer, count)
    }

    /// The same straight into `out`, which takes less time. After an error but `Length` the words of `out` are any.
    #[inline]
    pub fn read_into(&mut self, out: &mut [u64]) -> Result<u64, TryError> {
        let mut count = 0;
        // SAFETY: as in `split`.
        let answer =
            unsafe { cell_c_read_into(&mut self.raw, out.as_mut_ptr(), out.len(), &mut count) };
        tried(answer, count)
    }

    /// Writes all words under the next count, and answers it. After an error nothing was written.
    #[inline]
    pub fn write(&mut self, values: &[u64]) -> Result<u64, TryError> {
        let mut count = 0;
        // SAFETY: as in `split`.
        let answer =
            unsafe { cell_c_write(&mut self.raw, values.as_ptr(), values.len(), &mut count) };
        tried(answer, count)
    }
}

impl Drop for Seat {
    fn drop(&mut self) {
        // SAFETY: as in `split`.
        unsafe { cell_c_close(&mut self.raw) }
    }
}
