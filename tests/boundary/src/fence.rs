//! Memory to lend, with a page on either side that no one may touch. What is lent ends right before the one
//! or begins right after the other, so a byte read or written beyond it is a fault. What is lent to be read
//! is read-only, so there a byte written anywhere is one.

use std::ffi::{c_char, c_int, c_uint, c_void};
use std::ptr::null_mut;

extern "C" {
    fn memfd_create(name: *const c_char, flags: c_uint) -> c_int;
    fn ftruncate(file: c_int, length: i64) -> c_int;
    fn mmap(at: *mut c_void, length: usize, rights: c_int, flags: c_int, file: c_int, offset: i64) -> *mut c_void;
}

const NOTHING: c_int = 0;
const READ: c_int = 1;
const WRITE: c_int = 2;
const SHARED: c_int = 1;
const PRIVATE: c_int = 2;
const FIXED: c_int = 0x10;
const ANONYMOUS: c_int = 0x20;
const NO_RESERVE: c_int = 0x4000;

/// A multiple of every page size in use.
const PAGES: usize = 1 << 16;

#[derive(Clone, Copy)]
pub enum Side {
    Start,
    End,
}

impl Side {
    pub const BOTH: [Side; 2] = [Side::Start, Side::End];

    /// Where so many bytes begin in the room.
    fn first(self, bytes: usize) -> usize {
        assert!(bytes <= ROOM);
        match self {
            Side::Start => 0,
            Side::End => ROOM - bytes,
        }
    }
}

/// More bytes than any array has that is tried, but for those of `vast`: the file of the largest table has 26,632,090.
const ROOM: usize = 30_000_000_usize.next_multiple_of(PAGES);

/// One memory seen twice: here it is filled, there it is lent.
pub struct Fence {
    filled: *mut u8,
    lent: *const u8,
}

fn map(at: *mut u8, length: usize, rights: c_int, flags: c_int, file: c_int) -> *mut u8 {
    // SAFETY: new memory, or (FIXED) a part of memory that this module has mapped and not yet used.
    let memory = unsafe { mmap(at.cast(), length, rights, flags, file, 0) };
    assert!(memory as isize != -1, "mmap of {length} bytes: {}", std::io::Error::last_os_error());
    memory.cast()
}

/// Where memory of this length is to be mapped between two fences.
fn between_fences(length: usize) -> *mut u8 {
    map(null_mut(), length + 2 * PAGES, NOTHING, PRIVATE | ANONYMOUS, -1).wrapping_add(PAGES)
}

/// Memory that can be mapped more than once.
fn memory_file(length: usize) -> c_int {
    // SAFETY: a name that ends in 0, and a file of our own.
    let file = unsafe { memfd_create(c"lent".as_ptr(), 0) };
    let sized = unsafe { ftruncate(file, length as i64) };
    assert!(sized == 0, "memfd_create: {}", std::io::Error::last_os_error());
    file
}

impl Fence {
    /// Of its room a page is only there once it is used.
    pub fn new() -> Self {
        let file = memory_file(ROOM);
        let filled = map(null_mut(), ROOM, READ | WRITE, SHARED, file);
        let lent = map(between_fences(ROOM), ROOM, READ, SHARED | FIXED, file);
        Fence { filled, lent }
    }

    /// Lends a copy of the values on a side. (Nothing, lent on a side, is an address in or beside the
    /// fence, and not null.)
    pub fn lend<T: Copy>(&mut self, values: &[T], side: Side) -> *const T {
        let at = side.first(size_of_val(values));
        // SAFETY: within the room, which no reference points to.
        unsafe { self.filled.add(at).cast::<T>().copy_from_nonoverlapping(values.as_ptr(), values.len()) };
        self.lent.wrapping_add(at).cast()
    }
}

/// Memory to be written, of numbers that any bytes are.
pub struct Output(*mut u8);

impl Output {
    /// Of its room a page is only there once it is used.
    pub fn new() -> Self {
        let flags = PRIVATE | FIXED | ANONYMOUS | NO_RESERVE;
        Output(map(between_fences(ROOM), ROOM, READ | WRITE, flags, -1))
    }

    /// Lends so many places on a side with what was left there.
    pub fn lend<T: Copy>(&mut self, length: usize, side: Side) -> *mut T {
        self.0.wrapping_add(side.first(length * size_of::<T>())).cast()
    }
}

/// Zeros, so many that their number does not fit 32 bits, after the given bytes.
pub fn vast(bytes: &[u8], length: usize) -> *mut u8 {
    let memory = map(null_mut(), length, READ | WRITE, PRIVATE | ANONYMOUS | NO_RESERVE, -1);
    // SAFETY: memory of that length and our own.
    unsafe { memory.copy_from_nonoverlapping(bytes.as_ptr(), bytes.len()) };
    memory
}

/// One value in each of so many places of such memory: a few pages, mapped again and again, and what is left before and after.
pub fn fill_vast<T: Copy>(first: *mut T, places: usize, value: T) {
    let (window, per_window) = (256 * PAGES, 256 * PAGES / size_of::<T>());
    // SAFETY: within memory of our own.
    let fill = |first: *mut T, places| (0..places).for_each(|at| unsafe { first.add(at).write(value) });
    let file = memory_file(window);
    fill(map(null_mut(), window, READ | WRITE, SHARED, file).cast(), per_window);

    let before = first.align_offset(PAGES).min(places);
    let (windows, after) = ((places - before) / per_window, (places - before) % per_window);
    fill(first, before);
    for at in 0..windows {
        map(first.wrapping_add(before + at * per_window).cast(), window, READ, SHARED | FIXED, file);
    }
    fill(first.wrapping_add(before + windows * per_window), after);
}
