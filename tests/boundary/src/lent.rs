//! What is lent to a call, on a side of the fences, and what of it is compared afterwards.

use std::ptr::{null, null_mut};

use crate::fence::{Fence, Output, Side};

/// Lends the arrays of a call one after another, each between fences of its own.
pub struct Lender {
    side: Side,
    to_read: Vec<Fence>,
    to_write: Vec<Output>,
    /// How many are lent.
    read: usize,
    written: usize,
}

impl Lender {
    pub fn new() -> Self {
        Lender { side: Side::Start, to_read: vec![], to_write: vec![], read: 0, written: 0 }
    }

    /// For one call: all that was lent before is given back.
    pub fn begin(&mut self, side: Side) {
        (self.side, self.read, self.written) = (side, 0, 0);
    }

    /// A copy of these values, to be read. None are null on the one side, and the fence itself on the other.
    pub fn lend<T: Copy>(&mut self, values: &[T]) -> *const T {
        if self.read == self.to_read.len() {
            self.to_read.push(Fence::new());
        }
        self.read += 1;
        match self.side {
            Side::Start if values.is_empty() => null(),
            side => self.to_read[self.read - 1].lend(values, side),
        }
    }

    /// Places to be written, each of them filled.
    pub fn output<T: Number>(&mut self, length: usize) -> Places<T> {
        let mut places = self.left(length);
        places.all().fill(T::of(fill(self.side)));
        places
    }

    /// Places with what was left there by a call before.
    pub fn left<T: Number>(&mut self, length: usize) -> Places<T> {
        if self.written == self.to_write.len() {
            self.to_write.push(Output::new());
        }
        self.written += 1;
        Places { first: self.to_write[self.written - 1].lend(length, self.side), length, side: self.side }
    }
}

/// What outputs are filled with: not the same on either side, so that what goes by it differs, and a place that is not
/// written is not what was wanted on one side at least.
pub fn fill(side: Side) -> u8 {
    match side {
        Side::Start => 0xaa,
        Side::End => 0x55,
    }
}

/// A number that any bytes are.
pub trait Number: Copy + PartialEq + std::fmt::Display {
    /// All of its bytes are this one.
    fn of(byte: u8) -> Self;
}

impl Number for u8 {
    fn of(byte: u8) -> Self {
        byte
    }
}

impl Number for u32 {
    fn of(byte: u8) -> Self {
        u32::from_ne_bytes([byte; 4])
    }
}

/// Places that are lent until the lender begins anew.
pub struct Places<T> {
    first: *mut T,
    length: usize,
    side: Side,
}

impl<T: Number> Places<T> {
    /// What a call is handed.
    pub fn start(&mut self) -> *mut T {
        match self.side {
            Side::Start if self.length == 0 => null_mut(),
            _ => self.first,
        }
    }

    pub fn all(&mut self) -> &mut [T] {
        // SAFETY: an output of so many places, lent once, and between fences as long as the lender lives.
        unsafe { std::slice::from_raw_parts_mut(self.first, self.length) }
    }

    pub fn now(&self) -> &[T] {
        // SAFETY: as above.
        unsafe { std::slice::from_raw_parts(self.first, self.length) }
    }

    /// The first place that is not what was wanted there, or beyond that not what it was filled with.
    pub fn wrong(&self, name: &str, wanted: &[T]) -> Option<String> {
        wrong_places(name, self.now(), wanted, T::of(fill(self.side)))
    }
}

pub fn wrong_places<T: Number>(name: &str, got: &[T], wanted: &[T], fill: T) -> Option<String> {
    let (written, beyond) = got.split_at(wanted.len());
    if written == wanted && beyond.iter().all(|value| *value == fill) {
        return None;
    }
    let at = (0..got.len()).find(|at| got[*at] != *wanted.get(*at).unwrap_or(&fill))?;
    Some(match wanted.get(at) {
        Some(value) if got[at] == fill => format!("{name}[{at}] is not written, wanted {value}"),
        Some(value) => format!("{name}[{at}] is {}, wanted {value}", got[at]),
        None => format!("{name}[{at}] is written ({}), and should not be", got[at]),
    })
}
