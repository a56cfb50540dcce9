//! Document 01's clause file, written down a second time from the paper alone. Lengths are counted in 64 bits, where
//! 20 + 5L fits for every L. What it shares with the engine is the paper.

use crate::reference::{yes, Refusal};
use crate::table::Table;

/// The bytes that are written to a file of that length.
pub fn written(table: &Table, room: usize) -> Result<Vec<u8>, Refusal> {
    let [.., l] = table.sizes;
    let is_l = |length| length as u64 == u64::from(l);
    yes(is_l(table.variables.len()) && is_l(table.marks.len()), 15)?;
    sound(table)?;
    let file = bytes(table);
    yes(room >= file.len(), 18)?;
    Ok(file)
}

/// Questions 16 and 17.
pub fn sound(Table { sizes: [c, k, v, m, _], variables, marks }: &Table) -> Result<(), Refusal> {
    let numbers = (1..=8).contains(c) && *k <= 32 && variables.iter().all(|variable| (1..=*v).contains(variable));
    yes(numbers && marks.iter().all(|mark| *mark <= 3), 16)?;
    let last_is_open = marks.last().is_some_and(|mark| !is_closing(mark));
    yes(closing(marks) == *m && !last_is_open, 17)
}

fn is_closing(mark: &u8) -> bool {
    [2, 3].contains(mark)
}

/// How many marks are closing.
pub fn closing(marks: &[u8]) -> u32 {
    marks.iter().filter(|mark| is_closing(mark)).count() as u32
}

/// Sizes, variables and marks one after another, whether they are a table's or not.
pub fn bytes(table: &Table) -> Vec<u8> {
    let low_first = |number: &u32| [0, 8, 16, 24].map(|bits| (number >> bits) as u8);
    let numbers = table.sizes.iter().chain(&table.variables).flat_map(low_first);
    numbers.chain(table.marks.iter().copied()).collect()
}
