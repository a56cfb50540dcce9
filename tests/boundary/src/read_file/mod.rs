//! Reads a table from its clause file.

use std::fmt;

use crate::call::{edge, shown, wrong_answers, Call, Case, Edge, Wanted, Written};
use crate::edges::{Columns, Unit};
use crate::fence::{fill_vast, vast};
use crate::lent::{wrong_places, Lender};
use crate::reference::{yes, Refusal};
use crate::table::{Table, TablePlaces};
use crate::write_file::{bytes, sound};

extern "C" {
    fn tuv_read_file(
        file: *const u8,
        file_length: usize,
        sizes: *mut u32,
        sizes_length: usize,
        variables: *mut u32,
        variables_length: usize,
        marks: *mut u8,
        marks_length: usize,
    ) -> u64;
}

pub const CALL: Call = Call {
    name: "read file",
    line: "read",
    codes: &[15, 16, 17, 18, 66],
    edges,
    on_text: |_, _, _| vec![],
    families: &[], // those of `files`
    long_families: &[],
    vast: &[
        ("a length that is small modulo 2^32", vast_length),
        ("outputs as long as 2^32", vast_outputs),
        ("a file of more than 2^32 bytes", vast_file),
    ],
};

/// A file, and the lengths of sizes, variables and marks.
pub struct ReadFile {
    pub file: Vec<u8>,
    pub lengths: [usize; 3],
}

impl fmt::Display for ReadFile {
    fn fmt(&self, f: &mut fmt::Formatter) -> fmt::Result {
        let ReadFile { file, lengths: [sizes, variables, marks] } = self;
        write!(f, "file of {} bytes {:?} ", file.len(), shown(file))?;
        write!(f, "to {sizes} sizes, {variables} variables, {marks} marks")
    }
}

impl Case for ReadFile {
    fn call(&self) -> &'static str {
        CALL.name
    }

    fn wanted(&self) -> Wanted {
        read(&self.file, self.lengths).map(Written::Table).into()
    }

    fn wrong_in(&self, lender: &mut Lender, wanted: &Wanted) -> Option<String> {
        let ReadFile { file, lengths } = self;
        let (lent_file, mut lent) = (lender.lend(file), TablePlaces::new(lender, *lengths));
        let ([sizes, variables, marks], (s, v, m)) = (*lengths, lent.starts());
        // SAFETY: each pointer is to as many places as is said, or null with none; no two arrays overlap.
        let answer = unsafe { tuv_read_file(lent_file, file.len(), s, sizes, v, variables, m, marks) };
        wanted.wrong_answer(answer).or_else(|| lent.wrong(wanted.table()))
    }
}

fn edges(kind: &str, columns: &mut Columns) -> Vec<Edge> {
    match kind {
        "read" => {
            let (file, rooms) = (columns.bytes(Unit::Pair), columns.rooms());
            let wanted = columns.wanted(|columns| Written::Table(columns.table()));
            rooms.into_iter().map(|lengths| edge(ReadFile { file: file.clone(), lengths }, wanted.clone())).collect()
        }
        "file" => {
            let (table, file) = (columns.table(), columns.bytes(Unit::Pair));
            let l = table.marks.len();
            let (rooms, wanted): (_, Wanted) = match columns.answer() {
                (66, 0) => ([[5, l, l], [8, l + 3, l + 3]], Ok(Written::Table(table)).into()),
                answer => ([[0; 3], [99; 3]], answer.into()),
            };
            rooms.map(|lengths| edge(ReadFile { file: file.clone(), lengths }, wanted.clone())).into()
        }
        _ => vec![],
    }
}

/// The file of a table of two literals.
fn two_literals() -> Vec<u8> {
    bytes(&Table { sizes: [1, 0, 1, 2, 2], variables: vec![1, 1], marks: vec![3, 3] })
}

/// A file of 2^32 + 30 bytes is not one of 30.
fn vast_length() -> Option<String> {
    let length = (1 << 32) + 30;
    let file = vast(&two_literals(), length);
    let (mut s, mut v, mut m) = ([0; 5], [0; 2], [0; 2]);
    // SAFETY: each is as long as is said.
    let answer = unsafe { tuv_read_file(file, length, s.as_mut_ptr(), 5, v.as_mut_ptr(), 2, m.as_mut_ptr(), 2) };
    wrong_answers([answer], [15])
}

/// 2^32 places are long enough, and not 0 places.
fn vast_outputs() -> Option<String> {
    let (length, file) = (1 << 32, two_literals());
    let (places, bytes) = (vast(&[], 4 * length).cast(), vast(&[], length));
    let (mut sizes, mut variables, mut marks) = ([0; 5], [0; 2], [0; 2]);
    let (s, v, m) = (sizes.as_mut_ptr(), variables.as_mut_ptr(), marks.as_mut_ptr());
    // SAFETY: each is as long as is said, and no call has two that overlap.
    let answers = unsafe {
        [
            tuv_read_file(file.as_ptr(), 30, places, length, v, 2, m, 2),
            tuv_read_file(file.as_ptr(), 30, s, 5, places, length, m, 2),
            tuv_read_file(file.as_ptr(), 30, s, 5, v, 2, bytes, length),
        ]
    };
    wrong_answers(answers, [66; 3])
}

/// A file of more than 2^32 bytes before its marks, so that only room is missing; every literal is looked at.
fn vast_file() -> Option<String> {
    let l = 1 << 30;
    let sizes = [1, 0, 1, l as u32, l as u32];
    let file = vast(&bytes(&Table { sizes, variables: vec![], marks: vec![] }), 20 + 5 * l);
    fill_vast::<u32>(file.wrapping_add(20).cast(), l, 1);
    fill_vast::<u8>(file.wrapping_add(20 + 4 * l), l, 3);
    let (mut s, mut v, mut m) = ([0; 5], [0; 1], [0; 1]);
    // SAFETY: each is as long as is said.
    let answer = unsafe { tuv_read_file(file, 20 + 5 * l, s.as_mut_ptr(), 5, v.as_mut_ptr(), 1, m.as_mut_ptr(), 1) };
    wrong_answers([answer], [18]).or_else(|| wrong_places("sizes", &s, &[], 0))
}

// The second implementation. Lengths are counted in 64 bits, where 20 + 5L fits for every L. What it shares with the engine is the
// paper.

/// The sizes' five numbers, of 4 bytes each.
const SIZES: usize = 20;

/// What is read to sizes, variables and marks of these lengths.
fn read(file: &[u8], [sizes, variables, marks]: [usize; 3]) -> Result<Table, Refusal> {
    let table = parts(file).ok_or((15, 0))?;
    sound(&table)?;
    let l = table.marks.len();
    yes(sizes >= 5 && variables >= l && marks >= l, 18)?;
    Ok(table)
}

/// The numbers that these bytes are, four each.
pub fn numbers(bytes: &[u8]) -> Vec<u32> {
    let number = |four: &[u8]| four.iter().rev().fold(0, |above, byte| 256 * above + u32::from(*byte));
    bytes.chunks_exact(4).map(number).collect()
}

/// The parts of a file, if it is as long as it says.
fn parts(file: &[u8]) -> Option<Table> {
    let (sizes, literals) = file.split_at_checked(SIZES)?;
    let sizes: [u32; 5] = numbers(sizes).try_into().ok()?;
    let l = u64::from(sizes[4]);
    if literals.len() as u64 != 5 * l {
        return None;
    }
    let (variables, marks) = literals.split_at(4 * l as usize);
    Some(Table { sizes, variables: numbers(variables), marks: marks.to_vec() })
}
