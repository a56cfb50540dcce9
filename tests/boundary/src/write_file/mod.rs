//! Writes a table's clause file.

mod second;

use std::fmt;

use crate::call::{edge, shown, wrong_answers, Call, Case, Edge, Wanted, Written};
use crate::edges::{Columns, Unit};
use crate::fence::{fill_vast, vast, Output, Side};
use crate::lent::{fill, wrong_places, Lender};
use crate::table::Table;
pub use second::{bytes, closing, sound};

extern "C" {
    fn tuv_write_file(
        c: u32,
        k: u32,
        v: u32,
        m: u32,
        l: u32,
        variables: *const u32,
        variables_length: usize,
        marks: *const u8,
        marks_length: usize,
        file: *mut u8,
        file_length: usize,
    ) -> u64;
}

pub const CALL: Call = Call {
    name: "write file",
    line: "write",
    codes: &[15, 16, 17, 18, 66],
    edges,
    on_text: |_, _, _| vec![],
    families: &[], // those of `files`
    long_families: &[],
    vast: &[
        ("arrays whose lengths are small modulo 2^32", vast_lengths),
        ("an output as long as 2^32", vast_output),
        ("a table whose file has more than 2^32 bytes", vast_table),
    ],
};

/// Sizes and arrays, whether they are a table's or not, and the length of the file.
pub struct WriteFile {
    pub table: Table,
    pub room: usize,
}

impl fmt::Display for WriteFile {
    fn fmt(&self, f: &mut fmt::Formatter) -> fmt::Result {
        let WriteFile { table: Table { sizes, variables, marks }, room } = self;
        write!(f, "sizes {sizes:?}, {} variables {:?}, ", variables.len(), shown(variables))?;
        write!(f, "{} marks {:?} to a file of {room} bytes", marks.len(), shown(marks))
    }
}

impl Case for WriteFile {
    fn call(&self) -> &'static str {
        CALL.name
    }

    fn wanted(&self) -> Wanted {
        second::written(&self.table, self.room).map(Written::File).into()
    }

    fn wrong_in(&self, lender: &mut Lender, wanted: &Wanted) -> Option<String> {
        let WriteFile { table: Table { sizes: [c, k, v, m, l], variables, marks }, room } = self;
        let (lent_variables, lent_marks, mut file) = (lender.lend(variables), lender.lend(marks), lender.output(*room));
        let to = file.start();
        // SAFETY: each pointer is to as many places as is said, or null with none; no two arrays overlap.
        let answer =
            unsafe { tuv_write_file(*c, *k, *v, *m, *l, lent_variables, variables.len(), lent_marks, marks.len(), to, *room) };
        wanted.wrong_answer(answer).or_else(|| file.wrong("file", wanted.bytes()))
    }
}

fn edges(kind: &str, columns: &mut Columns) -> Vec<Edge> {
    match kind {
        "write" => {
            let (table, rooms) = (columns.table(), columns.rooms());
            let wanted = columns.wanted(|columns| Written::File(columns.bytes(Unit::Pair)));
            rooms.into_iter().map(|[room]| edge(WriteFile { table: table.clone(), room }, wanted.clone())).collect()
        }
        "file" => {
            let (table, file) = (columns.table(), columns.bytes(Unit::Pair));
            let (rooms, wanted): (_, Wanted) = match columns.answer() {
                (66, 0) => ([file.len(), file.len() + 3], Ok(Written::File(file)).into()),
                answer => ([0, 99], answer.into()),
            };
            rooms.map(|room| edge(WriteFile { table: table.clone(), room }, wanted.clone())).into()
        }
        _ => vec![],
    }
}

/// Arrays of 2^32 + 2 places are not of 2.
fn vast_lengths() -> Option<String> {
    let (two, variables, marks) = ((1 << 32) + 2, [1, 1], [3, 3]);
    let (places, bytes) = (vast(&[1, 0, 0, 0, 1, 0, 0, 0], 4 * two).cast(), vast(&marks, two));
    let mut written = [0; 30];
    let to = written.as_mut_ptr();
    // SAFETY: each is as long as is said.
    let answers = unsafe {
        [
            tuv_write_file(1, 0, 1, 2, 2, places, two, marks.as_ptr(), 2, to, 30),
            tuv_write_file(1, 0, 1, 2, 2, variables.as_ptr(), 2, bytes, two, to, 30),
        ]
    };
    wrong_answers(answers, [15; 2])
}

/// 2^32 bytes are long enough, and not 0 bytes.
fn vast_output() -> Option<String> {
    let (length, variables, marks) = (1 << 32, [1, 1], [3, 3]);
    let to = vast(&[], length);
    // SAFETY: each is as long as is said, and no two overlap.
    wrong_answers([unsafe { tuv_write_file(1, 0, 1, 2, 2, variables.as_ptr(), 2, marks.as_ptr(), 2, to, length) }], [66])
}

/// A table whose file has 2^32 + 4 bytes does not fit 4; every literal is looked at.
fn vast_table() -> Option<String> {
    let l = 858_993_456;
    let (variables, marks) = (vast(&[], 4 * l).cast(), vast(&[], l));
    fill_vast::<u32>(variables, l, 1);
    fill_vast::<u8>(marks, l, 3);
    let mut written = Output::new();
    let to: *mut u8 = written.lend(4, Side::End);
    // SAFETY: four bytes between fences.
    let file = unsafe { std::slice::from_raw_parts_mut(to, 4) };
    file.fill(fill(Side::End));
    // SAFETY: each is as long as is said.
    let answer = unsafe { tuv_write_file(1, 0, 1, l as u32, l as u32, variables, l, marks, l, to, 4) };
    wrong_answers([answer], [18]).or_else(|| wrong_places("file", file, &[], fill(Side::End)))
}
