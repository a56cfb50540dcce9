//! Which clauses say that the formula holds?

pub mod counts;
mod readback;
mod second;

use std::fmt;
use std::ptr::null_mut;

use crate::call::{boxed, edge, unpacked, wrong_answers, Asked, Call, Case, Edge, Family, Wanted, Written};
use crate::dice::{channels, chops, formula, levels, Dice, ODD_NUMBERS};
use crate::edges::Columns;
use crate::fault;
use crate::fence::{vast, Side};
use crate::lent::{Lender, Places};
use crate::texts::spoiled;
use counts::{counts, Counts};
pub use readback::{forced, Forced};
pub use second::{table, Table};

extern "C" {
    fn tuv_table(
        text: *const u8,
        text_length: usize,
        c: u32,
        k: u32,
        sizes: *mut u32,
        sizes_length: usize,
        variables: *mut u32,
        variables_length: usize,
        marks: *mut u8,
        marks_length: usize,
    ) -> u64;
}

pub const CALL: Call = Call {
    name: "table",
    line: "table",
    codes: &[1, 2, 3, 4, 5, 6, 7, 18, 66],
    edges,
    on_text,
    families: &[
        Family::new("tables of few steps", 100_000, |dice| boxed(small_tables(dice))),
        Family::new("tables of few nodes", 8_000, narrow_tables),
        Family::new("tables of chops within chops", 1_000, chop_tables),
        Family::new("tables of any size", 1_000, |dice| boxed(any_tables(dice))),
    ],
    long_families: &[],
    vast: &[("a length that is small modulo 2^32", vast_length), ("outputs as long as 2^32", vast_outputs)],
};

/// With the lengths of sizes, variables and marks.
pub struct TableCase {
    pub asked: Asked,
    pub lengths: [usize; 3],
}

impl fmt::Display for TableCase {
    fn fmt(&self, f: &mut fmt::Formatter) -> fmt::Result {
        let TableCase { asked, lengths: [sizes, variables, marks] } = self;
        write!(f, "{asked}, table in {sizes} sizes, {variables} variables, {marks} marks")
    }
}

impl Case for TableCase {
    fn call(&self) -> &'static str {
        CALL.name
    }

    fn wanted(&self) -> Wanted {
        let Asked { text, c, k } = &self.asked;
        let written = second::written(text, *c, *k, self.lengths);
        if let Ok(table) = &written {
            // The lengths that were drawn go by these.
            assert_eq!(counts(text, *c, *k), Some(Counts::of(table)), "for {}", self.asked);
        }
        written.map(Written::Table).into()
    }

    /// What is written is compared, and read back too.
    fn wrong_in(&self, lender: &mut Lender, wanted: &Wanted) -> Option<String> {
        let (answer, lent) = self.answer(lender);
        wanted
            .wrong_answer(answer)
            .or_else(|| lent.wrong(wanted.table()))
            .or_else(|| wanted.table().and_then(|_| readback::wrong(lent.sizes.now(), lent.variables.now(), lent.marks.now())))
    }
}

impl TableCase {
    /// The answer, and the arrays after it.
    pub fn answer(&self, lender: &mut Lender) -> (u64, TablePlaces) {
        let Asked { text, c, k } = &self.asked;
        let (lent_text, mut lent) = (lender.lend(text), TablePlaces::new(lender, self.lengths));
        let ([sizes, variables, marks], (s, v, m)) = (self.lengths, lent.starts());
        // SAFETY: each pointer is to as many places as is said, or null with none; no two arrays overlap.
        let answer = unsafe { tuv_table(lent_text, text.len(), *c, *k, s, sizes, v, variables, m, marks) };
        (answer, lent)
    }

    /// The table that the engine itself writes, if it writes one.
    pub fn own_table(&self, lender: &mut Lender) -> Option<Table> {
        lender.begin(Side::End);
        let (answer, lent) = fault::during(&self, || self.answer(lender));
        (unpacked(answer) == (66, 0)).then(|| lent.table())
    }
}

/// The three arrays that are lent for a table.
pub struct TablePlaces {
    pub sizes: Places<u32>,
    pub variables: Places<u32>,
    pub marks: Places<u8>,
}

impl TablePlaces {
    pub fn new(lender: &mut Lender, [sizes, variables, marks]: [usize; 3]) -> Self {
        TablePlaces { sizes: lender.output(sizes), variables: lender.output(variables), marks: lender.output(marks) }
    }

    pub fn starts(&mut self) -> (*mut u32, *mut u32, *mut u8) {
        (self.sizes.start(), self.variables.start(), self.marks.start())
    }

    /// The table that was written.
    fn table(&self) -> Table {
        let sizes = *self.sizes.now().first_chunk().expect("five sizes");
        let l = sizes[4] as usize;
        Table { sizes, variables: self.variables.now()[..l].to_vec(), marks: self.marks.now()[..l].to_vec() }
    }

    /// Every place is compared, those that are written and those that are not.
    pub fn wrong(&self, wanted: Option<&Table>) -> Option<String> {
        let (sizes, variables, marks): (&[u32], &[u32], &[u8]) = match wanted {
            Some(table) => (&table.sizes, &table.variables, &table.marks),
            None => (&[], &[], &[]),
        };
        let wrong = self.sizes.wrong("sizes", sizes);
        wrong.or_else(|| self.variables.wrong("variables", variables)).or_else(|| self.marks.wrong("marks", marks))
    }
}

fn edges(kind: &str, columns: &mut Columns) -> Vec<Edge> {
    match kind {
        "table" => {
            let (asked, rooms) = (columns.asked(), columns.rooms());
            let wanted = columns.wanted(|columns| Written::Table(columns.table()));
            rooms.into_iter().map(|lengths| edge(TableCase { asked: asked.clone(), lengths }, wanted.clone())).collect()
        }
        "text" => {
            let (asked, answer) = (columns.asked(), columns.answer());
            [[0; 3], [9, 50, 50]].map(|lengths| edge(TableCase { asked: asked.clone(), lengths }, answer)).into()
        }
        _ => vec![],
    }
}

/// Of few steps, since it is the text that is tried.
fn on_text(dice: &mut Dice, asked: Asked, faults: usize) -> Vec<Box<dyn Case>> {
    let is_short = dice.one_in(2);
    let mut case = in_some_room(dice, Asked { k: asked.k % 4, ..asked }, is_short);
    for _ in 0..faults {
        if !spoiled(dice, &mut case.asked) {
            match dice.from(0, 7) {
                array @ 0..=2 => case.lengths[array] = dice.pick(&ODD_NUMBERS).min(300) as usize,
                _ => case.lengths[dice.from(0, 2)] = 0,
            }
        }
    }
    boxed([case])
}

/// Lends what the table needs, or more; or less in some of the arrays. For a refused text nobody knows what it needs.
fn in_some_room(dice: &mut Dice, asked: Asked, is_short: bool) -> TableCase {
    let literals = counts(&asked.text, asked.c, asked.k).map_or(40, |counts| counts.0[2] as usize);
    let short_ones = if is_short { dice.from(1, 7) } else { 0 };
    let needs = [5, literals, literals];
    let lengths = [0, 1, 2].map(|array| {
        let need = needs[array];
        match short_ones >> array & 1 {
            1 => dice.pick(&[need - 1, need - 1, need / 2, 0]),
            _ => need + dice.pick(&[0, 0, 1, 4, 3000]),
        }
    });
    TableCase { asked, lengths }
}

// Families

/// A formula's table where there is room for it, and where there is not.
fn both_rooms(dice: &mut Dice, text: Vec<u8>, c: u32, k: u32) -> Vec<TableCase> {
    [false, true].map(|is_short| in_some_room(dice, Asked { text: text.clone(), c, k }, is_short)).into()
}

pub fn small_tables(dice: &mut Dice) -> Vec<TableCase> {
    let (c, k) = (channels(dice), dice.pick(&[0, 1, 1, 2, 2, 3, 4, 5]));
    let (nodes, levels) = (dice.from(1, 24), levels(dice, k));
    let text = formula(dice, c, levels, nodes);
    both_rooms(dice, text, c, k)
}

fn narrow_tables(dice: &mut Dice) -> Vec<Box<dyn Case>> {
    let (c, k) = (channels(dice), dice.from(0, 32) as u32);
    let (nodes, levels) = (dice.from(1, 6), levels(dice, k));
    let text = formula(dice, c, levels, nodes);
    boxed(both_rooms(dice, text, c, k))
}

fn chop_tables(dice: &mut Dice) -> Vec<Box<dyn Case>> {
    let (c, k) = (channels(dice), dice.from(0, 20) as u32);
    let levels = levels(dice, k / 4);
    let text = chops(dice, c, levels);
    boxed(both_rooms(dice, text, c, k))
}

pub fn any_tables(dice: &mut Dice) -> Vec<TableCase> {
    let (c, k) = (channels(dice), dice.from(0, 32) as u32);
    let (nodes, levels) = (dice.from(1, 64), levels(dice, k));
    let text = formula(dice, c, levels, nodes);
    both_rooms(dice, text, c, k)
}

/// 2^32 + 1 bytes are no text of 1 byte.
fn vast_length() -> Option<String> {
    let length = (1 << 32) + 1;
    let text = vast(b"T", length);
    // SAFETY: it is as long as is said.
    wrong_answers([unsafe { tuv_table(text, length, 1, 0, null_mut(), 0, null_mut(), 0, null_mut(), 0) }], [3])
}

/// 2^32 places are long enough for any table, and not 0 places.
fn vast_outputs() -> Option<String> {
    let (length, text) = (1 << 32, b"T".as_ptr());
    let (places, bytes) = (vast(&[], 4 * length).cast(), vast(&[], length));
    let (mut sizes, mut variables, mut marks) = ([0; 5], [0; 2], [0; 2]);
    let (s, v, m) = (sizes.as_mut_ptr(), variables.as_mut_ptr(), marks.as_mut_ptr());
    // SAFETY: each is as long as is said, and no call has two that overlap.
    let answers = unsafe {
        [
            tuv_table(text, 1, 1, 0, places, length, v, 2, m, 2),
            tuv_table(text, 1, 1, 0, s, 5, places, length, m, 2),
            tuv_table(text, 1, 1, 0, s, 5, v, 2, bytes, length),
        ]
    };
    wrong_answers(answers, [66; 3])
}
