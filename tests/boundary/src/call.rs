//! What the folder of a call gives, so that it is tried like every other.

use std::fmt;

use crate::dice::Dice;
use crate::edges::Columns;
use crate::fault;
use crate::fence::Side;
use crate::lent::Lender;
use crate::reference::{packed, Answer, Refusal};
use crate::table::Table;

pub struct Call {
    pub name: &'static str,
    /// The first word of the lines of `tests/edges.txt` that are its own.
    pub line: &'static str,
    /// Every code that it has. One that no random case meets would be a code that is not tried.
    pub codes: &'static [u32],
    /// What a line of `tests/edges.txt` says of it, given the line's kind and its columns: nothing, if that is not for it.
    pub edges: fn(&str, &mut Columns) -> Vec<Edge>,
    /// Cases of a text that is more likely refused than not, with so many arguments spoiled: none, if it has no text.
    pub on_text: fn(&mut Dice, Asked, usize) -> Vec<Box<dyn Case>>,
    pub families: &'static [Family],
    /// Families that take as long as all else that is tried, and are tried beside it.
    pub long_families: &'static [Family],
    /// Lengths about 2^32, each with what is wrong then.
    pub vast: &'static [(&'static str, fn() -> Option<String>)],
}

/// A call with all that is lent to it.
pub trait Case: fmt::Display {
    /// The name of the call.
    fn call(&self) -> &'static str;

    /// What should come of it, by the second implementation.
    fn wanted(&self) -> Wanted;

    /// Makes the call, in memory that the lender lends: what is wrong with its answer, or with what it wrote?
    fn wrong_in(&self, lender: &mut Lender, wanted: &Wanted) -> Option<String>;

    /// The same on one side of the fences or on the other.
    fn wrong(&self, lender: &mut Lender, wanted: &Wanted) -> Option<String> {
        let wrong = fault::during(&self, || {
            Side::BOTH.into_iter().find_map(|side| {
                lender.begin(side);
                self.wrong_in(lender, wanted)
            })
        });
        wrong.map(|wrong| format!("{self}: {wrong}"))
    }
}

pub type Edge = (Box<dyn Case>, Wanted);

pub fn edge(case: impl Case + 'static, wanted: impl Into<Wanted>) -> Edge {
    (Box::new(case), wanted.into())
}

pub fn boxed<C: Case + 'static>(cases: impl IntoIterator<Item = C>) -> Vec<Box<dyn Case>> {
    cases.into_iter().map(|case| Box::new(case) as Box<dyn Case>).collect()
}

/// A way to draw a few cases that belong together.
pub struct Family {
    pub name: &'static str,
    pub cases: usize,
    pub draw: fn(&mut Dice) -> Vec<Box<dyn Case>>,
    /// Codes that a fifth of the cases must come to, each.
    pub often: &'static [u32],
}

impl Family {
    pub const fn new(name: &'static str, cases: usize, draw: fn(&mut Dice) -> Vec<Box<dyn Case>>) -> Self {
        Family { name, cases, draw, often: &[] }
    }

    pub const fn often(self, often: &'static [u32]) -> Self {
        Family { often, ..self }
    }
}

/// What every call on a text is asked.
#[derive(Clone)]
pub struct Asked {
    pub text: Vec<u8>,
    pub c: u32,
    pub k: u32,
}

impl fmt::Display for Asked {
    fn fmt(&self, f: &mut fmt::Formatter) -> fmt::Result {
        let Asked { text, c, k } = self;
        write!(f, "text '{}' ({} bytes), C {c}, k {k}", text.escape_ascii(), text.len())
    }
}

/// As much of an array as a reader can use.
pub fn shown<T: Copy>(values: &[T]) -> Vec<T> {
    values.iter().take(100).copied().collect()
}

/// What a call should come to: its answer, and what it writes.
#[derive(Clone)]
pub struct Wanted {
    pub answer: Answer,
    pub written: Written,
}

#[derive(Clone)]
pub enum Written {
    Nothing,
    Table(Table),
    File(Vec<u8>),
    Assignment(Vec<u8>),
    Recording(Vec<u8>),
    /// Its answer says how many bytes these are.
    Strip(Vec<u8>),
}

impl From<Answer> for Wanted {
    fn from(answer: Answer) -> Self {
        Wanted { answer, written: Written::Nothing }
    }
}

impl From<Result<Written, Refusal>> for Wanted {
    fn from(result: Result<Written, Refusal>) -> Self {
        match result {
            Ok(written @ Written::Recording(_)) => Wanted { answer: (67, 0), written },
            Ok(Written::Strip(bytes)) => Wanted { answer: (66, bytes.len() as u32), written: Written::Strip(bytes) },
            Ok(written) => Wanted { answer: (66, 0), written },
            Err(refusal) => packed(Err(refusal)).into(),
        }
    }
}

impl Wanted {
    pub fn table(&self) -> Option<&Table> {
        match &self.written {
            Written::Table(table) => Some(table),
            _ => None,
        }
    }

    /// Of a call that writes one array of bytes.
    pub fn bytes(&self) -> &[u8] {
        match &self.written {
            Written::File(bytes) | Written::Assignment(bytes) | Written::Recording(bytes) | Written::Strip(bytes) => bytes,
            Written::Nothing | Written::Table(_) => &[],
        }
    }

    /// What is wrong with a call's answer.
    pub fn wrong_answer(&self, got: u64) -> Option<String> {
        let (got, wanted) = (unpacked(got), self.answer);
        (got != wanted).then(|| format!("answered {got:?}, wanted {wanted:?} (code, value)"))
    }
}

pub fn unpacked(answer: u64) -> Answer {
    (answer as u32, (answer >> 32) as u32)
}

/// What is wrong with several answers that have the value 0.
pub fn wrong_answers<const N: usize>(answers: [u64; N], wanted: [u32; N]) -> Option<String> {
    let (answers, wanted) = (answers.map(unpacked), wanted.map(|code| (code, 0)));
    (answers != wanted).then(|| format!("answered {answers:?}, wanted {wanted:?}"))
}
