//! Reads `tests/edges.txt`, which says itself how its lines are written.

use std::str::{FromStr, SplitWhitespace};

use crate::call::{Asked, Call, Edge, Wanted, Written};
use crate::reference::Answer;
use crate::table::Table;

const LINES: &str = include_str!("../../edges.txt");

pub fn lines() -> impl Iterator<Item = &'static str> {
    LINES.lines().filter(|line| !line.is_empty() && !line.starts_with('/'))
}

/// What a line says of a call.
pub fn edges(call: &Call, line: &'static str) -> Vec<Edge> {
    let mut columns = Columns { line, rest: line.split_whitespace() };
    let edges = (call.edges)(columns.next(), &mut columns);
    assert!(edges.is_empty() || columns.rest.next().is_none(), "tests/edges.txt: a column too many: {line}");
    edges
}

/// The lines that are of several calls.
const OF_SEVERAL: [&str; 3] = ["text", "extends", "file"];

/// A kind of lines of which there is none, so that something would not be tried.
pub fn missing_kind(calls: &[&Call]) -> Option<&'static str> {
    let has = |kind: &str| lines().any(|line| line.split_whitespace().next() == Some(kind));
    calls.iter().map(|call| call.line).chain(OF_SEVERAL).find(|kind| !has(kind))
}

/// A line's columns, one after the other.
pub struct Columns {
    line: &'static str,
    rest: SplitWhitespace<'static>,
}

/// How a byte is written.
#[derive(Clone, Copy)]
pub enum Unit {
    Character,
    Digit,
    Pair,
    /// A character of a strip.
    Drawn,
}

impl Columns {
    fn malformed<T>(&self, why: &str) -> T {
        panic!("tests/edges.txt: {why}: {}", self.line)
    }

    fn next(&mut self) -> &'static str {
        self.rest.next().unwrap_or_else(|| self.malformed("a column is missing"))
    }

    fn parsed<N: FromStr>(&self, word: &str) -> N {
        word.parse().unwrap_or_else(|_| self.malformed("no number"))
    }

    pub fn number<N: FromStr>(&mut self) -> N {
        let word = self.next();
        self.parsed(word)
    }

    fn list<N: FromStr>(&self, word: &str) -> Vec<N> {
        word.split(',').filter(|_| word != "-").map(|number| self.parsed(number)).collect()
    }

    fn exactly<const N: usize, T: FromStr>(&self, word: &str) -> [T; N] {
        self.list(word).try_into().unwrap_or_else(|_| self.malformed("more or fewer numbers"))
    }

    pub fn numbers<const N: usize, T: FromStr>(&mut self) -> [T; N] {
        let word = self.next();
        self.exactly(word)
    }

    /// Several of which each is to be tried.
    pub fn each<const N: usize, T: FromStr>(&mut self) -> Vec<[T; N]> {
        self.next().split('|').map(|numbers| self.exactly(numbers)).collect()
    }

    /// The lengths of so many arrays.
    pub fn rooms<const N: usize>(&mut self) -> Vec<[usize; N]> {
        self.each()
    }

    pub fn bytes(&mut self, unit: Unit) -> Vec<u8> {
        let word = self.next();
        self.spelt(word, unit)
    }

    fn spelt(&self, word: &str, unit: Unit) -> Vec<u8> {
        let Some((before, repeated)) = word.split_once('{') else {
            return if word == "-" { vec![] } else { self.plain(word, unit) };
        };
        let parts = repeated.split_once('}').and_then(|(part, after)| Some((part.split_once('*')?, after)));
        let ((times, part), after) = parts.unwrap_or_else(|| self.malformed("nothing is repeated"));
        [self.plain(before, unit), self.plain(part, unit).repeat(self.parsed(times)), self.spelt(after, unit)].concat()
    }

    /// Without anything repeated.
    fn plain(&self, word: &str, unit: Unit) -> Vec<u8> {
        let (mut bytes, mut rest) = (vec![], word);
        let pair = |digits: &str| u8::from_str_radix(digits, 16).unwrap_or_else(|_| self.malformed("no two digits"));
        while let Some(sign) = rest.chars().next() {
            let (byte, length) = match (sign, unit) {
                ('\\', _) => (pair(rest.get(2..4).unwrap_or("")), 4),
                (_, Unit::Character) => (sign as u8, 1),
                ('.', Unit::Drawn) => (b' ', 1),
                ('|', Unit::Drawn) => (b'\n', 1),
                (_, Unit::Drawn) => (sign as u8, 1),
                ('.', _) => {
                    rest = &rest[1..];
                    continue;
                }
                ('<', _) => {
                    let (numbers, after) = rest[1..].split_once('>').unwrap_or_else(|| self.malformed("no end of numbers"));
                    bytes.extend(self.list(numbers).into_iter().flat_map(u32::to_le_bytes));
                    rest = after;
                    continue;
                }
                (_, Unit::Digit) => (self.parsed(&rest[..1]), 1),
                (_, Unit::Pair) => (pair(rest.get(..2).unwrap_or("")), 2),
            };
            bytes.push(byte);
            rest = &rest[length..];
        }
        bytes
    }

    /// Sizes and literals.
    pub fn table(&mut self) -> Table {
        let (sizes, literals): ([u32; 5], _) = (self.numbers(), self.next());
        if let Some(clauses) = literals.strip_prefix('(').and_then(|rest| rest.strip_suffix(')')) {
            let [c, k, v, ..] = sizes;
            let clauses: Vec<i32> = clauses.split(")(").flat_map(|clause| [self.list(clause), vec![0]].concat()).collect();
            let table = Table::new(c, k, v, &clauses);
            assert_eq!(table.sizes, sizes, "tests/edges.txt: {}", self.line);
            return table;
        }
        let (variables, marks) = literals.split_once('/').unwrap_or(("-", "-"));
        Table { sizes, variables: self.list(variables), marks: self.spelt(marks, Unit::Digit) }
    }

    pub fn answer(&mut self) -> Answer {
        let word = self.next();
        let (name, value) = word.split_once(':').unwrap_or((word, "0"));
        let code = match name {
            "no" => 64,
            "yes" => 65,
            "written" => 66,
            "accepted" => 67,
            "found" => 68,
            "none" => 69,
            "spent" => 70,
            "part" => 71,
            _ => self.parsed(name),
        };
        let (first, length) = value.split_once('+').unwrap_or((value, "0"));
        (code, self.parsed::<u32>(first) + 256 * self.parsed::<u32>(length))
    }

    /// The answer, and what is written where it says that something is.
    pub fn wanted(&mut self, written: fn(&mut Self) -> Written) -> Wanted {
        let answer = self.answer();
        let is_written = [66, 67, 68].contains(&answer.0);
        Wanted { answer, written: if is_written { written(self) } else { Written::Nothing } }
    }

    /// What all calls on a text are asked.
    pub fn asked(&mut self) -> Asked {
        let (c, k) = (self.number(), self.number());
        Asked { text: self.bytes(Unit::Character), c, k }
    }
}

pub fn recording_written(columns: &mut Columns) -> Written {
    Written::Recording(columns.bytes(Unit::Pair))
}

pub fn is_accepted(wanted: Answer) -> bool {
    wanted == (67, 0)
}
