//! How many variables, clauses and literals a table has, from the widths and clauses of document 01, node by
//! node and without writing any; and by them the largest tables that there are.

use std::cmp::Reverse;
use std::ops::{Add, Mul};

use super::Table;
use crate::reference::{accepted, Formula, Kind, State};

/// V, M and L of a table, or what a part of it adds to them.
#[derive(Clone, Copy, PartialEq, Debug)]
pub struct Counts(pub [u64; 3]);

impl Counts {
    pub fn of(table: &Table) -> Self {
        Counts([2, 3, 4].map(|at| u64::from(table.sizes[at])))
    }
}

impl Add for Counts {
    type Output = Counts;
    fn add(self, Counts([v, m, l]): Counts) -> Counts {
        Counts([self.0[0] + v, self.0[1] + m, self.0[2] + l])
    }
}

impl Mul<Counts> for u64 {
    type Output = Counts;
    fn mul(self, counts: Counts) -> Counts {
        Counts(counts.0.map(|count| self * count))
    }
}

/// One variable, and the clauses that define it.
const ALONE: Counts = Counts([1, 1, 1]);
const COPY: Counts = Counts([1, 2, 4]);
const NOT: Counts = Counts([1, 2, 4]);
const TWO: Counts = Counts([1, 3, 7]);
const LEVEL: Counts = Counts([1, 4, 11]);
/// A triple: its own three clauses, its (v -w), and its place in (-v w ... w), of which the rest is CHOP.
const TRIPLE: Counts = Counts([1, 3 + 1, 7 + 2 + 1]);
const CHOP: Counts = Counts([1, 1, 1]);
const LAST_CLAUSE: Counts = Counts([0, 1, 1]);

/// For a number of steps.
#[derive(Clone, Copy)]
struct Steps(u64);

impl Steps {
    fn intervals(self) -> u64 {
        (self.0 + 1) * (self.0 + 2) / 2
    }

    fn triples(self) -> u64 {
        (self.0 + 1) * (self.0 + 2) * (self.0 + 3) / 6
    }

    fn duration(self, n: u64) -> Counts {
        self.intervals() * ALONE + n * self.level()
    }

    /// The empty intervals by one clause, the others by a step from the one that is shorter.
    fn level(self) -> Counts {
        let empty = self.0 + 1;
        empty * ALONE + (self.intervals() - empty) * LEVEL
    }

    /// The empty intervals by one clause, those of one instant by a copy, the others by a step from the one that is shorter.
    fn throughout(self) -> Counts {
        let (empty, short) = (self.0 + 1, self.0);
        empty * ALONE + short * COPY + (self.intervals() - empty - short) * TWO
    }

    fn chop(self) -> Counts {
        self.triples() * TRIPLE + self.intervals() * CHOP
    }

    fn state(self, s: &State) -> Counts {
        match s {
            State::Constant(_) => self.0 * ALONE,
            State::Letter(_) => self.0 * COPY,
            State::Not(s) => self.0 * NOT + self.state(s),
            State::Both(s, r) | State::Either(s, r) => self.0 * TWO + self.state(s) + self.state(r),
        }
    }

    fn formula(self, p: &Formula) -> Counts {
        match &p.1 {
            Kind::Constant(_) => self.intervals() * ALONE,
            Kind::Not(q) => self.intervals() * NOT + self.formula(q),
            Kind::Both(q, r) | Kind::Either(q, r) => self.intervals() * TWO + self.formula(q) + self.formula(r),
            Kind::Chop(q, r) => self.chop() + self.formula(q) + self.formula(r),
            Kind::AtLeast(s, n) => self.duration(*n) + self.state(s),
            Kind::Throughout(s) => self.throughout() + self.state(s),
        }
    }
}

/// What belongs to no node.
fn frame(c: u64, k: u64) -> Counts {
    Counts([c * k, 0, 0]) + LAST_CLAUSE
}

/// V, M and L of a text's table, if it is accepted.
pub fn counts(text: &[u8], c: u32, k: u32) -> Option<Counts> {
    let root = accepted(text, c, k).ok()?.root;
    let (c, k) = (u64::from(c), u64::from(k));
    Some(frame(c, k) + Steps(k).formula(&root))
}

// The largest

/// A table with the most of something, and of those the shortest text: what it has, k and the text.
#[derive(Clone)]
pub struct Largest {
    pub count: u64,
    pub k: u64,
    pub text: String,
}

/// The most V (0), M (1) or L (2) of any formula with so many nodes at most, 8 channels, and k and n up to
/// these. No text is too long for it: whether the one that is found is within 255 bytes is for the caller to see.
pub fn largest(which: usize, nodes: usize, most_k: u64, most_n: u64) -> Largest {
    let of_k = |k| {
        let (_, formulas) = largest_by_nodes(which, nodes, Steps(k), most_n);
        let (count, text) = formulas.into_iter().max_by_key(rank).unwrap_or_default();
        Largest { count: count + frame(8, k).0[which], k, text }
    };
    (0..=most_k).map(of_k).max_by_key(|largest| largest.count).expect("there is a k, 0")
}

type Ranked = (u64, String);

fn rank((count, text): &Ranked) -> (u64, Reverse<usize>) {
    (*count, Reverse(text.len()))
}

/// For each number of nodes the largest state assertion and the largest formula with exactly so many. What a node adds
/// does not depend on its parts, so the largest is made of largest parts. (`F` adds what `T` does, `|` what `&` does.)
fn largest_by_nodes(which: usize, nodes: usize, steps: Steps, most_n: u64) -> (Vec<Ranked>, Vec<Ranked>) {
    // No tree has 0 nodes, and none has 1 node and a part.
    let (mut states, mut formulas) = (vec![Ranked::default()], vec![Ranked::default()]);
    for size in 1..=nodes {
        let own = |counts: Counts| counts.0[which];
        let (k, intervals) = (steps.0, steps.intervals());

        let mut ways = vec![];
        if size == 1 {
            ways.push((own(k * ALONE), "T".to_string()));
            ways.push((own(k * COPY), "a".to_string()));
        } else {
            let (part, text) = &states[size - 1];
            ways.push((own(k * NOT) + part, format!("!{text}")));
            ways.extend(pairs(&states, size, own(k * TWO), '&'));
        }
        states.push(ways.into_iter().max_by_key(rank).expect("a way"));

        let mut ways = vec![];
        if size == 1 {
            ways.push((own(intervals * ALONE), "T".to_string()));
        } else {
            let (part, text) = &formulas[size - 1];
            ways.push((own(intervals * NOT) + part, format!("!{text}")));
            ways.extend(pairs(&formulas, size, own(intervals * TWO), '&'));
            ways.extend(pairs(&formulas, size, own(steps.chop()), ';'));
            let (part, text) = &states[size - 1];
            ways.push((own(steps.throughout()) + part, format!("[{text}]")));
            ways.extend((0..=most_n).map(|n| (own(steps.duration(n)) + part, format!("#{text}>={n}"))));
        }
        formulas.push(ways.into_iter().max_by_key(rank).expect("a way"));
    }
    (states, formulas)
}

/// A node with two parts: each way to share the other nodes.
fn pairs(parts: &[Ranked], size: usize, own: u64, sign: char) -> Vec<Ranked> {
    let pair = |left: usize| {
        let ((x, left), (y, right)) = (&parts[left], &parts[size - 1 - left]);
        (own + x + y, format!("({left}{sign}{right})"))
    };
    (1..size - 1).map(pair).collect()
}
