//! Document 01's clause table, written down a second time from the paper alone: each kind of node has its
//! loop, with the clauses as the paper prints them. A literal is a signed number, and 0 ends a clause; it
//! becomes variables and marks last of all. What it shares with the engine is the paper.

use crate::reference::{accepted, yes, Formula, Kind, Refusal, State};

#[derive(Clone)]
pub struct Table {
    /// C, k, V, M, L.
    pub sizes: [u32; 5],
    pub variables: Vec<u32>,
    pub marks: Vec<u8>,
}

impl Table {
    /// The table of clauses that each end in 0.
    pub fn new(c: u32, k: u32, v: u32, clauses: &[i32]) -> Self {
        let (mut variables, mut marks) = (Vec::with_capacity(clauses.len()), Vec::with_capacity(clauses.len()));
        for pair in clauses.windows(2).filter(|pair| pair[0] != 0) {
            let (plain, closing) = (pair[0] > 0, pair[1] == 0);
            variables.push(pair[0].unsigned_abs());
            marks.push(u8::from(plain) + 2 * u8::from(closing));
        }
        let m = clauses.len() - variables.len();
        Table { sizes: [c, k, v, m as u32, variables.len() as u32], variables, marks }
    }
}

/// What is written to three arrays of these lengths.
pub fn written(text: &[u8], c: u32, k: u32, [sizes, variables, marks]: [usize; 3]) -> Result<Table, Refusal> {
    let table = table(text, c, k)?;
    let l = table.variables.len();
    yes(sizes >= 5 && variables >= l && marks >= l, 18)?;
    Ok(table)
}

pub fn table(text: &[u8], c: u32, k: u32) -> Result<Table, Refusal> {
    let root = accepted(text, c, k)?.root;
    let mut writer = Writer::new(c, k);
    let first = 1 + writer.c * writer.k;
    writer.formula(&root, first);
    let whole = writer.truth(&root, first) + writer.place(0, writer.k);
    writer.clause(&[whole]);
    let v = first - 1 + writer.widths(&root);
    Ok(Table::new(c, k, v as u32, &writer.clauses))
}

struct Writer {
    c: i32,
    k: i32,
    /// In order of i, then j.
    intervals: Vec<(i32, i32)>,
    /// How many there are of i <= m <= j.
    triples: i32,
    clauses: Vec<i32>,
}

impl Writer {
    fn new(c: u32, k: u32) -> Self {
        let (c, k) = (c as i32, k as i32);
        let intervals = (0..=k).flat_map(|i| (i..=k).map(move |j| (i, j))).collect();
        Writer { c, k, intervals, triples: (k + 1) * (k + 2) * (k + 3) / 6, clauses: Vec::new() }
    }

    fn clause(&mut self, literals: &[i32]) {
        self.clauses.extend_from_slice(literals);
        self.clauses.push(0);
    }

    // Variables

    fn count(&self) -> i32 {
        (self.k + 1) * (self.k + 2) / 2
    }

    fn place(&self, i: i32, j: i32) -> i32 {
        i * (self.k + 1) - i * (i - 1) / 2 + (j - i)
    }

    fn width(&self, p: &Formula) -> i32 {
        match p.1 {
            Kind::AtLeast(_, n) => (n as i32 + 1) * self.count(),
            Kind::Chop(..) => self.count() + self.triples,
            _ => self.count(),
        }
    }

    /// The widths of a formula and of all its parts.
    fn widths(&self, p: &Formula) -> i32 {
        self.width(p)
            + match &p.1 {
                Kind::Constant(_) => 0,
                Kind::Not(q) => self.widths(q),
                Kind::Both(q, r) | Kind::Either(q, r) | Kind::Chop(q, r) => self.widths(q) + self.widths(r),
                Kind::AtLeast(s, _) | Kind::Throughout(s) => self.state_widths(s),
            }
    }

    fn state_widths(&self, s: &State) -> i32 {
        self.k
            + match s {
                State::Letter(_) | State::Constant(_) => 0,
                State::Not(s) => self.state_widths(s),
                State::Both(s, r) | State::Either(s, r) => self.state_widths(s) + self.state_widths(r),
            }
    }

    /// Where a formula's truth begins, in the block that begins at `first`.
    fn truth(&self, p: &Formula, first: i32) -> i32 {
        match p.1 {
            Kind::AtLeast(_, n) => first + n as i32 * self.count(),
            _ => first,
        }
    }

    // Clauses: of a node, whose block begins at `first`, then of its parts

    fn state(&mut self, s: &State, first: i32) {
        let (k, c) = (self.k, self.c);
        let part = first + k;
        match s {
            State::Constant(true) => (0..k).for_each(|t| self.clause(&[first + t])),
            State::Constant(false) => (0..k).for_each(|t| self.clause(&[-(first + t)])),
            State::Letter(channel) => {
                for t in 0..k {
                    let (v, u) = (first + t, 1 + t * c + *channel as i32);
                    self.clause(&[-v, u]);
                    self.clause(&[v, -u]);
                }
            }
            State::Not(s) => {
                (0..k).for_each(|t| self.not(first + t, part + t));
                self.state(s, part);
            }
            State::Both(s, r) => {
                let other = part + self.state_widths(s);
                (0..k).for_each(|t| self.both(first + t, part + t, other + t));
                self.state(s, part);
                self.state(r, other);
            }
            State::Either(s, r) => {
                let other = part + self.state_widths(s);
                (0..k).for_each(|t| self.either(first + t, part + t, other + t));
                self.state(s, part);
                self.state(r, other);
            }
        }
    }

    fn formula(&mut self, p: &Formula, first: i32) {
        let count = self.count();
        let part = first + self.width(p);
        match &p.1 {
            Kind::Constant(true) => (0..count).for_each(|at| self.clause(&[first + at])),
            Kind::Constant(false) => (0..count).for_each(|at| self.clause(&[-(first + at)])),
            Kind::Not(q) => {
                let x = self.truth(q, part);
                (0..count).for_each(|at| self.not(first + at, x + at));
                self.formula(q, part);
            }
            Kind::Both(q, r) => {
                let other = part + self.widths(q);
                let (x, y) = (self.truth(q, part), self.truth(r, other));
                (0..count).for_each(|at| self.both(first + at, x + at, y + at));
                self.formula(q, part);
                self.formula(r, other);
            }
            Kind::Either(q, r) => {
                let other = part + self.widths(q);
                let (x, y) = (self.truth(q, part), self.truth(r, other));
                (0..count).for_each(|at| self.either(first + at, x + at, y + at));
                self.formula(q, part);
                self.formula(r, other);
            }
            Kind::Chop(q, r) => {
                let other = part + self.widths(q);
                self.chop(first, self.truth(q, part), self.truth(r, other));
                self.formula(q, part);
                self.formula(r, other);
            }
            Kind::AtLeast(s, n) => {
                self.duration(first, *n as i32, part);
                self.state(s, part);
            }
            Kind::Throughout(s) => {
                self.throughout(first, part);
                self.state(s, part);
            }
        }
    }

    fn not(&mut self, v: i32, x: i32) {
        self.clause(&[v, x]);
        self.clause(&[-v, -x]);
    }

    fn both(&mut self, v: i32, x: i32, y: i32) {
        self.clause(&[-v, x]);
        self.clause(&[-v, y]);
        self.clause(&[v, -x, -y]);
    }

    fn either(&mut self, v: i32, x: i32, y: i32) {
        self.clause(&[v, -x]);
        self.clause(&[v, -y]);
        self.clause(&[-v, x, y]);
    }

    fn duration(&mut self, first: i32, n: i32, state: i32) {
        for level in 0..=n {
            let (this, below) = (first + level * self.count(), first + (level - 1) * self.count());
            for (i, j) in self.intervals.clone() {
                let v = this + self.place(i, j);
                if level == 0 {
                    self.clause(&[v]);
                } else if i == j {
                    self.clause(&[-v]);
                } else {
                    let (p, q) = (this + self.place(i, j - 1), below + self.place(i, j - 1));
                    let s = state + j - 1;
                    self.clause(&[-v, p, q]);
                    self.clause(&[-v, p, s]);
                    self.clause(&[v, -p]);
                    self.clause(&[v, -q, -s]);
                }
            }
        }
    }

    /// With the clauses that request C-12 has for empty intervals and for one step.
    fn throughout(&mut self, first: i32, state: i32) {
        for (i, j) in self.intervals.clone() {
            let v = first + self.place(i, j);
            if i == j {
                self.clause(&[-v]);
            } else if j == i + 1 {
                let s = state + i;
                self.clause(&[-v, s]);
                self.clause(&[v, -s]);
            } else {
                let (p, s) = (first + self.place(i, j - 1), state + j - 1);
                self.clause(&[-v, p]);
                self.clause(&[-v, s]);
                self.clause(&[v, -p, -s]);
            }
        }
    }

    fn chop(&mut self, first: i32, left: i32, right: i32) {
        let mut w = first + self.count();
        for (i, j) in self.intervals.clone() {
            for m in i..=j {
                let (l, r) = (left + self.place(i, m), right + self.place(m, j));
                self.clause(&[-w, l]);
                self.clause(&[-w, r]);
                self.clause(&[w, -l, -r]);
                w += 1;
            }
        }
        let mut w = first + self.count();
        for (i, j) in self.intervals.clone() {
            let v = first + self.place(i, j);
            let over_all_m: Vec<i32> = (i..=j).map(|m| w + (m - i)).collect();
            for w in &over_all_m {
                self.clause(&[v, -w]);
            }
            self.clause(&[&[-v], &over_all_m[..]].concat());
            w += over_all_m.len() as i32;
        }
    }
}
