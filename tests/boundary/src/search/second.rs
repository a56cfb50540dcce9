//! Document 01's first recording, written down a second time from the paper alone: the closure by its definition, on sets that
//! may have a variable both ways, and the tree as its paragraph goes. What it shares with the engine is the paper.

use crate::call::{Wanted, Written};
use crate::reference::{accepted, packed, yes, Meaning, Refusal};
use crate::table::counts::Counts;
use crate::table::{table, Table};

/// A text's search, whatever its limit is: what it needs, and what it comes to.
pub struct Search {
    /// How many variables, marks, values, places of the trail and bytes of the recording.
    pub needs: [usize; 5],
    /// Unknown where it takes more tries than the most that were made.
    pub outcome: Option<Outcome>,
    most: u32,
}

pub struct Outcome {
    /// The first, or there is none.
    pub recording: Option<Vec<u8>>,
    /// N.
    pub tries: u32,
}

impl Search {
    /// With so many tries at most.
    pub fn new(text: &[u8], c: u32, k: u32, most: u32) -> Result<Self, Refusal> {
        let table = table(text, c, k)?;
        Ok(Search::known(Counts::of(&table), k, most, outcome(&table, most)))
    }

    /// Whose outcome is known, for a table of this size.
    pub fn known(Counts([v, _, l]): Counts, k: u32, most: u32, outcome: Option<Outcome>) -> Self {
        Search { needs: [l, l, v, v, u64::from(k)].map(|need| need as usize), outcome, most }
    }

    /// What a call should come to, given its limit and the lengths of its five arrays.
    pub fn wanted(&self, limit: u32, lengths: [usize; 5]) -> Wanted {
        let are_enough = lengths.iter().zip(self.needs).all(|(length, need)| *length >= need);
        yes(are_enough, 18).map_or_else(|refusal| packed(Err(refusal)).into(), |()| self.within(limit))
    }

    fn within(&self, limit: u32) -> Wanted {
        assert!(self.outcome.is_some() || limit <= self.most, "whether N is above {limit} is unknown");
        match &self.outcome {
            Some(Outcome { recording, tries }) if *tries <= limit => match recording {
                Some(recording) => Wanted { answer: (68, *tries), written: Written::Recording(recording.clone()) },
                None => (69, *tries).into(),
            },
            _ => (70, limit).into(),
        }
    }
}

fn outcome(table: &Table, most: u32) -> Option<Outcome> {
    let [c, k, v, ..] = table.sizes;
    let mut tree = Tree { clauses: Clauses::new(table), channels: c * k, tries: 0, most };
    let nothing = Set { has: vec![false; literal(v + 1, 0)], clashes: false };
    let start = tree.clauses.closure(nothing, (0..tree.clauses.count()).collect());
    let found = tree.first(start).ok()?;
    Some(Outcome { recording: found.map(|set| set.recording(c, k)), tries: tree.tries })
}

/// A variable's number, doubled, and one more where it is plain: the opposite differs in the last bit.
type Literal = usize;

fn literal(variable: u32, mark: u8) -> Literal {
    2 * variable as usize + usize::from(mark % 2)
}

#[derive(Clone)]
struct Set {
    /// Has it the literal?
    has: Vec<bool>,
    /// Has it one and its opposite?
    clashes: bool,
}

impl Set {
    fn opposes(&self, literal: Literal) -> bool {
        self.has[literal ^ 1]
    }

    /// Whether it is new.
    fn add(&mut self, literal: Literal) -> bool {
        self.clashes |= self.opposes(literal);
        !std::mem::replace(&mut self.has[literal], true)
    }

    fn has_neither(&self, variable: &u32) -> bool {
        !self.has[literal(*variable, 0)] && !self.has[literal(*variable, 1)]
    }

    fn recording(&self, c: u32, k: u32) -> Vec<u8> {
        let is_high = |t, channel| u8::from(self.has[literal(1 + t * c + channel, 1)]);
        (0..k).map(|t| (0..c).map(|channel| is_high(t, channel) << channel).sum()).collect()
    }
}

/// A table's clauses, and where each literal stands.
struct Clauses {
    literals: Vec<Literal>,
    /// Clause n has the literals from ends[n] to ends[n + 1].
    ends: Vec<usize>,
    /// The clauses of all literals, one after the other: those of literal x from first[x] to first[x + 1].
    having: Vec<usize>,
    first: Vec<usize>,
}

impl Clauses {
    fn new(table: &Table) -> Self {
        let literals: Vec<Literal> = table.variables.iter().zip(&table.marks).map(|(v, mark)| literal(*v, *mark)).collect();
        let closing = (1..=literals.len()).filter(|end| table.marks[end - 1] >= 2);
        let ends: Vec<usize> = [0].into_iter().chain(closing).collect();
        let mut first = vec![0; literal(table.sizes[2] + 1, 0) + 1];
        literals.iter().for_each(|literal| first[literal + 1] += 1);
        (1..first.len()).for_each(|at| first[at] += first[at - 1]);
        let (mut next, mut having) = (first.clone(), vec![0; literals.len()]);
        for clause in 0..ends.len() - 1 {
            for literal in &literals[ends[clause]..ends[clause + 1]] {
                having[next[*literal]] = clause;
                next[*literal] += 1;
            }
        }
        Clauses { literals, ends, having, first }
    }

    fn count(&self) -> usize {
        self.ends.len() - 1
    }

    /// The smallest set that contains this one and each literal of a clause whose fellows in that clause are all opposed in it,
    /// given the clauses of which that may be: a clause is looked at again once another of its literals is opposed. (As it only
    /// grows, it is left as it is once it clashes.)
    fn closure(&self, mut set: Set, mut clauses: Vec<usize>) -> Set {
        while let Some(clause) = clauses.pop().filter(|_| !set.clashes) {
            let literals = &self.literals[self.ends[clause]..self.ends[clause + 1]];
            let opposed = literals.iter().filter(|literal| set.opposes(**literal)).count();
            if opposed + 1 < literals.len() {
                continue;
            }
            for literal in literals {
                let fellows_opposed = opposed - usize::from(set.opposes(*literal));
                if fellows_opposed + 1 == literals.len() && set.add(*literal) {
                    clauses.extend(self.opposed_by(*literal));
                }
            }
        }
        set
    }

    /// The clauses that have a literal's opposite.
    fn opposed_by(&self, literal: Literal) -> &[usize] {
        &self.having[self.first[literal ^ 1]..self.first[(literal ^ 1) + 1]]
    }

    /// The closure of a closed set and one literal.
    fn closure_with(&self, mut set: Set, literal: Literal) -> Set {
        set.add(literal);
        self.closure(set, self.opposed_by(literal).to_vec())
    }
}

/// More tries than the most.
struct TooMany;

struct Tree {
    clauses: Clauses,
    /// How many channel variables.
    channels: u32,
    tries: u32,
    most: u32,
}

impl Tree {
    /// The first set below this one that has no channel variable left open; there is none where all is dead.
    fn first(&mut self, set: Set) -> Result<Option<Set>, TooMany> {
        if set.clashes {
            return Ok(None);
        }
        let Some(open) = (1..=self.channels).find(|variable| set.has_neither(variable)) else {
            return Ok(Some(set));
        };
        for tried in [literal(open, 0), literal(open, 1)] {
            if self.tries == self.most {
                return Err(TooMany);
            }
            self.tries += 1;
            let found = self.first(self.clauses.closure_with(set.clone(), tried))?;
            if found.is_some() {
                return Ok(found);
            }
        }
        Ok(None)
    }
}

/// The first recording that satisfies an accepted text, among all that there are: each in order, the channel variables as the
/// digits of a number.
pub fn first_of_all(text: &[u8], c: u32, k: u32) -> Option<Vec<u8>> {
    let reading = accepted(text, c, k).expect("an accepted text");
    let digit = |number: u32, variable: u32| (number >> (c * k - variable) & 1) as u8;
    let instant = |number, t| (0..c).map(|channel| digit(number, 1 + t * c + channel) << channel).sum();
    let mut recordings = (0..1 << (c * k)).map(|number| (0..k).map(|t| instant(number, t)).collect::<Vec<u8>>());
    recordings.find(|recording| Meaning::new(recording, reading.formulas).holds(&reading.root, 0, k as usize))
}
