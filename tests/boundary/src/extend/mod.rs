//! Which values of a table's variables go with a recording?

use std::fmt;
use std::ptr::null_mut;

use crate::assignments::extension;
use crate::call::{boxed, edge, wrong_answers, Asked, Call, Case, Edge, Wanted, Written};
use crate::check::unmet;
use crate::dice::{around, recording, spoil, Dice};
use crate::edges::{Columns, Unit};
use crate::evaluate::Evaluate;
use crate::fence::vast;
use crate::lent::Lender;
use crate::reference::{accepted, recorded, true_at, yes, Formula, Kind, Meaning, Refusal, State};
use crate::table::table;
use crate::texts::spoiled;

extern "C" {
    fn tuv_extend(
        text: *const u8,
        text_length: usize,
        c: u32,
        k: u32,
        recording: *const u8,
        recording_length: usize,
        assignment: *mut u8,
        assignment_length: usize,
    ) -> u64;
}

pub const CALL: Call = Call {
    name: "extend",
    line: "extend",
    codes: &[1, 2, 3, 4, 5, 6, 7, 10, 11, 18, 66],
    edges,
    on_text,
    families: &[], // those of `assignments`
    long_families: &[],
    vast: &[("lengths that are small modulo 2^32", vast_lengths), ("an output as long as 2^32", vast_output)],
};

/// With the length of the assignment.
pub struct Extend {
    pub asked: Asked,
    pub recording: Vec<u8>,
    pub room: usize,
}

impl fmt::Display for Extend {
    fn fmt(&self, f: &mut fmt::Formatter) -> fmt::Result {
        let Extend { asked, recording, room } = self;
        write!(f, "{asked}, extension of recording {recording:02x?} in {room} places")
    }
}

impl Case for Extend {
    fn call(&self) -> &'static str {
        CALL.name
    }

    fn wanted(&self) -> Wanted {
        let Extend { asked: Asked { text, c, k }, recording, room } = self;
        let extended = extended(text, *c, *k, recording, *room);
        if let Ok(extension) = &extended {
            self.assert_extends(extension);
        }
        extended.map(Written::Assignment).into()
    }

    fn wrong_in(&self, lender: &mut Lender, wanted: &Wanted) -> Option<String> {
        let Extend { asked: Asked { text, c, k }, recording, room } = self;
        let (lent_text, lent, mut assignment) = (lender.lend(text), lender.lend(recording), lender.output(*room));
        let to = assignment.start();
        // SAFETY: each pointer is to as many bytes as is said, or null with none; no two arrays overlap.
        let answer = unsafe { tuv_extend(lent_text, text.len(), *c, *k, lent, recording.len(), to, *room) };
        wanted.wrong_answer(answer).or_else(|| assignment.wrong("assignment", wanted.bytes()))
    }
}

impl Extend {
    /// The second implementation is at one with itself: an extension, made by meaning, meets every clause of the table but the last,
    /// and the last exactly where the recording satisfies the formula.
    fn assert_extends(&self, extension: &[u8]) {
        let Asked { text, c, k } = &self.asked;
        let table = table(text, *c, *k).expect("it is extended");
        let holds = Evaluate::whole(self.asked.clone(), self.recording.clone()).evaluated() == Ok((65, 0));
        let last = table.sizes[3] as usize - 1;
        assert_eq!(unmet(&table, extension), (!holds).then_some(last), "for {self}");
    }
}

fn edges(kind: &str, columns: &mut Columns) -> Vec<Edge> {
    match kind {
        "extend" => {
            let (asked, recording, rooms) = (columns.asked(), columns.bytes(Unit::Pair), columns.rooms());
            let wanted = columns.wanted(|columns| Written::Assignment(columns.bytes(Unit::Digit)));
            let in_room = |[room]: [usize; 1]| Extend { asked: asked.clone(), recording: recording.clone(), room };
            rooms.into_iter().map(|room| edge(in_room(room), wanted.clone())).collect()
        }
        "extends" => {
            let (asked, recording, assignment) = (columns.asked(), columns.bytes(Unit::Pair), columns.bytes(Unit::Digit));
            columns.answer();
            vec![edge(Extend { asked, recording, room: assignment.len() }, Ok(Written::Assignment(assignment)))]
        }
        "text" => {
            let (asked, answer) = (columns.asked(), columns.answer());
            let odd = Extend { asked: asked.clone(), recording: vec![255], room: 0 };
            [odd, Extend { asked, recording: vec![], room: 50 }].map(|case| edge(case, answer)).into()
        }
        _ => vec![],
    }
}

/// Of few steps, since it is the text that is tried.
fn on_text(dice: &mut Dice, asked: Asked, faults: usize) -> Vec<Box<dyn Case>> {
    let asked = Asked { k: asked.k % 4, ..asked };
    let recording = recording(dice, asked.c, asked.k);
    let room = extension(&asked, &recording).len();
    let mut case = Extend { asked, recording, room };
    for _ in 0..faults {
        if !spoiled(dice, &mut case.asked) {
            match dice.from(1, 8) {
                1 | 2 => case.room = dice.pick(&around(case.room)),
                _ => spoil(dice, &mut case.recording, case.asked.c),
            }
        }
    }
    boxed([case])
}

/// 2^32 + 1 bytes are no text of 1 byte, and no recording of 1 step.
fn vast_lengths() -> Option<String> {
    let length = (1 << 32) + 1;
    let (vast, text) = (vast(b"T", length), b"T".as_ptr());
    // SAFETY: each is as long as is said.
    let answers = unsafe {
        [tuv_extend(vast, length, 1, 0, null_mut(), 0, null_mut(), 0), tuv_extend(text, 1, 8, 1, vast, length, null_mut(), 0)]
    };
    wrong_answers(answers, [3, 10])
}

/// 2^32 places are long enough for any assignment, and not 0 places.
fn vast_output() -> Option<String> {
    let (length, low) = (1 << 32, [0]);
    // SAFETY: each is as long as is said.
    wrong_answers([unsafe { tuv_extend(b"T".as_ptr(), 1, 1, 1, low.as_ptr(), 1, vast(&[], length), length) }], [66])
}

// The second implementation: a recording is extended by what each node means, block after block. What it shares with the engine is
// the paper.

/// What is written to an assignment of that length: the extension of a recording.
pub fn extended(text: &[u8], c: u32, k: u32, recording: &[u8], room: usize) -> Result<Vec<u8>, Refusal> {
    let reading = accepted(text, c, k)?;
    recorded(recording, c, k)?;
    let mut extension = Extension::new(recording, Meaning::new(recording, reading.formulas));
    extension.channels(c);
    extension.formula(&reading.root);
    yes(room >= extension.values.len(), 18)?;
    Ok(extension.values)
}

/// The values of the variables so far, in order.
struct Extension<'a> {
    recording: &'a [u8],
    meaning: Meaning<'a>,
    /// In order of i, then j.
    intervals: Vec<(usize, usize)>,
    values: Vec<u8>,
}

impl<'a> Extension<'a> {
    fn new(recording: &'a [u8], meaning: Meaning<'a>) -> Self {
        let k = recording.len();
        let intervals = (0..=k).flat_map(|i| (i..=k).map(move |j| (i, j))).collect();
        Extension { recording, meaning, intervals, values: Vec::new() }
    }

    fn put(&mut self, value: bool) {
        self.values.push(value.into());
    }

    fn channels(&mut self, c: u32) {
        for byte in self.recording {
            (0..c).for_each(|channel| self.put(byte >> channel & 1 == 1));
        }
    }

    // Blocks: of a node, then of its parts

    fn state(&mut self, s: &State) {
        self.recording.iter().for_each(|byte| self.put(true_at(s, *byte)));
        match s {
            State::Letter(_) | State::Constant(_) => {}
            State::Not(s) => self.state(s),
            State::Both(s, r) | State::Either(s, r) => {
                self.state(s);
                self.state(r);
            }
        }
    }

    fn formula(&mut self, p: &Formula) {
        match &p.1 {
            // Its truth is the last level.
            Kind::AtLeast(s, n) => (0..=*n).for_each(|level| self.level(s, level)),
            _ => self.truth(p),
        }
        match &p.1 {
            Kind::Constant(_) => {}
            Kind::Not(q) => self.formula(q),
            Kind::Both(q, r) | Kind::Either(q, r) => {
                self.formula(q);
                self.formula(r);
            }
            Kind::Chop(q, r) => {
                self.triples(q, r);
                self.formula(q);
                self.formula(r);
            }
            Kind::AtLeast(s, _) | Kind::Throughout(s) => self.state(s),
        }
    }

    fn truth(&mut self, p: &Formula) {
        for (i, j) in self.intervals.clone() {
            let holds = self.meaning.holds(p, i, j);
            self.put(holds);
        }
    }

    fn level(&mut self, s: &State, level: u64) {
        for (i, j) in self.intervals.clone() {
            let high = self.recording[i..j].iter().filter(|byte| true_at(s, **byte)).count();
            self.put(high as u64 >= level);
        }
    }

    fn triples(&mut self, q: &Formula, r: &Formula) {
        for (i, j) in self.intervals.clone() {
            for m in i..=j {
                let both = self.meaning.holds(q, i, m) && self.meaning.holds(r, m, j);
                self.put(both);
            }
        }
    }
}
