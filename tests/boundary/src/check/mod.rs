//! Does an assignment meet every clause, and of which recording is it?

use std::fmt;
use std::ptr::null_mut;

use crate::assignments::extension;
use crate::call::{boxed, edge, shown, wrong_answers, Asked, Call, Case, Edge, Wanted, Written};
use crate::dice::{around, recording, spoil, turn, Dice};
use crate::edges::{is_accepted, recording_written, Columns, Unit};
use crate::fence::vast;
use crate::lent::Lender;
use crate::reference::{none, yes, Refusal};
use crate::table::{table, Table};
use crate::texts::spoiled;

extern "C" {
    fn tuv_check(
        text: *const u8,
        text_length: usize,
        c: u32,
        k: u32,
        assignment: *const u8,
        assignment_length: usize,
        recording: *mut u8,
        recording_length: usize,
    ) -> u64;
}

pub const CALL: Call = Call {
    name: "check",
    line: "check",
    codes: &[1, 2, 3, 4, 5, 6, 7, 12, 13, 14, 18, 67],
    edges,
    on_text,
    families: &[], // those of `assignments`
    long_families: &[],
    vast: &[("lengths that are small modulo 2^32", vast_lengths), ("an output as long as 2^32", vast_output)],
};

/// With the length of the recording.
pub struct Check {
    pub asked: Asked,
    pub assignment: Vec<u8>,
    pub room: usize,
}

impl fmt::Display for Check {
    fn fmt(&self, f: &mut fmt::Formatter) -> fmt::Result {
        let Check { asked, assignment, room } = self;
        write!(f, "{asked}, assignment of {} bytes {:?} to a recording of {room} places", assignment.len(), shown(assignment))
    }
}

impl Case for Check {
    fn call(&self) -> &'static str {
        CALL.name
    }

    fn wanted(&self) -> Wanted {
        let Check { asked: Asked { text, c, k }, assignment, room } = self;
        checked(text, *c, *k, assignment, *room).map(Written::Recording).into()
    }

    fn wrong_in(&self, lender: &mut Lender, wanted: &Wanted) -> Option<String> {
        let Check { asked: Asked { text, c, k }, assignment, room } = self;
        let (lent_text, lent, mut recording) = (lender.lend(text), lender.lend(assignment), lender.output(*room));
        let to = recording.start();
        // SAFETY: each pointer is to as many bytes as is said, or null with none; no two arrays overlap.
        let answer = unsafe { tuv_check(lent_text, text.len(), *c, *k, lent, assignment.len(), to, *room) };
        wanted.wrong_answer(answer).or_else(|| recording.wrong("recording", wanted.bytes()))
    }
}

fn edges(kind: &str, columns: &mut Columns) -> Vec<Edge> {
    match kind {
        "check" => {
            let (asked, assignment, rooms) = (columns.asked(), columns.bytes(Unit::Digit), columns.rooms());
            let wanted = columns.wanted(recording_written);
            let in_room = |[room]: [usize; 1]| Check { asked: asked.clone(), assignment: assignment.clone(), room };
            rooms.into_iter().map(|room| edge(in_room(room), wanted.clone())).collect()
        }
        "extends" => {
            let (asked, recording, assignment) = (columns.asked(), columns.bytes(Unit::Pair), columns.bytes(Unit::Digit));
            let (case, answer) = (Check { asked, assignment, room: recording.len() }, columns.answer());
            let written = if is_accepted(answer) { Written::Recording(recording) } else { Written::Nothing };
            vec![edge(case, Wanted { answer, written })]
        }
        "text" => {
            let (asked, answer) = (columns.asked(), columns.answer());
            let odd = Check { asked: asked.clone(), assignment: vec![255], room: 0 };
            [odd, Check { asked, assignment: vec![], room: 50 }].map(|case| edge(case, answer)).into()
        }
        _ => vec![],
    }
}

/// Of few steps, since it is the text that is tried.
fn on_text(dice: &mut Dice, asked: Asked, faults: usize) -> Vec<Box<dyn Case>> {
    let asked = Asked { k: asked.k % 4, ..asked };
    let recording = recording(dice, asked.c, asked.k);
    let mut case = Check { assignment: extension(&asked, &recording), room: recording.len(), asked };
    for _ in 0..faults {
        if !spoiled(dice, &mut case.asked) {
            match dice.from(1, 8) {
                1 | 2 => case.room = dice.pick(&around(case.room)),
                3 | 4 => turn(dice, &mut case.assignment),
                _ => spoil(dice, &mut case.assignment, case.asked.c),
            }
        }
    }
    boxed([case])
}

/// 2^32 + 1 bytes are no text of 1 byte, and no assignment of 1 variable.
fn vast_lengths() -> Option<String> {
    let length = (1 << 32) + 1;
    let (assignment, vast, text) = (vast(&[1], length), vast(b"T", length), b"T".as_ptr());
    // SAFETY: each is as long as is said.
    let answers = unsafe {
        [tuv_check(vast, length, 1, 0, null_mut(), 0, null_mut(), 0), tuv_check(text, 1, 1, 0, assignment, length, null_mut(), 0)]
    };
    wrong_answers(answers, [3, 12])
}

/// 2^32 places are long enough for any recording, and not 0 places.
fn vast_output() -> Option<String> {
    let (length, low_extended) = (1 << 32, [0, 1, 1, 1]);
    // SAFETY: each is as long as is said.
    wrong_answers([unsafe { tuv_check(b"T".as_ptr(), 1, 1, 1, low_extended.as_ptr(), 4, vast(&[], length), length) }], [67])
}

// The second implementation: by the clauses of the table's, one after another. What it shares with the engine is the paper.

/// What is written to a recording of that length: the one that an assignment's channel variables are.
fn checked(text: &[u8], c: u32, k: u32, assignment: &[u8], room: usize) -> Result<Vec<u8>, Refusal> {
    let table = table(text, c, k)?;
    yes(assignment.len() == table.sizes[2] as usize, 12)?;
    none(13, (0..assignment.len()).filter(|at| assignment[*at] > 1))?;
    none(14, unmet(&table, assignment).into_iter())?;
    yes(room >= k as usize, 18)?;
    let high = |(channel, value): (usize, &u8)| value << channel;
    let channels = &assignment[..(c * k) as usize];
    Ok(channels.chunks_exact(c as usize).map(|instant| instant.iter().enumerate().map(high).sum()).collect())
}

/// The first clause, counted from 0, that has no true literal.
pub fn unmet(Table { variables, marks, .. }: &Table, assignment: &[u8]) -> Option<usize> {
    let (mut clause, mut met) = (0, false);
    for (variable, mark) in variables.iter().zip(marks) {
        met |= assignment[*variable as usize - 1] == mark % 2;
        if *mark >= 2 {
            if !met {
                return Some(clause);
            }
            (clause, met) = (clause + 1, false);
        }
    }
    None
}
