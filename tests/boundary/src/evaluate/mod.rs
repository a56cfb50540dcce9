//! Does the formula hold of a recording, on an interval?

use std::fmt;

use crate::call::{boxed, edge, wrong_answers, Asked, Call, Case, Edge, Family, Wanted};
use crate::dice::{channels, chops, formula, interval, recording, spoil, Dice, ODD_NUMBERS};
use crate::edges::{is_accepted, Columns, Unit};
use crate::fence::vast;
use crate::lent::Lender;
use crate::reference::{accepted, packed, recorded, yes, Answer, Meaning, Refusal};
use crate::texts::spoiled;

extern "C" {
    fn tuv_evaluate(
        text: *const u8,
        text_length: usize,
        c: u32,
        k: u32,
        i: u32,
        j: u32,
        recording: *const u8,
        recording_length: usize,
    ) -> u64;
}

pub const CALL: Call = Call {
    name: "evaluate",
    line: "evaluate",
    codes: &[1, 2, 3, 4, 5, 6, 7, 9, 10, 11, 64, 65],
    edges,
    on_text,
    families: &[
        Family::new("every interval of short recordings", 120_000, every_interval),
        Family::new("chops within both parts of chops", 40_000, deep_chops).often(&[64, 65]),
    ],
    long_families: &[],
    vast: &[("lengths that are small modulo 2^32", vast_lengths)],
};

pub struct Evaluate {
    pub asked: Asked,
    pub i: u32,
    pub j: u32,
    pub recording: Vec<u8>,
}

impl fmt::Display for Evaluate {
    fn fmt(&self, f: &mut fmt::Formatter) -> fmt::Result {
        let Evaluate { asked, i, j, recording } = self;
        write!(f, "{asked}, [{i}, {j}], recording {recording:02x?}")
    }
}

impl Case for Evaluate {
    fn call(&self) -> &'static str {
        CALL.name
    }

    fn wanted(&self) -> Wanted {
        packed(self.evaluated()).into()
    }

    fn wrong_in(&self, lender: &mut Lender, wanted: &Wanted) -> Option<String> {
        wanted.wrong_answer(self.answer(lender))
    }
}

impl Evaluate {
    /// On the whole of a recording.
    pub fn whole(asked: Asked, recording: Vec<u8>) -> Self {
        Evaluate { i: 0, j: asked.k, asked, recording }
    }

    /// By the second implementation.
    pub fn evaluated(&self) -> Result<Answer, Refusal> {
        let Evaluate { asked: Asked { text, c, k }, i, j, recording } = self;
        let reading = accepted(text, *c, *k)?;
        yes(i <= j && j <= k, 9)?;
        recorded(recording, *c, *k)?;
        let holds = Meaning::new(recording, reading.formulas).holds(&reading.root, *i as usize, *j as usize);
        Ok((if holds { 65 } else { 64 }, 0))
    }

    pub fn answer(&self, lender: &mut Lender) -> u64 {
        let Evaluate { asked: Asked { text, c, k }, i, j, recording } = self;
        let (lent_text, lent) = (lender.lend(text), lender.lend(recording));
        // SAFETY: each pointer is to as many bytes as is said, or null with none.
        unsafe { tuv_evaluate(lent_text, text.len(), *c, *k, *i, *j, lent, recording.len()) }
    }
}

fn edges(kind: &str, columns: &mut Columns) -> Vec<Edge> {
    match kind {
        "evaluate" => {
            let (asked, [i, j], recording) = (columns.asked(), columns.numbers(), columns.bytes(Unit::Pair));
            vec![edge(Evaluate { asked, i, j, recording }, columns.answer())]
        }
        "extends" => {
            let (asked, recording, _) = (columns.asked(), columns.bytes(Unit::Pair), columns.bytes(Unit::Digit));
            let holds = is_accepted(columns.answer());
            vec![edge(Evaluate::whole(asked, recording), (64 + u32::from(holds), 0))]
        }
        "text" => {
            let (asked, answer) = (columns.asked(), columns.answer());
            let nothing = Evaluate { asked: asked.clone(), i: 0, j: 0, recording: vec![] };
            let all_wrong = Evaluate { asked, i: 1, j: 0, recording: vec![255] };
            [nothing, all_wrong].map(|case| edge(case, answer)).into()
        }
        _ => vec![],
    }
}

fn on_text(dice: &mut Dice, asked: Asked, faults: usize) -> Vec<Box<dyn Case>> {
    let ((i, j), recording) = (interval(dice, asked.k), recording(dice, asked.c, asked.k));
    let mut case = Evaluate { asked, i, j, recording };
    for _ in 0..faults {
        if !spoiled(dice, &mut case.asked) {
            match dice.from(1, 8) {
                1 => case.i = dice.pick(&ODD_NUMBERS),
                2 => case.j = dice.pick(&ODD_NUMBERS),
                _ => spoil(dice, &mut case.recording, case.asked.c),
            }
        }
    }
    boxed([case])
}

// Families

/// One formula on several intervals of one recording.
fn evaluations(asked: Asked, recording: &[u8], ends: impl IntoIterator<Item = (u32, u32)>) -> Vec<Box<dyn Case>> {
    let evaluation = |(i, j)| Evaluate { asked: asked.clone(), i, j, recording: recording.to_vec() };
    boxed(ends.into_iter().map(evaluation))
}

fn every_interval(dice: &mut Dice) -> Vec<Box<dyn Case>> {
    let (c, k) = (channels(dice), dice.from(0, 6) as u32);
    let nodes = dice.from(1, 24);
    let text = formula(dice, c, k, nodes);
    let ends = (0..=k).flat_map(|j| (0..=j).map(move |i| (i, j)));
    let no_intervals = [(1, 0), (k + 1, k), (k + 1, k + 1)];
    evaluations(Asked { text, c, k }, &recording(dice, c, k), ends.chain(no_intervals))
}

fn deep_chops(dice: &mut Dice) -> Vec<Box<dyn Case>> {
    let (c, most) = (channels(dice), dice.pick(&[4, 8, 16, 32]));
    let k = dice.from(0, most) as u32;
    // The numbers are drawn for a part of the recording, so that a chop of many can be met.
    let text = chops(dice, c, k / 4 + 1);
    let ends = [(0, k), interval(dice, k), interval(dice, k), interval(dice, k)];
    evaluations(Asked { text, c, k }, &recording(dice, c, k), ends)
}

/// The whole of a short recording.
pub fn whole_recording(dice: &mut Dice) -> Evaluate {
    let (c, k) = (channels(dice), dice.from(0, 6) as u32);
    let nodes = dice.from(1, 24);
    let text = formula(dice, c, k, nodes);
    Evaluate::whole(Asked { text, c, k }, recording(dice, c, k))
}

/// 2^32 + 1 bytes are no text of 1 byte, and no recording of 1 step.
fn vast_lengths() -> Option<String> {
    let length = (1 << 32) + 1;
    let (vast, text) = (vast(b"T", length), b"T".as_ptr());
    // SAFETY: each is as long as is said.
    let answers = unsafe { [tuv_evaluate(vast, length, 1, 1, 0, 1, text, 1), tuv_evaluate(text, 1, 8, 1, 0, 1, vast, length)] };
    wrong_answers(answers, [3, 10])
}
