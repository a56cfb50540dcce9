//! Which is the first recording that satisfies the formula?

mod families;
mod recorded;
mod second;

use std::fmt;
use std::rc::Rc;

use crate::call::{edge, unpacked, wrong_answers, Asked, Call, Case, Edge, Wanted};
use crate::dice::Dice;
use crate::edges::{recording_written, Columns};
use crate::fault;
use crate::fence::{vast, Side};
use crate::lent::{Lender, Places};
use crate::reference::packed;
use families::Exercise;
pub use families::{recorded_searches, without_limit};
pub use recorded::record;

extern "C" {
    fn tuv_search(
        text: *const u8,
        text_length: usize,
        c: u32,
        k: u32,
        limit: u32,
        variables: *mut u32,
        variables_length: usize,
        marks: *mut u8,
        marks_length: usize,
        values: *mut u8,
        values_length: usize,
        trail: *mut u32,
        trail_length: usize,
        recording: *mut u8,
        recording_length: usize,
    ) -> u64;
}

pub const CALL: Call = Call {
    name: "search",
    line: "search",
    codes: &[1, 2, 3, 4, 5, 6, 7, 18, 68, 69, 70],
    edges,
    on_text: |_, _, _| vec![], // there is a family of its own
    families: &families::FAMILIES,
    long_families: &families::LIMIT_FAMILIES,
    vast: &[("arrays as long as 2^32", vast_lengths)],
};

/// With the lengths of variables, marks, values, trail and recording, and the seed of what the first four hold before.
pub struct SearchCase {
    exercise: Rc<Exercise>,
    limit: u32,
    lengths: [usize; 5],
    before: u64,
}

impl fmt::Display for SearchCase {
    fn fmt(&self, f: &mut fmt::Formatter) -> fmt::Result {
        let [variables, marks, values, trail, recording] = self.lengths;
        write!(f, "{}, search with limit {}, ", self.exercise.asked, self.limit)?;
        write!(f, "in {variables} variables, {marks} marks, {values} values, {trail} of a trail, {recording} of a recording")
    }
}

impl Case for SearchCase {
    fn call(&self) -> &'static str {
        CALL.name
    }

    fn wanted(&self) -> Wanted {
        match &self.exercise.search {
            Ok(search) => search.wanted(self.limit, self.lengths),
            Err(refusal) => packed(Err(*refusal)).into(),
        }
    }

    fn wrong_in(&self, lender: &mut Lender, wanted: &Wanted) -> Option<String> {
        self.wrong_after(lender, Before::Full, wanted)
    }

    fn wrong(&self, lender: &mut Lender, wanted: &Wanted) -> Option<String> {
        let wrong = fault::during(&self, || {
            TURNS.into_iter().find_map(|(side, before)| {
                lender.begin(side);
                self.wrong_after(lender, before, wanted)
            })
        });
        wrong.map(|wrong| format!("{self}: {wrong}"))
    }
}

/// What the arrays that a search works in hold before it: it must not matter.
#[derive(Clone, Copy)]
enum Before {
    Full,
    Random,
    /// What the search before it left in them.
    Left,
}

/// A search on either side of the fence, and once more in the same memory.
const TURNS: [(Side, Before); 3] = [(Side::Start, Before::Full), (Side::End, Before::Random), (Side::End, Before::Left)];

/// The arrays that are lent for a search to work in.
struct Work {
    variables: Places<u32>,
    marks: Places<u8>,
    values: Places<u8>,
    trail: Places<u32>,
}

impl Work {
    fn new(lender: &mut Lender, [variables, marks, values, trail, _]: [usize; 5]) -> Self {
        let (variables, marks) = (lender.left(variables), lender.left(marks));
        Work { variables, marks, values: lender.left(values), trail: lender.left(trail) }
    }

    fn prepare(&mut self, before: Before, seed: u64) {
        match before {
            Before::Full => self.fill(|| u64::MAX),
            Before::Random => {
                // Bytes and numbers of all sizes, or such as a search has there itself.
                let mut dice = Dice::new(seed, 0, 0);
                let most = dice.pick(&[3, u64::MAX]);
                self.fill(|| dice.next() & most);
            }
            Before::Left => {}
        }
    }

    fn fill(&mut self, mut next: impl FnMut() -> u64) {
        [self.variables.all(), self.trail.all()].into_iter().flatten().for_each(|number| *number = next() as u32);
        [self.marks.all(), self.values.all()].into_iter().flatten().for_each(|byte| *byte = next() as u8);
    }

    fn copy(&self) -> (Vec<u32>, Vec<u8>, Vec<u8>, Vec<u32>) {
        (self.variables.now().into(), self.marks.now().into(), self.values.now().into(), self.trail.now().into())
    }
}

impl SearchCase {
    fn wrong_after(&self, lender: &mut Lender, before: Before, wanted: &Wanted) -> Option<String> {
        let (answer, changed, recording) = self.answer(lender, before);
        let is_refused = wanted.answer.0 <= 18;
        wanted
            .wrong_answer(answer)
            .or_else(|| recording.wrong("recording", wanted.bytes()))
            .or_else(|| (is_refused && changed).then(|| "refused, and yet a work array has changed".to_string()))
    }

    /// The answer, whether any of the work arrays is another than before, and the recording's array.
    fn answer(&self, lender: &mut Lender, before: Before) -> (u64, bool, Places<u8>) {
        let SearchCase { exercise, limit, lengths, before: seed } = self;
        let (Asked { text, c, k }, [variables, marks, values, trail, bytes]) = (&exercise.asked, *lengths);
        let (lent_text, mut work) = (lender.lend(text), Work::new(lender, *lengths));
        work.prepare(before, *seed);
        let copy = work.copy();
        let mut recording = lender.output(bytes);
        let (vs, ms) = (work.variables.start(), work.marks.start());
        let (xs, ts, rs) = (work.values.start(), work.trail.start(), recording.start());
        // SAFETY: each pointer is to as many places as is said, or null with none; no two arrays overlap.
        let answer = unsafe {
            tuv_search(lent_text, text.len(), *c, *k, *limit, vs, variables, ms, marks, xs, values, ts, trail, rs, bytes)
        };
        (answer, work.copy() != copy, recording)
    }

    pub fn asked(&self) -> &Asked {
        &self.exercise.asked
    }

    /// The recording that the engine itself finds, if it finds one.
    pub fn own_recording(&self, lender: &mut Lender) -> Option<Vec<u8>> {
        lender.begin(Side::End);
        let (answer, _, recording) = fault::during(&self, || self.answer(lender, Before::Full));
        (unpacked(answer).0 == 68).then(|| recording.now()[..self.asked().k as usize].to_vec())
    }
}

fn edges(kind: &str, columns: &mut Columns) -> Vec<Edge> {
    if !["search", "text"].contains(&kind) {
        return vec![];
    }
    let exercise = Exercise::new(columns.asked(), 0);
    let search = |limit, lengths| SearchCase { exercise: exercise.clone(), limit, lengths, before: 0 };
    if kind == "text" {
        let answer = columns.answer();
        return [search(0, [0; 5]), search(u32::MAX, [50; 5])].map(|case| edge(case, answer)).into();
    }
    let (limits, rooms): (Vec<[u32; 1]>, _) = (columns.each(), columns.rooms());
    let wanted = columns.wanted(recording_written);
    let each = rooms.into_iter().flat_map(|room| limits.iter().map(move |[limit]| (*limit, room)));
    each.map(|(limit, room)| edge(search(limit, room), wanted.clone())).collect()
}

/// 2^32 + 1 bytes are no text of 1 byte; 2^32 places are long enough for any search, and not 0 places.
fn vast_lengths() -> Option<String> {
    let (length, text) = (1 << 32, b"!#a>=1".as_ptr());
    let vast_text = vast(b"T", length + 1);
    let (places, bytes): (*mut u32, _) = (vast(&[], 4 * length).cast(), vast(&[], length));
    let (mut variables, mut trail, mut marks, mut values, mut recording) = ([0; 40], [0; 40], [0; 40], [0; 40], [0; 1]);
    let (vs, ts) = (variables.as_mut_ptr(), trail.as_mut_ptr());
    let (ms, xs, rs) = (marks.as_mut_ptr(), values.as_mut_ptr(), recording.as_mut_ptr());
    // SAFETY: each is as long as is said, and no call has two that overlap.
    let answers = unsafe {
        [
            tuv_search(vast_text, length + 1, 1, 1, 9, vs, 40, ms, 40, xs, 40, ts, 40, rs, 1),
            tuv_search(text, 6, 1, 1, 9, places, length, ms, 40, xs, 40, ts, 40, rs, 1),
            tuv_search(text, 6, 1, 1, 9, vs, 40, bytes, length, xs, 40, ts, 40, rs, 1),
            tuv_search(text, 6, 1, 1, 9, vs, 40, ms, 40, bytes, length, ts, 40, rs, 1),
            tuv_search(text, 6, 1, 1, 9, vs, 40, ms, 40, xs, 40, places, length, rs, 1),
            tuv_search(text, 6, 1, 1, 9, vs, 40, ms, 40, xs, 40, ts, 40, bytes, length),
        ]
    };
    wrong_answers(answers, [3, 68, 68, 68, 68, 68])
}
