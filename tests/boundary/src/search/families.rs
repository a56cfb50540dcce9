//! Random cases of the search. A formula's tree is grown once, by the second implementation, and then asked for under several
//! limits and with arrays of several lengths.

use std::rc::Rc;

use super::recorded::{recorded, Recorded};
use super::second::{first_of_all, Outcome, Search};
use super::SearchCase;
use crate::call::{boxed, Asked, Case, Family};
use crate::dice::{around, channels, chops, formula, levels, Dice};
use crate::reference::Refusal;
use crate::table::counts::counts;
use crate::texts;

/// Each case is quick, so there are many; of lengths there are not so many that differ.
const TIMES: usize = 10;

/// With limits about N.
pub const LIMIT_FAMILIES: [Family; 3] = [
    Family::new("searches for one formula", 126_000 * TIMES, |dice| limits_about_n(dice, MOST_TRIED, any_formula)),
    Family::new("searches for several at once", 30_000 * TIMES, |dice| limits_about_n(dice, MOST_TRIED, several)),
    Family::new("searches for opposed formulas", 40_000 * TIMES, |dice| limits_about_n(dice, 8, opposed)),
];

pub const FAMILIES: [Family; 5] = [
    Family::new("searches with many tries", 1_500 * TIMES, many_tries),
    Family::new("searches in arrays of all lengths", 100_000, all_lengths),
    Family::new("searches in arrays too short, in all sets", 60_000 * TIMES, sets_of_short_arrays),
    Family::new("a few tries with large tables", 400 * TIMES, large_tables),
    Family::new("searches for texts that are mostly refused", 60_000 * TIMES, other_texts),
];

/// A formula, and what the second implementation says of its search.
pub struct Exercise {
    pub asked: Asked,
    pub search: Result<Search, Refusal>,
}

/// So many channel variables, that every recording can be tried.
const MOST_TRIED: u32 = 12;
/// So many literals, that the second implementation takes many tries in little time.
const FEW_LITERALS: u64 = 4_000;

/// Writes a formula for C and k.
type Author = fn(&mut Dice, u32, u32) -> Vec<u8>;

impl Exercise {
    /// With so many tries at most by the second implementation.
    pub fn new(asked: Asked, most: u32) -> Rc<Self> {
        Exercise::grown(asked, most).checked()
    }

    fn grown(asked: Asked, most: u32) -> Self {
        Exercise { search: Search::new(&asked.text, asked.c, asked.k, most), asked }
    }

    /// The second implementation is at one with itself: what it finds is the first of all recordings that satisfy the formula.
    fn checked(self) -> Rc<Self> {
        let Asked { text, c, k } = &self.asked;
        if let Some(outcome) = self.outcome().filter(|_| c * k <= MOST_TRIED) {
            assert_eq!(outcome.recording, first_of_all(text, *c, *k), "for {}", self.asked);
        }
        Rc::new(self)
    }

    /// Of so few channel variables and literals that N is found at once, whatever it is, unless the text is refused.
    fn small(asked: Asked) -> Option<Self> {
        let is_small = |[_, _, l]: [u64; 3]| asked.c * asked.k <= MOST_TRIED && l <= FEW_LITERALS;
        let is_small = counts(&asked.text, asked.c, asked.k).map_or(true, |counts| is_small(counts.0));
        is_small.then(|| Exercise::grown(asked, u32::MAX))
    }

    /// With so many channel variables at most. Most of those that need no try are passed over.
    fn draw(dice: &mut Dice, most: u32, author: Author) -> Rc<Self> {
        loop {
            let c = channels(dice);
            let k = dice.from(0, (most / c) as usize) as u32;
            let small = Exercise::small(Asked { text: author(dice, c, k), c, k });
            if let Some(exercise) = small.filter(|exercise| exercise.tries() > 0 || dice.one_in(25)) {
                return exercise.checked();
            }
        }
    }

    fn recorded(Recorded { c, k, text, most, outcome }: Recorded) -> Rc<Self> {
        let counts = counts(text.as_bytes(), c, k).expect("an accepted text");
        Rc::new(Exercise { search: Ok(Search::known(counts, k, most, outcome)), asked: Asked { text: text.into(), c, k } })
    }

    fn outcome(&self) -> Option<&Outcome> {
        self.search.as_ref().ok()?.outcome.as_ref()
    }

    /// N, if it is known.
    fn tries(&self) -> u32 {
        self.outcome().map_or(0, |outcome| outcome.tries)
    }

    /// For a refused text nobody knows what it needs.
    pub fn needs(&self) -> [usize; 5] {
        self.search.as_ref().map_or([40, 40, 20, 20, 4], |search| search.needs)
    }
}

fn case(dice: &mut Dice, exercise: &Rc<Exercise>, limit: u32, lengths: [usize; 5]) -> SearchCase {
    SearchCase { exercise: exercise.clone(), limit, lengths, before: dice.next() }
}

/// N, its neighbours, the ends of what a limit can be, and one that would be 0 if it had fewer bits.
fn limits(dice: &mut Dice, exercise: &Exercise) -> Vec<u32> {
    let tries = exercise.tries();
    let mut limits = vec![0, tries.saturating_sub(1), tries, tries.saturating_add(1), u32::MAX];
    limits.dedup();
    limits.push(dice.pick(&[1 << 8, 1 << 16, 1 << 24, 1 << 31]));
    limits
}

/// Under each of the limits, in arrays of what is needed.
fn under_limits(dice: &mut Dice, exercise: &Rc<Exercise>, limits: &[u32]) -> Vec<Box<dyn Case>> {
    boxed(limits.iter().map(|limit| case(dice, exercise, *limit, exercise.needs())))
}

// Texts

fn any_formula(dice: &mut Dice, c: u32, k: u32) -> Vec<u8> {
    let (nodes, levels) = (dice.from(1, 12), levels(dice, k));
    formula(dice, c, levels, nodes)
}

/// A formula that must hold and one that must not: the same or much the same, which closures do not see but tries do.
fn opposed(dice: &mut Dice, c: u32, k: u32) -> Vec<u8> {
    let nodes = dice.from(2, 7);
    let formula = formula(dice, c, k / 2, nodes);
    let mut other = formula.clone();
    if dice.one_in(2) {
        vary(dice, &mut other, c);
    }
    [b"(", &formula[..], b"&!", &other, b")"].concat()
}

/// Another letter, digit or sign in one place.
fn vary(dice: &mut Dice, text: &mut [u8], c: u32) {
    let at = dice.from(0, text.len() - 1);
    text[at] = match text[at] {
        b'a'..=b'h' => b'a' + dice.from(0, c as usize - 1) as u8,
        b'0'..=b'9' => b'0' + dice.from(0, 3) as u8,
        b'&' | b'|' => dice.pick(b"&|"),
        other => other,
    }
}

/// Formulas that must all hold, so that often none can.
fn several(dice: &mut Dice, c: u32, k: u32) -> Vec<u8> {
    let mut part = || {
        let nodes = dice.from(2, 6);
        formula(dice, c, k / 2, nodes)
    };
    let parts = [part(), part(), part()];
    [b"(", &parts[0][..], b"&(", &parts[1], b"&", &parts[2], b"))"].concat()
}

/// So many instants of S and so many without that there are just enough of them, or one too few.
fn counted(dice: &mut Dice, c: u32, k: u32) -> Vec<u8> {
    let state = if c == 1 { "a" } else { dice.pick(&["a", "!a", "(a|b)", "(a&!b)"]) };
    let high = dice.from(0, k as usize);
    let low = k as usize - high + dice.from(0, 1);
    format!("(#{state}>={high}&#!{state}>={low})").into()
}

/// As many tries as there are.
pub fn without_limit(dice: &mut Dice) -> SearchCase {
    let exercise = Exercise::draw(dice, MOST_TRIED, several);
    let needs = exercise.needs();
    case(dice, &exercise, u32::MAX, needs)
}

/// What is recorded, with N tries and with one less, or with as many as were made where they were too few.
pub fn recorded_searches() -> impl Iterator<Item = Box<dyn Case>> {
    recorded().zip(0..).flat_map(|(recorded, number)| {
        let most = recorded.most;
        let exercise = Exercise::recorded(recorded);
        let limits = exercise.outcome().map_or([Some(most), None], |outcome| [Some(outcome.tries), outcome.tries.checked_sub(1)]);
        let limits: Vec<u32> = limits.into_iter().flatten().collect();
        under_limits(&mut Dice::new(0, 0, number), &exercise, &limits)
    })
}

// Families

fn limits_about_n(dice: &mut Dice, most: u32, author: Author) -> Vec<Box<dyn Case>> {
    let exercise = Exercise::draw(dice, most, author);
    let limits = limits(dice, &exercise);
    under_limits(dice, &exercise, &limits)
}

/// Some limit below N too.
fn many_tries(dice: &mut Dice) -> Vec<Box<dyn Case>> {
    let (c, k) = dice.pick(&[(1, 8), (1, 9), (1, 10), (1, 11), (2, 4), (2, 5), (3, 3), (4, 3)]);
    let exercise = Exercise::new(Asked { text: counted(dice, c, k), c, k }, u32::MAX);
    let below = dice.from(0, exercise.tries() as usize) as u32;
    let limits = [limits(dice, &exercise), vec![below]].concat();
    under_limits(dice, &exercise, &limits)
}

/// Each array alone of other lengths, and all of them longer.
fn all_lengths(dice: &mut Dice) -> Vec<Box<dyn Case>> {
    let exercise = Exercise::draw(dice, 8, opposed);
    let (needs, limits) = (exercise.needs(), limits(dice, &exercise));
    let alone = |at: usize| {
        around(needs[at]).map(move |length| {
            let mut lengths = needs;
            lengths[at] = length;
            lengths
        })
    };
    let longer = [1, 3, 300].map(|more| needs.map(|need| need + more));
    let lengths = (0..5).flat_map(alone).chain(longer);
    let cases = lengths.map(|lengths| {
        let limit = dice.pick(&limits);
        case(dice, &exercise, limit, lengths)
    });
    boxed(cases)
}

/// A place less in each of the arrays of a set, and in the others what is needed or more.
fn sets_of_short_arrays(dice: &mut Dice) -> Vec<Box<dyn Case>> {
    let exercise = Exercise::draw(dice, MOST_TRIED, several);
    let (needs, limits) = (exercise.needs(), limits(dice, &exercise));
    let in_set = |set: usize| {
        let lengths = [0, 1, 2, 3, 4].map(|at| match set >> at & 1 {
            1 => needs[at].saturating_sub(1),
            _ => needs[at] + dice.pick(&[0, 0, 1, 7]),
        });
        let limit = dice.pick(&limits);
        case(dice, &exercise, limit, lengths)
    };
    boxed((0..32).map(in_set))
}

/// Tables of many steps or chops, where N is above most limits.
fn large_tables(dice: &mut Dice) -> Vec<Box<dyn Case>> {
    let (c, k) = (channels(dice), dice.from(4, 32) as u32);
    let text = if dice.one_in(2) { chops(dice, c, k / 4) } else { several(dice, c, k) };
    let most = dice.from(0, 6) as u32;
    let exercise = Exercise::new(Asked { text, c, k }, most);
    under_limits(dice, &exercise, &[0, most])
}

/// Texts near the limits, damaged ones and odd numbers, as for the other calls, also of few steps.
fn other_texts(dice: &mut Dice) -> Vec<Box<dyn Case>> {
    let asked = texts::any(dice);
    let few = Asked { k: if asked.k <= 32 { asked.k % 4 } else { asked.k }, ..asked.clone() };
    let exercises = [asked, few].into_iter().filter_map(Exercise::small).map(Exercise::checked);
    let in_some_room = |exercise: Rc<Exercise>| {
        let lengths = exercise.needs().map(|need| dice.pick(&around(need)));
        let limits = limits(dice, &exercise);
        let limit = dice.pick(&limits);
        [lengths, exercise.needs()].map(|lengths| case(dice, &exercise, limit, lengths))
    };
    boxed(exercises.flat_map(in_some_room))
}
