//! Random cases of the extension of recordings and of the check of assignments. Most assignments begin as an extension, so that
//! the first clause that is unmet stands anywhere in the table, or there is none.

use crate::call::{boxed, Asked, Case, Family};
use crate::check::Check;
use crate::dice::{around, channels, chops, every_recording, formula, levels, recording, turn, Dice};
use crate::extend::{extended, Extend};

pub const FAMILIES: [Family; 10] = [
    Family::new("every recording of few bits, extended and checked", 120_000, all_recordings),
    Family::new("extensions of short recordings", 60_000, short_extensions),
    Family::new("extensions by few nodes", 4_000, narrow_extensions),
    Family::new("extensions by chops within chops", 1_000, chop_extensions),
    Family::new("extensions of any size", 800, any_extensions),
    Family::new("extensions with each byte turned", 200_000, turned_bytes),
    Family::new("extensions with each byte neither 0 nor 1", 200_000, odd_bytes),
    Family::new("assignments that are no extensions", 100_000, other_assignments),
    Family::new("recordings, assignments and outputs of all lengths", 100_000, odd_lengths),
    Family::new("recordings and assignments with all sets of faults", 100_000, sets_of_faults),
];

/// The extension of a recording. For a refused text nobody knows what it is.
pub fn extension(Asked { text, c, k }: &Asked, recording: &[u8]) -> Vec<u8> {
    extended(text, *c, *k, recording, usize::MAX).unwrap_or(vec![2; 40])
}

/// A recording extended, and an assignment that may be its extension checked, each in an output of what it needs then.
pub fn extend_and_check(asked: &Asked, recording: &[u8], assignment: Vec<u8>) -> (Extend, Check) {
    let extend = Extend { asked: asked.clone(), recording: recording.to_vec(), room: assignment.len() };
    (extend, Check { asked: asked.clone(), assignment, room: recording.len() })
}

/// A formula and a recording to extend by it.
struct Exercise {
    asked: Asked,
    recording: Vec<u8>,
}

impl Exercise {
    /// With at most so many nodes.
    fn draw(dice: &mut Dice, k: u32, most_nodes: usize) -> Self {
        let c = channels(dice);
        let (nodes, levels) = (dice.from(1, most_nodes), levels(dice, k));
        Exercise { asked: Asked { text: formula(dice, c, levels, nodes), c, k }, recording: recording(dice, c, k) }
    }

    /// With an assignment so short that every place of it can be tried.
    fn draw_small(dice: &mut Dice) -> Self {
        let (k, most_nodes) = dice.pick(&[(0, 12), (1, 12), (1, 12), (2, 8), (2, 8), (3, 6)]);
        Exercise::draw(dice, k, most_nodes)
    }

    fn extension(&self) -> Vec<u8> {
        extension(&self.asked, &self.recording)
    }

    fn extend(&self, recording: Vec<u8>, room: usize) -> Box<dyn Case> {
        Box::new(Extend { asked: self.asked.clone(), recording, room })
    }

    fn check_to(&self, assignment: Vec<u8>, room: usize) -> Box<dyn Case> {
        Box::new(Check { asked: self.asked.clone(), assignment, room })
    }

    /// To a recording of what is needed.
    fn check(&self, assignment: Vec<u8>) -> Box<dyn Case> {
        self.check_to(assignment, self.asked.k as usize)
    }

    /// The extension, its check, and checks of it with one byte turned and with a few.
    fn extend_and_check(&self, dice: &mut Dice) -> Vec<Box<dyn Case>> {
        let (extend, check) = extend_and_check(&self.asked, &self.recording, self.extension());
        let turned = [1, 3].map(|times| {
            let mut assignment = self.extension();
            (0..times).for_each(|_| turn(dice, &mut assignment));
            self.check(assignment)
        });
        boxed([extend]).into_iter().chain(boxed([check])).chain(turned).collect()
    }
}

/// The same bytes but for one place.
fn with(bytes: &[u8], at: usize, byte: u8) -> Vec<u8> {
    let mut bytes = bytes.to_vec();
    bytes[at] = byte;
    bytes
}

/// For a formula of 8 channels and 32 steps: recordings extended, where there is room and where a place is missing, and checked,
/// as they are and with a byte changed far into them.
pub fn large(text: &[u8]) -> Vec<Box<dyn Case>> {
    let recordings = [[1; 32], std::array::from_fn(|t| [0, 255, 1, 2][t % 4])];
    let cases = recordings.map(|recording| {
        let asked = Asked { text: text.to_vec(), c: 8, k: 32 };
        let exercise = Exercise { asked, recording: recording.to_vec() };
        let extension = exercise.extension();
        let v = extension.len();
        let turned = [v / 3, v / 2, v - 1].map(|at| with(&extension, at, 1 - extension[at]));
        let others = [with(&extension, v - 1, 255), extension[1..].to_vec(), extension];
        let extend = [v, v - 1].map(|room| exercise.extend(recording.to_vec(), room));
        let check = turned.into_iter().chain(others).map(|assignment| exercise.check(assignment));
        extend.into_iter().chain(check).collect::<Vec<_>>()
    });
    cases.into_iter().flatten().collect()
}

// Families

fn all_recordings(dice: &mut Dice) -> Vec<Box<dyn Case>> {
    let (c, k) = dice.pick(&[(1, 1), (1, 2), (1, 4), (1, 6), (2, 1), (2, 2), (2, 3), (3, 1), (3, 2), (6, 1)]);
    let (nodes, levels) = (dice.from(1, 16), levels(dice, k));
    let asked = Asked { text: formula(dice, c, levels, nodes), c, k };
    let both = |recording: Vec<u8>| {
        let (extend, check) = extend_and_check(&asked, &recording, extension(&asked, &recording));
        boxed([extend]).into_iter().chain(boxed([check]))
    };
    every_recording(c, k).flat_map(both).collect()
}

fn short_extensions(dice: &mut Dice) -> Vec<Box<dyn Case>> {
    let k = dice.from(0, 6) as u32;
    Exercise::draw(dice, k, 24).extend_and_check(dice)
}

fn narrow_extensions(dice: &mut Dice) -> Vec<Box<dyn Case>> {
    let k = dice.from(0, 32) as u32;
    Exercise::draw(dice, k, 6).extend_and_check(dice)
}

fn chop_extensions(dice: &mut Dice) -> Vec<Box<dyn Case>> {
    let (c, k) = (channels(dice), dice.from(0, 20) as u32);
    let levels = levels(dice, k / 4);
    let asked = Asked { text: chops(dice, c, levels), c, k };
    Exercise { asked, recording: recording(dice, c, k) }.extend_and_check(dice)
}

fn any_extensions(dice: &mut Dice) -> Vec<Box<dyn Case>> {
    let k = dice.from(0, 32) as u32;
    Exercise::draw(dice, k, 64).extend_and_check(dice)
}

fn turned_bytes(dice: &mut Dice) -> Vec<Box<dyn Case>> {
    let exercise = Exercise::draw_small(dice);
    let extension = exercise.extension();
    (0..extension.len()).map(|at| exercise.check(with(&extension, at, 1 - extension[at]))).collect()
}

/// Each place alone, and with another one.
fn odd_bytes(dice: &mut Dice) -> Vec<Box<dyn Case>> {
    let exercise = Exercise::draw_small(dice);
    let extension = exercise.extension();
    let mut cases = vec![];
    for at in 0..extension.len() {
        let alone = [2, 255].map(|byte| with(&extension, at, byte));
        let (other, byte) = (dice.from(0, extension.len() - 1), dice.pick(&[2, 3, 128, 129, 254, 255]));
        let both = with(&alone[0], other, byte);
        cases.extend(alone.into_iter().chain([both]).map(|assignment| exercise.check(assignment)));
    }
    cases
}

/// Any bytes of 0 and 1, many or few of them 1; and one recording's extension to some place, from there on another's.
fn other_assignments(dice: &mut Dice) -> Vec<Box<dyn Case>> {
    let mut exercise = Exercise::draw_small(dice);
    let extension = exercise.extension();
    let v = extension.len();
    let one_in = dice.from(1, 6);
    let few: Vec<u8> = (0..v).map(|_| dice.one_in(one_in).into()).collect();
    let many = few.iter().map(|byte| 1 - byte).collect();
    exercise.recording = recording(dice, exercise.asked.c, exercise.asked.k);
    let (other, at) = (exercise.extension(), dice.from(0, v));
    let joined = [&extension[..at], &other[at..]].concat();
    [few, many, joined].map(|assignment| exercise.check(assignment)).into_iter().collect()
}

/// What is beyond the first bytes of a longer one would be accepted there or not.
fn odd_lengths(dice: &mut Dice) -> Vec<Box<dyn Case>> {
    let exercise = Exercise::draw_small(dice);
    let (extension, k) = (exercise.extension(), exercise.asked.k as usize);
    let beyond = dice.pick(&[0, 1, 255]);
    let resized = |bytes: &[u8], length| {
        let mut bytes = bytes.to_vec();
        bytes.resize(length, beyond);
        bytes
    };
    let mut cases = vec![];
    for (of_recording, of_extension) in around(k).into_iter().flat_map(|k| around(extension.len()).map(|v| (k, v))) {
        cases.push(exercise.extend(resized(&exercise.recording, of_recording), of_extension));
        cases.push(exercise.check_to(resized(&extension, of_extension), of_recording));
    }
    cases
}

/// A byte that is too high, a byte turned, a length that is off by one, an output that is too short: in all combinations, so
/// that the order of the questions shows.
fn sets_of_faults(dice: &mut Dice) -> Vec<Box<dyn Case>> {
    let k = dice.from(1, 4) as u32;
    let exercise = Exercise::draw(dice, k, 12);
    let extension = exercise.extension();
    let mut spoiled = |bytes: &[u8], need: usize, [odd, turned, length, room]: [bool; 4]| {
        let mut bytes = bytes.to_vec();
        if turned {
            turn(dice, &mut bytes);
        }
        if odd {
            let at = dice.from(0, bytes.len() - 1);
            bytes[at] |= 128;
        }
        if length {
            let length = dice.pick(&[bytes.len() - 1, bytes.len() + 1]);
            bytes.resize(length, 0);
        }
        (bytes, need - usize::from(room))
    };
    let mut cases = vec![];
    for faults in (0..16).map(|set| [1, 2, 4, 8].map(|fault| set & fault != 0)) {
        let (recording, room) = spoiled(&exercise.recording, extension.len(), faults);
        cases.push(exercise.extend(recording, room));
        let (assignment, room) = spoiled(&extension, k as usize, faults);
        cases.push(exercise.check_to(assignment, room));
    }
    cases
}
