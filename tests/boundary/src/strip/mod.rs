//! How is a recording shown in a lab notebook?

use std::fmt;

use crate::call::{boxed, edge, unpacked, wrong_answers, Call, Case, Edge, Family, Wanted, Written};
use crate::dice::{around, every_recording, recording, Dice, ODD_NUMBERS};
use crate::edges::{Columns, Unit};
use crate::fault;
use crate::fence::{vast, Side};
use crate::lent::{wrong_places, Lender, Places};
use crate::reference::{limited, recorded, yes, Refusal};

extern "C" {
    fn tuv_strip(c: u32, k: u32, recording: *const u8, recording_length: usize, strip: *mut u8, strip_length: usize) -> u64;
}

pub const CALL: Call = Call {
    name: "strip",
    line: "strip",
    codes: &[1, 2, 10, 11, 18, 66],
    edges,
    on_text: |_, _, _| vec![],
    families: &[
        Family::new("strips of every C and k", 100_000, every_size),
        Family::new("strips of recordings and in outputs of all lengths", 60_000, odd_lengths),
        Family::new("strips of recordings with a byte too high", 60_000, high_bytes),
        Family::new("strips with all sets of faults", 100_000, sets_of_faults),
    ],
    long_families: &[],
    vast: &[("lengths that are small modulo 2^32", vast_lengths), ("outputs as long as 2^32", vast_outputs)],
};

/// With the length of the strip.
#[derive(Clone)]
pub struct Strip {
    c: u32,
    k: u32,
    recording: Vec<u8>,
    room: usize,
}

impl fmt::Display for Strip {
    fn fmt(&self, f: &mut fmt::Formatter) -> fmt::Result {
        let Strip { c, k, recording, room } = self;
        write!(f, "C {c}, k {k}, recording of {} bytes {recording:02x?} to a strip of {room} places", recording.len())
    }
}

impl Case for Strip {
    fn call(&self) -> &'static str {
        CALL.name
    }

    fn wanted(&self) -> Wanted {
        drawn(self).map(Written::Strip).into()
    }

    fn wrong_in(&self, lender: &mut Lender, wanted: &Wanted) -> Option<String> {
        let (answer, strip) = self.answer(lender);
        wanted.wrong_answer(answer).or_else(|| strip.wrong("strip", wanted.bytes()))
    }
}

impl Strip {
    /// In an output of what it needs.
    fn of(c: u32, recording: Vec<u8>) -> Self {
        Strip { c, k: recording.len() as u32, recording, room: need(c) }
    }

    /// The same but for a change.
    fn but(&self, change: impl FnOnce(&mut Strip)) -> Self {
        let mut strip = self.clone();
        change(&mut strip);
        strip
    }

    /// The answer, and the strip after it.
    fn answer(&self, lender: &mut Lender) -> (u64, Places<u8>) {
        let Strip { c, k, recording, room } = self;
        let (lent, mut strip) = (lender.lend(recording), lender.output(*room));
        // SAFETY: each pointer is to as many bytes as is said, or null with none; the two arrays do not overlap.
        let answer = unsafe { tuv_strip(*c, *k, lent, recording.len(), strip.start(), *room) };
        (answer, strip)
    }

    /// The strip that the engine itself writes, if it writes one.
    pub fn own_strip(&self, lender: &mut Lender) -> Option<Vec<u8>> {
        lender.begin(Side::End);
        let (answer, strip) = fault::during(&self, || self.answer(lender));
        (unpacked(answer).0 == 66).then(|| strip.now().to_vec())
    }
}

fn edges(kind: &str, columns: &mut Columns) -> Vec<Edge> {
    match kind {
        "strip" => {
            let (c, k, recording, rooms) = (columns.number(), columns.number(), columns.bytes(Unit::Pair), columns.rooms());
            let wanted = columns.wanted(|columns| Written::Strip(columns.bytes(Unit::Drawn)));
            let in_room = |[room]: [usize; 1]| Strip { c, k, recording: recording.clone(), room };
            rooms.into_iter().map(|room| edge(in_room(room), wanted.clone())).collect()
        }
        _ => vec![],
    }
}

// Families

/// Some channels are high throughout and some low, so that every count comes often: 0, one digit, two, and k.
fn any(dice: &mut Dice, c: u32, k: u32) -> Strip {
    let (always, never) = (dice.next() & dice.next(), dice.next() & dice.next());
    let channels = (1 << c) - 1;
    let byte = |byte: u8| ((u64::from(byte) | always) & !never & channels) as u8;
    Strip::of(c, recording(dice, c, k).into_iter().map(byte).collect())
}

/// Of any size, but of at least so many steps.
fn any_from(dice: &mut Dice, least: usize) -> Strip {
    let (c, k) = (dice.from(1, 8), dice.from(least, 32));
    any(dice, c as u32, k as u32)
}

fn every_size(dice: &mut Dice) -> Vec<Box<dyn Case>> {
    let more = dice.pick(&[0, 1, 39, 1000]);
    let sizes = (1..=8).flat_map(|c| (0..=32).map(move |k| (c, k)));
    boxed(sizes.map(|(c, k)| any(dice, c, k).but(|strip| strip.room += more)))
}

/// What is beyond the k bytes of a longer recording would be refused there or not.
fn odd_lengths(dice: &mut Dice) -> Vec<Box<dyn Case>> {
    let (strip, beyond) = (any_from(dice, 0), dice.pick(&[0, 1, 255]));
    let lengths = (0..=40).chain([strip.k as usize + 256]);
    let recordings = lengths.map(|length| strip.but(|strip| strip.recording.resize(length, beyond)));
    let rooms = (0..=strip.room + 3).map(|room| strip.but(|strip| strip.room = room));
    boxed(recordings.chain(rooms))
}

/// A bit from C on in each byte, alone and with another byte that has one, so that the first is to be named.
fn high_bytes(dice: &mut Dice) -> Vec<Box<dyn Case>> {
    let (c, k) = (dice.from(1, 7), dice.from(1, 32));
    let strip = any(dice, c as u32, k as u32);
    let spoiled = (0..k).flat_map(|at| (c..8).map(move |bit| (at, bit))).flat_map(|(at, bit)| {
        let alone = strip.but(|strip| strip.recording[at] |= 1 << bit);
        let (other, bit) = (dice.from(0, k - 1), dice.from(c, 7));
        let both = alone.but(|strip| strip.recording[other] |= 1 << bit);
        [alone, both]
    });
    boxed(spoiled)
}

/// An odd C, an odd k with a recording of that length or not, a length that is off by one, a byte that is too high, an output that
/// is longer or too short: in all combinations, so that the order of the questions shows.
fn sets_of_faults(dice: &mut Dice) -> Vec<Box<dyn Case>> {
    let strip = any_from(dice, 1);
    let mut spoiled = |[c, k, length, byte, room]: [bool; 5]| {
        let mut strip = strip.clone();
        if c {
            strip.c = dice.pick(&ODD_NUMBERS);
        }
        if k {
            strip.k = dice.pick(&ODD_NUMBERS);
            if strip.k <= 300 && dice.one_in(2) {
                strip.recording.resize(strip.k as usize, 0);
            }
        }
        if byte {
            let at = dice.from(0, strip.recording.len().max(1) - 1);
            let bit = dice.from(strip.c.min(7) as usize, 7);
            strip.recording.iter_mut().skip(at).take(1).for_each(|byte| *byte |= 1 << bit);
        }
        if length {
            let length = strip.recording.len();
            strip.recording.resize(dice.pick(&[length.saturating_sub(1), length + 1]), 0);
        }
        if room {
            strip.room = dice.pick(&around(strip.room));
        }
        strip
    };
    boxed((0..32).map(|set| spoiled([1, 2, 4, 8, 16].map(|fault| set & fault != 0))))
}

// What is then compared in `together`

/// Every recording of few bits, C by C and k by k.
pub fn of_few_bits() -> impl Iterator<Item = Vec<Strip>> {
    let sizes = (1..=8).flat_map(|c| (0..=10 / c).map(move |k| (c, k)));
    sizes.map(|(c, k)| every_recording(c, k).map(|recording| Strip::of(c, recording)).collect())
}

/// A recording, and all that differ from it in one bit.
pub fn of_turned_bits(dice: &mut Dice) -> Vec<Strip> {
    let strip = any_from(dice, 0);
    let bits = (0..strip.recording.len()).flat_map(|t| (0..strip.c).map(move |channel| (t, channel)));
    let turned = bits.map(|(t, channel)| strip.but(|strip| strip.recording[t] ^= 1 << channel));
    turned.chain([strip.clone()]).collect()
}

/// A recording of 2^32 + 1 bytes is not of 1, and one of 2^32 is not of none.
fn vast_lengths() -> Option<String> {
    let length = 1 << 32;
    let (recording, mut strip) = (vast(&[], length + 1), [0; 351]);
    let to = strip.as_mut_ptr();
    // SAFETY: each is as long as is said.
    let answers = unsafe { [tuv_strip(8, 1, recording, length + 1, to, 351), tuv_strip(8, 0, recording, length, to, 351)] };
    wrong_answers(answers, [10; 2]).or_else(|| wrong_places("strip", &strip, &[], 0))
}

/// 2^32 places are long enough for any strip, and not 0 places; and 77 more are not 77.
fn vast_outputs() -> Option<String> {
    let case = Strip::of(1, vec![1]);
    let wanted = case.wanted();
    [0, 77].into_iter().find_map(|more| {
        let length = (1 << 32) + more;
        let to = vast(&[], length);
        // SAFETY: each is as long as is said, and the two do not overlap.
        let answer = unsafe { tuv_strip(1, 1, case.recording.as_ptr(), 1, to, length) };
        // SAFETY: the first of so many places.
        let first = unsafe { std::slice::from_raw_parts(to, 100) };
        wanted.wrong_answer(answer).or_else(|| wrong_places("strip", first, wanted.bytes(), 0))
    })
}

// The second implementation: a line after the other, as text. What it shares with the engine is the paper.

/// How many bytes a strip of so many channels has: a ruler and a line for each, of 39 bytes.
fn need(c: u32) -> usize {
    (c as usize + 1) * 39
}

/// What is written.
fn drawn(Strip { c, k, recording, room }: &Strip) -> Result<Vec<u8>, Refusal> {
    limited(*c, *k)?;
    recorded(recording, *c, *k)?;
    yes(*room >= need(*c), 18)?;
    let strip = (0..*c).fold(ruler(*k), |strip, channel| strip + &line(recording, channel));
    assert_eq!(strip.len(), need(*c));
    Ok(strip.into())
}

/// Two blanks, the last decimal digit of each instant below k, and blanks.
fn ruler(k: u32) -> String {
    let digits: String = (0..k).filter_map(|t| t.to_string().pop()).collect();
    format!("  {digits:<36}\n")
}

/// Letter, blank, 32 columns, blank, and the count in 3 places.
fn line(recording: &[u8], channel: u32) -> String {
    let letter = ["a", "b", "c", "d", "e", "f", "g", "h"][channel as usize];
    let is_high = |byte: &&u8| *byte >> channel & 1 == 1;
    let columns: String = recording.iter().map(|byte| if is_high(&byte) { '#' } else { '_' }).collect();
    let count = recording.iter().filter(is_high).count();
    format!("{letter} {columns:<32} {count:>3}\n")
}
