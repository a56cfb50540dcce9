//! Families of texts, most of them refused: each is asked of every call that takes one.

use crate::call::{Asked, Case, Family};
use crate::dice::{bold_formula, channels, damage, formula, Dice, ODD_NUMBERS, SIGNS};
use crate::CALLS;

pub const FAMILIES: [Family; 4] = [
    Family::new("texts near the limits", 100_000, |dice| each_call(dice, near_limits)),
    Family::new("damaged texts", 150_000, |dice| each_call(dice, damaged)),
    Family::new("random bytes as text", 100_000, |dice| each_call(dice, random_bytes)),
    Family::new("odd numbers, recordings and lengths", 150_000, |dice| each_call(dice, odd_arguments)),
];

/// A text, and how many arguments are to be spoiled at most.
type Draw = fn(&mut Dice) -> (Asked, usize);

fn each_call(dice: &mut Dice, draw: Draw) -> Vec<Box<dyn Case>> {
    let (asked, most) = draw(dice);
    let mut cases = vec![];
    for call in CALLS {
        let faults = dice.from(most.min(1), most);
        cases.extend((call.on_text)(dice, asked.clone(), faults));
    }
    cases
}

/// A text of one of these families, with what it is asked with.
pub fn any(dice: &mut Dice) -> Asked {
    let draw: Draw = dice.pick(&[near_limits, damaged, random_bytes, odd_arguments]);
    let (mut asked, most) = draw(dice);
    for _ in 0..dice.from(most.min(1), most) {
        spoiled(dice, &mut asked);
    }
    asked
}

/// Spoils the text, C or k now and then. If it does not, another argument is to be.
pub fn spoiled(dice: &mut Dice, asked: &mut Asked) -> bool {
    let number = dice.pick(&ODD_NUMBERS);
    match dice.from(1, 12) {
        1 => asked.c = number,
        2 => asked.k = number,
        3 => damage(dice, &mut asked.text),
        4 if dice.one_in(4) => asked.text.clear(),
        _ => return false,
    }
    true
}

fn near_limits(dice: &mut Dice) -> (Asked, usize) {
    let (c, k) = (channels(dice), dice.from(0, 32) as u32);
    let mut text = bold_formula(dice, c, k);
    // To an exact length, by a number or by nodes: no text of 64 nodes and small numbers is so long.
    let more = dice.pick(&[100, 253, 254, 255, 256, 257, 300, 511, 512, 513]) - text.len() as isize;
    if more > 8 && dice.one_in(2) {
        let digits = "1".repeat(more as usize - 7);
        text = [b"(", &text[..], b"&#a>=", digits.as_bytes(), b")"].concat();
    } else if more > 0 && dice.one_in(2) {
        text.splice(0..0, vec![b'!'; more as usize]);
    }
    (Asked { text, c, k }, 0)
}

fn damaged(dice: &mut Dice) -> (Asked, usize) {
    let (c, k) = (channels(dice), dice.from(0, 8) as u32);
    let nodes = dice.from(1, 30);
    let mut text = formula(dice, c, k, nodes);
    for _ in 0..dice.from(1, 3) {
        damage(dice, &mut text);
    }
    (Asked { text, c, k }, 0)
}

fn random_bytes(dice: &mut Dice) -> (Asked, usize) {
    let (c, k) = (channels(dice), dice.from(0, 8) as u32);
    let most = dice.pick(&[2, 4, 8, 300]);
    let length = dice.from(0, most);
    let any = dice.one_in(4);
    let text = (0..length).map(|_| if any { dice.next() as u8 } else { dice.pick(SIGNS) }).collect();
    (Asked { text, c, k }, 0)
}

/// Up to three arguments that may be refused at once, so that the order of the questions shows.
fn odd_arguments(dice: &mut Dice) -> (Asked, usize) {
    let (c, k) = (channels(dice), dice.from(0, 32) as u32);
    let nodes = dice.from(1, 12);
    (Asked { text: formula(dice, c, k, nodes), c, k }, 3)
}
