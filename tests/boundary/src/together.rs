//! What the calls say together, whatever the second implementation says; and the largest tables that there are, which are printed.

use std::collections::BTreeMap;
use std::time::Instant;

use crate::assignments::{extend_and_check, extension, large};
use crate::call::{unpacked, Asked, Case, Written};
use crate::dice::Dice;
use crate::evaluate::{whole_recording, Evaluate};
use crate::fault;
use crate::fence::Side;
use crate::files::both;
use crate::lent::Lender;
use crate::search::without_limit;
use crate::strip::{of_few_bits, of_turned_bits, Strip};
use crate::table::counts::{largest, Largest};
use crate::table::{any_tables, forced, small_tables, Forced, Table, TableCase};
use crate::{count, TOGETHER};

pub fn try_together(lender: &mut Lender, seed: u64) {
    try_agreement(lender, seed);
    try_round_trips(lender, seed);
    try_found(lender, seed);
    try_strips(lender, seed);
}

/// The calls that say what a formula means agree.
fn try_agreement(lender: &mut Lender, seed: u64) {
    fault::allow(60);
    let begun = Instant::now();
    let draws = 20_000;
    let wrong = (0..draws).find_map(|draw| {
        let case = whole_recording(&mut Dice::new(seed, TOGETHER, draw));
        disagreement(lender, &case).map(|wrong| format!("{wrong} (seed {seed}, draw {draw})"))
    });
    let seconds = begun.elapsed().as_secs_f32();
    println!("tables beside evaluation, extension and check: up to {draws} recordings in {seconds:.1} s");
    count("a table forces what the other calls answer", wrong);
}

/// Every table that the engine itself writes goes to a file and comes back.
fn try_round_trips(lender: &mut Lender, seed: u64) {
    fault::allow(60);
    let begun = Instant::now();
    let (small, any) = (10_000, 200);
    let drawn = (0..small + any).flat_map(|draw| {
        let dice = &mut Dice::new(seed, TOGETHER + 1, draw);
        if draw < small {
            small_tables(dice)
        } else {
            any_tables(dice)
        }
    });
    let mut tables = 0;
    let wrong = drawn.into_iter().find_map(|case| {
        let table = case.own_table(lender)?;
        tables += 1;
        wrong_round_trip(lender, &table).map(|wrong| format!("table of {case}: {wrong}"))
    });
    println!("tables to files and back: {tables} in {:.1} s", begun.elapsed().as_secs_f32());
    // A draw has one case with room for its table, and one without.
    let few = (tables != small + any).then(|| format!("there are {tables} tables of {}", small + any));
    count("a table is read as it was written", wrong.or(few));
}

/// What is written is what is then read, and what is read is what was written: every place of both is compared, so either
/// call undoes the other.
fn wrong_round_trip(lender: &mut Lender, table: &Table) -> Option<String> {
    both(table.write_and_read(0)).iter().find_map(|case| {
        let wanted = case.wanted();
        let refused = wanted.answer != (66, 0);
        refused.then(|| format!("{case}: should be accepted")).or_else(|| case.wrong(lender, &wanted))
    })
}

/// Every recording that the engine itself finds satisfies the formula by its other calls, too.
fn try_found(lender: &mut Lender, seed: u64) {
    fault::allow(60);
    let begun = Instant::now();
    let (draws, mut found) = (10_000, 0);
    let wrong = (0..draws).find_map(|draw| {
        let search = without_limit(&mut Dice::new(seed, TOGETHER + 2, draw));
        let recording = search.own_recording(lender)?;
        found += 1;
        wrong_recording(lender, search.asked(), recording).map(|wrong| format!("{wrong} (seed {seed}, draw {draw})"))
    });
    println!("recordings found: {found} in {:.1} s", begun.elapsed().as_secs_f32());
    let few = (found < draws / 2).then(|| format!("only {found} of {draws} are found"));
    count("a recording that is found satisfies the formula, and its extension is accepted", wrong.or(few));
}

fn wrong_recording(lender: &mut Lender, asked: &Asked, recording: Vec<u8>) -> Option<String> {
    let extension = extension(asked, &recording);
    let (extend, check) = extend_and_check(asked, &recording, extension.clone());
    let evaluate = Evaluate::whole(asked.clone(), recording.clone());
    evaluate
        .wrong(lender, &(65, 0).into())
        .or_else(|| extend.wrong(lender, &Ok(Written::Assignment(extension)).into()))
        .or_else(|| check.wrong(lender, &Ok(Written::Recording(recording)).into()))
}

/// Recordings of one C and k that differ have strips that differ: all of few bits, and any with each of their bits turned.
fn try_strips(lender: &mut Lender, seed: u64) {
    fault::allow(60);
    let begun = Instant::now();
    let turned = (0..200).map(|draw| of_turned_bits(&mut Dice::new(seed, TOGETHER + 3, draw)));
    let mut strips = 0;
    let wrong = of_few_bits().chain(turned).find_map(|cases| {
        strips += cases.len();
        shared_strip(lender, &cases)
    });
    println!("strips beside each other: {strips} in {:.1} s", begun.elapsed().as_secs_f32());
    count("recordings that differ have strips that differ", wrong);
}

fn shared_strip(lender: &mut Lender, cases: &[Strip]) -> Option<String> {
    let mut strips = BTreeMap::new();
    cases.iter().find_map(|case| match case.own_strip(lender) {
        Some(strip) => strips.insert(strip, case).map(|other| format!("{case}: has the strip of {other}")),
        None => Some(format!("{case}: should be written")),
    })
}

/// More literals than the tables have whose recordings are short.
const FEW_STEPS: usize = 1 << 15;

/// What a call says of a recording where the engine's own table says something else. The table forces the formula to be what
/// evaluation answers, and the variables to be the extension, which is accepted exactly where the formula holds.
fn disagreement(lender: &mut Lender, case: &Evaluate) -> Option<String> {
    let Evaluate { asked, recording, .. } = case;
    lender.begin(Side::End);
    let evaluated = unpacked(fault::during(case, || case.answer(lender)));
    let tabled = TableCase { asked: asked.clone(), lengths: [5, FEW_STEPS, FEW_STEPS] };
    lender.begin(Side::End);
    let (written, lent) = fault::during(case, || tabled.answer(lender));
    let forced = forced(lent.sizes.now(), lent.variables.now(), lent.marks.now(), recording);
    let (written, clauses) = (unpacked(written), lent.sizes.now()[3] as usize);
    match forced {
        Ok(Forced { values, holds }) if written == (66, 0) && evaluated == (64 + u32::from(holds), 0) => {
            let (extend, check) = extend_and_check(asked, recording, values.clone());
            let accepted = if holds { Ok(Written::Recording(recording.clone())) } else { Err((14, clauses - 1)) };
            let wrong = extend.wrong(lender, &Ok(Written::Assignment(values)).into());
            wrong.or_else(|| check.wrong(lender, &accepted.into()))
        }
        _ => Some(format!("{case}: evaluation answers {evaluated:?}, the table {written:?} and then {forced:?}")),
    }
}

/// V, M and L of the largest tables.
const LARGEST: [u32; 3] = [539_488, 2_016_688, 5_326_414];

/// The largest tables are as large as the header says, and are written as any other, and so are assignments. Those of 64 steps
/// are only counted.
pub fn largest_tables(lender: &mut Lender) {
    fault::allow(300);
    let begun = Instant::now();
    for (steps, n) in [(32, 32), (64, 32), (64, 64)] {
        let most = [0, 1, 2].map(|which| largest(which, 64, steps, n));
        let most_of = most.each_ref().map(|largest| largest.count);
        let [v, m, l] = most_of;
        println!("the largest tables of at most {steps} steps, n at most {n}, 64 nodes, 8 channels: V {v}, M {m}, L {l}");
        let mut texts = most.map(|Largest { k, text, .. }| (k, text)).to_vec();
        texts.dedup();
        for (k, text) in &texts {
            println!("  at k {k} by {text}, {} bytes", text.len());
            count("a largest table has a text", (text.len() > 255).then(|| format!("{text} is too long")));
        }
        if steps == 32 {
            let wrong = most_of != LARGEST.map(u64::from);
            count("V, M and L of the largest tables", wrong.then(|| format!("wanted {LARGEST:?}")));
            texts.into_iter().for_each(|(_, text)| try_largest(lender, text));
        }
    }
    try_largest(lender, "(#a>=32;".repeat(21) + "T" + &")".repeat(21));
    // No recording satisfies those; each satisfies this one.
    try_large_assignments(lender, ("(#a>=32|".repeat(21) + "T" + &")".repeat(21)).as_bytes());
    println!("the largest tables: {:.1} s", begun.elapsed().as_secs_f32());
}

/// One that has the most of all three.
fn try_largest(lender: &mut Lender, text: String) {
    let l = LARGEST[2] as usize;
    let case = TableCase { asked: Asked { text: text.into(), c: 8, k: 32 }, lengths: [5, l, l] };
    let wanted = case.wanted();
    let sizes = wanted.table().map(|table| &table.sizes[2..]);
    let wrong = (sizes != Some(&LARGEST)).then(|| format!("{case}: the reference has {sizes:?}, wanted {LARGEST:?}"));
    count("a largest table", wrong.or_else(|| case.wrong(lender, &wanted)));
    count("a largest table's file", wanted.table().and_then(|table| wrong_round_trip(lender, table)));
    try_large_assignments(lender, &case.asked.text);
}

fn try_large_assignments(lender: &mut Lender, text: &[u8]) {
    for case in large(text) {
        count("a large assignment", case.wrong(lender, &case.wanted()));
    }
}
