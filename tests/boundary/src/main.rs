//! Tries the calls across the C boundary: the edges of `tests/edges.txt` with the paper's own answers, then random cases
//! against a second implementation of document 01, written from the paper alone. What is lent is fenced (`fence`), and each case is
//! called twice, on either side of the fences: the answers must be equal, no byte beyond be touched, and every place of an output be
//! what it should.
//!
//! Each call has a folder: what it is asked (a `Case`), how it is made in memory that is lent, its second implementation, what the
//! lines of `tests/edges.txt` say of it, its codes, its families of random cases, and lengths about 2^32. To add one, write the
//! folder `src/NAME/mod.rs` with a `pub const CALL: Call` (`call` says of what), put its name into the list `calls!` below, and lines
//! into `tests/edges.txt`. Families of texts (`texts`) are then asked of it too. What several calls share stands beside the folders:
//! formulas and their meaning (`reference`), families for recordings and assignments (`assignments`) and for files (`files`), and
//! what calls say together (`together`). (`cargo fmt` does not look into the list: `rustfmt src/*/*.rs` has the folders formatted.)
//!
//! The argument `limits` has only the long families tried, searches with limits about N, and `others` all else: either takes as
//! long, so that they can run beside each other. Without an argument both are tried.
//! A seed other than the usual one is taken from TUVENIKAR_SEED; TUVENIKAR_RECORD writes `recorded.txt` anew instead. The last line
//! is `N passed, M failed`.

mod assignments;
mod call;
mod dice;
mod edges;
mod fault;
mod fence;
mod files;
mod lent;
mod reference;
mod texts;
mod together;

macro_rules! calls {
    ($($call:ident),*) => {
        $(mod $call;)*
        const CALLS: &[&Call] = &[$(&$call::CALL),*];
    };
}

calls!(evaluate, node_text, table, extend, check, search, strip, write_file, read_file);

use std::collections::BTreeMap;
use std::sync::atomic::Ordering::Relaxed;
use std::time::Instant;

use call::{Call, Family};
use dice::Dice;
use fault::{FAILED, PASSED};
use lent::Lender;

/// How often each code was the answer of each call.
type Codes = BTreeMap<&'static str, BTreeMap<u32, usize>>;

fn times(codes: &Codes, call: &str, code: u32) -> usize {
    codes.get(call).and_then(|codes| codes.get(&code)).copied().unwrap_or(0)
}

fn total(codes: &Codes) -> usize {
    codes.values().flat_map(BTreeMap::values).sum()
}

fn add(all: &mut Codes, codes: Codes) {
    for (call, codes) in codes {
        let all = all.entry(call).or_default();
        codes.into_iter().for_each(|(code, times)| *all.entry(code).or_default() += times);
    }
}

/// Whoever draws has a number, so that no two draw alike: families from 0, long ones from here, and what is drawn together.
const LONG: usize = 100;
pub const TOGETHER: usize = 200;

fn main() {
    if std::env::var("TUVENIKAR_RECORD").is_ok() {
        return search::record();
    }
    fault::watch();
    let seed = std::env::var("TUVENIKAR_SEED").map_or(1, |seed| seed.parse().expect("TUVENIKAR_SEED is no number"));
    println!("seed {seed}");
    let lender = &mut Lender::new();
    let part = std::env::args().nth(1);
    match part.as_deref() {
        Some("limits") => try_long(lender, seed),
        Some("others") => try_others(lender, seed),
        None => {
            try_long(lender, seed);
            try_others(lender, seed);
        }
        Some(part) => panic!("there is no part {part}"),
    }

    let failed = FAILED.load(Relaxed);
    println!("{} passed, {failed} failed", PASSED.load(Relaxed));
    std::process::exit((failed > 0).into());
}

fn try_long(lender: &mut Lender, seed: u64) {
    let families = CALLS.iter().flat_map(|call| call.long_families);
    for (number, family) in families.enumerate() {
        try_family(lender, seed, LONG + number, family);
    }
}

fn try_others(lender: &mut Lender, seed: u64) {
    try_edges(lender);
    try_vast_lengths();
    try_recorded(lender);
    together::largest_tables(lender);

    let all = try_families(lender, seed);
    println!("{} cases; code and how often: {all:?}", total(&all));
    for call in CALLS {
        for code in call.codes {
            let never = times(&all, call.name, *code) == 0;
            count(&format!("code {code} of {} is met", call.name), never.then(|| "it never is".to_string()));
        }
    }
    together::try_together(lender, seed);
}

/// Counts one check, and says what is wrong with it if anything is.
fn count(name: &str, wrong: Option<String>) {
    match wrong {
        None => PASSED.fetch_add(1, Relaxed),
        Some(wrong) => {
            println!("FAILED: {name}: {wrong}");
            FAILED.fetch_add(1, Relaxed)
        }
    };
}

fn try_edges(lender: &mut Lender) {
    fault::allow(300);
    let begun = Instant::now();
    count("edges", edges::missing_kind(CALLS).map(|kind| format!("there is no line of {kind}")));
    for line in edges::lines() {
        let mut is_for_none = true;
        for (case, wanted) in CALLS.iter().flat_map(|call| edges::edges(call, line)) {
            is_for_none = false;
            count(&format!("edge: {line}"), case.wrong(lender, &wanted));
        }
        if is_for_none {
            count(&format!("edge: {line}"), Some("it is of no call".to_string()));
        }
    }
    println!("edges: {:.1} s", begun.elapsed().as_secs_f32());
}

fn try_vast_lengths() {
    fault::allow(60);
    let begun = Instant::now();
    for call in CALLS {
        for (name, wrong) in call.vast {
            count(&format!("{}: {name}", call.name), fault::during(name, wrong));
        }
    }
    println!("lengths about 2^32: {:.1} s", begun.elapsed().as_secs_f32());
}

fn try_recorded(lender: &mut Lender) {
    fault::allow(1800);
    let begun = Instant::now();
    for case in search::recorded_searches() {
        count("recorded", case.wrong(lender, &case.wanted()));
    }
    println!("recorded searches: {:.1} s", begun.elapsed().as_secs_f32());
}

fn try_families(lender: &mut Lender, seed: u64) -> Codes {
    let mut all = Codes::new();
    let of_several = texts::FAMILIES.iter().chain(&assignments::FAMILIES).chain(&files::FAMILIES);
    for (number, family) in of_several.chain(CALLS.iter().flat_map(|call| call.families)).enumerate() {
        add(&mut all, try_family(lender, seed, number, family));
    }
    all
}

/// A family of random cases, up to the first that is wrong.
fn try_family(lender: &mut Lender, seed: u64, number: usize, family: &Family) -> Codes {
    fault::allow(300);
    let begun = Instant::now();
    let mut codes = Codes::new();
    let drawn = (0..).flat_map(|draw| {
        let cases = (family.draw)(&mut Dice::new(seed, number, draw));
        cases.into_iter().map(move |case| (draw, case))
    });
    let wrong = drawn.take(family.cases).find_map(|(draw, case)| {
        let wanted = case.wanted();
        *codes.entry(case.call()).or_default().entry(wanted.answer.0).or_default() += 1;
        case.wrong(lender, &wanted).map(|wrong| format!("{wrong} (seed {seed}, draw {draw})"))
    });
    println!("{}: {} cases in {:.1} s: {codes:?}", family.name, total(&codes), begun.elapsed().as_secs_f32());
    if wrong.is_none() && !family.often.is_empty() {
        let times = |code: &u32| codes.keys().map(|call| times(&codes, call, *code)).sum::<usize>();
        let few = family.often.iter().any(|code| times(code) < family.cases / 5);
        count(&format!("{}: each of {:?} often", family.name, family.often), few.then(|| format!("too few of one: {codes:?}")));
    }
    count(family.name, wrong);
    codes
}
