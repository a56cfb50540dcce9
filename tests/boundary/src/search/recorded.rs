//! Searches whose outcomes stand in `recorded.txt`: long ones over large tables, for which the second implementation takes too
//! long to be asked each time, and edges whose counts nobody works out by hand. It made them (TUVENIKAR_RECORD=yes makes them anew),
//! and so they are its own word, and not an engine's.

use std::fmt::Write;

use super::second::{Outcome, Search};

const LINES: &str = include_str!("../../recorded.txt");
const FILE: &str = concat!(env!("CARGO_MANIFEST_DIR"), "/recorded.txt");

pub struct Recorded {
    pub c: u32,
    pub k: u32,
    pub text: String,
    /// How many tries were allowed.
    pub most: u32,
    /// Unknown where they were too few.
    pub outcome: Option<Outcome>,
}

impl Recorded {
    /// Channels, steps, most tries, what it comes to, its tries, the recording in hexadecimal digits or `-`, the formula.
    fn read(line: &str) -> Self {
        let columns: Vec<&str> = line.split_whitespace().collect();
        let &[c, k, most, code, tries, recording, text] = &columns[..] else { panic!("no recorded search: {line}") };
        let [c, k, most, tries] = [c, k, most, tries].map(|number| number.parse().expect("a number"));
        let byte = |at| u8::from_str_radix(&recording[at..at + 2], 16).expect("two digits");
        let outcome = |recording| Some(Outcome { recording, tries });
        let outcome = match code {
            "found" => outcome(Some((0..2 * k as usize).step_by(2).map(byte).collect())),
            "none" => outcome(None),
            _ => None,
        };
        Recorded { c, k, text: text.to_string(), most, outcome }
    }

    fn made(self) -> Self {
        let search = Search::new(self.text.as_bytes(), self.c, self.k, self.most);
        Recorded { outcome: search.unwrap_or_else(|_| panic!("{} is refused", self.text)).outcome, ..self }
    }

    fn written(&self) -> String {
        let Recorded { c, k, text, most, outcome } = self;
        let (code, tries, recording) = match outcome {
            None => ("spent", most, None),
            Some(Outcome { recording: None, tries }) => ("none", tries, None),
            Some(Outcome { recording, tries }) => ("found", tries, recording.as_ref()),
        };
        let mut digits = String::new();
        recording.into_iter().flatten().for_each(|byte| write!(digits, "{byte:02x}").expect("room"));
        let digits = if digits.is_empty() { "-" } else { &digits };
        format!("{c} {k} {most} {code} {tries} {digits} {text}")
    }
}

fn is_comment(line: &str) -> bool {
    line.starts_with('/')
}

pub fn recorded() -> impl Iterator<Item = Recorded> {
    LINES.lines().filter(|line| !is_comment(line)).map(Recorded::read)
}

/// Writes the file anew: what it asks stays, and so do its comments.
pub fn record() {
    let line = |line: &str| if is_comment(line) { line.to_string() } else { Recorded::read(line).made().written() };
    let lines: String = LINES.lines().map(|text| line(text) + "\n").collect();
    std::fs::write(FILE, lines).expect("recorded.txt can be written");
}
