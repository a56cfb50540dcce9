//! What of document 01 the calls share, with the `[S]` of request C-12, written down a second time from these words alone:
//! plain, slow and unlike an engine. Trees are boxed, meaning is direct recursion over [i, j] and instants, and the place of
//! question 4 is found by its own definition. What it shares with the engine is the paper.

/// A call's answer as C sees it: the code, and the value that belongs to it.
pub type Answer = (u32, u32);

/// A question's number and the place.
pub type Refusal = (u32, usize);

pub fn packed(answer: Result<Answer, Refusal>) -> Answer {
    answer.unwrap_or_else(|(number, place)| (number, place as u32))
}

// Questions in order

pub fn yes(is_so: bool, number: u32) -> Result<(), Refusal> {
    if is_so {
        Ok(())
    } else {
        Err((number, 0))
    }
}

/// A no at the first of the places, if there is any.
pub fn none(number: u32, mut places: impl Iterator<Item = usize>) -> Result<(), Refusal> {
    places.next().map_or(Ok(()), |place| Err((number, place)))
}

/// Questions 1 and 2.
pub fn limited(c: u32, k: u32) -> Result<(), Refusal> {
    yes((1..=8).contains(&c), 1)?;
    yes(k <= 32, 2)
}

pub fn accepted(text: &[u8], c: u32, k: u32) -> Result<Reading, Refusal> {
    limited(c, k)?;
    yes((1..=255).contains(&text.len()), 3)?;
    let reading = read(text).ok_or_else(|| (4, place_of_no_text(text)))?;
    let letters = reading.letters.iter();
    none(5, letters.filter(|(_, channel)| *channel >= c).map(|(at, _)| *at))?;
    let numbers = reading.numbers.iter();
    none(6, numbers.filter(|(_, n)| *n > 32).map(|(at, _)| *at))?;
    none(7, reading.nodes.iter().skip(64).map(|(start, _)| *start))?;
    Ok(reading)
}

/// Questions 10 and 11.
pub fn recorded(recording: &[u8], c: u32, k: u32) -> Result<(), Refusal> {
    yes(recording.len() == k as usize, 10)?;
    none(11, (0..recording.len()).filter(|t| u32::from(recording[*t]) >= 1 << c))
}

// Formula text

pub enum State {
    Letter(u32),
    Constant(bool),
    Not(Box<State>),
    Both(Box<State>, Box<State>),
    Either(Box<State>, Box<State>),
}

/// A formula, and its own number among the formulas of a text.
pub struct Formula(usize, pub Kind);

pub enum Kind {
    Constant(bool),
    Not(Box<Formula>),
    Both(Box<Formula>, Box<Formula>),
    Either(Box<Formula>, Box<Formula>),
    Chop(Box<Formula>, Box<Formula>),
    AtLeast(State, u64),
    Throughout(State),
}

/// A text that reads by the grammar: its tree, and each node (first byte, length), letter (place,
/// channel) and number (first digit, value) by place.
pub struct Reading {
    pub root: Formula,
    pub formulas: usize,
    pub nodes: Vec<(usize, usize)>,
    letters: Vec<(usize, u32)>,
    numbers: Vec<(usize, u64)>,
}

fn read(text: &[u8]) -> Option<Reading> {
    let mut reader = Reader { text, ..Reader::default() };
    let root = reader.formula()?;
    let Reader { at, formulas, mut nodes, letters, numbers, .. } = reader;
    // A node is noted when its last byte is read, but numbered by its first.
    nodes.sort();
    (at == text.len()).then_some(Reading { root, formulas, nodes, letters, numbers })
}

#[derive(Default)]
struct Reader<'a> {
    text: &'a [u8],
    at: usize,
    formulas: usize,
    nodes: Vec<(usize, usize)>,
    letters: Vec<(usize, u32)>,
    numbers: Vec<(usize, u64)>,
}

impl Reader<'_> {
    fn byte(&mut self) -> Option<u8> {
        let byte = *self.text.get(self.at)?;
        self.at += 1;
        Some(byte)
    }

    fn sign(&mut self, sign: &[u8]) -> Option<()> {
        sign.iter().all(|wanted| self.byte() == Some(*wanted)).then_some(())
    }

    /// What follows an opening bracket, given how to read a part.
    fn two<P>(&mut self, part: fn(&mut Self) -> Option<P>) -> Option<(Box<P>, u8, Box<P>)> {
        let left = Box::new(part(self)?);
        let sign = self.byte()?;
        let right = Box::new(part(self)?);
        self.sign(b")")?;
        Some((left, sign, right))
    }

    fn state(&mut self) -> Option<State> {
        let start = self.at;
        let state = match self.byte()? {
            letter @ b'a'..=b'h' => {
                let channel = u32::from(letter - b'a');
                self.letters.push((start, channel));
                State::Letter(channel)
            }
            b'T' => State::Constant(true),
            b'F' => State::Constant(false),
            b'!' => State::Not(Box::new(self.state()?)),
            b'(' => match self.two(Self::state)? {
                (left, b'&', right) => State::Both(left, right),
                (left, b'|', right) => State::Either(left, right),
                _ => return None,
            },
            _ => return None,
        };
        self.nodes.push((start, self.at - start));
        Some(state)
    }

    fn formula(&mut self) -> Option<Formula> {
        let start = self.at;
        let kind = match self.byte()? {
            b'T' => Kind::Constant(true),
            b'F' => Kind::Constant(false),
            b'!' => Kind::Not(Box::new(self.formula()?)),
            b'(' => match self.two(Self::formula)? {
                (left, b'&', right) => Kind::Both(left, right),
                (left, b'|', right) => Kind::Either(left, right),
                (left, b';', right) => Kind::Chop(left, right),
                _ => return None,
            },
            b'#' => {
                let state = self.state()?;
                self.sign(b">=")?;
                Kind::AtLeast(state, self.number()?)
            }
            b'[' => {
                let state = self.state()?;
                self.sign(b"]")?;
                Kind::Throughout(state)
            }
            _ => return None,
        };
        self.nodes.push((start, self.at - start));
        self.formulas += 1;
        Some(Formula(self.formulas - 1, kind))
    }

    fn number(&mut self) -> Option<u64> {
        let rest = &self.text[self.at..];
        let digits = match rest.first()? {
            b'0' => 1,
            b'1'..=b'9' => rest.iter().take_while(|byte| byte.is_ascii_digit()).count(),
            _ => return None,
        };
        let written = std::str::from_utf8(&rest[..digits]).ok()?;
        // Digits alone fail to parse only where the number is above every u64.
        self.numbers.push((self.at, written.parse().unwrap_or(u64::MAX)));
        self.at += digits;
        self.numbers.last().map(|(_, n)| *n)
    }
}

// The place of question 4, by its definition and not by where a reader happens to stop

#[derive(Clone, Copy)]
enum Item {
    OneOf(&'static [u8]),
    S,
    P,
    N,
    Digits,
}
use Item::*;

/// The grammar as data: each way to write an item.
fn ways(item: Item) -> &'static [&'static [Item]] {
    match item {
        OneOf(_) => &[],
        S => &[&[OneOf(b"abcdefghTF")], &[OneOf(b"!"), S], &[OneOf(b"("), S, OneOf(b"&|"), S, OneOf(b")")]],
        P => &[
            &[OneOf(b"TF")],
            &[OneOf(b"!"), P],
            &[OneOf(b"("), P, OneOf(b"&|;"), P, OneOf(b")")],
            &[OneOf(b"#"), S, OneOf(b">"), OneOf(b"="), N],
            &[OneOf(b"["), S, OneOf(b"]")],
        ],
        N => &[&[OneOf(b"0")], &[OneOf(b"123456789"), Digits]],
        Digits => &[&[], &[OneOf(b"0123456789"), Digits]],
    }
}

/// Items to be written one after another, and those that come after them.
struct Items<'a>(&'a [Item], Option<&'a Items<'a>>);

/// Does some text of these items begin with these bytes? (Every item can be written.)
fn can_begin(items: &Items, bytes: &[u8]) -> bool {
    let Some(byte) = bytes.first() else {
        return true;
    };
    match items {
        Items([], None) => false,
        Items([], Some(after)) => can_begin(after, bytes),
        Items([OneOf(set), rest @ ..], after) => set.contains(byte) && can_begin(&Items(rest, *after), &bytes[1..]),
        Items([item, rest @ ..], after) => {
            let after = Items(rest, *after);
            ways(*item).iter().any(|way| can_begin(&Items(way, Some(&after)), bytes))
        }
    }
}

fn place_of_no_text(text: &[u8]) -> usize {
    let begins_none = |p: &usize| !can_begin(&Items(&[P], None), &text[..p + 1]);
    (0..text.len()).find(begins_none).unwrap_or(text.len())
}

// Meaning

/// A recording, and what has been found of each formula on each interval: chops in chops would
/// otherwise take time that grows with a power of k.
pub struct Meaning<'a> {
    recording: &'a [u8],
    found: Vec<Option<bool>>,
}

impl<'a> Meaning<'a> {
    pub fn new(recording: &'a [u8], formulas: usize) -> Self {
        let ends = recording.len() + 1;
        Meaning { recording, found: vec![None; formulas * ends * ends] }
    }

    pub fn holds(&mut self, formula: &Formula, i: usize, j: usize) -> bool {
        let ends = self.recording.len() + 1;
        let at = (formula.0 * ends + i) * ends + j;
        if self.found[at].is_none() {
            self.found[at] = Some(self.holds_by_kind(&formula.1, i, j));
        }
        self.found[at] == Some(true)
    }

    fn holds_by_kind(&mut self, kind: &Kind, i: usize, j: usize) -> bool {
        let recording = self.recording;
        match kind {
            Kind::Constant(value) => *value,
            Kind::Not(p) => !self.holds(p, i, j),
            Kind::Both(p, q) => self.holds(p, i, j) && self.holds(q, i, j),
            Kind::Either(p, q) => self.holds(p, i, j) || self.holds(q, i, j),
            Kind::Chop(p, q) => (i..=j).any(|m| self.holds(p, i, m) && self.holds(q, m, j)),
            Kind::AtLeast(s, n) => (i..j).filter(|t| true_at(s, recording[*t])).count() as u64 >= *n,
            Kind::Throughout(s) => i < j && (i..j).all(|t| true_at(s, recording[t])),
        }
    }
}

pub fn true_at(state: &State, instant: u8) -> bool {
    use State::*;
    match state {
        Letter(channel) => instant >> channel & 1 == 1,
        Constant(value) => *value,
        Not(s) => !true_at(s, instant),
        Both(s, r) => true_at(s, instant) && true_at(r, instant),
        Either(s, r) => true_at(s, instant) || true_at(r, instant),
    }
}
