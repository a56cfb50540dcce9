//! Chance, from a seed: formulas, recordings and other things that families draw.

/// splitmix64: a few lines, and the same on every machine.
pub struct Dice(u64);

impl Dice {
    /// The dice of one draw, so that a draw does not depend on the ones before it.
    pub fn new(seed: u64, family: usize, draw: u64) -> Self {
        Dice(Dice(seed).next() ^ (family as u64) << 56 ^ draw)
    }

    pub fn next(&mut self) -> u64 {
        self.0 = self.0.wrapping_add(0x9e37_79b9_7f4a_7c15);
        let x = (self.0 ^ self.0 >> 30).wrapping_mul(0xbf58_476d_1ce4_e5b9);
        let x = (x ^ x >> 27).wrapping_mul(0x94d0_49bb_1331_11eb);
        x ^ x >> 31
    }

    /// From low to high, both included.
    pub fn from(&mut self, low: usize, high: usize) -> usize {
        low + (self.next() % (high - low + 1) as u64) as usize
    }

    pub fn one_in(&mut self, n: usize) -> bool {
        self.from(1, n) == 1
    }

    pub fn pick<T: Copy>(&mut self, from: &[T]) -> T {
        from[self.from(0, from.len() - 1)]
    }
}

pub const SIGNS: &[u8] = b"abhiTF!((((&|;))))###>=[[]]0123 ";
pub const ODD_NUMBERS: [u32; 18] = [0, 1, 2, 7, 8, 9, 31, 32, 33, 34, 63, 65, 255, 256, 257, 65_537, u32::MAX - 31, u32::MAX];
/// Among them some that are small modulo 2^8, 2^32 or 2^64.
#[rustfmt::skip]
const ODD_DIGITS: [&str; 16] = [
    "", "00", "01", "032", "31", "32", "33", "34", "99", "100", "256", "288",
    "4294967296", "4294967328", "18446744073709551616", "18446744073709551648",
];

// Texts

/// Writes formulas for C and k with a wished number of nodes; a bold one goes to the limits and over.
struct Author<'a> {
    dice: &'a mut Dice,
    c: u32,
    k: u32,
    bold: bool,
    text: Vec<u8>,
}

impl<'a> Author<'a> {
    fn new(dice: &'a mut Dice, c: u32, k: u32) -> Self {
        Author { dice, c, k, bold: false, text: Vec::new() }
    }

    fn put(&mut self, bytes: &[u8]) {
        self.text.extend_from_slice(bytes);
    }

    /// `(P&P)` and the like, given how to write a part.
    fn two(&mut self, nodes: usize, signs: &[u8], part: fn(&mut Self, usize)) {
        let left = self.dice.from(1, nodes - 2);
        self.put(b"(");
        part(self, left);
        let sign = self.dice.pick(signs);
        self.put(&[sign]);
        part(self, nodes - 1 - left);
        self.put(b")");
    }

    fn state(&mut self, nodes: usize) {
        match nodes {
            1 if self.dice.one_in(10) => {
                let constant = self.dice.pick(b"TF");
                self.put(&[constant]);
            }
            1 => {
                let channels = if self.bold && self.dice.one_in(50) { 9 } else { self.c as usize };
                let letter = b'a' + self.dice.from(0, channels - 1) as u8;
                self.put(&[letter]);
            }
            _ if nodes == 2 || self.dice.one_in(4) => {
                self.put(b"!");
                self.state(nodes - 1);
            }
            _ => self.two(nodes, b"&|", Self::state),
        }
    }

    fn formula(&mut self, nodes: usize) {
        // Large state assertions are rare, since chops are what is wanted.
        let kind = match nodes {
            1 => b'T',
            2 => self.dice.pick(b"####[[!"),
            3..=5 => self.dice.pick(b"##[!;;&|"),
            _ if self.dice.one_in(40) => self.dice.pick(b"#["),
            _ => self.dice.pick(b"!;;;;;&|"),
        };
        match kind {
            b'T' => {
                let constant = self.dice.pick(b"TF");
                self.put(&[constant]);
            }
            b'!' => {
                self.put(b"!");
                self.formula(nodes - 1);
            }
            b'#' => {
                self.put(b"#");
                self.state(nodes - 1);
                self.put(b">=");
                self.number();
            }
            b'[' => {
                self.put(b"[");
                self.state(nodes - 1);
                self.put(b"]");
            }
            sign => self.two(nodes, &[sign], Self::formula),
        }
    }

    fn number(&mut self) {
        if self.bold && self.dice.one_in(8) {
            let digits = self.dice.pick(&ODD_DIGITS);
            return self.put(digits.as_bytes());
        }
        // Small ones more often: they are met by some intervals and not by others.
        let high = self.k.min(31) as usize + 1;
        let high = self.dice.from(0, high);
        let n = self.dice.from(0, high);
        self.put(n.to_string().as_bytes());
    }

    /// Chops in both parts, to a depth, with something around or beside them now and then.
    fn chops(&mut self, depth: usize) {
        if depth == 0 {
            let nodes = self.dice.from(2, 4);
            return self.formula(nodes);
        }
        let beside = self.dice.one_in(5);
        if self.dice.one_in(4) {
            self.put(b"!");
        }
        if beside {
            self.put(b"(");
        }
        self.put(b"(");
        self.chops(depth - 1);
        self.put(b";");
        self.chops(depth - 1);
        self.put(b")");
        if beside {
            let sign = self.dice.pick(b"&|");
            self.put(&[sign]);
            self.formula(2);
            self.put(b")");
        }
    }
}

pub fn formula(dice: &mut Dice, c: u32, k: u32, nodes: usize) -> Vec<u8> {
    let mut author = Author::new(dice, c, k);
    author.formula(nodes);
    author.text
}

/// With few nodes or about as many as there can be, and every other one with letters and numbers up to the limits and over.
pub fn bold_formula(dice: &mut Dice, c: u32, k: u32) -> Vec<u8> {
    let mut author = Author::new(dice, c, k);
    author.bold = author.dice.one_in(2);
    let nodes = if author.dice.one_in(3) { author.dice.from(1, 20) } else { author.dice.from(60, 68) };
    author.formula(nodes);
    author.text
}

/// Chops within both parts of chops, with numbers as for recordings of so many steps.
pub fn chops(dice: &mut Dice, c: u32, k: u32) -> Vec<u8> {
    let mut author = Author::new(dice, c, k);
    let depth = author.dice.from(2, 3);
    author.chops(depth);
    author.text
}

pub fn damage(dice: &mut Dice, text: &mut Vec<u8>) {
    if text.is_empty() {
        return;
    }
    let at = dice.from(0, text.len() - 1);
    let sign = dice.pick(SIGNS);
    match dice.from(1, 7) {
        1 => text[at] = sign,
        2 => text[at] ^= 1 << dice.from(0, 7),
        3 => text.insert(at, sign),
        4 => text.push(sign),
        5 => text.insert(at, text[at]),
        6 => text.truncate(at),
        _ => {
            text.remove(at);
        }
    }
}

// What is lent beside the text

pub fn channels(dice: &mut Dice) -> u32 {
    dice.pick(&[1, 1, 2, 2, 3, 4, 5, 6, 7, 8])
}

/// Bytes below 2^C, seldom or often changing, so that `[S]` holds of long and of short intervals.
pub fn recording(dice: &mut Dice, c: u32, k: u32) -> Vec<u8> {
    let stay = dice.from(1, 4);
    let mut byte = 0;
    let mut draw = |_| {
        if dice.one_in(stay) {
            byte = dice.from(0, (1 << c) - 1) as u8;
        }
        byte
    };
    (0..k).map(&mut draw).collect()
}

/// All that there are of a C and a k, if they have few bits.
pub fn every_recording(c: u32, k: u32) -> impl Iterator<Item = Vec<u8>> {
    let instant = move |bits: u32, t| ((bits >> (t * c)) % (1 << c)) as u8;
    (0..1 << (c * k)).map(move |bits| (0..k).map(|t| instant(bits, t)).collect())
}

pub fn interval(dice: &mut Dice, k: u32) -> (u32, u32) {
    let j = dice.from(0, k as usize);
    (dice.from(0, j) as u32, j as u32)
}

/// What is needed, a place less, a place more; none, and many.
pub fn around(need: usize) -> [usize; 5] {
    [0, need.saturating_sub(1), need, need + 1, need + 9]
}

/// As many levels as an interval has instants, or some that none can reach.
pub fn levels(dice: &mut Dice, k: u32) -> u32 {
    dice.pick(&[k, k, k, 31])
}

/// One byte of an assignment to the other value.
pub fn turn(dice: &mut Dice, assignment: &mut [u8]) {
    let at = dice.from(0, assignment.len().max(1) - 1);
    assignment.iter_mut().skip(at).take(1).for_each(|byte| *byte ^= 1);
}

/// A recording or an assignment to another length, or with a byte that has a bit from C on, which neither may have.
pub fn spoil(dice: &mut Dice, bytes: &mut Vec<u8>, c: u32) {
    let number = dice.pick(&ODD_NUMBERS);
    match dice.from(1, 6) {
        1 => drop(bytes.pop()),
        2 => bytes.push(0),
        3 => bytes.resize(number.min(300) as usize, 0),
        _ if bytes.is_empty() => {}
        _ => {
            let at = dice.from(0, bytes.len() - 1);
            bytes[at] |= 1 << dice.from(c.min(7) as usize, 7);
        }
    }
}
