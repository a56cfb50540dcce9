//! Random cases of the file's writer and its reader. Most begin with a table that is accepted, spoil something in it, and
//! hand the same numbers to both.

use crate::call::{boxed, Case, Family};
use crate::dice::{around, channels, Dice, ODD_NUMBERS};
use crate::read_file::{numbers, ReadFile};
use crate::table::Table;
use crate::write_file::{bytes, closing, WriteFile};

pub const FAMILIES: [Family; 9] = [
    Family::new("files of random tables", 60_000, sound_tables),
    Family::new("files with a byte of their sizes changed", 800_000, changed_sizes),
    Family::new("files with a literal spoiled", 600_000, spoiled_literals),
    Family::new("files with clauses miscounted or open", 60_000, miscounted_clauses),
    Family::new("files cut, lengthened, and arrays likewise", 100_000, odd_lengths),
    Family::new("files that say a length of 2^32 and more", 40_000, wrapped_lengths),
    Family::new("files in outputs of all lengths", 100_000, odd_rooms),
    Family::new("files with several faults at once", 600_000, several_faults),
    Family::new("random bytes as file", 60_000, random_bytes),
];

// Tables

/// Places of the sizes.
const C: usize = 0;
const K: usize = 1;
const V: usize = 2;
const M: usize = 3;
const L: usize = 4;

/// A table that is accepted, of at most so many literals. V is small, or takes all four bytes.
fn sound_table(dice: &mut Dice, most: usize) -> Table {
    let l = dice.from(0, most);
    let any = dice.next() as u32;
    let v = dice.pick(&[1, 2, 255, 256, 70_000, any.max(1), any.max(1), u32::MAX - 1, u32::MAX]);
    let mut variable = |_| {
        let any = dice.from(1, v as usize) as u32;
        dice.pick(&[1, v, any, any, any])
    };
    let variables = (0..l).map(&mut variable).collect();
    let clauses = dice.from(1, 3);
    let mut marks: Vec<u8> = (0..l).map(|_| dice.from(0, 1) as u8 + 2 * u8::from(dice.one_in(clauses))).collect();
    if let Some(last) = marks.last_mut() {
        *last |= 2;
    }
    let sizes = [channels(dice), dice.from(0, 32) as u32, v, closing(&marks), l as u32];
    Table { sizes, variables, marks }
}

impl Table {
    /// The same but for a change.
    fn but(&self, change: impl FnOnce(&mut Table)) -> Table {
        let mut table = self.clone();
        change(&mut table);
        table
    }

    /// With M as its marks have it.
    fn recounted(&self) -> Table {
        self.but(|table| table.sizes[M] = closing(&table.marks))
    }

    /// Both calls on these numbers, each with so many places more than it could need.
    pub fn write_and_read(&self, more: usize) -> (WriteFile, ReadFile) {
        let file = bytes(self);
        let (v, m) = (self.variables.len() + more, self.marks.len() + more);
        let room = file.len() + more;
        (WriteFile { table: self.clone(), room }, ReadFile { file, lengths: [5 + more, v, m] })
    }
}

pub fn both((write, read): (WriteFile, ReadFile)) -> [Box<dyn Case>; 2] {
    [Box::new(write), Box::new(read)]
}

fn write_and_read_each(tables: impl IntoIterator<Item = Table>) -> Vec<Box<dyn Case>> {
    tables.into_iter().flat_map(|table| both(table.write_and_read(0))).collect()
}

// Families

fn sound_tables(dice: &mut Dice) -> Vec<Box<dyn Case>> {
    let most = dice.pick(&[0, 1, 3, 12, 60, 60, 300, 3000]);
    let table = sound_table(dice, most);
    let more = dice.pick(&[1, 4, 20, 1000]);
    [0, more].into_iter().flat_map(|more| both(table.write_and_read(more))).collect()
}

/// Each byte of the sizes to every other value.
fn changed_sizes(dice: &mut Dice) -> Vec<Box<dyn Case>> {
    let table = sound_table(dice, 12);
    let header = bytes(&table)[..20].to_vec();
    let changed = |at: usize, by: u8| {
        let mut header = header.clone();
        header[at] ^= by;
        table.but(|table| table.sizes.copy_from_slice(&numbers(&header)))
    };
    write_and_read_each((0..20).flat_map(|at| (1..=255).map(move |by| (at, by))).map(|(at, by)| changed(at, by)))
}

/// Each literal's variable and mark to values within and beyond the bounds; a mark that opens or closes a clause once as it
/// is, and once with M counted anew.
fn spoiled_literals(dice: &mut Dice) -> Vec<Box<dyn Case>> {
    let table = sound_table(dice, 12);
    let v = table.sizes[V];
    let at_each = |spoil: fn(&mut Table, usize, u32), values: &[u32]| {
        let places = 0..table.marks.len();
        let spoiled = places.flat_map(|x| values.iter().map(move |value| (x, *value)));
        spoiled.map(|(x, value)| table.but(|table| spoil(table, x, value))).collect::<Vec<_>>()
    };
    let variables = [0, 1, v, v.wrapping_add(1), v.wrapping_add(256), v ^ 1 << 31, u32::MAX];
    let mut tables = at_each(|table, x, value| table.variables[x] = value, &variables);
    let marks = [0, 1, 2, 3, 4, 5, 6, 7, 8, 16, 34, 67, 128, 131, 254, 255];
    let marks = at_each(|table, x, value| table.marks[x] = value as u8, &marks);
    tables.extend(marks.iter().map(Table::recounted));
    tables.extend(marks);
    write_and_read_each(tables)
}

/// M off by one and more; and the last clause open, with an M that counts it and with one that does not.
fn miscounted_clauses(dice: &mut Dice) -> Vec<Box<dyn Case>> {
    let most = dice.pick(&[0, 1, 2, 12, 600]);
    let table = sound_table(dice, most);
    let m = table.sizes[M];
    let counts = [m.wrapping_sub(1), m + 1, 0, table.sizes[L], m + 256, m + 65_536, u32::MAX];
    let mut tables: Vec<Table> = counts.iter().map(|m| table.but(|table| table.sizes[M] = *m)).collect();
    let open = table.but(|table| table.marks.iter_mut().last().into_iter().for_each(|last| *last &= 1));
    tables.extend([open.recounted(), open, table]);
    write_and_read_each(tables)
}

/// Files cut at each of the first lengths and about the last; for the writer, arrays that are not of the length that L says.
fn odd_lengths(dice: &mut Dice) -> Vec<Box<dyn Case>> {
    let most = dice.pick(&[1, 6, 12, 60]);
    let table = sound_table(dice, most);
    let (file, l) = (bytes(&table), table.marks.len());
    let lengths = [5, l + 20, l + 20];
    let mut continued = file.clone();
    continued.extend([1, 0, 0, 0, 3, 3, 3]);
    let cuts = (0..=64).chain(file.len() - 1..=continued.len()).filter(|length| *length <= continued.len());
    let cut = cuts.map(|length| ReadFile { file: continued[..length].to_vec(), lengths });
    let odd = [-1, 0, 1, 2].map(|v| [-1, 0, 1, 2].map(|m| (v, m)));
    let arrays = odd.into_iter().flatten().map(|(v, m)| {
        let table = table.but(|table| {
            table.variables.resize(l.saturating_add_signed(v), 1);
            table.marks.resize(l.saturating_add_signed(m), 3);
        });
        WriteFile { table, room: file.len() + 20 }
    });
    [boxed(cut), boxed(arrays)].into_iter().flatten().collect()
}

/// L near 2^32, or such that 20 + 5L, 5L or 4L is small modulo 2^32: with files of that small length, and short arrays.
fn wrapped_lengths(dice: &mut Dice) -> Vec<Box<dyn Case>> {
    let turns = dice.from(1, 5) as u64;
    let (times, more) = dice.pick(&[(5, 20), (5, 0), (4, 20), (4, 0), (1, 0)]);
    let near = (turns << 32).div_ceil(times) + dice.from(0, 12) as u64;
    let l = (near - 4).min(u64::from(u32::MAX) - dice.from(0, 4) as u64);
    let small = |number: u64| number as u32 as usize;
    let lengths = [small(20 + 5 * l), small(5 * l), 20 + small(5 * l), small(more + times * l), 20, 25];
    let literals = dice.from(0, 40);
    let table = sound_table(dice, literals).but(|table| table.sizes[L] = l as u32);
    let file = bytes(&table);
    let reads = lengths.into_iter().filter(|length| *length <= 300).map(|length| {
        let mut file = file.clone();
        file.resize(length, 3);
        ReadFile { file, lengths: [5, 64, 64] }
    });
    [boxed(reads), boxed([WriteFile { table, room: 300 }])].into_iter().flatten().collect()
}

/// Outputs of every length up to what the writer needs and beyond it, and the reader's three arrays in all combinations.
fn odd_rooms(dice: &mut Dice) -> Vec<Box<dyn Case>> {
    let most = dice.pick(&[0, 1, 2, 12, 30]);
    let table = sound_table(dice, most);
    let (file, l) = (bytes(&table), table.marks.len());
    let writes = (0..file.len() + 3).map(|room| WriteFile { table: table.clone(), room });
    let lengths = around(5).map(|sizes| around(l).map(|variables| around(l).map(|marks| [sizes, variables, marks])));
    let reads = lengths.into_iter().flatten().flatten().map(|lengths| ReadFile { file: file.clone(), lengths });
    [boxed(writes), boxed(reads)].into_iter().flatten().collect()
}

/// Up to four, so that the order of the questions shows; one may undo another.
fn several_faults(dice: &mut Dice) -> Vec<Box<dyn Case>> {
    let most = dice.pick(&[2, 12, 40]);
    let mut table = sound_table(dice, most);
    for _ in 0..dice.from(1, 4) {
        spoil(dice, &mut table);
    }
    let (mut write, mut read) = table.write_and_read(0);
    if dice.one_in(2) {
        write.room = dice.pick(&around(write.room));
    }
    if dice.one_in(2) {
        read.lengths = read.lengths.map(|length| dice.pick(&around(length)));
    }
    both((write, read)).into()
}

/// Small ones more often, with sizes that fit them or not.
fn random_bytes(dice: &mut Dice) -> Vec<Box<dyn Case>> {
    let literals = dice.from(0, 12);
    let length = 20 + 5 * literals + dice.pick(&[0, 0, 0, 1, 4]);
    let mut byte = |_| {
        let any = dice.next() as u8;
        dice.pick(&[0, 0, 0, 1, 2, 3, 3, any])
    };
    let mut file: Vec<u8> = (0..length).map(&mut byte).collect();
    if !dice.one_in(4) {
        file[16..20].copy_from_slice(&[literals as u8, 0, 0, 0]);
    }
    if !dice.one_in(4) {
        file[..16].copy_from_slice(&[1, 0, 0, 0, 0, 0, 0, 0, 255, 255, 255, 255, literals as u8 / 4, 0, 0, 0]);
    }
    boxed([ReadFile { file, lengths: [5, 12, 12] }])
}

/// One thing, at random.
fn spoil(dice: &mut Dice, table: &mut Table) {
    let odd = dice.pick(&ODD_NUMBERS);
    let (v, x) = (table.sizes[V], dice.from(0, table.marks.len().max(1) - 1));
    match dice.from(1, 12) {
        1 => table.sizes[C] = odd,
        2 => table.sizes[K] = odd,
        3 => table.sizes[V] = dice.pick(&[odd, v / 2, v.wrapping_sub(1)]),
        4 => table.sizes[M] = dice.pick(&[table.sizes[M] ^ 1, odd]),
        5 => table.sizes[L] = dice.pick(&[table.sizes[L] ^ 1, odd]),
        6 | 7 => table.variables.iter_mut().skip(x).take(1).for_each(|n| *n = dice.pick(&[0, v.wrapping_add(1), odd])),
        8 | 9 => table.marks.iter_mut().skip(x).take(1).for_each(|mark| *mark = dice.pick(&[*mark ^ 2, 4, 5, odd as u8])),
        10 => *table = table.recounted(),
        11 => table.variables.resize(dice.pick(&[x, table.variables.len() + 1]), 1),
        _ => table.marks.resize(dice.pick(&[x, table.marks.len() + 1]), 3),
    }
}
