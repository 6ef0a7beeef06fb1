//! Random bench files, whole and damaged, and random columns to be written.

use crate::file_format::{self, Columns, CODE, COLUMNS, DESCRIPTORS, ENTRIES, FUNCTIONS, LIMITS, LONGEST, ROWS};
use crate::random::Random;

/// Numbers at which a form changes, and their neighbours.
const EDGES: [u16; 12] = [0, 1, 127, 128, 129, 255, 256, 16_383, 16_384, 16_385, 65_534, 65_535];

/// The forms of a file's numbers, and its code.
struct Parts {
    forms: Vec<Vec<u8>>,
    /// Where among the forms the counts stand, with their limits.
    counts: Vec<(usize, usize)>,
    code: Vec<u8>,
}

/// A file, and how it was made.
pub struct Made {
    pub sort: &'static str,
    pub file: Vec<u8>,
}

fn number(random: &mut Random) -> u16 {
    match random.below(4) {
        0 => random.byte().into(),
        1 => random.word(),
        _ => random.one_of(&EDGES),
    }
}

/// How many rows: mostly few, at times at the limit or next to it.
fn rows(random: &mut Random, limit: usize, high: usize) -> usize {
    match random.below(high) {
        0 => limit,
        1 => limit - 1,
        _ => random.between(0, 3),
    }
}

fn parts(random: &mut Random, counts: [usize; 5], draw: &mut dyn FnMut(&mut Random) -> u16) -> Parts {
    let mut made = Parts { forms: vec![file_format::form(number(random))], counts: vec![], code: vec![] };
    let tables = [(ROWS, 3), (FUNCTIONS, 5), (DESCRIPTORS, 2), (ENTRIES, 1), (CODE, 0)];
    for ((limit, width), count) in tables.into_iter().zip(counts) {
        made.counts.push((made.forms.len(), limit));
        made.forms.push(file_format::form(count as u16));
        made.forms.extend((0..count * width).map(|_| file_format::form(draw(random))));
    }
    made.code = (0..counts[4]).map(|_| random.byte()).collect();
    made
}

impl Parts {
    fn file(&self) -> Vec<u8> {
        let mut file = self.forms.concat();
        file.extend(&self.code);
        file
    }
}

/// A file of at most a few hundred bytes, but for the tables that are full.
fn small(random: &mut Random) -> Parts {
    let counts = [
        rows(random, ROWS, 400),
        rows(random, FUNCTIONS, 40),
        rows(random, DESCRIPTORS, 40),
        rows(random, ENTRIES, 20),
        rows(random, CODE, 200),
    ];
    parts(random, counts, &mut number)
}

/// A file of about the longest length, mostly of numbers in three bytes, made up to `length` by its code where that is possible.
fn long(random: &mut Random, length: usize) -> Parts {
    let shorter = random.one_of(&[0, 4, 9]);
    let mut draw = |random: &mut Random| match random.below(100) {
        at if at < shorter => number(random),
        _ => random.between(16_384, 65_535) as u16,
    };
    let counts =
        [random.between(5_900, 5_960), random.between(0, 8), random.between(0, 8), random.between(0, 32), CODE];
    let mut made = parts(random, counts, &mut draw);
    let numbers: usize = made.forms.iter().map(Vec::len).sum();
    // From 128 on the code's length has two bytes, as the most has.
    let code = length.saturating_sub(numbers).min(CODE);
    if code >= 128 {
        *made.forms.last_mut().unwrap() = file_format::form(code as u16);
        made.code.truncate(code);
    }
    made
}

/// A form that 01 does not allow, or one of another number.
fn bad_form(random: &mut Random, form: &[u8]) -> Vec<u8> {
    let mut bad = form.to_vec();
    let last = bad.len() - 1;
    match random.below(5) {
        // Longer than the shortest by one group or two.
        0 => {
            bad[last] |= 128;
            bad.push(0);
        }
        1 => {
            bad[last] |= 128;
            bad.extend([128, 0]);
        }
        // A third byte that is none of 1 to 3, and a third byte that is.
        2 => bad = vec![random.byte() | 128, random.byte() | 128, random.one_of(&[0, 4, 5, 127, 128, 129, 131, 255])],
        3 => bad = vec![random.byte() | 128, random.byte() | 128, random.between(1, 3) as u8],
        // Cut, with the top bit of its last byte set.
        _ => bad[last] |= 128,
    }
    bad
}

fn high_count(random: &mut Random, made: &mut Parts) {
    let (at, limit) = random.one_of(&made.counts);
    let other = usize::from(number(random));
    let count = random.one_of(&[limit + 1, limit, 16_384, 65_535, other]);
    made.forms[at] = file_format::form(count.min(65_535) as u16);
}

fn damage_form(random: &mut Random, made: &mut Parts) {
    let at = match random.below(4) {
        0 => 0,
        1 => made.forms.len() - 1,
        2 => random.one_of(&made.counts).0,
        _ => random.below(made.forms.len()),
    };
    made.forms[at] = bad_form(random, &made.forms[at]);
}

/// A byte changed, put in or taken out, or the end cut or grown.
fn damage_bytes(random: &mut Random, file: &mut Vec<u8>) {
    let at = random.below(file.len() + 1);
    match random.below(6) {
        0 if at < file.len() => file[at] ^= 1 << random.below(8),
        1 if at < file.len() => file[at] = random.byte(),
        2 => file.insert(at, random.one_of(&[0, 1, 127, 128, 129, 255])),
        3 if at < file.len() => {
            file.remove(at);
        }
        4 => file.truncate(at),
        _ => file.extend((0..random.between(1, 3)).map(|_| random.byte())),
    }
}

fn noise(random: &mut Random) -> Vec<u8> {
    (0..random.between(0, 40)).map(|_| if random.below(2) == 0 { random.byte() } else { random.byte() % 4 }).collect()
}

pub fn any(random: &mut Random) -> Made {
    if random.below(50) == 0 {
        return Made { sort: "noise", file: noise(random) };
    }
    let length = random.one_of(&[LONGEST - 1, LONGEST, LONGEST, LONGEST + 1]);
    let big = random.below(100) == 0;
    let mut made = if big { long(random, length) } else { small(random) };
    let fate = random.below(8);
    if fate == 4 {
        high_count(random, &mut made);
    }
    if fate >= 5 {
        damage_form(random, &mut made);
    }
    let mut file = made.file();
    if matches!(fate, 2 | 3 | 6) {
        for _ in 0..random.between(1, 3) {
            damage_bytes(random, &mut file);
        }
    }
    // Bytes left over, up to the longest file's end and beyond.
    if !big && random.below(500) == 0 {
        file.resize(length.max(file.len()), random.byte());
    }
    let sort = match (big, fate) {
        (false, 0 | 1) => "whole",
        (false, 2 | 3) => "bytes damaged",
        (false, 4) => "a count changed",
        (false, 5 | 7) => "a form changed",
        (false, _) => "a form changed, bytes damaged",
        (true, 0 | 1) => "long, whole",
        (true, _) => "long, damaged",
    };
    Made { sort, file }
}

/// The cells lent for reading: at their limits, with some to spare, or, at times, one column short.
pub fn lent(random: &mut Random) -> [usize; COLUMNS] {
    let mut cells = LIMITS;
    match random.below(16) {
        0 => {
            let column = random.below(COLUMNS);
            cells[column] -= random.one_of(&[1, 1, 1, cells[column]]);
        }
        1..=5 => cells.iter_mut().for_each(|cells| *cells += random.below(4)),
        _ => {}
    }
    cells
}

/// Columns to be written: those of a file, mostly made faulty.
pub fn columns(random: &mut Random) -> Columns {
    let long = random.below(60) == 0;
    let mut counts = [0; 4].map(|_| random.between(0, 4));
    if long {
        counts = [random.between(5_900, ROWS), random.between(0, FUNCTIONS), random.between(0, DESCRIPTORS), ENTRIES];
    } else if random.below(10) == 0 {
        let table = random.below(4);
        counts[table] = [ROWS, FUNCTIONS, DESCRIPTORS, ENTRIES][table] - 1 + random.below(3);
    }
    let [rows, functions, descriptors, entries] = counts;
    let code = if long { random.between(12_000, CODE) } else { rows_of_code(random) };
    let [a, b, c] = [rows; 3];
    let [d, e, f, g, h] = [functions; 5];
    let mut made = Columns::of([a, b, c, d, e, f, g, h, descriptors, descriptors, entries, code]);
    draw_cells(random, &mut made, long);
    if random.below(3) == 0 {
        let mut cells = made.cells();
        let column = random.below(COLUMNS);
        cells[column] = if random.below(2) == 0 { cells[column] + 1 } else { cells[column].saturating_sub(1) };
        made.resize(cells);
    }
    made
}

fn rows_of_code(random: &mut Random) -> usize {
    match random.below(100) {
        0 => CODE - 1 + random.below(3),
        1 => random.between(120, 300),
        _ => random.between(0, 12),
    }
}

fn draw_cells(random: &mut Random, made: &mut Columns, long: bool) {
    let draw = |random: &mut Random| if long { random.word() | 16_384 } else { number(random) };
    let words = [
        &mut made.list_ids,
        &mut made.list_counts,
        &mut made.list_flags,
        &mut made.function_ids,
        &mut made.parameters,
        &mut made.maxima,
        &mut made.type_ids,
        &mut made.descriptor_functions,
        &mut made.entries,
    ];
    for column in words {
        column.iter_mut().for_each(|cell| *cell = draw(random));
    }
    for column in [&mut made.offsets, &mut made.lengths] {
        column.iter_mut().for_each(|cell| *cell = number(random).into());
        if !column.is_empty() && random.below(8) == 0 {
            let row = random.below(column.len());
            column[row] = random.one_of(&[65_535, 65_536, 65_537, 1 << 32, u64::MAX]);
        }
    }
    made.code.iter_mut().for_each(|byte| *byte = random.byte());
}

/// The bytes lent for writing a file of this length: as many, one less, or others.
pub fn room(random: &mut Random, length: usize) -> usize {
    match random.below(6) {
        0 | 1 => length,
        2 => length - 1,
        3 => length + random.between(1, 5),
        4 => LONGEST + 8_000,
        _ => random.between(0, length),
    }
}
