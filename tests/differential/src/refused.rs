//! Inputs that the stack call refuses, 30 to 34: columns of any lengths with faults, and what 01 says of them, read apart from the
//! crates. Document 000 has no refusals.

use crate::export::{Row, ROW_LIMIT};
use crate::program::{Function, Numbers, Program, CODE_LIMIT, FUNCTION_LIMIT};
use crate::programs::Programs;
use crate::random::Random;

/// The columns of one call, and the cells of scratch lent with them: marks, depths, queue, queue depths.
#[derive(Clone, Debug)]
pub struct Columns {
    pub room: [usize; 4],
    pub ids: Vec<u16>,
    pub parameters: Vec<u16>,
    pub maxima: Vec<u16>,
    pub offsets: Vec<u64>,
    pub lengths: Vec<u64>,
    pub list_ids: Vec<u16>,
    pub counts: Vec<u16>,
    pub flags: Vec<u16>,
    pub code: Vec<u8>,
}

fn needed(code: usize) -> [usize; 4] {
    [code, code + 1, 2 * code + 2, 2 * code + 2]
}

impl Columns {
    /// As tests/driver/PROTOCOL.md has it.
    pub fn bytes(&self) -> Vec<u8> {
        let words = [&self.ids, &self.parameters, &self.maxima];
        let list = [&self.list_ids, &self.counts, &self.flags];
        let mut lengths = self.room.to_vec();
        lengths.extend(words.iter().map(|column| column.len()));
        lengths.extend([self.offsets.len(), self.lengths.len()]);
        lengths.extend(list.iter().map(|column| column.len()));
        lengths.push(self.code.len());
        let mut bytes: Vec<u8> = lengths.iter().flat_map(|&length| (length as u32).to_le_bytes()).collect();
        bytes.extend(words.iter().flat_map(|column| column.iter()).flat_map(|word| word.to_le_bytes()));
        bytes.extend(self.offsets.iter().chain(&self.lengths).flat_map(|number| number.to_le_bytes()));
        bytes.extend(list.iter().flat_map(|column| column.iter()).flat_map(|word| word.to_le_bytes()));
        bytes.extend(&self.code);
        bytes
    }

    /// 01's refusal, if there is one: 31, 30, 34, 32, 33, in this order, the place for the last three.
    pub fn refusal(&self) -> Option<Numbers> {
        let said = |number: u32, place: usize| Some([number, 0, place as u32, 0, 0, 0]);
        let rows = self.ids.len();
        let functions = [self.parameters.len(), self.maxima.len(), self.offsets.len(), self.lengths.len()]
            .iter()
            .all(|&n| n == rows);
        let list = self.counts.len() == self.list_ids.len() && self.flags.len() == self.list_ids.len();
        let few = rows <= FUNCTION_LIMIT && self.list_ids.len() <= ROW_LIMIT && self.code.len() <= CODE_LIMIT;
        if !(functions && list && few) {
            return said(31, 0);
        }
        if self.room.iter().zip(needed(self.code.len())).any(|(&lent, needed)| lent < needed) {
            return said(30, 0);
        }
        let rises = |row: usize| row == 0 || self.list_ids[row - 1] < self.list_ids[row];
        if let Some(row) = (0..self.list_ids.len()).find(|&row| !rises(row) || self.flags[row] > 1) {
            return said(34, row);
        }
        if let Some(row) = (0..rows).find(|&row| self.ids[..row].contains(&self.ids[row])) {
            return said(32, row);
        }
        // In 128 bits, where no sum wraps.
        let end = |row: usize| u128::from(self.offsets[row]) + u128::from(self.lengths[row]);
        (0..rows).find(|&row| end(row) > self.code.len() as u128).and_then(|row| said(33, row))
    }

    /// The columns as a program, if they are one.
    pub fn program(&self) -> Program {
        let functions = (0..self.ids.len()).map(|row| Function {
            id: self.ids[row],
            parameters: self.parameters[row],
            maximum: self.maxima[row],
            offset: self.offsets[row] as usize,
            length: self.lengths[row] as usize,
        });
        Program { functions: functions.collect(), code: self.code.clone() }
    }
}

/// A random program in the exported list, with up to four faults or near faults.
pub fn any(programs: &mut Programs) -> Columns {
    let program = programs.any().program;
    faulty(program, &programs.list, &mut programs.source.random)
}

pub fn faulty(program: Program, list: &[Row], random: &mut Random) -> Columns {
    let spare = random.between(0, 3);
    let mut columns = Columns {
        room: needed(program.code.len()).map(|cells| cells + spare),
        ids: program.functions.iter().map(|function| function.id).collect(),
        parameters: program.functions.iter().map(|function| function.parameters).collect(),
        maxima: program.functions.iter().map(|function| function.maximum).collect(),
        offsets: program.functions.iter().map(|function| function.offset as u64).collect(),
        lengths: program.functions.iter().map(|function| function.length as u64).collect(),
        list_ids: list.iter().map(|row| row.id).collect(),
        counts: list.iter().map(|row| row.count).collect(),
        flags: list.iter().map(|row| row.flag).collect(),
        code: program.code,
    };
    if random.below(4) == 0 {
        cut_list(&mut columns, random);
    }
    if random.below(12) == 0 {
        grow(&mut columns, random);
    }
    for _ in 0..random.one_of(&[0, 1, 1, 1, 2, 2, 3, 4]) {
        fault(&mut columns, random);
    }
    columns
}

/// A part of the list from its front, or none of it.
fn cut_list(columns: &mut Columns, random: &mut Random) {
    let rows = random.between(0, 4);
    columns.list_ids.truncate(rows);
    columns.counts.truncate(rows);
    columns.flags.truncate(rows);
}

/// To a limit, or one above it.
fn grow(columns: &mut Columns, random: &mut Random) {
    let above = random.below(2);
    match random.below(3) {
        0 => {
            let rows = FUNCTION_LIMIT + above;
            let old = columns.ids.len();
            columns.ids.extend((old..rows).map(|id| id as u16));
            columns.parameters.resize(rows, 0);
            columns.maxima.resize(rows, 0);
            columns.offsets.resize(rows, 0);
            columns.lengths.resize(rows, 0);
        }
        1 => {
            let rows = ROW_LIMIT + above;
            columns.list_ids = (0..rows).map(|row| (row * 10) as u16).collect();
            columns.counts.resize(rows, 1);
            columns.flags.resize(rows, 0);
        }
        _ => {
            columns.code.resize(CODE_LIMIT + above, 0);
            let spare = random.between(0, 3);
            columns.room = needed(columns.code.len()).map(|cells| cells + spare);
        }
    }
}

/// Adds or takes a cell.
pub fn misfit<T: Copy + Default>(column: &mut Vec<T>, random: &mut Random) {
    if column.is_empty() || random.below(2) == 0 {
        column.push(T::default());
    } else {
        column.pop();
    }
}

fn fault(columns: &mut Columns, random: &mut Random) {
    match random.below(32) {
        0 => misfit(&mut columns.ids, random),
        1 => misfit(&mut columns.parameters, random),
        2 => misfit(&mut columns.maxima, random),
        3 => misfit(&mut columns.offsets, random),
        4 => misfit(&mut columns.lengths, random),
        5 => misfit(&mut columns.list_ids, random),
        6 => misfit(&mut columns.counts, random),
        7 => misfit(&mut columns.flags, random),
        8..=13 => {
            let column = random.below(4);
            let least = needed(columns.code.len())[column];
            columns.room[column] =
                random.one_of(&[0, least / 2, least.saturating_sub(1), least.saturating_sub(1), least]);
        }
        14..=19 => list_fault(columns, random),
        20..=25 => {
            if !columns.ids.is_empty() {
                let (row, other) = (random.below(columns.ids.len()), random.below(columns.ids.len()));
                columns.ids[row] = columns.ids[other];
            }
        }
        _ => body_fault(columns, random),
    }
}

fn list_fault(columns: &mut Columns, random: &mut Random) {
    let rows = columns.list_ids.len().min(columns.flags.len());
    if rows == 0 {
        return;
    }
    let row = random.below(rows);
    match random.below(4) {
        0 => columns.flags[row] = random.one_of(&[0, 1, 2, 255, 256, u16::MAX]),
        1 => columns.list_ids[row] = columns.list_ids[row.saturating_sub(1)],
        2 => columns.list_ids[row] = random.one_of(&[0, u16::MAX]),
        _ => {
            let other = random.below(rows);
            columns.list_ids.swap(row, other);
        }
    }
}

/// A body that just passes the code's end, or just does not; a sum that wraps.
fn body_fault(columns: &mut Columns, random: &mut Random) {
    let rows = columns.offsets.len().min(columns.lengths.len());
    if rows == 0 {
        return;
    }
    let row = random.below(rows);
    let end = columns.code.len() as u64;
    let part = random.between(0, columns.code.len()) as u64;
    let (offset, length) = match random.below(7) {
        0 => (end, 0),
        1 => (end + 1, 0),
        2 => (part, end - part),
        3 => (part, end - part + 1),
        4 => (u64::MAX, random.one_of(&[0, 1, 2])),
        5 => (u64::MAX - part, part + random.one_of(&[0, 1, 2])),
        _ => (part, u64::MAX - random.one_of(&[0, part])),
    };
    (columns.offsets[row], columns.lengths[row]) = (offset, length);
}
