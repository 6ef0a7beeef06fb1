//! Inputs that the pool call refuses, 30 to 35: the columns of the stack call with faults, and descriptors, entries, callee cells
//! and pool with faults besides; and what 01 says of them, read apart from the crates.

use crate::file_format::{DESCRIPTORS, ENTRIES};
use crate::pool_program::{Descriptor, PoolProgram, CELLS};
use crate::pools::Pools;
use crate::program::Numbers;
use crate::random::Random;
use crate::refused::{faulty, misfit, Columns};

#[derive(Clone, Debug)]
pub struct PoolColumns {
    pub columns: Columns,
    /// Callee cells lent.
    pub cells: usize,
    pub types: Vec<u16>,
    pub callees: Vec<u16>,
    pub entries: Vec<u16>,
    pub pool: u16,
}

impl PoolColumns {
    /// As tests/driver/PROTOCOL.md has it.
    pub fn bytes(&self) -> Vec<u8> {
        let words = [&self.types, &self.callees, &self.entries];
        let length = |length: usize| (length as u32).to_le_bytes();
        let stack = self.columns.bytes();
        // The lengths of four scratch columns and of nine columns.
        let (scratch, rest) = stack.split_at(4 * 4);
        let (columns, cells) = rest.split_at(9 * 4);
        let mut bytes = scratch.to_vec();
        bytes.extend(length(self.cells));
        bytes.extend(columns);
        bytes.extend(words.iter().flat_map(|column| length(column.len())));
        bytes.extend(cells);
        bytes.extend(words.iter().flat_map(|column| column.iter()).flat_map(|word| word.to_le_bytes()));
        bytes.extend(self.pool.to_le_bytes());
        bytes
    }

    /// 01's refusal, if there is one: 31, 30, 34, 32, 33, 35, in this order.
    pub fn refusal(&self) -> Option<Numbers> {
        let said = |number: u32| Some([number, 0, 0, 0, 0, 0]);
        let many =
            self.types.len() != self.callees.len() || self.types.len() > DESCRIPTORS || self.entries.len() > ENTRIES;
        let stack = self.columns.refusal();
        let is = |number: u32| stack.is_some_and(|numbers| numbers[0] == number);
        if many || is(31) {
            said(31)
        } else if self.cells < CELLS || is(30) {
            said(30)
        } else if stack.is_some() {
            stack
        } else if self.pool == u16::MAX {
            said(35)
        } else {
            None
        }
    }

    /// Whether a builtin borrows, in this list.
    pub fn borrows(&self, id: u16) -> bool {
        let Columns { list_ids, flags, .. } = &self.columns;
        list_ids.iter().position(|&listed| listed == id).is_some_and(|row| flags[row] == 1)
    }

    /// The columns as a program, if they are one.
    pub fn program(&self) -> PoolProgram {
        let rows = self.types.iter().zip(&self.callees);
        PoolProgram {
            program: self.columns.program(),
            descriptors: rows.map(|(&type_id, &function)| Descriptor { type_id, function }).collect(),
            entries: self.entries.clone(),
            pool: self.pool,
        }
    }
}

/// A random program in the exported list, with faults or near faults.
pub fn any(pools: &mut Pools) -> PoolColumns {
    let made = pools.any().program;
    let random = &mut pools.programs.source.random;
    let mut columns = PoolColumns {
        columns: faulty(made.program, &pools.programs.list, random),
        cells: CELLS + random.between(0, 3),
        types: made.descriptors.iter().map(|descriptor| descriptor.type_id).collect(),
        callees: made.descriptors.iter().map(|descriptor| descriptor.function).collect(),
        entries: made.entries,
        pool: made.pool,
    };
    if random.below(2) == 0 {
        other_flags(&mut columns.columns, random);
    }
    for _ in 0..random.one_of(&[0, 0, 0, 1, 1, 2]) {
        fault(&mut columns, random);
    }
    columns
}

/// Other builtins borrow.
fn other_flags(columns: &mut Columns, random: &mut Random) {
    for flag in columns.flags.iter_mut().filter(|flag| **flag < 2) {
        if random.below(4) == 0 {
            *flag ^= 1;
        }
    }
}

fn fault(columns: &mut PoolColumns, random: &mut Random) {
    let above = random.below(2);
    match random.below(10) {
        0 => misfit(&mut columns.types, random),
        1 => misfit(&mut columns.callees, random),
        2 => {
            columns.types.resize(DESCRIPTORS + above, 9);
            columns.callees.resize(DESCRIPTORS + above, 0);
        }
        3 => columns.entries.resize(ENTRIES + above, 0),
        4 | 5 => columns.cells = random.one_of(&[0, 128, CELLS - 1, CELLS - 1, CELLS]),
        // One below it only where it was large before: a loop that grows would take its time.
        _ => columns.pool = if columns.pool > 60 { u16::MAX - above as u16 } else { u16::MAX },
    }
}
