//! A program as the pool check gets it: how it is sent and recorded, and the six numbers that document 000 gives for it.

use crate::id_types::{FbTypeId, FunctionId};
use crate::opcode;
use crate::program::{Function, Numbers, Program};
use crate::programs::Names;
use crate::type_section::UserFbDescriptor;
use crate::verify_temp_bufs::{verify_temp_buffer_bound, TempBufferOverrun};

/// The highest pool that 01 takes.
pub const HIGHEST_POOL: u16 = 65_534;

/// 01's cells for callees: 128 for each of 128 functions.
pub const CELLS: usize = 128 * 128;

/// A builtin that borrows.
const BORROWING: u16 = 925;

#[derive(Clone, Copy, Debug, PartialEq, Eq)]
pub struct Descriptor {
    pub type_id: u16,
    pub function: u16,
}

#[derive(Clone, Debug, Default, PartialEq, Eq)]
pub struct PoolProgram {
    pub program: Program,
    pub descriptors: Vec<Descriptor>,
    pub entries: Vec<u16>,
    pub pool: u16,
}

impl PoolProgram {
    /// One function, which is the whole code and the only entry.
    pub fn of_body(id: u16, pool: u16, body: &[u8]) -> PoolProgram {
        PoolProgram { program: Program::of_body(id, 0, body), descriptors: vec![], entries: vec![id], pool }
    }

    /// As tests/driver/PROTOCOL.md has it, and pools.bin before the answer.
    pub fn write(&self, to: &mut Vec<u8>) {
        self.program.write(to);
        to.extend((self.descriptors.len() as u16).to_le_bytes());
        for Descriptor { type_id, function } in &self.descriptors {
            to.extend(type_id.to_le_bytes());
            to.extend(function.to_le_bytes());
        }
        to.push(self.entries.len() as u8);
        to.extend(self.entries.iter().flat_map(|entry| entry.to_le_bytes()));
        to.extend(self.pool.to_le_bytes());
    }

    /// The program with other ids for functions; type ids stay.
    pub fn renamed(&self, names: Names) -> PoolProgram {
        let mut renamed = PoolProgram { program: names.program(&self.program), ..self.clone() };
        renamed.descriptors.iter_mut().for_each(|descriptor| descriptor.function = names.of(descriptor.function));
        renamed.entries.iter_mut().for_each(|entry| *entry = names.of(*entry));
        renamed
    }

    /// The same program in ids that document 000 knows: functions by position, each with a body of its own, and builtins that
    /// borrow where `borrows` says so.
    fn translated(&self, borrows: impl Fn(u16) -> bool) -> PoolProgram {
        let functions = &self.program.functions;
        let position = |id: u16| match functions.iter().position(|function| function.id == id) {
            Some(at) => at as u16,
            None => u16::MAX,
        };
        let mut program = Program::default();
        for row in 0..functions.len() {
            let mut body = self.program.body(row).to_vec();
            for instruction in opcode::decode_body(self.program.body(row)).map_while(Result::ok) {
                let operand = instruction.offset + 1..instruction.offset + 3;
                let Some(word) = body.get_mut(operand) else { continue };
                let id = u16::from_le_bytes([word[0], word[1]]);
                match instruction.opcode {
                    opcode::CALL | opcode::METHOD_CALL => word.copy_from_slice(&position(id).to_le_bytes()),
                    opcode::BUILTIN => word.copy_from_slice(&if borrows(id) { BORROWING } else { 0 }.to_le_bytes()),
                    _ => {}
                }
            }
            let (offset, length) = (program.code.len(), body.len());
            program.functions.push(Function { id: row as u16, offset, length, ..functions[row] });
            program.code.extend(body);
        }
        let function = |descriptor: &Descriptor| Descriptor { function: position(descriptor.function), ..*descriptor };
        PoolProgram {
            program,
            descriptors: self.descriptors.iter().map(function).collect(),
            entries: self.entries.iter().map(|&entry| position(entry)).collect(),
            pool: self.pool,
        }
    }

    /// Document 000's answer in another list, or with any ids.
    pub fn answer_by(&self, borrows: impl Fn(u16) -> bool) -> Numbers {
        let mut numbers = self.translated(borrows).answer();
        if numbers[0] != 0 {
            numbers[1] = self.program.functions[numbers[1] as usize].id.into();
        }
        numbers
    }

    /// The first descriptor's function.
    pub fn function_of(&self, type_id: u16) -> Option<u16> {
        self.descriptors.iter().find(|descriptor| descriptor.type_id == type_id).map(|descriptor| descriptor.function)
    }

    pub fn user_descriptors(&self) -> Vec<UserFbDescriptor> {
        let one = |descriptor: &Descriptor| UserFbDescriptor {
            type_id: FbTypeId::new(descriptor.type_id),
            function_id: FunctionId::new(descriptor.function),
            var_offset: 0,
            num_fields: 0,
        };
        self.descriptors.iter().map(one).collect()
    }

    pub fn entry_ids(&self) -> Vec<FunctionId> {
        self.entries.iter().map(|&entry| FunctionId::new(entry)).collect()
    }

    pub fn answer(&self) -> Numbers {
        assert!(self.program.is_positional(), "document 000 would look for other functions in {self:?}");
        let section = self.program.section();
        match verify_temp_buffer_bound(&section, &self.user_descriptors(), &self.entry_ids(), self.pool) {
            Ok(()) => [0; 6],
            Err(found) => numbers(&found),
        }
    }
}

/// 01's number and values for each of document 000's answers.
fn numbers(found: &TempBufferOverrun) -> Numbers {
    use TempBufferOverrun::*;
    match *found {
        ExceedsDeclaredPool { function_id, offset, depth, declared } => {
            [20, function_id.raw().into(), offset as u32, depth.into(), declared.into(), 0]
        }
        RecursiveCallGraph { function_id } => [21, function_id.raw().into(), 0, 0, 0, 0],
        Undecodable { function_id } => [22, function_id.raw().into(), 0, 0, 0, 0],
    }
}
