//! A program as the stack check gets it: how it is sent and recorded, and the six numbers that document 000 gives for it.

use crate::code_section::{CodeSection, FuncEntry};
use crate::id_types::FunctionId;
use crate::verify::{verify_stack_balance, StackImbalance};

/// 01's limits.
pub const CODE_LIMIT: usize = 12_288;
pub const FUNCTION_LIMIT: usize = 128;

/// Answer number, function id, offset, a, b, c.
pub type Numbers = [u32; 6];

#[derive(Clone, Copy, Debug, PartialEq, Eq)]
pub struct Function {
    pub id: u16,
    pub parameters: u16,
    pub maximum: u16,
    pub offset: usize,
    pub length: usize,
}

#[derive(Clone, Debug, Default, PartialEq, Eq)]
pub struct Program {
    pub functions: Vec<Function>,
    pub code: Vec<u8>,
}

impl Program {
    /// One function, which is the whole code.
    pub fn of_body(id: u16, maximum: u16, body: &[u8]) -> Program {
        let function = Function { id, parameters: 0, maximum, offset: 0, length: body.len() };
        Program { functions: vec![function], code: body.to_vec() }
    }

    pub fn body(&self, row: usize) -> &[u8] {
        let Function { offset, length, .. } = self.functions[row];
        &self.code[offset..offset + length]
    }

    /// As tests/driver/PROTOCOL.md has it, and programs.bin before the answer.
    pub fn write(&self, to: &mut Vec<u8>) {
        to.push(self.functions.len() as u8);
        for Function { id, parameters, maximum, offset, length } in &self.functions {
            for number in [*id, *parameters, *maximum, *offset as u16, *length as u16] {
                to.extend(number.to_le_bytes());
            }
        }
        to.extend((self.code.len() as u16).to_le_bytes());
        to.extend(&self.code);
    }

    /// Document 000 takes an id as a position, so that only ids 0, 1, 2, .. in this order mean the same to it.
    pub fn is_positional(&self) -> bool {
        self.functions.iter().enumerate().all(|(at, function)| function.id as usize == at)
    }

    pub fn section(&self) -> CodeSection {
        let mut section = CodeSection::default();
        section.bytecode.extend_from_slice(&self.code);
        section.functions.extend(self.functions.iter().map(|function| FuncEntry {
            function_id: FunctionId::new(function.id),
            code_offset: function.offset as u32,
            code_length: function.length as u32,
            max_stack_depth: function.maximum,
            num_locals: 0,
            num_params: function.parameters,
        }));
        section
    }

    pub fn answer(&self) -> Numbers {
        assert!(self.is_positional(), "document 000 would look for other functions in {self:?}");
        match verify_stack_balance(&self.section()) {
            Ok(()) => [0; 6],
            Err(found) => numbers(&found),
        }
    }
}

/// 01's number and values for each of document 000's answers.
fn numbers(found: &StackImbalance) -> Numbers {
    use StackImbalance::*;
    let (number, [a, b, c]) = match *found {
        UnknownOpcode { byte, .. } => (1, [byte.into(), 0, 0]),
        TruncatedInstruction { opcode, .. } => (2, [opcode.into(), 0, 0]),
        UnknownBuiltin { builtin_id, .. } => (3, [builtin_id.into(), 0, 0]),
        UnknownCallee { callee, .. } => (4, [callee.raw().into(), 0, 0]),
        Underflow { opcode, needs, has, .. } => (5, [opcode.into(), needs.into(), has.into()]),
        ExceedsDeclaredMax { depth, declared, .. } => (6, [depth.into(), declared.into(), 0]),
        InvalidJumpTarget { target, .. } => (7, [target as i32 as u32, 0, 0]),
        MergeConflict { existing, incoming, .. } => (8, [existing.into(), incoming.into(), 0]),
        UnbalancedReturn { expected, actual, .. } => (9, [expected.into(), actual.into(), 0]),
    };
    [number, found.function_id().raw().into(), found.offset() as u32, a, b, c]
}
