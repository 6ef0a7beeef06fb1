//! What document 000 says about one body: how it decodes, whether it gives back a value, where each instruction goes.

use crate::cfg::{self, CfgError, Flow};
use crate::observe;
use crate::opcode::{self, DecodeStop};

/// How decoding ends, with 01's word for each number.
pub const WHOLE: u8 = 0;
pub const UNKNOWN: u8 = 1;
pub const CUT: u8 = 2;

/// The ways on from an instruction, as numbers.
pub const NEXT: u8 = 0;
pub const JUMP: u8 = 1;
pub const BRANCH: u8 = 2;
pub const RETURN: u8 = 3;

#[derive(Debug, PartialEq, Eq)]
pub struct Reading {
    pub outcome: u8,
    /// Offset of the stop; 0 if the body is whole.
    pub stop: usize,
    /// The byte at the stop; 0 if the body is whole.
    pub byte: u8,
    /// For each byte the size of the instruction that starts there before the first stop, else 0.
    pub marks: Vec<u8>,
    pub has_ret: bool,
}

/// The marks alone.
pub fn marks(body: &[u8]) -> Vec<u8> {
    let mut marks = vec![0; body.len()];
    for instruction in opcode::decode_body(body).map_while(Result::ok) {
        marks[instruction.offset] = instruction.size() as u8;
    }
    marks
}

pub fn read(body: &[u8]) -> Reading {
    let marks = marks(body);
    let end = match opcode::decode_body(body).find_map(Result::err) {
        None => (WHOLE, 0, 0),
        Some(DecodeStop::UnknownOpcode { offset, byte }) => (UNKNOWN, offset, byte),
        Some(DecodeStop::Truncated { offset, opcode }) => (CUT, offset, opcode),
    };
    // The same through the function that both checks call.
    let checked = match cfg::instruction_boundaries(body) {
        Ok(starts) => {
            assert!(starts == marks.iter().map(|&mark| mark != 0).collect::<Vec<_>>());
            (WHOLE, 0, 0)
        }
        Err(CfgError::UnknownOpcode { offset, byte }) => (UNKNOWN, offset, byte),
        Err(CfgError::TruncatedInstruction { offset, opcode }) => (CUT, offset, opcode),
        Err(CfgError::InvalidJumpTarget { .. }) => unreachable!("decoding looks at no target"),
    };
    assert_eq!(end, checked, "decode_body and instruction_boundaries differ on {body:02X?}");
    let (outcome, stop, byte) = end;
    Reading { outcome, stop, byte, marks, has_ret: observe::gives_back(body) }
}

/// Where the instruction at `at` goes: the way on, and its offset word where it has one.
pub fn flow(body: &[u8], marks: &[u8], at: usize) -> (u8, i16) {
    let size = marks[at] as usize;
    match cfg::flow_of(body[at], &body[at + 1..at + size]) {
        Flow::Next => (NEXT, 0),
        Flow::Jump(offset) => (JUMP, offset as i16),
        Flow::Branch(offset) => (BRANCH, offset as i16),
        Flow::Return => (RETURN, 0),
    }
}

/// The target of a branch at `at`, and whether it is legal. In a body that stops, the starts before the stop count.
pub fn target(marks: &[u8], at: usize, offset: i16) -> (bool, i32) {
    let starts: Vec<bool> = marks.iter().map(|&mark| mark != 0).collect();
    match cfg::branch_target(at, marks[at] as usize, offset as isize, &starts, marks.len()) {
        Ok(target) => (true, target as i32),
        Err(CfgError::InvalidJumpTarget { target, .. }) => (false, target as i32),
        Err(other) => unreachable!("branch_target decodes nothing: {other:?}"),
    }
}
