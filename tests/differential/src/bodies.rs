//! Random bodies: whole ones, damaged ones, cut ones, noise; with branches aimed at every sort of place.

use crate::opcode;
use crate::random::Random;
use crate::reading::{self, BRANCH, JUMP, NEXT};

/// Where a branch is aimed.
#[derive(Clone, Copy, Debug, PartialEq, Eq)]
pub enum Aim {
    Start,
    Length,
    Inside,
    Before,
    Past,
    Anywhere,
}

pub const AIMS: [Aim; 6] = [Aim::Start, Aim::Length, Aim::Inside, Aim::Before, Aim::Past, Aim::Anywhere];

/// Instructions that the checks treat in a way of their own: they come more often than the others.
const SPECIAL: [u8; 10] = [
    opcode::JMP,
    opcode::JMP_IF_NOT,
    opcode::CMP_BR_I32,
    opcode::CMP_BR_I64,
    opcode::RET,
    opcode::RET_VOID,
    opcode::CALL,
    opcode::METHOD_CALL,
    opcode::BUILTIN,
    opcode::FB_CALL,
];

pub struct Bodies {
    pub random: Random,
    assigned: Vec<u8>,
    one_byte: Vec<u8>,
    unassigned: Vec<u8>,
}

impl Bodies {
    pub fn new(seed: u64) -> Self {
        let (assigned, unassigned): (Vec<u8>, Vec<u8>) = (0..=u8::MAX).partition(|&op| opcode::is_assigned(op));
        let one_byte = assigned.iter().copied().filter(|&op| opcode::instruction_size(op) == 1).collect();
        Bodies { random: Random::new(seed), assigned, one_byte, unassigned }
    }

    fn opcode(&mut self) -> u8 {
        if self.random.below(4) == 0 {
            self.random.one_of(&SPECIAL)
        } else {
            self.random.one_of(&self.assigned)
        }
    }

    /// One instruction with random operands, and its opcode.
    pub fn instruction(&mut self, op: u8) -> Vec<u8> {
        let mut bytes = vec![op];
        bytes.resize_with(opcode::instruction_size(op), || self.random.byte());
        bytes
    }

    /// An assigned opcode with this way on.
    pub fn opcode_that_goes(&mut self, wanted: u8) -> u8 {
        loop {
            let op = self.opcode();
            let bytes = self.instruction(op);
            if reading::flow(&bytes, &[bytes.len() as u8], 0).0 == wanted {
                return op;
            }
        }
    }

    /// Exactly `length` bytes of whole instructions, their branches aimed.
    pub fn whole(&mut self, length: usize) -> Vec<u8> {
        let mut body = Vec::with_capacity(length);
        while body.len() < length {
            let mut op = self.opcode();
            if opcode::instruction_size(op) > length - body.len() {
                op = self.random.one_of(&self.one_byte);
            }
            let instruction = self.instruction(op);
            body.extend(instruction);
        }
        let marks = reading::marks(&body);
        for at in 0..body.len() {
            if marks[at] != 0 {
                let aim = self.random.one_of(&AIMS);
                self.aim(&mut body, &marks, at, aim);
            }
        }
        body
    }

    /// Sets the offset word of the instruction at `at`, if it is a branch.
    pub fn aim(&mut self, body: &mut [u8], marks: &[u8], at: usize, aim: Aim) {
        if !matches!(reading::flow(body, marks, at).0, JUMP | BRANCH) {
            return;
        }
        let next = at + marks[at] as usize;
        let target = match aim {
            Aim::Start => self.place(marks, at, |mark| mark != 0) as isize,
            Aim::Length => body.len() as isize,
            Aim::Inside => self.place(marks, at + 1, |mark| mark == 0) as isize,
            Aim::Before => -1 - self.random.below(20) as isize,
            Aim::Past => (body.len() + self.random.between(1, 20)) as isize,
            Aim::Anywhere => next as isize + self.random.word() as i16 as isize,
        };
        let word = (target - next as isize) as i16;
        // In every branching instruction the offset is the last operand.
        body[next - 2..next].copy_from_slice(&word.to_le_bytes());
    }

    /// A random place whose mark is wanted, or `otherwise` where a few tries find none.
    fn place(&mut self, marks: &[u8], otherwise: usize, wanted: impl Fn(u8) -> bool) -> usize {
        for _ in 0..20 {
            let at = self.random.below(marks.len());
            if wanted(marks[at]) {
                return at;
            }
        }
        otherwise
    }

    /// A body of `length` bytes of one of five sorts.
    pub fn any(&mut self, length: usize) -> Vec<u8> {
        match self.random.below(10) {
            0..=3 => self.whole(length),
            4..=6 => self.damaged(length),
            7 => {
                let spare = self.random.between(1, 8);
                let mut body = self.whole(length + spare);
                body.truncate(length);
                body
            }
            8 => (0..length).map(|_| self.random.byte()).collect(),
            _ => {
                let op = self.opcode();
                let mut body = Vec::new();
                while body.len() < length {
                    body.extend(self.instruction(op));
                }
                body.truncate(length);
                body
            }
        }
    }

    fn damaged(&mut self, length: usize) -> Vec<u8> {
        let mut body = self.whole(length);
        if length > 0 {
            for _ in 0..self.random.between(1, 3) {
                let at = self.random.below(length);
                body[at] =
                    if self.random.below(2) == 0 { self.random.byte() } else { self.random.one_of(&self.unassigned) };
            }
        }
        body
    }

    /// A body that decodes, of at most 40 bytes, and the offset of an instruction in it that goes `way`, aimed at `aim`.
    pub fn with_instruction(&mut self, way: u8, aim: Aim) -> (Vec<u8>, usize) {
        let at = self.random.between(0, 16);
        let behind = self.random.between(0, 14);
        let op = self.opcode_that_goes(way);
        let mut body = self.whole(at);
        let middle = self.instruction(op);
        body.extend(middle);
        let tail = self.whole(behind);
        body.extend(tail);
        if way != NEXT {
            let marks = reading::marks(&body);
            self.aim(&mut body, &marks, at, aim);
        }
        (body, at)
    }
}
