//! Bodies that leave the stack as they must: blocks, branches, loops, calls and returns, with the depth kept in mind; and slips
//! that make them nearly so.

use crate::bodies::Bodies;
use crate::export::Row;
use crate::opcode;
use crate::tables::Fixed;

/// A function that can be called: its id, its parameters, and whether RET is in its body.
#[derive(Clone, Copy, Debug)]
pub struct Callee {
    pub id: u16,
    pub parameters: u16,
    pub gives: bool,
}

/// Aims at the body's length.
pub const END: usize = usize::MAX;

/// An instruction, and for a branch the instruction that it is aimed at.
#[derive(Clone, Debug)]
pub struct Item {
    pub bytes: Vec<u8>,
    pub to: Option<usize>,
}

pub struct Writer<'a> {
    source: &'a mut Bodies,
    effects: &'a [Option<Fixed>],
    list: &'a [Row],
    callees: &'a [Callee],
    items: Vec<Item>,
    depth: usize,
    peak: usize,
}

/// What the stack holds at most, apart from what a call or a builtin needs.
const HIGH: usize = 7;
/// A call that needs more is left out, or made without what it needs.
const MANY: usize = 40;

impl<'a> Writer<'a> {
    pub fn new(source: &'a mut Bodies, effects: &'a [Option<Fixed>], list: &'a [Row], callees: &'a [Callee]) -> Self {
        Writer { source, effects, list, callees, items: vec![], depth: 0, peak: 0 }
    }

    pub fn peak(&self) -> u16 {
        self.peak as u16
    }

    fn put(&mut self, bytes: Vec<u8>, takes: usize, leaves: usize) {
        let after = self.depth.saturating_sub(takes) + leaves;
        self.peak = self.peak.max(self.depth).max(after);
        self.depth = after;
        self.items.push(Item { bytes, to: None });
    }

    fn operation(&mut self, op: u8, takes: usize, leaves: usize) {
        let bytes = self.source.instruction(op);
        self.put(bytes, takes, leaves);
    }

    /// A branch; where it goes is set later, by `aim`.
    fn branch(&mut self, op: u8, takes: usize) -> usize {
        self.operation(op, takes, 0);
        self.items.len() - 1
    }

    fn aim(&mut self, branch: usize, to: usize) {
        self.items[branch].to = Some(to);
    }

    /// Any instruction with a fixed effect that goes to the next, which this depth permits.
    fn plain(&mut self) {
        for _ in 0..12 {
            let op = self.source.random.byte();
            let Some(Fixed { takes, leaves }) = self.effects[op as usize] else { continue };
            if takes <= self.depth && (self.depth < HIGH || leaves <= takes) {
                return self.operation(op, takes, leaves);
            }
        }
        self.push();
    }

    fn push(&mut self) {
        use opcode::*;
        let op = self.source.random.one_of(&[LOAD_TRUE, LOAD_FALSE, LOAD_VAR_I32, LOAD_CONST_I64, DUP, FB_LOAD_PARAM]);
        self.operation(op, 0, 1);
    }

    /// Down or up to this depth.
    fn settle(&mut self, depth: usize) {
        use opcode::*;
        while self.depth > depth {
            match self.source.random.below(4) {
                0 if self.depth > depth + 1 => self.operation(STORE_INDIRECT, 2, 0),
                1 if self.depth > depth + 1 => self.operation(ADD_I32, 2, 1),
                2 => self.operation(STORE_VAR_I32, 1, 0),
                _ => self.operation(POP, 1, 0),
            }
        }
        while self.depth < depth {
            self.push();
        }
    }

    fn at_least(&mut self, depth: usize) {
        if self.depth < depth && depth <= MANY {
            self.settle(depth);
        }
    }

    fn call(&mut self) {
        if self.callees.is_empty() {
            return self.plain();
        }
        let callee = self.source.random.one_of(self.callees);
        let method = self.source.random.below(2) == 0;
        let takes = callee.parameters as usize;
        self.at_least(takes);
        let mut bytes = self.source.instruction(if method { opcode::METHOD_CALL } else { opcode::CALL });
        bytes[1..3].copy_from_slice(&callee.id.to_le_bytes());
        self.put(bytes, takes, (!method || callee.gives).into());
    }

    fn builtin(&mut self) {
        let row = self.source.random.one_of(self.list);
        self.at_least(row.count as usize);
        let mut bytes = self.source.instruction(opcode::BUILTIN);
        bytes[1..3].copy_from_slice(&row.id.to_le_bytes());
        self.put(bytes, row.count as usize, 1);
    }

    /// Leaves the function here; what follows is reached by a branch only, at the depth that was.
    fn leave(&mut self, gives: bool) {
        let before = self.depth;
        if gives {
            self.settle(1);
            self.operation(opcode::RET, 0, 0);
        } else {
            self.settle(0);
            self.operation(opcode::RET_VOID, 0, 0);
        }
        self.depth = before;
    }

    fn compare(&mut self) -> usize {
        let op = self.source.random.one_of(&[opcode::CMP_BR_I32, opcode::CMP_BR_I64]);
        self.branch(op, 0)
    }

    fn condition(&mut self) -> usize {
        if self.source.random.below(3) == 0 {
            return self.compare();
        }
        self.push();
        self.branch(opcode::JMP_IF_NOT, 1)
    }

    fn choice(&mut self, budget: usize, level: usize, gives: bool) {
        let over = self.condition();
        self.block(budget / 2, level + 1, gives);
        if self.source.random.below(2) == 0 {
            let end = self.branch(opcode::JMP, 0);
            self.aim(over, self.items.len());
            self.block(budget / 2, level + 1, gives);
            self.aim(end, self.items.len());
        } else {
            self.aim(over, self.items.len());
        }
    }

    fn repeat(&mut self, budget: usize, level: usize, gives: bool) {
        let start = self.items.len();
        if self.source.random.below(2) == 0 {
            let out = self.condition();
            self.block(budget, level + 1, gives);
            let back = self.branch(opcode::JMP, 0);
            self.aim(back, start);
            self.aim(out, self.items.len());
        } else {
            self.block(budget, level + 1, gives);
            let back = self.condition();
            self.aim(back, start);
        }
    }

    /// Instructions that nothing reaches.
    fn dead(&mut self) {
        let (depth, peak) = (self.depth, self.peak);
        let over = self.branch(opcode::JMP, 0);
        for _ in 0..self.source.random.between(0, 3) {
            let op = self.source.random.byte();
            if self.effects[op as usize].is_some() {
                self.operation(op, 0, 0);
            }
        }
        self.aim(over, self.items.len());
        (self.depth, self.peak) = (depth, peak);
    }

    /// About `budget` instructions, behind which the depth is what it was.
    pub fn block(&mut self, budget: usize, level: usize, gives: bool) {
        let depth = self.depth;
        let until = self.items.len() + budget;
        while self.items.len() < until {
            let left = (until - self.items.len()) / 2;
            match self.source.random.below(24) {
                0 | 1 if level < 6 => self.choice(left, level, gives),
                2 if level < 6 => self.repeat(left, level, gives),
                3 => self.dead(),
                4 | 5 => self.call(),
                6 | 7 => self.builtin(),
                8 if level > 0 && self.source.random.below(3) == 0 => {
                    let gives = gives && self.source.random.below(4) > 0;
                    self.leave(gives);
                }
                9 if self.depth == 0 => {
                    let out = self.compare();
                    self.aim(out, END);
                }
                _ => self.plain(),
            }
        }
        self.settle(depth);
    }

    /// A whole body. One that `gives` ends with RET, another by its end, by RET_VOID or in a loop.
    pub fn body(&mut self, budget: usize, gives: bool) {
        self.block(budget, 0, gives);
        match self.source.random.below(8) {
            _ if gives => self.leave(true),
            0..=2 => self.leave(false),
            3 if !self.items.is_empty() => {
                let back = self.branch(opcode::JMP, 0);
                self.aim(back, 0);
            }
            _ => {}
        }
    }

    fn insert(&mut self, at: usize, bytes: Vec<u8>) {
        for to in self.items.iter_mut().filter_map(|item| item.to.as_mut()) {
            if *to != END && *to > at {
                *to += 1;
            }
        }
        self.items.insert(at, Item { bytes, to: None });
    }

    fn remove(&mut self, at: usize) {
        self.items.remove(at);
        for to in self.items.iter_mut().filter_map(|item| item.to.as_mut()) {
            if *to != END && *to > at {
                *to -= 1;
            }
        }
    }

    /// Puts one of these instructions in the place of others with the same effect, of one in `every`.
    pub fn exchange(&mut self, wanted: &[u8], every: usize) {
        for at in 0..self.items.len() {
            let effect = self.effects[self.items[at].bytes[0] as usize];
            let same: Vec<u8> = wanted.iter().copied().filter(|&op| self.effects[op as usize] == effect).collect();
            if effect.is_some() && !same.is_empty() && self.source.random.below(every) == 0 {
                let op = self.source.random.one_of(&same);
                self.items[at].bytes = self.source.instruction(op);
            }
        }
    }

    /// Puts an instruction that moves nothing before others, before one in `every`.
    pub fn scatter(&mut self, op: u8, every: usize) {
        for at in (0..self.items.len()).rev() {
            if self.source.random.below(every) == 0 {
                let bytes = self.source.instruction(op);
                self.insert(at, bytes);
            }
        }
    }

    fn any_plain(&mut self) -> Vec<u8> {
        loop {
            let op = self.source.random.byte();
            if self.effects[op as usize].is_some() {
                return self.source.instruction(op);
            }
        }
    }

    /// One slip: an instruction too many, too few, in the wrong place, or one that names what is not there.
    pub fn slip(&mut self) {
        let count = self.items.len();
        let at = self.source.random.below(count + 1);
        match self.source.random.below(11) {
            0 | 1 if at < count => self.remove(at),
            2 if at < count => self.items[at] = Item { bytes: self.any_plain(), to: None },
            3 if at + 1 < count => self.items.swap(at, at + 1),
            4..=6 => self.slip_branch(at),
            7 => {
                let bytes = vec![self.source.random.one_of(&[opcode::RET, opcode::RET_VOID])];
                self.insert(at, bytes);
            }
            8 | 9 => self.slip_call(at),
            _ => {
                let bytes = self.any_plain();
                self.insert(at, bytes);
            }
        }
    }

    /// A branch aimed elsewhere, or one more.
    fn slip_branch(&mut self, at: usize) {
        let branches: Vec<usize> = (0..self.items.len()).filter(|&at| self.items[at].to.is_some()).collect();
        let branch = if branches.is_empty() {
            let bytes = self.source.instruction(opcode::CMP_BR_I32);
            self.insert(at, bytes);
            at
        } else {
            self.source.random.one_of(&branches)
        };
        let to = self.source.random.between(0, self.items.len());
        self.aim(branch, to);
    }

    /// One more call, of any id or of one that is just known or just not.
    fn slip_call(&mut self, at: usize) {
        let op = self.source.random.one_of(&[opcode::CALL, opcode::METHOD_CALL, opcode::BUILTIN]);
        let mut bytes = self.source.instruction(op);
        if self.source.random.below(2) == 0 {
            let near = self.callees.len() as u16;
            let id = self.source.random.one_of(&[near, near + 1, 0, 831, 1230, u16::MAX]);
            bytes[1..3].copy_from_slice(&id.to_le_bytes());
        }
        self.insert(at, bytes);
    }

    pub fn assemble(&self) -> Vec<u8> {
        assemble(&self.items)
    }
}

/// The bytes, with each branch's offset word.
pub fn assemble(items: &[Item]) -> Vec<u8> {
    let mut starts = Vec::with_capacity(items.len());
    let mut length = 0;
    for item in items {
        starts.push(length);
        length += item.bytes.len();
    }
    let mut body = Vec::with_capacity(length);
    for item in items {
        body.extend(&item.bytes);
        if let Some(to) = item.to {
            let target = starts.get(to).copied().unwrap_or(length);
            let next = body.len();
            let word = (target as isize - next as isize) as i16;
            // In every branching instruction the offset is the last operand.
            body[next - 2..next].copy_from_slice(&word.to_le_bytes());
        }
    }
    body
}
