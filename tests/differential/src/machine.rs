//! 01's depth machine, read apart from the crates: frames with a function, an offset, a depth and buffers, to which each step
//! applies the effects without a test; and the clauses that hold in every configuration of a run if both checks accept.
//!
//! Sizes and effects of the instructions are those that the checks of document 000 show (tables.rs); what a builtin, a call or a
//! branch does is written here from 01.

use crate::export::{self, Row};
use crate::opcode::{
    self, BUILTIN, CALL, CMP_BR_I32, CMP_BR_I64, FB_CALL, JMP, JMP_IF_NOT, METHOD_CALL, RET, RET_VOID,
};
use crate::pool_program::PoolProgram;
use crate::random::Random;
use crate::tables::{self, Fixed, Kind};

/// What the instructions do in every program.
pub struct Tables {
    pub list: Vec<Row>,
    /// 0 where unassigned.
    pub sizes: Vec<usize>,
    pub fixed: Vec<Option<Fixed>>,
    pub temps: Vec<i8>,
}

impl Tables {
    pub fn new() -> Result<Tables, String> {
        let list = export::code_list()?;
        let mut made = Tables { list, sizes: vec![0; 256], fixed: vec![None; 256], temps: vec![0; 256] };
        for op in (0..=u8::MAX).filter(|&op| opcode::is_assigned(op)) {
            made.sizes[op as usize] = opcode::instruction_size(op);
            if let Kind::Fixed { takes, leaves } = tables::kind(op, &made.list)? {
                made.fixed[op as usize] = Some(Fixed { takes: takes.into(), leaves: leaves.into() });
            }
            made.temps[op as usize] = tables::temp(op)?;
        }
        Ok(made)
    }

    /// The instruction at an offset, if one decodes there.
    fn decoded<'b>(&self, body: &'b [u8], offset: usize) -> Option<(u8, &'b [u8])> {
        let op = *body.get(offset)?;
        let size = self.sizes[op as usize];
        (size != 0 && size <= body.len() - offset).then(|| (op, &body[offset + 1..offset + size]))
    }

    fn builtin(&self, id: u16) -> Option<Row> {
        self.list.binary_search_by_key(&id, |row| row.id).ok().map(|at| self.list[at])
    }
}

#[derive(Clone, Copy, Debug, PartialEq, Eq)]
pub struct Frame {
    pub row: usize,
    pub offset: usize,
    pub depth: usize,
    pub buffers: usize,
}

/// What no run of an accepted program does.
#[derive(Clone, Copy, Debug, PartialEq, Eq, PartialOrd, Ord)]
pub enum Clause {
    /// Takes more than its frame holds.
    Takes,
    /// Passes a declared depth.
    Depth,
    /// Exits at a wrong depth.
    Exit,
    /// Opens a function twice.
    Twice,
    /// Holds more buffers than the pool.
    Buffers,
    /// Gets stuck.
    Stuck,
}

#[derive(Clone, Copy, Debug, PartialEq, Eq)]
enum Way {
    Next,
    Jump(i16),
    Branch(i16),
    Return,
}

/// An instruction whose builtin or callee is known.
struct Acts<'a> {
    op: u8,
    operands: &'a [u8],
    effect: Fixed,
}

enum Place<'a> {
    End,
    Acts(Acts<'a>),
    Nothing,
}

/// What one run saw.
#[derive(Clone, Copy, Debug)]
pub struct Seen {
    pub steps: u64,
    /// Frames opened: the entry's, and those by CALL, METHOD_CALL and FB_CALL.
    pub entered: u64,
    pub opened: [u64; 3],
    /// The most frames that were open at once.
    pub deepest: usize,
    /// Configurations in which the whole pool, above 0, was held.
    pub whole: u64,
    /// Of these, those in which no single frame held it.
    pub together: u64,
    /// Configurations in which a frame stood at its declared maximum, above 0.
    pub brim: u64,
    /// The opcodes that were stepped over.
    pub stepped: [bool; 256],
    /// The last frame was closed.
    pub closed: bool,
}

pub struct Machine<'a> {
    program: &'a PoolProgram,
    tables: &'a Tables,
    /// For each function the instruction starts before its first decoding stop, and whether RET is among these instructions.
    starts: Vec<Vec<bool>>,
    gives: Vec<bool>,
}

fn word(bytes: &[u8]) -> u16 {
    u16::from_le_bytes([bytes[0], bytes[1]])
}

fn way(op: u8, operands: &[u8]) -> Way {
    match op {
        JMP => Way::Jump(word(operands) as i16),
        JMP_IF_NOT => Way::Branch(word(operands) as i16),
        CMP_BR_I32 | CMP_BR_I64 => Way::Branch(word(&operands[5..]) as i16),
        RET | RET_VOID => Way::Return,
        _ => Way::Next,
    }
}

fn after(effect: Fixed, depth: usize) -> usize {
    depth.saturating_sub(effect.takes) + effect.leaves
}

impl<'a> Machine<'a> {
    pub fn new(program: &'a PoolProgram, tables: &'a Tables) -> Self {
        let (mut starts, mut gives) = (vec![], vec![]);
        for row in 0..program.program.functions.len() {
            let body = program.program.body(row);
            let (mut marks, mut has_ret, mut at) = (vec![false; body.len()], false, 0);
            while let Some((op, operands)) = tables.decoded(body, at) {
                marks[at] = true;
                has_ret |= op == RET;
                at += 1 + operands.len();
            }
            starts.push(marks);
            gives.push(has_ret);
        }
        Machine { program, tables, starts, gives }
    }

    fn row(&self, id: u16) -> Option<usize> {
        self.program.program.functions.iter().position(|function| function.id == id)
    }

    /// The entries that are in the directory, by their rows.
    pub fn entries(&self) -> Vec<usize> {
        self.program.entries.iter().filter_map(|&id| self.row(id)).collect()
    }

    fn declared(&self, frame: &Frame) -> usize {
        self.program.program.functions[frame.row].maximum.into()
    }

    fn effect(&self, op: u8, operands: &[u8]) -> Option<Fixed> {
        let parameters = |row: usize| usize::from(self.program.program.functions[row].parameters);
        match op {
            BUILTIN => self.tables.builtin(word(operands)).map(|row| Fixed { takes: row.count.into(), leaves: 1 }),
            CALL => self.row(word(operands)).map(|row| Fixed { takes: parameters(row), leaves: 1 }),
            METHOD_CALL => {
                self.row(word(operands)).map(|row| Fixed { takes: parameters(row), leaves: self.gives[row].into() })
            }
            _ => self.tables.fixed[op as usize],
        }
    }

    fn buffers_after(&self, acts: &Acts, buffers: usize) -> usize {
        let borrows = acts.op == BUILTIN && self.tables.builtin(word(acts.operands)).is_some_and(|row| row.flag == 1);
        match self.tables.temps[acts.op as usize] {
            -1 => buffers.saturating_sub(1),
            1 => buffers + 1,
            _ => buffers + usize::from(borrows),
        }
    }

    /// The function whose frame is opened.
    fn opens(&self, acts: &Acts) -> Option<usize> {
        match acts.op {
            CALL | METHOD_CALL => self.row(word(acts.operands)),
            FB_CALL => self.program.function_of(word(acts.operands)).and_then(|id| self.row(id)),
            _ => None,
        }
    }

    fn place(&self, frame: &Frame) -> Place<'a> {
        let body = self.program.program.body(frame.row);
        if frame.offset == body.len() {
            return Place::End;
        }
        let Some((op, operands)) = self.tables.decoded(body, frame.offset) else { return Place::Nothing };
        match self.effect(op, operands) {
            Some(effect) => Place::Acts(Acts { op, operands, effect }),
            None => Place::Nothing,
        }
    }

    /// Where control can go on, one way or the other; nowhere where the target is illegal, or behind a return.
    fn onward(&self, frame: &Frame, acts: &Acts) -> Option<[usize; 2]> {
        let next = frame.offset + 1 + acts.operands.len();
        let target = |offset: i16| {
            let starts = &self.starts[frame.row];
            let target = usize::try_from(next as i64 + i64::from(offset)).ok()?;
            (target == starts.len() || starts.get(target) == Some(&true)).then_some(target)
        };
        match way(acts.op, acts.operands) {
            Way::Next => Some([next; 2]),
            Way::Jump(offset) => target(offset).map(|to| [to; 2]),
            Way::Branch(offset) => target(offset).map(|to| [to, next]),
            Way::Return => None,
        }
    }

    /// The first clause that does not hold of these frames, the top one last.
    pub fn broken(&self, frames: &[Frame]) -> Option<Clause> {
        for frame in frames {
            if frame.depth > self.declared(frame) {
                return Some(Clause::Depth);
            }
            match self.place(frame) {
                Place::End if frame.depth != 0 => return Some(Clause::Exit),
                Place::Acts(acts) => {
                    let after = after(acts.effect, frame.depth);
                    if acts.effect.takes > frame.depth {
                        return Some(Clause::Takes);
                    }
                    if after > self.declared(frame) {
                        return Some(Clause::Depth);
                    }
                    if (acts.op == RET && after != 1) || (acts.op == RET_VOID && after != 0) {
                        return Some(Clause::Exit);
                    }
                }
                _ => {}
            }
        }
        if (1..frames.len()).any(|at| frames[..at].iter().any(|frame| frame.row == frames[at].row)) {
            return Some(Clause::Twice);
        }
        if frames.iter().map(|frame| frame.buffers).sum::<usize>() > self.program.pool.into() {
            return Some(Clause::Buffers);
        }
        let stuck = frames.last().is_some_and(|frame| match self.place(frame) {
            Place::End => false,
            Place::Nothing => true,
            Place::Acts(acts) => way(acts.op, acts.operands) != Way::Return && self.onward(frame, &acts).is_none(),
        });
        stuck.then_some(Clause::Stuck)
    }

    /// One step of the top frame, if there is one.
    fn step(&self, frames: &mut Vec<Frame>, random: &mut Random, seen: &mut Seen) -> bool {
        let Some(frame) = frames.pop() else { return false };
        let acts = match self.place(&frame) {
            Place::End => return true,
            Place::Nothing => return false,
            Place::Acts(acts) => acts,
        };
        seen.stepped[acts.op as usize] = true;
        if way(acts.op, acts.operands) == Way::Return {
            return true;
        }
        let Some(ways) = self.onward(&frame, &acts) else { return false };
        frames.push(Frame {
            row: frame.row,
            offset: random.one_of(&ways),
            depth: after(acts.effect, frame.depth),
            buffers: self.buffers_after(&acts, frame.buffers),
        });
        if let Some(row) = self.opens(&acts) {
            frames.push(Frame { row, offset: 0, depth: 0, buffers: 0 });
            seen.opened[if acts.op == CALL { 0 } else { 1 + usize::from(acts.op == FB_CALL) }] += 1;
        }
        true
    }

    /// A run from an entry's row, of at most so many steps: what it saw, and the clause that broke, with the frames where it did.
    pub fn run(&self, entry: usize, limit: u64, random: &mut Random) -> (Seen, Option<(Clause, Vec<Frame>)>) {
        let mut seen = Seen::new();
        let mut frames = vec![Frame { row: entry, offset: 0, depth: 0, buffers: 0 }];
        loop {
            seen.note(self, &frames);
            if let Some(clause) = self.broken(&frames) {
                return (seen, Some((clause, frames)));
            }
            if frames.is_empty() || seen.steps == limit {
                seen.closed = frames.is_empty();
                return (seen, None);
            }
            assert!(self.step(&mut frames, random, &mut seen), "no step where `broken` found one");
            seen.steps += 1;
        }
    }
}

impl Seen {
    fn new() -> Seen {
        let (opened, stepped) = ([0; 3], [false; 256]);
        Seen { steps: 0, entered: 1, opened, deepest: 0, whole: 0, together: 0, brim: 0, stepped, closed: false }
    }

    fn note(&mut self, machine: &Machine, frames: &[Frame]) {
        self.deepest = self.deepest.max(frames.len());
        let pool: usize = machine.program.pool.into();
        let whole = pool > 0 && frames.iter().map(|frame| frame.buffers).sum::<usize>() == pool;
        self.whole += u64::from(whole);
        self.together += u64::from(whole && frames.iter().all(|frame| frame.buffers < pool));
        let brim = |frame: &Frame| frame.depth > 0 && frame.depth == machine.declared(frame);
        self.brim += u64::from(frames.iter().any(brim));
    }
}
