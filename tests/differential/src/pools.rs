//! Random programs for the pool check: bodies that borrow and give back in straight lines, branches and loops, that call each
//! other in every way, with damaged bytes and illegal targets; descriptors, entries and pools of every sort.

use crate::balanced::{assemble, Item, END};
use crate::bodies::{Aim, AIMS};
use crate::export::Row;
use crate::file_format::{DESCRIPTORS, ENTRIES};
use crate::opcode;
use crate::pool_program::{Descriptor, PoolProgram, HIGHEST_POOL};
use crate::program::FUNCTION_LIMIT;
use crate::programs::{Body, Layout, Names, Programs};
use crate::random::Random;
use crate::{reading, tables};

/// How often, against each other, a body borrows by an instruction, gives back, borrows by a builtin, has another builtin, calls,
/// branches, returns, or does something else.
const STYLES: [[usize; 8]; 6] = [
    [4, 3, 1, 1, 2, 3, 1, 3],
    [6, 1, 1, 0, 2, 3, 0, 1],
    [3, 3, 0, 1, 1, 6, 1, 2],
    [2, 2, 1, 1, 6, 2, 1, 2],
    [1, 4, 1, 1, 1, 2, 0, 2],
    [1, 1, 0, 1, 1, 1, 1, 6],
];

/// A loop that grows is walked as often as the pool is large. Above this pool bodies have loops only now and then.
const SMALL: u16 = 60;
const SELDOM: usize = 20;

/// Ids of function block types come from few numbers, so that many are the same.
const TYPES: [u16; 8] = [0, 1, 2, 3, 7, 256, 32_768, u16::MAX];

/// An id that is just behind the last one, or far from it.
fn stranger(random: &mut Random, count: usize) -> u16 {
    let (next, far) = (count as u16, random.word());
    random.one_of(&[next, next + 1, far, u16::MAX])
}

/// What the bodies of one program have in common.
struct Plan {
    count: usize,
    /// Calls go to later functions alone.
    forward: bool,
    /// Branches may go back.
    loops: bool,
}

pub struct Made {
    /// Ids are 0, 1, 2, ..
    pub program: PoolProgram,
    pub layout: Layout,
    /// Other ids for it; never where bodies overlap, since a call could then be read in two ways.
    pub names: Option<Names>,
}

pub struct Pools {
    pub programs: Programs,
    borrowing: Vec<u8>,
    giving_back: Vec<u8>,
    builtins: Vec<u16>,
    borrowing_builtins: Vec<u16>,
    longest: usize,
}

impl Pools {
    /// Programs of at most `longest` code bytes.
    pub fn new(seed: u64, longest: usize) -> Result<Self, String> {
        let programs = Programs::new(seed, longest)?;
        let (mut borrowing, mut giving_back) = (vec![], vec![]);
        for op in (0..=u8::MAX).filter(|&op| opcode::is_assigned(op)) {
            match tables::temp(op)? {
                1 => borrowing.push(op),
                -1 => giving_back.push(op),
                _ => {}
            }
        }
        let ids = |flag: u16| programs.list.iter().filter(|row: &&Row| row.flag == flag).map(|row| row.id).collect();
        let (builtins, borrowing_builtins) = (ids(0), ids(1));
        Ok(Pools { programs, borrowing, giving_back, builtins, borrowing_builtins, longest })
    }

    pub fn any(&mut self) -> Made {
        loop {
            let made = self.attempt();
            if made.program.program.code.len() <= self.longest {
                return made;
            }
        }
    }

    fn attempt(&mut self) -> Made {
        let random = &mut self.programs.source.random;
        let mut count = match random.below(100) {
            0 => random.between(0, FUNCTION_LIMIT),
            1..=4 => random.between(6, 20),
            _ => random.between(1, 5),
        };
        let pool = match random.below(40) {
            0..=4 => 0,
            5..=11 => 1,
            12..=27 => random.between(2, 8) as u16,
            28..=31 => random.between(9, SMALL.into()) as u16,
            32..=37 => HIGHEST_POOL,
            38 => random.between(0, HIGHEST_POOL.into()) as u16,
            _ => HIGHEST_POOL - random.between(1, 9) as u16,
        };
        let grown = pool > SMALL && random.below(SELDOM) == 0;
        if grown {
            count = count.min(2);
        }
        let plan = Plan { count, forward: random.below(3) > 0, loops: pool <= SMALL || grown };
        let budget = match random.below(300) {
            0 if !grown => self.longest / (4 * count.max(1)),
            1..=20 if !grown => 160 / count.max(1),
            _ => 24 / count.max(1) + 6,
        };
        let damaged = random.one_of(&[0, 0, 0, 0, 0, 0, 0, 0, 0, 0, 1, 1, 2]);
        let layout = random.one_of(&[Layout::Apart, Layout::Apart, Layout::Apart, Layout::Shared, Layout::Overlapping]);
        let damaged: Vec<usize> = (0..damaged).map(|_| random.below(count.max(1))).collect();
        let mut program = PoolProgram { pool, ..Default::default() };
        program.descriptors = self.descriptors(count);
        program.entries = self.entries(count);
        let callees = self.programs.callees(count);
        let mut bodies = vec![];
        for row in 0..count {
            let budget = self.programs.source.random.between(0, budget);
            let mut bytes = self.body(&program, &plan, row, budget);
            for _ in damaged.iter().filter(|&&at| at == row) {
                self.damage(&mut bytes, &plan);
            }
            bodies.push(Body { bytes, peak: self.programs.source.random.between(0, 20) as u16 });
        }
        program.program = self.programs.lay_out(&callees, &bodies);
        if layout != Layout::Apart && (pool <= SMALL || layout == Layout::Shared) {
            self.programs.move_bodies(&mut program.program, layout);
        }
        let source = &mut self.programs.source;
        let names = (layout != Layout::Overlapping && source.random.below(4) == 0).then(|| Names::random(source));
        Made { program, layout, names }
    }

    fn descriptors(&mut self, count: usize) -> Vec<Descriptor> {
        let random = &mut self.programs.source.random;
        let rows = match random.below(100) {
            0 => random.between(0, DESCRIPTORS),
            1..=30 => 0,
            _ => random.between(1, 6),
        };
        (0..rows)
            .map(|_| {
                let type_id = if random.below(20) == 0 { random.word() } else { random.one_of(&TYPES) };
                let function = match random.below(8) {
                    0 => stranger(random, count),
                    _ => random.between(0, count) as u16,
                };
                Descriptor { type_id, function }
            })
            .collect()
    }

    fn entries(&mut self, count: usize) -> Vec<u16> {
        let random = &mut self.programs.source.random;
        let mut entries: Vec<u16> = match random.below(16) {
            0 => vec![],
            1..=6 => vec![0],
            7 | 8 => (0..count.min(ENTRIES)).map(|id| id as u16).collect(),
            9 => (0..random.between(0, ENTRIES)).map(|_| random.between(0, count) as u16).collect(),
            _ => (0..random.between(1, 4)).map(|_| random.between(0, count) as u16).collect(),
        };
        if entries.len() < ENTRIES && random.below(8) == 0 {
            let entry = stranger(random, count);
            entries.insert(random.between(0, entries.len()), entry);
        }
        if !entries.is_empty() && entries.len() < ENTRIES && random.below(6) == 0 {
            entries.push(random.one_of(&entries));
        }
        entries
    }

    fn with_word(&mut self, op: u8, word: u16) -> Item {
        let mut bytes = self.programs.source.instruction(op);
        bytes[1..3].copy_from_slice(&word.to_le_bytes());
        Item { bytes, to: None }
    }

    fn operation(&mut self, op: u8) -> Item {
        Item { bytes: self.programs.source.instruction(op), to: None }
    }

    fn builtin(&mut self) -> Item {
        let random = &mut self.programs.source.random;
        let id = match random.below(8) {
            0 => random.one_of(&[0, 924, 927, 929, 831, 1230, u16::MAX]),
            1 => random.word(),
            _ => random.one_of(&self.builtins),
        };
        self.with_word(opcode::BUILTIN, id)
    }

    /// A call of a function that is there, or now and then of one that is not.
    fn call(&mut self, program: &PoolProgram, plan: &Plan, row: usize) -> Item {
        let random = &mut self.programs.source.random;
        let unknown = stranger(random, plan.count);
        let from = if plan.forward { row + 1 } else { 0 };
        let known = if from < plan.count { random.between(from, plan.count - 1) as u16 } else { unknown };
        let id = if random.below(8) == 0 { unknown } else { known };
        match random.below(5) {
            0 | 1 => self.with_word(opcode::CALL, id),
            2 => self.with_word(opcode::METHOD_CALL, id),
            _ => {
                // A type with a descriptor that leads on, or one without a descriptor.
                let types: Vec<u16> = TYPES
                    .into_iter()
                    .filter(|&type_id| {
                        program.function_of(type_id).is_none_or(|function| !plan.forward || function as usize > row)
                    })
                    .collect();
                let other = if random.below(2) == 0 { 5 } else { random.word() };
                let other = if program.function_of(other).is_some() { 6 } else { other };
                let type_id = if types.is_empty() || random.below(10) == 0 { other } else { random.one_of(&types) };
                self.with_word(opcode::FB_CALL, type_id)
            }
        }
    }

    fn plain(&mut self) -> Item {
        loop {
            let op = self.programs.source.random.byte();
            let special = matches!(op, opcode::BUILTIN | opcode::CALL | opcode::METHOD_CALL | opcode::FB_CALL);
            let one_way = opcode::is_assigned(op)
                && reading::flow(&vec![op; opcode::instruction_size(op)], &[opcode::instruction_size(op) as u8], 0).0
                    == reading::NEXT;
            if one_way && !special {
                return self.operation(op);
            }
        }
    }

    fn body(&mut self, program: &PoolProgram, plan: &Plan, row: usize, budget: usize) -> Vec<u8> {
        use opcode::*;
        let style = self.programs.source.random.one_of(&STYLES);
        let mut items: Vec<Item> = vec![];
        for _ in 0..budget {
            let random = &mut self.programs.source.random;
            if random.below(40) == 0 {
                self.overtaken(program, plan, row, &mut items);
                continue;
            }
            let mut turn = random.below(style.iter().sum());
            let kind = style.iter().position(|&weight| {
                let here = turn < weight;
                turn = turn.saturating_sub(weight);
                here
            });
            let item = match kind {
                Some(0) => {
                    let op = random.one_of(&self.borrowing);
                    self.operation(op)
                }
                Some(1) => {
                    let op = random.one_of(&self.giving_back);
                    self.operation(op)
                }
                Some(2) => {
                    let id = random.one_of(&self.borrowing_builtins);
                    self.with_word(BUILTIN, id)
                }
                Some(3) => self.builtin(),
                Some(4) => self.call(program, plan, row),
                Some(5) => {
                    let op = random.one_of(&[JMP, JMP_IF_NOT, JMP_IF_NOT, CMP_BR_I32, CMP_BR_I64]);
                    Item { to: Some(END), ..self.operation(op) }
                }
                Some(6) => {
                    let op = random.one_of(&[RET, RET_VOID]);
                    self.operation(op)
                }
                _ => self.plain(),
            };
            items.push(item);
        }
        let count = items.len();
        let random = &mut self.programs.source.random;
        for (at, item) in items.iter_mut().enumerate().filter(|(_, item)| item.to == Some(END)) {
            let from = if plan.loops && random.below(3) > 0 { 0 } else { at + 1 };
            let near = random.below(3) == 0;
            item.to = Some(if near { (at + random.between(1, 4)).min(count) } else { random.between(from, count) });
        }
        assemble(&items)
    }

    /// Two ways of one instruction each to the same place, which is reached first by the way that borrows nothing.
    fn overtaken(&mut self, program: &PoolProgram, plan: &Plan, row: usize, items: &mut Vec<Item>) {
        use opcode::*;
        let at = items.len();
        let [fork, borrow, here, on, over] =
            [JMP_IF_NOT, LOAD_CONST_STR, STR_LOAD_VAR, JMP, JMP].map(|op| self.operation(op));
        let call = self.call(program, plan, row);
        items.extend([Item { to: Some(at + 5), ..fork }, borrow, here, call]);
        items.extend([Item { to: Some(at + 6), ..on }, Item { to: Some(at + 2), ..over }]);
    }

    /// Bytes that do not decode, or a branch with any target.
    fn damage(&mut self, body: &mut Vec<u8>, plan: &Plan) {
        if !plan.loops || self.programs.source.random.below(2) == 0 {
            return self.spoil_branch(body, plan);
        }
        self.programs.damage(body);
    }

    /// One branch is aimed at any place; without loops at an illegal one, and where there is no branch the last byte is cut.
    fn spoil_branch(&mut self, body: &mut Vec<u8>, plan: &Plan) {
        let marks = reading::marks(body);
        let branches: Vec<usize> = (0..body.len())
            .filter(|&at| {
                marks[at] != 0 && matches!(reading::flow(body, &marks, at).0, reading::JUMP | reading::BRANCH)
            })
            .collect();
        let source = &mut self.programs.source;
        if branches.is_empty() {
            body.pop();
            return;
        }
        let at = source.random.one_of(&branches);
        let aim = source.random.one_of(if plan.loops { &AIMS } else { &[Aim::Inside, Aim::Before, Aim::Past][..] });
        source.aim(body, &marks, at, aim);
    }
}
