//! Random programs for the stack check: nearly balanced bodies and noise, apart, shared or overlapping, with damaged bytes and
//! wrong rows; and the same program under other function ids.

use crate::balanced::{Callee, Writer};
use crate::bodies::{Bodies, AIMS};
use crate::export::{self, Row};
use crate::opcode;
use crate::program::{Function, Numbers, Program, FUNCTION_LIMIT};
use crate::reading;
use crate::tables::{self, Fixed};

/// Other ids for functions: a one-to-one map of all ids, since document 000 knows functions by position alone.
#[derive(Clone, Copy, Debug)]
pub enum Names {
    Flipped(u16),
    Spread { odd: u16, from: u16 },
}

impl Names {
    pub fn of(self, id: u16) -> u16 {
        match self {
            Names::Flipped(bits) => id ^ bits,
            Names::Spread { odd, from } => id.wrapping_mul(odd).wrapping_add(from),
        }
    }

    pub fn random(source: &mut Bodies) -> Names {
        let random = &mut source.random;
        match random.below(3) {
            0 => Names::Flipped(random.one_of(&[1, 2, 3, 5, 64, 127, 128, 256, u16::MAX])),
            1 => Names::Spread {
                odd: random.one_of(&[1, u16::MAX]),
                from: random.one_of(&[1, 2, 7, 127, 128, u16::MAX]),
            },
            _ => Names::Spread { odd: random.word() | 1, from: random.word() },
        }
    }

    /// The program under these ids: in its directory, and in the calls of each body before its first decoding stop.
    pub fn program(self, program: &Program) -> Program {
        let mut renamed = program.clone();
        for row in 0..program.functions.len() {
            renamed.functions[row].id = self.of(program.functions[row].id);
            let from = program.functions[row].offset;
            for instruction in opcode::decode_body(program.body(row)).map_while(Result::ok) {
                if matches!(instruction.opcode, opcode::CALL | opcode::METHOD_CALL) {
                    let at = from + instruction.offset + 1;
                    let id = u16::from_le_bytes([program.code[at], program.code[at + 1]]);
                    renamed.code[at..at + 2].copy_from_slice(&self.of(id).to_le_bytes());
                }
            }
        }
        renamed
    }

    /// The answer under these ids: a violation's function, and 4's callee.
    pub fn answer(self, mut numbers: Numbers) -> Numbers {
        if numbers[0] != 0 {
            numbers[1] = self.of(numbers[1] as u16).into();
        }
        if numbers[0] == 4 {
            numbers[3] = self.of(numbers[3] as u16).into();
        }
        numbers
    }
}

/// How the bodies lie in the code.
#[derive(Clone, Copy, Debug, PartialEq, Eq)]
pub enum Layout {
    Apart,
    Shared,
    Overlapping,
}

pub struct Made {
    /// Ids are 0, 1, 2, ..
    pub program: Program,
    pub layout: Layout,
    /// Other ids for it; never where bodies overlap, since a call could then be read in two ways.
    pub names: Option<Names>,
}

pub struct Programs {
    pub source: Bodies,
    pub list: Vec<Row>,
    pub effects: Vec<Option<Fixed>>,
    longest: usize,
}

/// One body, before it has a place.
pub struct Body {
    pub bytes: Vec<u8>,
    pub peak: u16,
}

impl Programs {
    /// Programs of at most `longest` code bytes.
    pub fn new(seed: u64, longest: usize) -> Result<Self, String> {
        let list = export::code_list()?;
        Ok(Programs { source: Bodies::new(seed), effects: tables::fixed_effects(&list)?, list, longest })
    }

    /// An instruction's effect, if it is fixed and goes on to the next.
    #[cfg(feature = "bench")]
    pub fn effect(&self, op: u8) -> Option<Fixed> {
        self.effects[op as usize]
    }

    /// One balanced body with so many bytes, which calls itself at most.
    #[cfg(feature = "bench")]
    pub fn one_body(&mut self, least: usize, most: usize) -> Program {
        let callees = [Callee { id: 0, parameters: 1, gives: true }];
        loop {
            let budget = self.source.random.between(least / 4, most / 2);
            let Body { bytes, peak } = self.nearly(&callees, true, budget, 0);
            if (least..=most).contains(&bytes.len()) {
                let mut program = Program::of_body(0, peak, &bytes);
                program.functions[0].parameters = 1;
                return program;
            }
        }
    }

    pub fn any(&mut self) -> Made {
        loop {
            let made = self.attempt();
            if made.program.code.len() <= self.longest {
                return made;
            }
        }
    }

    fn attempt(&mut self) -> Made {
        let random = &mut self.source.random;
        let count = match random.below(100) {
            0 => random.between(0, FUNCTION_LIMIT),
            1..=4 => random.between(6, 20),
            _ => random.between(1, 5),
        };
        let budget = match random.below(300) {
            0 => self.longest / (4 * count.max(1)),
            1..=20 => 200 / count.max(1),
            _ => 40 / count.max(1) + 4,
        };
        let slips = random.one_of(&[0, 0, 0, 1, 1, 1, 1, 1, 2, 3]);
        let noise = random.below(8) == 0;
        let layout = random.one_of(&[Layout::Apart, Layout::Apart, Layout::Apart, Layout::Shared, Layout::Overlapping]);
        let callees = self.callees(count);
        let slipping: Vec<usize> = (0..slips).map(|_| self.source.random.below(count.max(1))).collect();
        let mut bodies = Vec::new();
        for (row, callee) in callees.iter().enumerate() {
            let slips = slipping.iter().filter(|&&at| at == row).count();
            let budget = self.source.random.between(0, budget);
            bodies.push(if noise && slips > 0 {
                self.noise(budget)
            } else {
                self.nearly(&callees, callee.gives, budget, slips)
            });
        }
        let mut program = self.lay_out(&callees, &bodies);
        if layout != Layout::Apart {
            self.move_bodies(&mut program, layout);
        }
        let names = (layout != Layout::Overlapping && self.source.random.below(4) == 0)
            .then(|| Names::random(&mut self.source));
        Made { program, layout, names }
    }

    pub fn callees(&mut self, count: usize) -> Vec<Callee> {
        let random = &mut self.source.random;
        (0..count)
            .map(|at| {
                let parameters = match random.below(300) {
                    0 => random.word(),
                    1..=3 => random.between(0, 30) as u16,
                    _ => random.one_of(&[0, 0, 1, 1, 2, 3]),
                };
                Callee { id: at as u16, parameters, gives: random.below(2) == 0 }
            })
            .collect()
    }

    /// A balanced body, with so many slips: in its instructions, in its branches or in its bytes.
    fn nearly(&mut self, callees: &[Callee], gives: bool, budget: usize, slips: usize) -> Body {
        let in_bytes = (0..slips).filter(|_| self.source.random.below(3) == 0).count();
        let mut writer = Writer::new(&mut self.source, &self.effects, &self.list, callees);
        writer.body(budget, gives);
        for _ in in_bytes..slips {
            writer.slip();
        }
        let (mut bytes, peak) = (writer.assemble(), writer.peak());
        for _ in 0..in_bytes {
            self.damage(&mut bytes);
        }
        Body { bytes, peak }
    }

    pub fn damage(&mut self, body: &mut Vec<u8>) {
        if body.is_empty() {
            return;
        }
        match self.source.random.below(8) {
            0 => {
                let at = self.source.random.below(body.len());
                body[at] = self.source.random.byte();
            }
            1 => {
                let less = self.source.random.between(1, 6).min(body.len());
                body.truncate(body.len() - less);
            }
            2 => {
                let marks = reading::marks(body);
                let starts: Vec<usize> = (0..body.len()).filter(|&at| at == 0 || marks[at] != 0).collect();
                let at = self.source.random.one_of(&starts);
                body[at] = self.source.random.byte();
            }
            _ => {
                let marks = reading::marks(body);
                for at in (0..body.len()).filter(|&at| marks[at] != 0) {
                    if self.source.random.below(3) == 0 {
                        let aim = self.source.random.one_of(&AIMS);
                        self.source.aim(body, &marks, at, aim);
                    }
                }
            }
        }
    }

    /// A body of no plan, behind some values.
    pub fn noise(&mut self, budget: usize) -> Body {
        let values = self.source.random.between(0, 8);
        let mut bytes = vec![opcode::LOAD_TRUE; values];
        bytes.extend(self.source.any(budget * 2));
        Body { bytes, peak: self.source.random.between(0, 20) as u16 }
    }

    /// The bodies one after the other in any order, now and then with bytes between them that belong to none.
    pub fn lay_out(&mut self, callees: &[Callee], bodies: &[Body]) -> Program {
        let random = &mut self.source.random;
        let mut order: Vec<usize> = (0..bodies.len()).collect();
        if random.below(2) == 0 {
            for at in 1..order.len() {
                let other = random.between(0, at);
                order.swap(at, other);
            }
        }
        let mut program = Program::default();
        let nowhere = Function { id: 0, parameters: 0, maximum: 0, offset: 0, length: 0 };
        program.functions.resize(bodies.len(), nowhere);
        let low = random.below(12) == 0;
        for row in order {
            if random.below(10) == 0 {
                for _ in 0..random.between(1, 3) {
                    program.code.push(random.byte());
                }
            }
            let Body { bytes, peak } = &bodies[row];
            let maximum = match random.below(10) {
                0 if low => peak.saturating_sub(random.between(1, 2) as u16),
                0..=5 => *peak,
                6..=8 => peak + random.between(1, 5) as u16,
                _ => u16::MAX,
            };
            let Callee { id, parameters, .. } = callees[row];
            program.functions[row] =
                Function { id, parameters, maximum, offset: program.code.len(), length: bytes.len() };
            program.code.extend(bytes);
        }
        program
    }

    /// Some functions get another's body, or a part of the code from anywhere to anywhere.
    pub fn move_bodies(&mut self, program: &mut Program, layout: Layout) {
        let random = &mut self.source.random;
        let count = program.functions.len();
        if count == 0 {
            return;
        }
        for _ in 0..random.between(1, 2) {
            let (row, other) = (random.below(count), random.below(count));
            let Function { mut offset, mut length, maximum, .. } = program.functions[other];
            if layout == Layout::Overlapping {
                match random.below(4) {
                    // From a start in the other's body to its end.
                    0 | 1 if length > 0 => {
                        let marks = reading::marks(program.body(other));
                        let starts: Vec<usize> = (0..length).filter(|&at| marks[at] != 0).collect();
                        let ahead = if starts.is_empty() { 0 } else { random.one_of(&starts) };
                        (offset, length) = (offset + ahead, length - ahead);
                    }
                    2 => length = random.between(length, program.code.len() - offset),
                    _ => {
                        offset = random.between(0, program.code.len());
                        length = random.between(0, program.code.len() - offset);
                    }
                }
            }
            let raised = random.between(0, 2) as u16;
            let function = &mut program.functions[row];
            (function.offset, function.length, function.maximum) = (offset, length, maximum.saturating_add(raised));
        }
    }
}
