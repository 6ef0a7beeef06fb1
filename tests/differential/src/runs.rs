//! `machine`: runs of 01's depth machine (machine.rs) over random programs that both checks of document 000 accept, with the
//! clauses asserted in every configuration; and over programs that a check rejects, where the clauses must be seen to break.

use crate::balanced::{Callee, Writer};
use crate::export::Row;
use crate::file_format::ENTRIES;
use crate::machine::{Clause, Frame, Machine, Seen, Tables};
use crate::opcode;
use crate::pool_program::{Descriptor, PoolProgram, HIGHEST_POOL};
use crate::program::CODE_LIMIT;
use crate::programs::{Body, Layout, Programs};
use crate::random::Random;
use crate::Report;
use std::collections::{BTreeMap, BTreeSet};
use std::ops::Range;

/// Runs of one accepted program, and of one that is rejected.
const EACH: u64 = 20;
const EACH_REJECTED: u64 = 5;

/// The steps after which a run is cut off.
const LIMIT: u64 = 500;

/// A pool that passes this is taken for that of a loop that grows.
const GROWN: u16 = 60;

/// The answers of the two checks whose programs are run besides, and the clause that such an answer is about.
const REJECTED: [(u32, u32, Clause); 10] = [
    (1, 22, Clause::Stuck),
    (2, 22, Clause::Stuck),
    (3, 0, Clause::Stuck),
    (4, 0, Clause::Stuck),
    (5, 0, Clause::Takes),
    (6, 0, Clause::Depth),
    (7, 22, Clause::Stuck),
    (9, 0, Clause::Exit),
    (0, 20, Clause::Buffers),
    (0, 21, Clause::Twice),
];

struct Maker {
    programs: Programs,
    /// The code list, its borrowing rows many times.
    list: Vec<Row>,
    borrowing: Vec<u8>,
    giving_back: Vec<u8>,
    neither: Vec<u8>,
}

impl Maker {
    fn new(seed: u64, tables: &Tables) -> Result<Maker, String> {
        let with = |temp: i8| (0..=u8::MAX).filter(|&op| tables.temps[op as usize] == temp).collect();
        let mut list = tables.list.clone();
        let borrowing: Vec<Row> = list.iter().copied().filter(|row| row.flag == 1).collect();
        (0..10).for_each(|_| list.extend(&borrowing));
        let programs = Programs::new(seed, CODE_LIMIT)?;
        Ok(Maker { programs, list, borrowing: with(1), giving_back: with(-1), neither: with(0) })
    }

    /// Balanced bodies that borrow and give back; functions that call each other, mostly forward.
    fn any(&mut self) -> PoolProgram {
        loop {
            let mut program = self.attempt();
            if program.program.code.len() > CODE_LIMIT {
                continue;
            }
            let pool = least_pool(&mut program);
            // Few of those that need no buffer, and of those whose loops grow.
            if matches!(pool, Ok(0) | Err(20)) && self.programs.source.random.below(4) > 0 {
                continue;
            }
            self.declare(&mut program, pool);
            return program;
        }
    }

    fn attempt(&mut self) -> PoolProgram {
        let random = &mut self.programs.source.random;
        let count = match random.below(100) {
            0 => random.between(20, 128),
            1..=15 => random.between(6, 20),
            16..=18 => 1,
            _ => random.between(2, 6),
        };
        let budget = random.one_of(&[30, 60, 60, 120]) / count + 10;
        // The more functions, the sooner one of them has a loop that grows.
        let borrow = random.one_of(&[4, 8, 20]) * (1 + count / 6);
        // Only the functions from here on borrow, but for some builtins: what a caller holds at most it seldom holds while it calls.
        let borrowers = random.one_of(&[0, count / 2, count - 1]);
        let reach = random.one_of(&[1, 2, 3, count]);
        let forward = random.below(12) > 0;
        let slips = random.one_of(&[0, 0, 0, 0, 0, 0, 1, 1]);
        let slipping: Vec<usize> = (0..slips).map(|_| random.below(count)).collect();
        let layout = random.one_of(&[Layout::Apart, Layout::Apart, Layout::Apart, Layout::Apart, Layout::Shared]);
        let layout = if random.below(16) == 0 { Layout::Overlapping } else { layout };
        let callees = self.programs.callees(count);
        let mut program = PoolProgram { descriptors: self.descriptors(count), ..Default::default() };
        program.entries = self.entries(count);
        let mut bodies = vec![];
        for (row, callee) in callees.iter().enumerate() {
            let (from, to) = if forward { (row + 1, (row + 1 + reach).min(count)) } else { (0, count) };
            let slips = slipping.iter().filter(|&&at| at == row).count();
            let budget = self.programs.source.random.between(budget / 3, budget);
            let borrow = (row >= borrowers).then_some(borrow);
            let mut body = self.body(&callees[from..to.max(from)], callee.gives, budget, borrow, slips);
            self.lead(&program, &mut body.bytes, from..to, count);
            bodies.push(body);
        }
        program.program = self.programs.lay_out(&callees, &bodies);
        if layout != Layout::Apart {
            self.programs.move_bodies(&mut program.program, layout);
        }
        program
    }

    /// A type for most functions and at times for one that is not there, and types that have a descriptor already.
    fn descriptors(&mut self, count: usize) -> Vec<Descriptor> {
        let random = &mut self.programs.source.random;
        let bits = random.word();
        let functions: Vec<usize> = (0..=count).filter(|_| random.below(5) > 0).collect();
        let mut made: Vec<Descriptor> = functions
            .into_iter()
            .map(|function| Descriptor { type_id: function as u16 ^ bits, function: function as u16 })
            .collect();
        for _ in 0..random.between(0, 4) {
            let type_id = random.between(0, count) as u16 ^ bits;
            made.push(Descriptor { type_id, function: random.between(0, count) as u16 });
        }
        made
    }

    /// The first function, and now and then others, some of them not there.
    fn entries(&mut self, count: usize) -> Vec<u16> {
        let random = &mut self.programs.source.random;
        let more = random.one_of(&[0, 0, 0, 1, 2, ENTRIES - 1]);
        let mut entries: Vec<u16> = (0..more).map(|_| random.between(0, count) as u16).collect();
        entries.insert(random.between(0, more), 0);
        entries
    }

    fn body(&mut self, callees: &[Callee], gives: bool, budget: usize, borrow: Option<usize>, slips: usize) -> Body {
        let random = &mut self.programs.source.random;
        let (give_back, call) = (random.one_of(&[1, 1, 2, 4]), random.one_of(&[3, 6, 12, 40]));
        let in_bytes = (0..slips).filter(|_| random.below(3) == 0).count();
        let list = if borrow.is_some() { &self.list } else { &self.programs.list };
        let mut writer = Writer::new(&mut self.programs.source, &self.programs.effects, list, callees);
        writer.body(budget, gives);
        match borrow {
            Some(every) => writer.exchange(&self.borrowing, every),
            None => writer.exchange(&self.neither, 1),
        }
        writer.exchange(&self.giving_back, give_back);
        writer.scatter(opcode::FB_CALL, call);
        (in_bytes..slips).for_each(|_| writer.slip());
        let (mut bytes, peak) = (writer.assemble(), writer.peak());
        (0..in_bytes).for_each(|_| self.programs.damage(&mut bytes));
        Body { bytes, peak }
    }

    /// Gives each FB_CALL a type whose function is in this range, or one without a function.
    fn lead(&mut self, program: &PoolProgram, body: &mut [u8], to: Range<usize>, count: usize) {
        let free = (0..=u16::MAX).find(|&type_id| program.function_of(type_id).is_none());
        let (mut leading, mut idle): (Vec<u16>, Vec<u16>) = (vec![], free.into_iter().collect());
        for Descriptor { type_id, .. } in &program.descriptors {
            match program.function_of(*type_id).map(usize::from) {
                Some(function) if to.contains(&function) => leading.push(*type_id),
                Some(function) if function == count => idle.push(*type_id),
                _ => {}
            }
        }
        let calls: Vec<usize> = opcode::decode_body(body)
            .map_while(Result::ok)
            .filter(|instruction| instruction.opcode == opcode::FB_CALL)
            .map(|instruction| instruction.offset)
            .collect();
        let random = &mut self.programs.source.random;
        for at in calls {
            let nowhere = leading.is_empty() || random.below(8) == 0;
            let type_id = random.one_of(if nowhere { &idle } else { &leading });
            body[at + 1..at + 3].copy_from_slice(&type_id.to_le_bytes());
        }
    }

    /// Maxima and pool: mostly the least that are accepted, now and then one less, or more.
    fn declare(&mut self, program: &mut PoolProgram, pool: Result<u16, u32>) {
        if self.programs.source.random.below(4) > 0 && program.program.functions.len() <= 20 {
            least_maxima(program);
        }
        let random = &mut self.programs.source.random;
        if random.below(12) == 0 {
            let row = random.below(program.program.functions.len());
            let maximum = &mut program.program.functions[row].maximum;
            *maximum = maximum.saturating_sub(1);
        }
        program.pool = match (pool, random.below(10)) {
            (Ok(pool), 0) => pool.saturating_sub(1),
            (Ok(pool), 1) => pool + random.between(1, 4) as u16,
            (Ok(_), 2) => HIGHEST_POOL,
            (Ok(pool), _) => pool,
            (Err(_), _) => random.between(0, GROWN.into()) as u16,
        };
    }
}

/// Raises each maximum from 0 to what the stack check reports, where it then accepts.
fn least_maxima(program: &mut PoolProgram) {
    let given = program.program.functions.clone();
    program.program.functions.iter_mut().for_each(|function| function.maximum = 0);
    loop {
        match program.program.answer() {
            [0, ..] => return,
            [6, function, _, depth, ..] => program.program.functions[function as usize].maximum = depth as u16,
            _ => break,
        }
    }
    program.program.functions = given;
}

/// The least pool that is accepted, or the answer where there is none. With a larger pool the walks only go farther, so none below
/// what is reported at a smaller one is accepted.
fn least_pool(program: &mut PoolProgram) -> Result<u16, u32> {
    program.pool = 0;
    loop {
        match program.answer() {
            [0, ..] => return Ok(program.pool),
            [20, _, _, depth, ..] if depth <= GROWN.into() => program.pool = depth as u16,
            [number, ..] => return Err(number),
        }
    }
}

#[derive(Default)]
struct Rejected {
    programs: u64,
    runs: u64,
    /// Runs that broke a clause, and those that broke the one the answer is about.
    broke: u64,
    broke_its_own: u64,
}

#[derive(Default)]
struct Tally {
    programs: u64,
    runs: u64,
    counts: BTreeMap<&'static str, u64>,
    deepest: usize,
    stepped: BTreeSet<u8>,
    rejected: [Rejected; REJECTED.len()],
}

impl Tally {
    fn count(&mut self, what: &'static str, times: u64) {
        *self.counts.entry(what).or_default() += times;
    }

    fn add(&mut self, seen: &Seen) {
        self.runs += 1;
        self.deepest = self.deepest.max(seen.deepest);
        self.stepped.extend((0..=u8::MAX).filter(|&op| seen.stepped[op as usize]));
        self.count("steps", seen.steps);
        self.count("frames opened", seen.entered + seen.opened.iter().sum::<u64>());
        self.count("frames opened by CALL", seen.opened[0]);
        self.count("frames opened by METHOD_CALL", seen.opened[1]);
        self.count("frames opened by FB_CALL", seen.opened[2]);
        self.count("runs with two frames or more at once", (seen.deepest > 1).into());
        self.count("runs with four frames or more at once", (seen.deepest > 3).into());
        self.count("runs that held the whole pool, above 0", (seen.whole > 0).into());
        self.count("runs that held it in several frames together", (seen.together > 0).into());
        self.count("configurations that held the whole pool, above 0", seen.whole);
        self.count("runs with a frame at its declared maximum, above 0", (seen.brim > 0).into());
        self.count("runs that closed their last frame", seen.closed.into());
        self.count("runs cut off by the step limit", (!seen.closed).into());
    }

    fn report(&self) -> Report {
        let mut report = format!("{:>10} accepted programs\n{:>10} runs\n", self.programs, self.runs);
        for (what, times) in &self.counts {
            report += &format!("{times:>10} {what}\n");
        }
        report += &format!("{:>10} frames in the deepest chain\n", self.deepest);
        report += &format!("{:>10} different instructions stepped over\n", self.stepped.len());
        report += "rejected: stack answer, pool answer, programs, runs, runs that broke a clause, of these the answer's own\n";
        let mut failed = String::new();
        for ((stack, pool, clause), of) in REJECTED.iter().zip(&self.rejected) {
            let Rejected { programs, runs, broke, broke_its_own } = of;
            report +=
                &format!("{stack:>10} {pool:>2} {programs:>8} {runs:>8} {broke:>8} {broke_its_own:>8} {clause:?}\n");
            if *broke_its_own == 0 {
                failed += &format!("no run of a program with the answers {stack} and {pool} broke {clause:?}\n");
            }
        }
        for (what, _) in self.counts.iter().filter(|(_, &times)| times == 0) {
            failed += &format!("there were no {what}\n");
        }
        if failed.is_empty() {
            Ok(report)
        } else {
            Err(report + &failed)
        }
    }
}

fn violation(program: &PoolProgram, entry: usize, clause: Clause, frames: &[Frame]) -> String {
    let mut text = format!("{clause:?} broke in a run from function {entry}, the open frames being\n");
    for frame in frames {
        text += &format!("  {frame:?}\n");
    }
    for (row, function) in program.program.functions.iter().enumerate() {
        text += &format!("{function:?}\n  {:02X?}\n", program.program.body(row));
    }
    text + &format!("{:?}\nentries {:?}, pool {}", program.descriptors, program.entries, program.pool)
}

pub fn run(seed: u64, runs: u64) -> Report {
    let tables = Tables::new()?;
    let mut maker = Maker::new(seed, &tables)?;
    let mut ways = Random::new(!seed);
    let mut tally = Tally::default();
    while tally.runs < runs {
        let program = maker.any();
        let answers = (program.program.answer()[0], program.answer()[0]);
        let machine = Machine::new(&program, &tables);
        let entries = machine.entries();
        if answers == (0, 0) {
            tally.programs += 1;
            for _ in 0..EACH.min(runs - tally.runs) {
                let entry = ways.one_of(&entries);
                let (seen, broken) = machine.run(entry, LIMIT, &mut ways);
                if let Some((clause, frames)) = broken {
                    return Err(violation(&program, entry, clause, &frames));
                }
                tally.add(&seen);
            }
        } else if let Some(at) = REJECTED.iter().position(|&(stack, pool, _)| (stack, pool) == answers) {
            let of = &mut tally.rejected[at];
            of.programs += 1;
            for _ in 0..EACH_REJECTED {
                let (_, broken) = machine.run(ways.one_of(&entries), LIMIT, &mut ways);
                of.runs += 1;
                of.broke += u64::from(broken.is_some());
                of.broke_its_own += u64::from(broken.is_some_and(|(clause, _)| clause == REJECTED[at].2));
            }
        }
    }
    tally.report()
}
