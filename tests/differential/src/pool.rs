//! `pool`: the pool check of a driver against document 000, all six numbers, and what becomes of the scratch.

use crate::balanced::{assemble, Item, END};
use crate::export::{self, Row};
use crate::file_format::{DESCRIPTORS, ENTRIES};
use crate::opcode;
use crate::pipe::{self, Question};
use crate::pool_program::{Descriptor, PoolProgram, HIGHEST_POOL};
use crate::pool_refused::{self, PoolColumns};
use crate::pools::Pools;
use crate::program::{Function, Numbers, Program, CODE_LIMIT, FUNCTION_LIMIT};
use crate::programs::{Layout, Names};
use crate::random::Random;
use crate::{cases, Report};
use std::collections::BTreeMap;

/// The kinds of requests (tests/driver/PROTOCOL.md).
const COLUMNS: u8 = 9;
const PROGRAMS: u8 = 10;

/// So many differences are printed in full, those of the smallest programs.
const SHOWN: usize = 10;

/// Programs in one request.
const BATCH: usize = 500;

/// The answers that document 000 gives.
const ANSWERS: [u32; 4] = [0, 20, 21, 22];

/// What became of the scratch, as the driver says.
const UNTOUCHED: u8 = 0;
const ZERO: u8 = 1;

/// Whom to ask for the answer that is wanted.
enum Authority {
    /// 01's examples.
    Example(Numbers),
    /// Document 000, with the program as it is sent.
    Document,
    /// Document 000, with the program before its functions got other ids.
    Renamed(PoolProgram, Names),
}

struct Asked {
    sort: &'static str,
    program: PoolProgram,
    authority: Authority,
}

impl Asked {
    fn document(sort: &'static str, program: PoolProgram) -> Asked {
        Asked { sort, program, authority: Authority::Document }
    }

    fn wanted(&self) -> Numbers {
        match &self.authority {
            Authority::Example(numbers) => *numbers,
            Authority::Document => self.program.answer(),
            Authority::Renamed(program, names) => names.answer(program.answer()),
        }
    }
}

enum Query {
    List(Vec<Row>),
    Programs(Vec<Asked>),
    Columns(PoolColumns),
}

impl Question for Query {
    fn request(&self) -> (u8, Vec<u8>) {
        match self {
            Query::List(rows) => (cases::LIST, rows.iter().flat_map(|row| row.bytes()).collect()),
            Query::Columns(columns) => (COLUMNS, columns.bytes()),
            Query::Programs(programs) => {
                let mut bytes = Vec::with_capacity(64 * programs.len());
                programs.iter().for_each(|asked| asked.program.write(&mut bytes));
                (PROGRAMS, bytes)
            }
        }
    }
}

/// Functions with these ids, one after the other in the code.
fn functions(bodies: &[(u16, &[u8])]) -> Program {
    let mut program = Program::default();
    for &(id, body) in bodies {
        let (offset, length) = (program.code.len(), body.len());
        program.functions.push(Function { id, parameters: 0, maximum: 0, offset, length });
        program.code.extend(body);
    }
    program
}

/// 01's examples of the pool check, whose functions are 1 and 2 and whose entry is 1; and each with an empty function 0 in front,
/// so that document 000 can be asked.
fn examples() -> Vec<Asked> {
    let growing: &[u8] = &[0xBC, 0, 0, 0, 0, 0x7C, 0xF8, 0xFF];
    let giving_back: &[u8] = &[0xC0, 0, 0, 0, 0];
    let caller: &[u8] = &[0x84, 2, 0, 0, 0, 0xBC, 0, 0, 0, 0];
    let borrower: &[u8] = &[0xBC, 0, 0, 0, 0];
    let [to_2, to_1]: [&[u8]; 2] = [&[0x84, 2, 0, 0, 0], &[0x84, 1, 0, 0, 0]];
    let table: [(&[&[u8]], &[u16], u16, Numbers); 6] = [
        (&[growing], &[1], 3, [20, 1, 0, 4, 3, 0]),
        (&[growing], &[], 3, [0; 6]),
        (&[giving_back], &[1], 0, [0; 6]),
        (&[caller, borrower], &[1], 2, [0; 6]),
        (&[caller, borrower], &[1], 1, [20, 1, 5, 2, 1, 0]),
        (&[to_2, to_1], &[1], 0, [21, 1, 0, 0, 0, 0]),
    ];
    let mut asked = vec![];
    for (bodies, entries, pool, numbers) in table {
        let rows: Vec<(u16, &[u8])> = (1..).zip(bodies.iter().copied()).collect();
        let program = |rows: &[(u16, &[u8])]| PoolProgram {
            program: functions(rows),
            entries: entries.to_vec(),
            pool,
            ..Default::default()
        };
        let authority = Authority::Example(numbers);
        asked.push(Asked { sort: "examples of 01", program: program(&rows), authority });
        let behind: Vec<(u16, &[u8])> = std::iter::once((0, [].as_slice())).chain(rows).collect();
        asked.push(Asked::document("examples of 01 behind an empty function", program(&behind)));
    }
    asked
}

fn call(op: u8, id: usize) -> Vec<u8> {
    let [low, high] = (id as u16).to_le_bytes();
    let mut bytes = vec![op, low, high];
    bytes.resize(opcode::instruction_size(op), 0);
    bytes
}

/// Function i has the code from its own call of i + 1 to the end: calls of all later functions, and `tail`.
fn stairs(tail: &[u8], pool: u16) -> PoolProgram {
    let mut code: Vec<u8> = (1..FUNCTION_LIMIT).flat_map(|id| call(opcode::CALL, id)).collect();
    code.extend(tail);
    let row = |id: usize| {
        let offset = 5 * id;
        Function { id: id as u16, parameters: 0, maximum: 0, offset, length: code.len() - offset }
    };
    let functions = (0..FUNCTION_LIMIT).map(row).collect();
    PoolProgram { program: Program { functions, code }, descriptors: vec![], entries: vec![0], pool }
}

/// Each of 128 functions calls the next, the last one function `last`, and each borrows one buffer.
fn chain(last: usize, pool: u16) -> PoolProgram {
    let bodies: Vec<Vec<u8>> = (1..=FUNCTION_LIMIT)
        .map(|id| {
            [call(opcode::CALL, if id < FUNCTION_LIMIT { id } else { last }), call(opcode::LOAD_CONST_STR, 0)].concat()
        })
        .collect();
    let rows: Vec<(u16, &[u8])> = (0..).zip(bodies.iter().map(Vec::as_slice)).collect();
    PoolProgram { program: functions(&rows), descriptors: vec![], entries: vec![0], pool }
}

/// A body of 12,288 bytes of branches to anywhere, which borrow and give back now and then: many offsets wait at once.
fn wide(seed: u64, pool: u16) -> PoolProgram {
    let mut random = Random::new(seed);
    let count = CODE_LIMIT / 3;
    let items: Vec<Item> = (0..count)
        .map(|at| match at % 64 {
            63 => Item { bytes: call(opcode::LOAD_CONST_STR, 0), to: None },
            _ => Item { bytes: call(opcode::JMP_IF_NOT, 0), to: Some(random.below(count + 1)) },
        })
        .collect();
    PoolProgram::of_body(0, pool, &assemble(&items))
}

/// The longest bodies, the deepest and the widest visits, the most descriptors and entries, the highest pool.
fn extremes() -> Vec<Asked> {
    let borrow = call(opcode::LOAD_CONST_STR, 0);
    let loop_of = |borrows: usize| {
        let mut items = vec![Item { bytes: borrow.clone(), to: None }; borrows];
        items.push(Item { bytes: call(opcode::JMP, 0), to: Some(0) });
        assemble(&items)
    };
    let mut made = vec![
        PoolProgram::of_body(0, HIGHEST_POOL, &loop_of(1)),
        PoolProgram::of_body(0, HIGHEST_POOL - 1, &loop_of(1)),
        PoolProgram::of_body(0, HIGHEST_POOL, &loop_of(7)),
        PoolProgram::of_body(0, 1_000, &loop_of(3_000)),
        PoolProgram { entries: vec![], ..PoolProgram::of_body(0, HIGHEST_POOL, &loop_of(1)) },
    ];
    let longest = borrow.repeat(CODE_LIMIT / 3);
    made.extend([4_095, 4_096, 4_097].map(|pool| PoolProgram::of_body(0, pool, &longest)));
    // Totals that pass 65,535: they are reported as this number.
    for tail in [1, 500, 516, 517, 3_000] {
        made.extend([HIGHEST_POOL, 60_000].map(|pool| stairs(&borrow.repeat(tail), pool)));
    }
    for pool in [126, 127, 128, 129] {
        made.extend([FUNCTION_LIMIT, 0, 64, FUNCTION_LIMIT - 1].map(|last| chain(last, pool)));
    }
    let every: Vec<u16> = (96..128).collect();
    made.push(PoolProgram { entries: every, ..chain(FUNCTION_LIMIT, 31) });
    made.push(PoolProgram { entries: vec![0; ENTRIES], ..chain(FUNCTION_LIMIT, 128) });
    made.push(PoolProgram { entries: vec![], ..chain(0, 0) });
    made.extend([(1, 0), (2, 1), (3, 5), (4, 60), (5, 65), (6, 500)].map(|(seed, pool)| wide(seed, pool)));
    // Thousands of unknown functions, then one that is there.
    let strangers: Vec<u8> = (200..2_640).flat_map(|id| call(opcode::CALL, id)).collect();
    let calls = [strangers, call(opcode::METHOD_CALL, 1), borrow.clone()].concat();
    made.extend([1, 2].map(|pool| PoolProgram {
        program: functions(&[(0, &calls), (1, &borrow)]),
        entries: vec![0],
        pool,
        ..Default::default()
    }));
    // The first and the last of 256 descriptors; the first of 256 with the same type.
    for wanted in [0, DESCRIPTORS - 1, DESCRIPTORS] {
        let different: Vec<Descriptor> =
            (0..DESCRIPTORS as u16).map(|row| Descriptor { type_id: row, function: row % 3 }).collect();
        let same = (0..DESCRIPTORS as u16).map(|row| Descriptor { type_id: 7, function: 2 - row.min(2) }).collect();
        let body = |type_id: usize| [call(opcode::FB_CALL, type_id), borrow.clone()].concat();
        for (descriptors, type_id) in [(different, wanted), (same, 7 + wanted)] {
            let caller = body(type_id);
            let program = functions(&[(0, &borrow), (1, &caller), (2, &borrow.repeat(2))]);
            made.extend([1, 2, 3].map(|pool| PoolProgram {
                program: program.clone(),
                descriptors: descriptors.clone(),
                entries: vec![1],
                pool,
            }));
        }
    }
    // The second borrow is reached at 0 and raised to 1 before its turn: at pool 1 what is behind it is never walked.
    for behind in [call(opcode::JMP, 1), call(opcode::BUILTIN, 925), vec![opcode::RET_VOID; 3]] {
        let items = [
            Item { bytes: call(opcode::JMP_IF_NOT, 0), to: Some(4) },
            Item { bytes: borrow.clone(), to: None },
            Item { bytes: borrow.clone(), to: None },
            Item { bytes: behind, to: None },
            Item { bytes: call(opcode::JMP, 0), to: Some(2) },
        ];
        made.extend([0, 1, 2, 3].map(|pool| PoolProgram::of_body(0, pool, &assemble(&items))));
    }
    // A larger pool uncovers an illegal target.
    let hidden = [borrow.repeat(2), call(opcode::JMP, 1)].concat();
    made.extend([0, 1, 2].map(|pool| PoolProgram::of_body(0, pool, &hidden)));
    made.push(PoolProgram::default());
    made.push(PoolProgram { entries: vec![0, u16::MAX, 1], ..Default::default() });
    made.into_iter().map(|program| Asked::document("extremes", program)).collect()
}

/// Every assigned byte as an instruction, with the words that matter to it.
fn samples() -> Vec<Vec<u8>> {
    use opcode::*;
    let mut samples = vec![];
    for op in (0..=u8::MAX).filter(|&op| is_assigned(op)) {
        let words: &[usize] = match op {
            BUILTIN => &[0, 832, 924, 925, 926, 927, 928, 929, 1229, 1230],
            CALL | METHOD_CALL | FB_CALL => &[0, 1],
            JMP | JMP_IF_NOT => &[0, 1, 3, 5, 0xFFFD, 0xFFFC, 0xFFF8],
            _ => &[0],
        };
        if instruction_size(op) < 3 {
            samples.push(vec![op; instruction_size(op)]);
        } else {
            samples.extend(words.iter().map(|&word| call(op, word)));
        }
    }
    samples
}

/// Every pair of them, at pools 0 and 1; type 0 has a descriptor, type 1 has none.
fn every_pair() -> impl Iterator<Item = Asked> + Send {
    let samples = samples();
    let count = samples.len();
    (0..2).flat_map(move |pool| {
        let samples = samples.clone();
        (0..count * count).map(move |pair| {
            let body = [samples[pair / count].as_slice(), &samples[pair % count]].concat();
            let descriptors = vec![Descriptor { type_id: 0, function: 0 }];
            let program = PoolProgram { descriptors, ..PoolProgram::of_body(0, pool, &body) };
            Asked::document("every pair of instructions", program)
        })
    })
}

/// Every body of up to four out of nine instructions: borrowing, giving back, branches to fixed places, calls, leaving.
fn every_body() -> impl Iterator<Item = Asked> + Send {
    use opcode::*;
    let branch = |op: u8, to: usize| Item { bytes: call(op, 0), to: Some(to) };
    let other = |op: u8| Item { bytes: call(op, 1), to: None };
    let items = [
        other(LOAD_CONST_STR),
        other(STR_STORE_VAR),
        branch(JMP_IF_NOT, 0),
        branch(JMP_IF_NOT, 2),
        branch(JMP_IF_NOT, END),
        branch(JMP, 1),
        branch(JMP, 3),
        other(CALL),
        Item { bytes: vec![RET_VOID], to: None },
    ];
    (0..3).flat_map(move |pool| {
        let items = items.clone();
        (0..5u32).flat_map(move |length| {
            let items = items.clone();
            let count = items.len();
            (0..count.pow(length)).map(move |mut number| {
                let mut body = vec![];
                for _ in 0..length {
                    body.push(items[number % count].clone());
                    number /= count;
                }
                let borrower = call(LOAD_CONST_STR, 0);
                let program = functions(&[(0, &assemble(&body)), (1, &borrower)]);
                let program = PoolProgram { program, descriptors: vec![], entries: vec![0], pool };
                Asked::document("every body of up to four of nine instructions", program)
            })
        })
    })
}

fn random(pools: &mut Pools) -> Asked {
    let made = pools.any();
    let sort = match (made.layout, made.names.is_some()) {
        (Layout::Apart, false) => "random, bodies apart",
        (Layout::Apart, true) => "random, bodies apart, other ids",
        (Layout::Shared, false) => "random, bodies shared",
        (Layout::Shared, true) => "random, bodies shared, other ids",
        (Layout::Overlapping, _) => "random, bodies overlapping",
    };
    match made.names {
        None => Asked::document(sort, made.program),
        Some(names) => {
            let program = made.program.renamed(names);
            Asked { sort, program, authority: Authority::Renamed(made.program, names) }
        }
    }
}

/// Groups of so many at most.
struct Batches<I>(I);

impl<I: Iterator<Item = Asked>> Iterator for Batches<I> {
    type Item = Query;

    fn next(&mut self) -> Option<Query> {
        let batch: Vec<Asked> = self.0.by_ref().take(BATCH).collect();
        (!batch.is_empty()).then_some(Query::Programs(batch))
    }
}

fn all(seed: u64, count: u64) -> Result<impl Iterator<Item = Query> + Send, String> {
    let list = Query::List(export::code_list()?);
    let fixed = examples().into_iter().chain(extremes()).chain(every_pair()).chain(every_body());
    let mut pools = Pools::new(seed, CODE_LIMIT)?;
    let random = (0..count).map(move |_| random(&mut pools));
    let mut pools = Pools::new(!seed, 600)?;
    let faulty = (0..count.div_ceil(5)).map(move |_| Query::Columns(pool_refused::any(&mut pools)));
    Ok(std::iter::once(list).chain(Batches(fixed.chain(random))).chain(faulty))
}

struct Difference {
    size: usize,
    text: String,
}

struct Judge {
    list: Vec<Row>,
    /// Answers by number: random programs, and columns.
    answers: BTreeMap<u32, u64>,
    refusals: BTreeMap<u32, u64>,
    tally: BTreeMap<&'static str, u64>,
    differences: u64,
    /// The smallest.
    shown: Vec<Difference>,
}

/// 25 bytes of an answer, as six numbers and what became of the scratch.
fn read(bytes: &[u8]) -> (Numbers, u8) {
    let number = |at: usize| u32::from_le_bytes(bytes[4 * at..4 * at + 4].try_into().unwrap());
    (std::array::from_fn(number), bytes[24])
}

impl Judge {
    fn count(&mut self, what: &'static str) {
        *self.tally.entry(what).or_default() += 1;
    }

    fn differ(&mut self, size: usize, text: String) {
        self.differences += 1;
        self.shown.push(Difference { size, text: text.chars().take(4000).collect() });
        self.shown.sort_by_key(|difference| difference.size);
        self.shown.truncate(SHOWN);
    }

    fn programs(&mut self, programs: &[Asked], answer: &[u8]) -> Result<(), String> {
        if answer.len() != 25 * programs.len() {
            return Err(format!("{} bytes for {} programs", answer.len(), programs.len()));
        }
        for (asked, bytes) in programs.iter().zip(answer.chunks(25)) {
            let (wanted, (found, scratch)) = (asked.wanted(), read(bytes));
            if (wanted, ZERO) != (found, scratch) {
                let PoolProgram { program: Program { functions, code }, descriptors, entries, pool } = &asked.program;
                let size = code.len() + 10 * functions.len() + 4 * descriptors.len() + 2 * entries.len();
                let said = format!("{}: wanted {wanted:?}, the driver says {found:?}, scratch {scratch}", asked.sort);
                let rest = format!("pool {pool}, entries {entries:?}, {descriptors:?}\n  {functions:?}\n  {code:02X?}");
                self.differ(size, format!("{said}\n  {rest}"));
            }
            self.count(asked.sort);
            if asked.sort.starts_with("random") {
                *self.answers.entry(wanted[0]).or_default() += 1;
                self.note(&asked.program, wanted);
            }
        }
        Ok(())
    }

    /// What sort of random program it was.
    fn note(&mut self, program: &PoolProgram, wanted: Numbers) {
        self.count(match program.pool {
            0 => "random, pool 0",
            1 => "random, pool 1",
            2..=60 => "random, pool 2 to 60",
            HIGHEST_POOL => "random, pool 65,534",
            _ => "random, pool 61 to 65,533",
        });
        let is_entry = program.entries.iter().any(|&entry| u32::from(entry) == wanted[1]);
        match wanted[0] {
            20 if !is_entry => self.count("random, 20 in a function that is no entry"),
            21 if !is_entry => self.count("random, 21 of a function that is no entry"),
            22 if !is_entry => self.count("random, 22 in a function that is no entry"),
            _ => {}
        }
        if wanted[0] == 20 && program.pool == HIGHEST_POOL {
            self.count("random, 20 at pool 65,534");
        }
        if program.program.code.len() > 1000 {
            self.count("random, above 1,000 bytes");
        }
    }

    fn columns(&mut self, columns: &PoolColumns, answer: &[u8]) -> Result<(), String> {
        if answer.len() != 25 {
            return Err(format!("{} bytes for one call", answer.len()));
        }
        let (found, scratch) = read(answer);
        let stack = &columns.columns;
        let exported = self.list.iter().map(|row| row.id).eq(stack.list_ids.iter().copied())
            && self.list.iter().map(|row| row.flag).eq(stack.flags.iter().copied());
        let wanted = match columns.refusal() {
            Some(numbers) => {
                *self.refusals.entry(numbers[0]).or_default() += 1;
                (numbers, UNTOUCHED)
            }
            None if exported && stack.program().is_positional() => {
                self.count("columns not refused, as document 000 says");
                (columns.program().answer(), ZERO)
            }
            None => {
                self.count("columns not refused, in another list or under other ids, as document 000 says");
                (columns.program().answer_by(|id| columns.borrows(id)), ZERO)
            }
        };
        if wanted != (found, scratch) {
            let text =
                format!("columns: wanted {wanted:?}, the driver says {found:?}, scratch {scratch}\n  {columns:?}");
            self.differ(columns.bytes().len(), text);
        }
        Ok(())
    }

    fn report(&self, least: u64) -> Report {
        let mut report = String::new();
        for Difference { text, .. } in &self.shown {
            report += &format!("{text}\n");
        }
        for (what, times) in &self.tally {
            report += &format!("{times:>10} {what}\n");
        }
        let seen = |number: u32| self.answers.get(&number).copied().unwrap_or(0);
        for number in ANSWERS {
            report += &format!("{:>10} random programs with answer {number}\n", seen(number));
        }
        for number in 30..36 {
            let times = self.refusals.get(&number).copied().unwrap_or(0);
            report += &format!("{times:>10} columns refused with {number}\n");
        }
        report += &format!("{} differences\n", self.differences);
        if let Some(number) = ANSWERS.into_iter().find(|&number| seen(number) < least) {
            return Err(format!("{report}answer {number} came fewer than {least} times"));
        }
        if self.differences == 0 {
            Ok(report)
        } else {
            Err(report)
        }
    }
}

pub fn run(seed: u64, count: u64, command: &[&str]) -> Report {
    let mut driver = pipe::ask(command, all(seed, count)?)?;
    let mut judge = Judge {
        list: export::code_list()?,
        answers: BTreeMap::new(),
        refusals: BTreeMap::new(),
        tally: BTreeMap::new(),
        differences: 0,
        shown: vec![],
    };
    for (number, query) in all(seed, count)?.enumerate() {
        let judged = driver.answer().and_then(|answer| match &query {
            Query::List(rows) if answer == (rows.len() as u32).to_le_bytes() => Ok(()),
            Query::List(_) => Err("the driver has another number of rows".into()),
            Query::Programs(programs) => judge.programs(programs, &answer),
            Query::Columns(columns) => judge.columns(columns, &answer),
        });
        judged.map_err(|why| format!("question {number} of seed {seed}: {why}"))?;
    }
    driver.finish()?;
    // A thousandth of the programs for each answer: a thousand times in a million.
    judge.report(count / 1000)
}
