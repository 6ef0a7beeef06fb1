//! `stack`: the stack check of a driver against document 000, all six numbers, and what becomes of the scratch.

use crate::export::{self, Row};
use crate::opcode;
use crate::pipe::{self, Question};
use crate::program::{Numbers, Program, CODE_LIMIT};
use crate::programs::{Layout, Names, Programs};
use crate::refused::{self, Columns};
use crate::{cases, Report};
use std::collections::{BTreeMap, BTreeSet};

/// The kinds of requests (tests/driver/PROTOCOL.md).
const COLUMNS: u8 = 5;
const PROGRAMS: u8 = 6;

/// So many differences are printed in full, those of the smallest programs.
const SHOWN: usize = 10;

/// Programs in one request.
const BATCH: usize = 1000;

/// The assigned opcodes.
const ASSIGNED: usize = 130;

/// What became of the scratch, as the driver says.
const UNTOUCHED: u8 = 0;
const ZERO: u8 = 1;

/// Whom to ask for the answer that is wanted.
enum Authority {
    /// 01's table of bench examples.
    Table(Numbers),
    /// Document 000, with the program as it is sent.
    Document,
    /// Document 000, with the program before its functions got other ids.
    Renamed(Program, Names),
}

struct Asked {
    sort: &'static str,
    program: Program,
    authority: Authority,
}

impl Asked {
    fn document(sort: &'static str, program: Program) -> Asked {
        Asked { sort, program, authority: Authority::Document }
    }

    fn wanted(&self) -> Numbers {
        match &self.authority {
            Authority::Table(numbers) => *numbers,
            Authority::Document => self.program.answer(),
            Authority::Renamed(program, names) => names.answer(program.answer()),
        }
    }
}

enum Query {
    List(Vec<Row>),
    Programs(Vec<Asked>),
    Columns(Columns),
}

impl Question for Query {
    fn request(&self) -> (u8, Vec<u8>) {
        match self {
            Query::List(rows) => (cases::LIST, rows.iter().flat_map(|row| row.bytes()).collect()),
            Query::Columns(columns) => (COLUMNS, columns.bytes()),
            Query::Programs(programs) => {
                let mut bytes = Vec::with_capacity(32 * programs.len());
                programs.iter().for_each(|asked| asked.program.write(&mut bytes));
                (PROGRAMS, bytes)
            }
        }
    }
}

/// 01's bench examples: function 1 alone, its body, its maximum, and the answer without the function.
const EXAMPLES: [(&[u8], u16, [u32; 5]); 12] = [
    (&[], 0, [0, 0, 0, 0, 0]),
    (&[0x05, 0x88], 1, [0, 0, 0, 0, 0]),
    (&[0x05, 0x88], 0, [6, 0, 1, 0, 0]),
    (&[0x05], 1, [9, 1, 0, 1, 0]),
    (&[0x7C, 0x00, 0x00], 0, [0, 0, 0, 0, 0]),
    (&[0x7C, 0xFD, 0xFF], 0, [0, 0, 0, 0, 0]),
    (&[0x7C, 0x01, 0x00], 0, [7, 0, 4, 0, 0]),
    (&[0x7C, 0xFC, 0xFF], 0, [7, 0, u32::MAX, 0, 0]),
    (&[0x91, 0x90], 1, [0, 0, 0, 0, 0]),
    (&[0x90], 0, [5, 0, 144, 1, 0]),
    (&[0x8C, 0x93], 0, [1, 1, 147, 0, 0]),
    (&[0x05, 0x80, 0x01, 0x00, 0x05, 0x8C], 1, [8, 5, 0, 1, 0]),
];

fn example(body: &[u8], maximum: u16, [number, offset, a, b, c]: [u32; 5]) -> Asked {
    let function = u32::from(number != 0);
    let authority = Authority::Table([number, function, offset, a, b, c]);
    Asked { sort: "examples of 01", program: Program::of_body(1, maximum, body), authority }
}

/// The same with an empty function 0 in front, so that document 000 can be asked.
fn example_behind(body: &[u8], maximum: u16) -> Asked {
    let mut program = Program::of_body(0, 0, &[]);
    program.functions.extend(Program::of_body(1, maximum, body).functions);
    program.code.extend(body);
    Asked::document("examples of 01 behind an empty function", program)
}

/// Bodies of the greatest length: the deepest stack, the farthest targets, the most functions.
fn extremes() -> Vec<Asked> {
    let deep = vec![opcode::LOAD_TRUE; CODE_LIMIT];
    let mut made: Vec<Program> = [u16::MAX, CODE_LIMIT as u16, CODE_LIMIT as u16 - 1, 0]
        .iter()
        .map(|&maximum| Program::of_body(0, maximum, &deep))
        .collect();
    for word in [0x7FFFu16, 0x8000, 0xFFFF, 0] {
        let [low, high] = word.to_le_bytes();
        for at in [0, CODE_LIMIT - 3] {
            let mut body = vec![opcode::BOOL_NOT; CODE_LIMIT];
            body[0] = opcode::LOAD_TRUE;
            body[at..at + 3].copy_from_slice(&[opcode::JMP, low, high]);
            made.push(Program::of_body(0, 1, &body));
        }
    }
    let mut shared = vec![opcode::LOAD_TRUE; CODE_LIMIT];
    shared.iter_mut().skip(1).step_by(2).for_each(|byte| *byte = opcode::POP);
    let mut program = Program::of_body(0, 1, &shared);
    program.functions = (0..128).map(|id| crate::program::Function { id, ..program.functions[0] }).collect();
    made.push(program);
    made.push(Program::default());
    made.into_iter().map(|program| Asked::document("extremes", program)).collect()
}

/// Groups of so many at most.
struct Batches<I>(I);

impl<I: Iterator<Item = Asked>> Iterator for Batches<I> {
    type Item = Query;

    fn next(&mut self) -> Option<Query> {
        let batch: Vec<Asked> = self.0.by_ref().take(BATCH).collect();
        (!batch.is_empty()).then_some(Query::Programs(batch))
    }
}

/// Every body of at most two bytes at maxima 0, 1 and 2; with `three` also each of three bytes at 1.
fn every_body(three: bool) -> impl Iterator<Item = Asked> + Send {
    let short = (0..3u16).flat_map(|maximum| {
        let one = (0..=u8::MAX).map(move |a| Program::of_body(0, maximum, &[a]));
        let two = (0..=u16::MAX).map(move |word| Program::of_body(0, maximum, &word.to_le_bytes()));
        std::iter::once(Program::of_body(0, maximum, &[])).chain(one).chain(two)
    });
    let long = (0..if three { 1u32 << 24 } else { 0 }).map(|bytes| Program::of_body(0, 1, &bytes.to_le_bytes()[..3]));
    let short = short.map(|program| Asked::document("every body of up to two bytes", program));
    short.chain(long.map(|program| Asked::document("every body of three bytes", program)))
}

fn random(programs: &mut Programs) -> Asked {
    let made = programs.any();
    let sort = match (made.layout, made.names.is_some()) {
        (Layout::Apart, false) => "random, bodies apart",
        (Layout::Apart, true) => "random, bodies apart, other ids",
        (Layout::Shared, false) => "random, bodies shared",
        (Layout::Shared, true) => "random, bodies shared, other ids",
        (Layout::Overlapping, _) => "random, bodies overlapping",
    };
    match made.names {
        None => Asked::document(sort, made.program),
        Some(names) => {
            let program = names.program(&made.program);
            Asked { sort, program, authority: Authority::Renamed(made.program, names) }
        }
    }
}

fn all(seed: u64, count: u64, three: bool) -> Result<impl Iterator<Item = Query> + Send, String> {
    let list = Query::List(export::code_list()?);
    let fixed = EXAMPLES
        .iter()
        .flat_map(|&(body, maximum, numbers)| [example(body, maximum, numbers), example_behind(body, maximum)])
        .chain(extremes());
    let mut programs = Programs::new(seed, CODE_LIMIT)?;
    let random = (0..count).map(move |_| random(&mut programs));
    let mut programs = Programs::new(!seed, 600)?;
    let faulty = (0..count.div_ceil(5)).map(move |_| Query::Columns(refused::any(&mut programs)));
    let programs = Batches(fixed.chain(every_body(three)).chain(random));
    Ok(std::iter::once(list).chain(programs).chain(faulty))
}

struct Difference {
    size: usize,
    text: String,
}

struct Judge {
    list: Vec<Row>,
    /// Answers by number: random programs, and columns.
    answers: [u64; 10],
    refusals: BTreeMap<u32, u64>,
    /// Bytes that are instructions of accepted random programs.
    instructions: BTreeSet<u8>,
    tally: BTreeMap<&'static str, u64>,
    differences: u64,
    /// The smallest.
    shown: Vec<Difference>,
}

/// 25 bytes of an answer, as six numbers and what became of the scratch.
fn read(bytes: &[u8]) -> (Numbers, u8) {
    let number = |at: usize| u32::from_le_bytes(bytes[4 * at..4 * at + 4].try_into().unwrap());
    (std::array::from_fn(number), bytes[24])
}

impl Judge {
    fn count(&mut self, what: &'static str) {
        *self.tally.entry(what).or_default() += 1;
    }

    fn differ(&mut self, size: usize, text: String) {
        self.differences += 1;
        self.shown.push(Difference { size, text });
        self.shown.sort_by_key(|difference| difference.size);
        self.shown.truncate(SHOWN);
    }

    fn programs(&mut self, programs: &[Asked], answer: &[u8]) -> Result<(), String> {
        if answer.len() != 25 * programs.len() {
            return Err(format!("{} bytes for {} programs", answer.len(), programs.len()));
        }
        for (asked, bytes) in programs.iter().zip(answer.chunks(25)) {
            let (wanted, (found, scratch)) = (asked.wanted(), read(bytes));
            if (wanted, ZERO) != (found, scratch) {
                let Program { functions, code } = &asked.program;
                self.differ(
                    code.len() + 10 * functions.len(),
                    format!("{}: wanted {wanted:?}, the driver says {found:?}, scratch {scratch}\n  {functions:?}\n  {code:02X?}", asked.sort),
                );
            }
            self.count(asked.sort);
            if asked.sort.starts_with("random") {
                self.answers[wanted[0] as usize] += 1;
                if wanted[0] == 0 && self.instructions.len() < ASSIGNED {
                    self.note_instructions(&asked.program);
                }
                let first = asked.program.functions.first().map(|function| u32::from(function.id));
                if wanted[0] != 0 && first != Some(wanted[1]) {
                    self.count("random, violation in a later function");
                }
                if asked.program.code.len() > 1000 {
                    self.count("random, above 1,000 bytes");
                }
            }
        }
        Ok(())
    }

    fn note_instructions(&mut self, program: &Program) {
        for row in 0..program.functions.len() {
            let body = opcode::decode_body(program.body(row)).map_while(Result::ok);
            self.instructions.extend(body.map(|instruction| instruction.opcode));
        }
    }

    fn columns(&mut self, columns: &Columns, answer: &[u8]) -> Result<(), String> {
        if answer.len() != 25 {
            return Err(format!("{} bytes for one call", answer.len()));
        }
        let (found, scratch) = read(answer);
        let exported = self.list.iter().map(|row| row.id).eq(columns.list_ids.iter().copied())
            && self.list.iter().map(|row| row.flag).eq(columns.flags.iter().copied());
        let wanted = match columns.refusal() {
            Some(numbers) => {
                *self.refusals.entry(numbers[0]).or_default() += 1;
                (numbers, UNTOUCHED)
            }
            None if exported && columns.program().is_positional() => {
                self.count("columns not refused, as document 000 says");
                (columns.program().answer(), ZERO)
            }
            // Document 000 cannot be asked: that it is an answer of the check is all that is wanted.
            None if found[0] < 30 => {
                self.count("columns not refused, in another list or under other ids");
                (found, ZERO)
            }
            None => ([0; 6], ZERO),
        };
        if wanted != (found, scratch) {
            let text =
                format!("columns: wanted {wanted:?}, the driver says {found:?}, scratch {scratch}\n  {columns:?}");
            self.differ(columns.bytes().len(), text.chars().take(4000).collect());
        }
        Ok(())
    }

    fn report(&self, least: u64) -> Report {
        let mut report = String::new();
        for Difference { text, .. } in &self.shown {
            report += &format!("{text}\n");
        }
        for (what, times) in &self.tally {
            report += &format!("{times:>10} {what}\n");
        }
        report += &format!("{:>10} opcodes in accepted random programs\n", self.instructions.len());
        for (number, times) in self.answers.iter().enumerate() {
            report += &format!("{times:>10} random programs with answer {number}\n");
        }
        for number in 30..35 {
            let times = self.refusals.get(&number).copied().unwrap_or(0);
            report += &format!("{times:>10} columns refused with {number}\n");
        }
        report += &format!("{} differences\n", self.differences);
        if let Some(number) = self.answers.iter().position(|&times| times < least) {
            return Err(format!("{report}answer {number} came fewer than {least} times"));
        }
        if self.differences == 0 {
            Ok(report)
        } else {
            Err(report)
        }
    }
}

pub fn run(seed: u64, count: u64, three: bool, command: &[&str]) -> Report {
    let mut driver = pipe::ask(command, all(seed, count, three)?)?;
    let mut judge = Judge {
        list: export::code_list()?,
        answers: [0; 10],
        refusals: BTreeMap::new(),
        instructions: BTreeSet::new(),
        tally: BTreeMap::new(),
        differences: 0,
        shown: vec![],
    };
    for (number, query) in all(seed, count, three)?.enumerate() {
        let judged = driver.answer().and_then(|answer| match &query {
            Query::List(rows) if answer == (rows.len() as u32).to_le_bytes() => Ok(()),
            Query::List(_) => Err("the driver has another number of rows".into()),
            Query::Programs(programs) => judge.programs(programs, &answer),
            Query::Columns(columns) => judge.columns(columns, &answer),
        });
        judged.map_err(|why| format!("question {number} of seed {seed}: {why}"))?;
    }
    driver.finish()?;
    // A thousandth of the programs for each answer: a thousand times in a million.
    judge.report(count / 1000)
}
