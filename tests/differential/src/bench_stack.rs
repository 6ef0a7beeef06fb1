//! `bench`, second part: times of the stack check, the probe's beside document 000's, in one process and over the same programs.
//!
//! All programs are accepted. The probe clears the scratch that it was lent, inside of its time; document 000 makes its own.

use crate::bench::{contenders, Times};
use crate::export::{Row, ROW_LIMIT};
use crate::opcode;
use crate::program::{Function, Program, CODE_LIMIT};
use crate::programs::Programs;
use crate::verify::verify_stack_balance;
use crate::Report;
use std::hint::black_box;

extern "C" {
    fn probe_stack(
        answer: *mut u32,
        answer_n: usize,
        marks: *mut u8,
        marks_n: usize,
        depths: *mut u32,
        depths_n: usize,
        queue: *mut u16,
        queue_n: usize,
        queue_depths: *mut u16,
        queue_depths_n: usize,
        ids: *const u16,
        ids_n: usize,
        parameters: *const u16,
        parameters_n: usize,
        maxima: *const u16,
        maxima_n: usize,
        offsets: *const usize,
        offsets_n: usize,
        lengths: *const usize,
        lengths_n: usize,
        list_ids: *const u16,
        list_ids_n: usize,
        counts: *const u16,
        counts_n: usize,
        flags: *const u16,
        flags_n: usize,
        code: *const u8,
        code_n: usize,
    ) -> u32;
}

/// A program and a list as columns, with the scratch for them.
struct Lent {
    marks: Vec<u8>,
    depths: Vec<u32>,
    queue: Vec<u16>,
    queue_depths: Vec<u16>,
    words: [Vec<u16>; 3],
    sizes: [Vec<usize>; 2],
    list: [Vec<u16>; 3],
    code: Vec<u8>,
}

impl Lent {
    fn new(program: &Program, list: &[Row]) -> Lent {
        let n = program.code.len();
        let functions = &program.functions;
        let words = |of: fn(&Function) -> u16| functions.iter().map(of).collect();
        let sizes = |of: fn(&Function) -> usize| functions.iter().map(of).collect();
        let rows = |of: fn(&Row) -> u16| list.iter().map(of).collect();
        Lent {
            marks: vec![0xAA; n],
            depths: vec![0xAAAA_AAAA; n + 1],
            queue: vec![0xAAAA; 2 * n + 2],
            queue_depths: vec![0xAAAA; 2 * n + 2],
            words: [
                words(|function| function.id),
                words(|function| function.parameters),
                words(|function| function.maximum),
            ],
            sizes: [sizes(|function| function.offset), sizes(|function| function.length)],
            list: [rows(|row| row.id), rows(|row| row.count), rows(|row| row.flag)],
            code: program.code.clone(),
        }
    }

    fn check(&mut self) -> u32 {
        let mut answer = [0; 6];
        let [ids, parameters, maxima] = &self.words;
        let [offsets, lengths] = &self.sizes;
        let [list_ids, counts, flags] = &self.list;
        // SAFETY: every slice is whole, and the function keeps none.
        unsafe {
            probe_stack(
                answer.as_mut_ptr(),
                answer.len(),
                self.marks.as_mut_ptr(),
                self.marks.len(),
                self.depths.as_mut_ptr(),
                self.depths.len(),
                self.queue.as_mut_ptr(),
                self.queue.len(),
                self.queue_depths.as_mut_ptr(),
                self.queue_depths.len(),
                ids.as_ptr(),
                ids.len(),
                parameters.as_ptr(),
                parameters.len(),
                maxima.as_ptr(),
                maxima.len(),
                offsets.as_ptr(),
                offsets.len(),
                lengths.as_ptr(),
                lengths.len(),
                list_ids.as_ptr(),
                list_ids.len(),
                counts.as_ptr(),
                counts.len(),
                flags.as_ptr(),
                flags.len(),
                self.code.as_ptr(),
                self.code.len(),
            )
        }
    }
}

/// Programs checked one after the other, as one time.
fn line(name: &str, programs: &[Program], list: &[Row], rounds: usize) -> Report {
    let mut lent: Vec<Lent> = programs.iter().map(|program| Lent::new(program, list)).collect();
    let sections: Vec<_> = programs.iter().map(Program::section).collect();
    let refused = lent.iter_mut().map(Lent::check).find(|&number| number != 0);
    let violated = sections.iter().find_map(|section| verify_stack_balance(section).err());
    if refused.is_some() || violated.is_some() {
        return Err(format!("{name}: {refused:?} and {violated:?}, so the times mean nothing"));
    }
    let [mut probe, mut document]: [Times; 2] = contenders();
    for _ in 0..rounds {
        probe.take(|| black_box(&mut lent).iter_mut().map(Lent::check).sum::<u32>());
        document.take(|| black_box(&sections).iter().filter(|section| verify_stack_balance(section).is_err()).count());
    }
    let [a, b] = [probe.columns(1.0), document.columns(1.0)];
    let times = format!("{:>8.2} {:>8.2}", document.best() / probe.best(), document.median() / probe.median());
    Ok(format!("{name:<36} {a}  {b}  {times}\n"))
}

pub fn function(id: usize, parameters: u16, offset: usize, length: usize) -> Function {
    Function { id: id as u16, parameters, maximum: 64, offset, length }
}

/// One-byte instructions of every sort with a fixed effect, which end at `left`.
pub fn straight(programs: &mut Programs, length: usize, left: usize) -> Vec<u8> {
    let mut body = Vec::with_capacity(length);
    let mut depth = 0;
    while body.len() < length {
        let op = programs.source.random.byte();
        let Some(effect) = programs.effect(op) else { continue };
        if opcode::instruction_size(op) != 1 || effect.takes > depth {
            continue;
        }
        let after = depth - effect.takes + effect.leaves;
        let rest = length - body.len() - 1;
        if after <= 8 && after.abs_diff(left) <= rest {
            body.push(op);
            depth = after;
        }
    }
    body
}

/// The rows with up to three arguments.
pub fn few(list: &[Row]) -> Vec<Row> {
    list.iter().copied().filter(|row| row.count <= 3).collect()
}

/// So many BUILTINs, drawn from these rows; the first argument is the result before.
pub fn builtins(programs: &mut Programs, few: &[Row], count: usize) -> Program {
    let mut body = vec![opcode::LOAD_TRUE];
    for _ in 0..count {
        let row = programs.source.random.one_of(few);
        body.extend((1..row.count).map(|_| opcode::LOAD_FALSE));
        let [low, high] = row.id.to_le_bytes();
        body.extend([opcode::BUILTIN, low, high]);
    }
    body.push(opcode::POP);
    Program::of_body(0, 64, &body)
}

/// The list with as many rows more as the limit allows, which nobody asks for.
pub fn longest_list(list: &[Row]) -> Vec<Row> {
    let mut rows = list.to_vec();
    for id in (0..=u16::MAX).step_by(7) {
        if rows.len() < ROW_LIMIT && list.iter().all(|row| row.id != id) {
            rows.push(Row { id, count: 2, flag: 0 });
        }
    }
    rows.sort_by_key(|row| row.id);
    rows
}

/// 128 functions of 96 bytes, each with eight calls of others with two values.
pub fn callers(programs: &mut Programs) -> Program {
    let mut program = Program::default();
    for id in 0..128 {
        let offset = program.code.len();
        for _ in 0..8 {
            let [low, high] = (programs.source.random.below(128) as u16).to_le_bytes();
            program.code.extend([opcode::LOAD_VAR_I32, 1, 0, opcode::LOAD_VAR_I32, 2, 0]);
            program.code.extend([opcode::CALL, low, high, 0, 0, opcode::POP]);
        }
        program.functions.push(function(id, 2, offset, program.code.len() - offset));
    }
    program
}

/// Forty METHOD_CALLs of one method of 4,000 bytes, whose RET is its last byte.
pub fn methods(programs: &mut Programs) -> Program {
    let mut code = Vec::new();
    for _ in 0..40 {
        code.extend([opcode::METHOD_CALL, 1, 0, 0, 0, 0, 0, 0, opcode::POP]);
    }
    let offset = code.len();
    code.extend(straight(programs, 3_999, 1));
    code.push(opcode::RET);
    Program { functions: vec![function(0, 0, 0, offset), function(1, 0, offset, 4_000)], code }
}

/// Random programs that document 000 accepts, with so many code bytes.
pub fn accepted(programs: &mut Programs, count: usize, least: usize, most: usize) -> Vec<Program> {
    let mut found = Vec::new();
    while found.len() < count {
        let program = programs.any().program;
        if (least..=most).contains(&program.code.len()) && program.answer()[0] == 0 {
            found.push(program);
        }
    }
    found
}

/// Runs of the one program, and of the groups.
const ROUNDS: usize = 2_001;
const GROUP_ROUNDS: usize = 501;

pub fn run() -> Report {
    let mut programs = Programs::new(1, CODE_LIMIT)?;
    let list = programs.list.clone();
    let long = longest_list(&list);
    let mut report = format!(
        "stack check, microseconds, {ROUNDS} runs ({GROUP_ROUNDS} of groups), all programs accepted; times as fast: document 000's time by the probe's\n"
    );
    report += &format!("{:<36} {:>19}  {:>19}  {:>17}\n", "", "probe_stack", "document 000", "times as fast");
    let pair = format!("{:>9} {:>9}", "best", "median");
    report += &format!("{:<36} {pair}  {pair}  {:>8} {:>8}\n", "", "best", "median");
    for length in [3_072, 6_144, 12_288] {
        let program = Program::of_body(0, 64, &straight(&mut programs, length, 0));
        report += &line(&format!("straight body, {length} bytes"), &[program], &list, ROUNDS)?;
    }
    let few = few(&list);
    let any = [builtins(&mut programs, &few, 2_000)];
    let one = [builtins(&mut programs, &few[few.len() / 3..][..1], 2_000)];
    report += &line("2,000 BUILTINs, exported list", &any, &list, ROUNDS)?;
    report += &line(&format!("2,000 BUILTINs, {} rows", long.len()), &any, &long, ROUNDS)?;
    report += &line("2,000 of one BUILTIN, exported list", &one, &list, ROUNDS)?;
    report += &line(&format!("2,000 of one BUILTIN, {} rows", long.len()), &one, &long, ROUNDS)?;
    report += &line("128 functions, eight calls each", &[callers(&mut programs)], &list, ROUNDS)?;
    report += &line("forty METHOD_CALLs of 4,000 bytes", &[methods(&mut programs)], &list, ROUNDS)?;
    report += &line("mixed body, 12,000 bytes", &[programs.one_body(11_900, 12_100)], &list, ROUNDS)?;
    for (count, least, most) in [(20, 4_000, CODE_LIMIT), (100, 400, 4_000), (500, 100, 400), (500, 1, 100)] {
        let group = accepted(&mut programs, count, least, most);
        let name = format!("{count} random, {least} to {most} bytes");
        report += &line(&name, &group, &list, GROUP_ROUNDS)?;
    }
    Ok(report)
}
