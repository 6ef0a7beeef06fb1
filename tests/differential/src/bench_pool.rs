//! `bench pool`: times of the pool check, the probe's beside document 000's, in one process and over the same programs.
//!
//! Both give the same six numbers for each program. The probe clears the scratch that it was lent, inside of its time; document
//! 000 makes its own.

use crate::bench::{contenders, Times};
use crate::bench_stack::{accepted, builtins, callers, few, function, longest_list, methods, straight};
use crate::export::Row;
use crate::file_format::ENTRIES;
use crate::opcode;
use crate::pool_program::{PoolProgram, CELLS, HIGHEST_POOL};
use crate::program::{Function, Numbers, Program, CODE_LIMIT, FUNCTION_LIMIT};
use crate::programs::Programs;
use crate::verify_temp_bufs::verify_temp_buffer_bound;
use crate::Report;
use std::hint::black_box;

extern "C" {
    fn probe_pool(
        answer: *mut u32,
        answer_n: usize,
        marks: *mut u8,
        marks_n: usize,
        depths: *mut u32,
        depths_n: usize,
        queue: *mut u16,
        queue_n: usize,
        queue_depths: *mut u16,
        queue_depths_n: usize,
        cells: *mut u8,
        cells_n: usize,
        ids: *const u16,
        ids_n: usize,
        parameters: *const u16,
        parameters_n: usize,
        maxima: *const u16,
        maxima_n: usize,
        offsets: *const usize,
        offsets_n: usize,
        lengths: *const usize,
        lengths_n: usize,
        list_ids: *const u16,
        list_ids_n: usize,
        counts: *const u16,
        counts_n: usize,
        flags: *const u16,
        flags_n: usize,
        code: *const u8,
        code_n: usize,
        types: *const u16,
        types_n: usize,
        callees: *const u16,
        callees_n: usize,
        entries: *const u16,
        entries_n: usize,
        pool: u16,
    ) -> u32;
}

/// A program and a list as columns, with the scratch for them.
struct Lent {
    marks: Vec<u8>,
    depths: Vec<u32>,
    queue: Vec<u16>,
    queue_depths: Vec<u16>,
    cells: Vec<u8>,
    words: [Vec<u16>; 3],
    sizes: [Vec<usize>; 2],
    list: [Vec<u16>; 3],
    code: Vec<u8>,
    descriptors: [Vec<u16>; 2],
    entries: Vec<u16>,
    pool: u16,
}

impl Lent {
    fn new(program: &PoolProgram, list: &[Row]) -> Lent {
        let Program { functions, code } = &program.program;
        let n = code.len();
        let words = |of: fn(&Function) -> u16| functions.iter().map(of).collect();
        let sizes = |of: fn(&Function) -> usize| functions.iter().map(of).collect();
        let rows = |of: fn(&Row) -> u16| list.iter().map(of).collect();
        Lent {
            marks: vec![0xAA; n],
            depths: vec![0xAAAA_AAAA; n + 1],
            queue: vec![0xAAAA; 2 * n + 2],
            queue_depths: vec![0xAAAA; 2 * n + 2],
            cells: vec![0xAA; CELLS],
            words: [
                words(|function| function.id),
                words(|function| function.parameters),
                words(|function| function.maximum),
            ],
            sizes: [sizes(|function| function.offset), sizes(|function| function.length)],
            list: [rows(|row| row.id), rows(|row| row.count), rows(|row| row.flag)],
            code: code.clone(),
            descriptors: [
                program.descriptors.iter().map(|descriptor| descriptor.type_id).collect(),
                program.descriptors.iter().map(|descriptor| descriptor.function).collect(),
            ],
            entries: program.entries.clone(),
            pool: program.pool,
        }
    }

    fn check(&mut self) -> Numbers {
        let mut answer = [0; 6];
        let [ids, parameters, maxima] = &self.words;
        let [offsets, lengths] = &self.sizes;
        let [list_ids, counts, flags] = &self.list;
        let [types, callees] = &self.descriptors;
        // SAFETY: every slice is whole, and the function keeps none.
        unsafe {
            probe_pool(
                answer.as_mut_ptr(),
                answer.len(),
                self.marks.as_mut_ptr(),
                self.marks.len(),
                self.depths.as_mut_ptr(),
                self.depths.len(),
                self.queue.as_mut_ptr(),
                self.queue.len(),
                self.queue_depths.as_mut_ptr(),
                self.queue_depths.len(),
                self.cells.as_mut_ptr(),
                self.cells.len(),
                ids.as_ptr(),
                ids.len(),
                parameters.as_ptr(),
                parameters.len(),
                maxima.as_ptr(),
                maxima.len(),
                offsets.as_ptr(),
                offsets.len(),
                lengths.as_ptr(),
                lengths.len(),
                list_ids.as_ptr(),
                list_ids.len(),
                counts.as_ptr(),
                counts.len(),
                flags.as_ptr(),
                flags.len(),
                self.code.as_ptr(),
                self.code.len(),
                types.as_ptr(),
                types.len(),
                callees.as_ptr(),
                callees.len(),
                self.entries.as_ptr(),
                self.entries.len(),
                self.pool,
            );
        }
        answer
    }
}

/// Programs checked one after the other, as one time.
fn line(name: &str, programs: &[PoolProgram], list: &[Row], rounds: usize) -> Report {
    let mut lent: Vec<Lent> = programs.iter().map(|program| Lent::new(program, list)).collect();
    let document: Vec<_> = programs
        .iter()
        .map(|program| (program.program.section(), program.user_descriptors(), program.entry_ids(), program.pool))
        .collect();
    let mut accepted = 0;
    for (program, lent) in programs.iter().zip(&mut lent) {
        let (wanted, found) = (program.answer(), lent.check());
        if wanted != found {
            return Err(format!("{name}: {found:?} where document 000 says {wanted:?}, so the times mean nothing"));
        }
        accepted += usize::from(wanted[0] == 0);
    }
    let [mut probe, mut rust]: [Times; 2] = contenders();
    for _ in 0..rounds {
        probe.take(|| black_box(&mut lent).iter_mut().map(|lent| lent.check()[0]).sum::<u32>());
        rust.take(|| {
            let asked = black_box(&document).iter();
            asked
                .filter(|(code, types, entries, pool)| verify_temp_buffer_bound(code, types, entries, *pool).is_err())
                .count()
        });
    }
    let [a, b] = [probe.columns(1.0), rust.columns(1.0)];
    let times = format!("{:>8.2} {:>8.2}", rust.best() / probe.best(), rust.median() / probe.median());
    Ok(format!("{name:<42} {a}  {b}  {times}  {accepted:>4} of {}\n", programs.len()))
}

/// The program with its first functions as entries.
fn entered(program: Program, pool: u16) -> PoolProgram {
    let entries = program.functions.iter().take(ENTRIES).map(|function| function.id).collect();
    PoolProgram { program, descriptors: vec![], entries, pool }
}

/// As the stack check's `callers`, but the calls go to later functions, so that no call leads back; the last eight call none.
fn forward_callers(programs: &mut Programs) -> Program {
    let mut program = Program::default();
    for id in 0..FUNCTION_LIMIT {
        let offset = program.code.len();
        for _ in 0..8 {
            let callee = programs.source.random.between(id + 1, FUNCTION_LIMIT + 7) as u16;
            let [low, high] = callee.to_le_bytes();
            program.code.extend([opcode::LOAD_VAR_I32, 1, 0, opcode::LOAD_VAR_I32, 2, 0]);
            program.code.extend([opcode::CALL, low, high, 0, 0, opcode::POP]);
        }
        program.functions.push(function(id, 2, offset, program.code.len() - offset));
    }
    program
}

/// Borrows one buffer each time round.
fn growing_loop(before: usize) -> Vec<u8> {
    let mut body = vec![opcode::STR_LOAD_VAR, 0, 0, 0, 0];
    body.resize(body.len() + before, opcode::BOOL_NOT);
    let [low, high] = (-(body.len() as i16) - 3).to_le_bytes();
    body.extend([opcode::JMP, low, high]);
    body
}

/// A pool as programs declare it, for bodies whose loops may grow.
const USUAL: u16 = 16;

/// Runs of the one program, of the groups, and of the loops that grow.
const ROUNDS: usize = 2_001;
const GROUP_ROUNDS: usize = 501;
const LOOP_ROUNDS: usize = 51;

pub fn run() -> Report {
    let mut programs = Programs::new(1, CODE_LIMIT)?;
    let list = programs.list.clone();
    let long = longest_list(&list);
    let mut report = format!(
        "pool check, microseconds, {ROUNDS} runs ({GROUP_ROUNDS} of groups, {LOOP_ROUNDS} of growing loops), the same answers; times as fast: document 000's time by the probe's\n"
    );
    report += &format!("{:<42} {:>19}  {:>19}  {:>17}\n", "", "probe_pool", "document 000", "times as fast");
    let pair = format!("{:>9} {:>9}", "best", "median");
    report += &format!("{:<42} {pair}  {pair}  {:>8} {:>8}  accepted\n", "", "best", "median");
    for length in [3_072, 6_144, 12_288] {
        let program = Program::of_body(0, 64, &straight(&mut programs, length, 0));
        report += &line(&format!("straight body, {length} bytes"), &[entered(program, HIGHEST_POOL)], &list, ROUNDS)?;
    }
    let few = few(&list);
    let any = [entered(builtins(&mut programs, &few, 2_000), HIGHEST_POOL)];
    let one = [entered(builtins(&mut programs, &few[few.len() / 3..][..1], 2_000), HIGHEST_POOL)];
    report += &line("2,000 BUILTINs, exported list", &any, &list, ROUNDS)?;
    // The rows that fill this list up borrow nothing and are not asked for.
    report += &line(&format!("2,000 BUILTINs, {} rows", long.len()), &any, &long, ROUNDS)?;
    report += &line("2,000 of one BUILTIN, exported list", &one, &list, ROUNDS)?;
    report += &line(&format!("2,000 of one BUILTIN, {} rows", long.len()), &one, &long, ROUNDS)?;
    let callers = PoolProgram { entries: vec![], ..entered(callers(&mut programs), USUAL) };
    report += &line("128 functions, eight calls each, no entry", &[callers], &list, ROUNDS)?;
    let methods = entered(methods(&mut programs), USUAL);
    report += &line("forty METHOD_CALLs of 4,000 bytes", &[methods], &list, ROUNDS)?;
    let mixed = programs.one_body(11_900, 12_100);
    // It calls itself, and is no entry. At the higher pool its loops grow.
    for (pool, rounds) in [(USUAL, GROUP_ROUNDS), (1_000, LOOP_ROUNDS)] {
        let program = PoolProgram { entries: vec![], ..entered(mixed.clone(), pool) };
        report += &line(&format!("mixed body, 12,000 bytes, pool {pool}"), &[program], &list, rounds)?;
    }
    for (count, least, most) in [(20, 4_000, CODE_LIMIT), (100, 400, 4_000), (500, 100, 400), (500, 1, 100)] {
        let group: Vec<PoolProgram> =
            accepted(&mut programs, count, least, most).into_iter().map(|program| entered(program, USUAL)).collect();
        let name = format!("{count} random, {least} to {most} bytes, pool {USUAL}");
        report += &line(&name, &group, &list, GROUP_ROUNDS)?;
    }
    let graph = entered(forward_callers(&mut programs), USUAL);
    report += &line("128 functions, eight calls, 32 entries", &[graph], &list, ROUNDS)?;
    for before in [0, 24] {
        let body = growing_loop(before);
        let program = PoolProgram::of_body(0, HIGHEST_POOL, &body);
        report += &line(&format!("growing loop of {} bytes, pool 65,534", body.len()), &[program], &list, LOOP_ROUNDS)?;
    }
    Ok(report)
}
