//! `bench`, first part: times of decoding and of the list lookup in one process, the probes' static library linked in natively.
//!
//! Each round runs every contender once, one after the other, so that a disturbance meets them alike. The probes get a lent
//! column for the marks, which is cleared before each run, outside of the time taken; document 000 makes its own, inside of it.

use crate::bodies::Bodies;
use crate::cfg;
use crate::export::ROW_LIMIT;
use crate::opcode::{self, builtin};
use crate::random::Random;
use crate::reading;
use crate::Report;
use std::hint::black_box;
use std::time::Instant;

const LENGTH: usize = 12_288;
const ROUNDS: usize = 5_001;
const ASKED: usize = 1_000;

extern "C" {
    fn probe_starts(body: *const u8, n: usize, marks: *mut u8, marks_n: usize) -> u32;
    fn probe_lookup(
        ids: *const u16,
        n: usize,
        counts: *const u16,
        counts_n: usize,
        flags: *const u16,
        flags_n: usize,
        id: u16,
    ) -> u32;
    fn hop(size: *const u8, body: *const u8, n: usize) -> usize;
}

fn starts(body: &[u8], marks: &mut [u8]) -> u32 {
    // SAFETY: both slices are whole, and the function keeps neither.
    unsafe { probe_starts(body.as_ptr(), body.len(), marks.as_mut_ptr(), marks.len()) }
}

fn bare_hop(sizes: &[u8; 256], body: &[u8]) -> usize {
    // SAFETY: `hop` reads a table of 256 sizes, none 0 where it is reached, and the whole body.
    unsafe { hop(sizes.as_ptr(), body.as_ptr(), body.len()) }
}

/// The best and the median of the times of one contender, in microseconds.
pub struct Times(Vec<f64>);

impl Times {
    pub fn take<T>(&mut self, run: impl FnOnce() -> T) -> T {
        let begin = Instant::now();
        let result = black_box(run());
        self.0.push(begin.elapsed().as_nanos() as f64 / 1000.0);
        result
    }

    pub fn best(&mut self) -> f64 {
        self.0.iter().copied().min_by(f64::total_cmp).unwrap_or(f64::NAN)
    }

    pub fn median(&mut self) -> f64 {
        self.0.sort_by(f64::total_cmp);
        self.0[self.0.len() / 2]
    }

    pub fn columns(&mut self, each: f64) -> String {
        format!("{:>9.2} {:>9.2}", self.best() / each, self.median() / each)
    }
}

pub fn contenders<const N: usize>() -> [Times; N] {
    std::array::from_fn(|_| Times(Vec::with_capacity(ROUNDS)))
}

/// Whole instructions of these opcodes, drawn at random, to exactly LENGTH bytes; a rest too small for a draw is filled up with
/// one-byte instructions.
fn body_of(opcodes: &[u8]) -> Vec<u8> {
    let mut bodies = Bodies::new(1);
    let mut body = Vec::with_capacity(LENGTH);
    while body.len() < LENGTH {
        let op = bodies.random.one_of(opcodes);
        if opcode::instruction_size(op) > LENGTH - body.len() {
            body.push(opcode::LOAD_TRUE);
        } else {
            body.extend(bodies.instruction(op));
        }
    }
    body
}

fn of_size(size: usize) -> Vec<u8> {
    (0..=u8::MAX).filter(|&op| opcode::is_assigned(op) && opcode::instruction_size(op) == size).collect()
}

/// What compiled control code is mostly made of: variables and constants, arithmetic and comparison, some branches and calls.
fn typical() -> Vec<u8> {
    use opcode::*;
    let mut mix = vec![LOAD_VAR_I32; 24];
    mix.extend([LOAD_VAR_I64; 4].into_iter().chain([STORE_VAR_I32; 14]).chain([STORE_VAR_I64; 2]));
    mix.extend([LOAD_CONST_I32; 10].into_iter().chain([LOAD_TRUE, LOAD_FALSE, DUP, POP, SWAP]));
    mix.extend([ADD_I32, ADD_I32, ADD_I32, SUB_I32, SUB_I32, MUL_I32, DIV_I32, MOD_I32, NEG_I32, ADD_F32, MUL_F64]);
    mix.extend([EQ_I32, EQ_I32, NE_I32, LT_I32, LE_I32, GT_I32, GE_I32, BOOL_AND, BOOL_OR, BOOL_NOT, TRUNC_I16]);
    mix.extend([JMP_IF_NOT, JMP_IF_NOT, JMP_IF_NOT, JMP_IF_NOT, JMP, JMP, CMP_BR_I32, CMP_BR_I32]);
    mix.extend([CALL, BUILTIN, BUILTIN, METHOD_CALL, FB_LOAD_INSTANCE, FB_STORE_PARAM, FB_LOAD_PARAM, FB_CALL]);
    mix.extend([LOAD_ARRAY, STORE_ARRAY, STR_LOAD_VAR, STR_STORE_VAR, CONCAT_STR]);
    mix
}

fn decoding(name: &str, body: &[u8], sizes: &[u8; 256]) -> Report {
    let mut marks = vec![0; body.len()];
    if starts(body, &mut marks) != 0 || marks != reading::marks(body) || bare_hop(sizes, body) != body.len() {
        return Err(format!("{name}: the contenders differ, so their times mean nothing"));
    }
    let [mut probe, mut document, mut bare] = contenders();
    for _ in 0..ROUNDS {
        marks.fill(0);
        probe.take(|| starts(black_box(body), &mut marks));
        let made = document.take(|| cfg::instruction_boundaries(black_box(body)));
        drop(made);
        bare.take(|| bare_hop(sizes, black_box(body)));
    }
    let [a, b, c] = [probe.columns(1.0), document.columns(1.0), bare.columns(1.0)];
    Ok(format!("{name:<28} {a}  {b}  {c}\n"))
}

/// Half of the ids asked for are listed. Document 000 has its own list, of which only the time of a lookup is comparable.
fn lookup() -> Report {
    let mut random = Random::new(2);
    let mut ids: Vec<u16> = (0..=u16::MAX).collect();
    for at in 0..ROW_LIMIT {
        let other = random.between(at, ids.len() - 1);
        ids.swap(at, other);
    }
    ids.truncate(ROW_LIMIT);
    ids.sort();
    let counts: Vec<u16> = ids.iter().map(|_| random.word() % 18).collect();
    let flags: Vec<u16> = ids.iter().map(|_| random.word() & 1).collect();
    let asked: Vec<u16> = (0..ASKED).map(|at| if at % 2 == 0 { random.one_of(&ids) } else { random.word() }).collect();
    let find = |id: u16| {
        // SAFETY: the three columns are whole, and the function keeps none.
        unsafe { probe_lookup(ids.as_ptr(), ids.len(), counts.as_ptr(), counts.len(), flags.as_ptr(), flags.len(), id) }
    };
    let search = |id: u16| match ids.binary_search(&id) {
        Ok(row) => 1 + 2 * u32::from(flags[row]) + 4 * u32::from(counts[row]),
        Err(_) => 0,
    };
    if let Some(id) = (0..=u16::MAX).find(|&id| find(id) != search(id)) {
        return Err(format!("lookup of {id}: {} and {}", find(id), search(id)));
    }
    let sum = |look: &dyn Fn(u16) -> u32| black_box(&asked).iter().fold(0u32, |sum, &id| sum.wrapping_add(look(id)));
    let [mut probe, mut rust, mut document] = contenders();
    for _ in 0..ROUNDS {
        probe.take(|| sum(&find));
        rust.take(|| sum(&search));
        document.take(|| sum(&|id| builtin::arg_count_opt(id).map_or(0, u32::from)));
    }
    // From microseconds for all that were asked to nanoseconds for one.
    let each = ASKED as f64 / 1000.0;
    let [a, b, c] = [probe.columns(each), rust.columns(each), document.columns(each)];
    Ok(format!("{:<28} {a}  {b}  {c}\n", format!("{ROW_LIMIT} rows")))
}

/// The heads of three contenders' columns.
fn heads(names: [&str; 3]) -> String {
    let [a, b, c] = names.map(|name| format!("{name:>19}"));
    let pair = format!("{:>9} {:>9}", "best", "median");
    format!("{:<28} {a}  {b}  {c}\n{:<28} {pair}  {pair}  {pair}\n", "", "")
}

pub fn file() -> Report {
    crate::bench_file::run(heads)
}

pub fn run() -> Report {
    let sizes: [u8; 256] = std::array::from_fn(|op| opcode::instruction_size(op as u8) as u8);
    let every: Vec<u8> = (0..=u8::MAX).filter(|&op| opcode::is_assigned(op)).collect();
    let mut report = format!(
        "decoding a body of {LENGTH} bytes, microseconds, {ROUNDS} runs (marks of probe_starts cleared outside of the time)\n"
    );
    report += &heads(["probe_starts", "document 000", "bare hop in C"]);
    report += &decoding("one byte each", &body_of(&of_size(1)), &sizes)?;
    report += &decoding("three bytes each", &body_of(&of_size(3)), &sizes)?;
    report += &decoding("nine bytes each", &body_of(&of_size(9)), &sizes)?;
    report += &decoding("typical mix", &body_of(&typical()), &sizes)?;
    report += &decoding("all 130 alike", &body_of(&every), &sizes)?;
    report += &format!("\nlookup of one id, half of them listed, nanoseconds, {ROUNDS} runs of {ASKED}\n");
    report += &heads(["probe_lookup", "Rust binary_search", "document 000 (228)"]);
    report += &lookup()?;
    report += "\n";
    report += &crate::bench_stack::run()?;
    report += "\n";
    report += &crate::bench_pool::run()?;
    report += "\n";
    report += &file()?;
    Ok(report)
}
