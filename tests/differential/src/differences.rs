//! `differences`: what document 000 says on the inputs of docs/DIFFERENCES.md, where 01 rules otherwise.

use crate::cfg::{self, CfgError};
use crate::code_section::{CodeSection, FuncEntry};
use crate::id_types::FunctionId;
use crate::observe;
use crate::opcode::{self, DecodeStop};
use crate::type_section::TypeSection;
use crate::verify::{verify_stack_balance, StackImbalance};
use crate::verify_temp_bufs::{verify_temp_buffer_bound, TempBufferOverrun};
use crate::Report;
use std::panic;

/// A directory row: id, body offset, body length. The maximum is 65,535, and there are no parameters.
type Row = (u16, u32, u32);

fn program(rows: &[Row], code: &[u8]) -> CodeSection {
    let mut section = CodeSection::default();
    section.bytecode.extend_from_slice(code);
    section.functions.extend(rows.iter().map(|&(id, offset, length)| FuncEntry {
        function_id: FunctionId::new(id),
        code_offset: offset,
        code_length: length,
        max_stack_depth: u16::MAX,
        num_locals: 0,
        num_params: 0,
    }));
    section
}

fn stack(rows: &[Row], code: &[u8]) -> Result<(), StackImbalance> {
    verify_stack_balance(&program(rows, code))
}

/// The pool check of a loop that borrows one buffer each time round.
fn growing_loop(pool: u16) -> Result<(), TempBufferOverrun> {
    let code = [opcode::STR_LOAD_VAR, 0, 0, 0, 0, opcode::JMP, 0xF8, 0xFF];
    verify_temp_buffer_bound(&program(&[(0, 0, 8)], &code), &[], &[FunctionId::new(0)], pool)
}

/// Whether document 000 panics; the harness is built with its overflow checks.
fn panics<T>(run: impl FnOnce() -> T + panic::UnwindSafe) -> bool {
    let hook = panic::take_hook();
    panic::set_hook(Box::new(|_| {}));
    let ended = panic::catch_unwind(run).is_err();
    panic::set_hook(hook);
    ended
}

fn checks() -> Vec<(&'static str, bool)> {
    let underflow = |found| matches!(found, Err(StackImbalance::Underflow { needs: 1, has: 0, .. }));
    vec![
        (
            "a growing loop: overrun at pool 65,534",
            matches!(growing_loop(65_534), Err(TempBufferOverrun::ExceedsDeclaredPool { depth: u16::MAX, .. })),
        ),
        ("a growing loop: accepted at pool 65,535", growing_loop(65_535).is_ok()),
        ("65,535 x 05: left at depth 65,535", {
            let left = stack(&[(0, 0, 65_535)], &[opcode::LOAD_TRUE; 65_535]);
            matches!(left, Err(StackImbalance::UnbalancedReturn { actual: u16::MAX, .. }))
        }),
        ("65,536 x 05: the sum overflows", panics(|| stack(&[(0, 0, 65_536)], &[opcode::LOAD_TRUE; 65_536]))),
        ("id 0 twice: the first body is checked twice", stack(&[(0, 0, 0), (0, 0, 1)], &[opcode::POP]).is_ok()),
        ("ids 0 and 1: both bodies are checked", underflow(stack(&[(0, 0, 0), (1, 0, 1)], &[opcode::POP]))),
        ("id 1 alone: its body is never found", stack(&[(1, 0, 1)], &[opcode::POP]).is_ok()),
        ("a body past the code: empty", stack(&[(0, 0, 2)], &[opcode::POP]).is_ok()),
    ]
}

fn leaf_checks() -> Vec<(&'static str, bool)> {
    let stop = DecodeStop::UnknownOpcode { offset: 0, byte: 0x06 };
    let far = cfg::branch_target(65_534, 3, 1, &[], 0);
    vec![
        ("06: size 1", opcode::instruction_size(0x06) == 1 && !opcode::is_assigned(0x06)),
        ("06 88: decoding goes on behind the stop", {
            let mut items = opcode::decode_body(&[0x06, opcode::RET]);
            items.next() == Some(Err(stop))
                && items.next().is_some_and(|item| item.is_ok_and(|ret| (ret.offset, ret.opcode) == (1, opcode::RET)))
        }),
        ("06 88: a method that gives nothing back", !observe::gives_back(&[0x06, opcode::RET])),
        ("JMP without operands: a panic", panics(|| cfg::flow_of(opcode::JMP, &[]))),
        ("a target below the length, without marks: a panic", panics(|| cfg::branch_target(0, 3, -3, &[], 3))),
        ("next 65,537, offset 1: 65,538", far == Err(CfgError::InvalidJumpTarget { offset: 65_534, target: 65_538 })),
    ]
}

fn section_checks() -> Vec<(&'static str, bool)> {
    let read = |bytes: &[u8]| TypeSection::read_from(&mut &bytes[..]);
    let user = |bytes: &[u8]| read(bytes).is_ok_and(|section| section.user_fb_types.len() == 1);
    vec![
        ("no user section: taken as none", read(&[0, 0, 0, 0]).is_ok_and(|section| section.user_fb_types.is_empty())),
        ("field type 11: refused", read(&[1, 0, 7, 0, 1, 0, 11, 0, 0, 0, 0, 0, 0, 0]).is_err()),
        ("stride 4 for numbers: refused", read(&[0, 0, 1, 0, 0, 0, 1, 0, 0, 0, 0, 0, 4, 0, 0, 0, 0, 0]).is_err()),
        ("a reserved byte of 1: skipped", user(&[0, 0, 0, 0, 1, 0, 7, 0, 1, 0, 0, 0, 0, 1])),
        ("bytes left over: unread", user(&[0, 0, 0, 0, 1, 0, 7, 0, 1, 0, 0, 0, 0, 0, 99])),
    ]
}

pub fn run() -> Report {
    let mut report = String::new();
    for (name, so) in checks().into_iter().chain(leaf_checks()).chain(section_checks()) {
        if !so {
            return Err(format!("{report}not so: {name}"));
        }
        report += &format!("{name}\n");
    }
    Ok(report)
}
