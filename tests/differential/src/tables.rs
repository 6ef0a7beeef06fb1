//! `tables`: size, stack effect and temp effect of each of the 256 bytes.
//!
//! Sizes come from `opcode.rs`. The two effects are private there, so they are found by what the checks report on small
//! bodies, each in more than one way.

use crate::cfg::{self, Flow};
use crate::export::{self, Row};
use crate::observe::{self, CALLEE};
use crate::opcode;
use crate::verify::StackImbalance;
use crate::Report;
use std::path::Path;

/// What decides an instruction's effect.
#[derive(Clone, Copy, Debug, PartialEq, Eq)]
pub enum Kind {
    Fixed { takes: u16, leaves: u16 },
    Builtin,
    Call,
    Method,
}

/// What an instruction takes and leaves in every program.
#[derive(Clone, Copy, Debug, PartialEq, Eq)]
pub struct Fixed {
    pub takes: usize,
    pub leaves: usize,
}

/// For each byte its effect, if it is an instruction with a fixed one that goes on to the next.
pub fn fixed_effects(list: &[Row]) -> Result<Vec<Option<Fixed>>, String> {
    let mut effects = vec![None; 256];
    for op in (0..=u8::MAX).filter(|&op| opcode::is_assigned(op)) {
        let goes_on = cfg::flow_of(op, &instruction(op, 0)[1..]) == Flow::Next;
        if let (true, Kind::Fixed { takes, leaves }) = (goes_on, kind(op, list)?) {
            effects[op as usize] = Some(Fixed { takes: takes.into(), leaves: leaves.into() });
        }
    }
    Ok(effects)
}

/// An instruction with its operand bytes; the first two hold `word`, the others 0.
fn instruction(op: u8, word: u16) -> Vec<u8> {
    let mut bytes = vec![0; opcode::instruction_size(op)];
    bytes[0] = op;
    if let [_, low, high, ..] = bytes.as_mut_slice() {
        [*low, *high] = word.to_le_bytes();
    }
    bytes
}

/// The instruction behind `depth` values.
fn behind(depth: u16, instruction: &[u8]) -> Vec<u8> {
    let mut body = vec![opcode::LOAD_TRUE; depth as usize];
    body.extend_from_slice(instruction);
    body
}

/// What an instruction takes and leaves, with `callee` beside it. Takes is what Underflow says it needs at depth 0, leaves is
/// the depth behind it where exactly that stood before; then both are held against larger depths and against the maximum.
fn effect(instruction: &[u8], callee: (&[u8], u16)) -> Result<(u16, u16), String> {
    let takes = match observe::stack(&[(instruction, 0), callee]) {
        Some(StackImbalance::Underflow { needs, has: 0, .. }) => needs,
        _ => 0,
    };
    let leaves = observe::depth_at_the_end(&[(&behind(takes, instruction), 0), callee])?;
    for more in 1..=3 {
        let body = behind(takes + more, instruction);
        let end = observe::depth_at_the_end(&[(&body, 0), callee]);
        // RET is satisfied with one value, which is then no report of 9 and reads as 0.
        let accepted_ret = instruction == [opcode::RET] && more == 1;
        if end != Ok(if accepted_ret { 0 } else { leaves + more }) {
            return Err(format!("{instruction:02X?} at {}: {end:?}", takes + more));
        }
        let (before, after) = (takes + more, leaves + more);
        let highest = before.max(after);
        let seen = observe::stack_at(&[(&body, 0), callee], highest - 1);
        let Some(StackImbalance::ExceedsDeclaredMax { depth, offset, .. }) = seen else {
            return Err(format!("{instruction:02X?} below {highest}: {seen:?}"));
        };
        // Where the instruction itself does not raise the depth, the last LOAD_TRUE reports it.
        let place = if after > before { before } else { before - 1 };
        if (depth, offset) != (highest, place as usize) {
            return Err(format!("{instruction:02X?} below {highest}: {depth} at {offset}"));
        }
    }
    Ok((takes, leaves))
}

pub fn kind(op: u8, list: &[Row]) -> Result<Kind, String> {
    let nothing: (&[u8], u16) = (&[], 0);
    match observe::stack(&[(&instruction(op, u16::MAX), 0)]) {
        Some(StackImbalance::UnknownBuiltin { builtin_id: u16::MAX, .. }) => {
            for row in list {
                let found = effect(&instruction(op, row.id), nothing)?;
                if found != (row.count, 1) {
                    return Err(format!("builtin {}: {found:?}", row.id));
                }
            }
            Ok(Kind::Builtin)
        }
        Some(StackImbalance::UnknownCallee { callee, .. }) if callee.raw() == u16::MAX => call(op),
        _ => {
            let (takes, leaves) = effect(&instruction(op, 0), nothing)?;
            Ok(Kind::Fixed { takes, leaves })
        }
    }
}

/// CALL or METHOD_CALL, by callees with and without RET.
fn call(op: u8) -> Result<Kind, String> {
    let bytes = instruction(op, CALLEE);
    let mut found = None;
    for parameters in [0, 1, 2, 7, 300] {
        let (takes_with, with) = effect(&bytes, (&[opcode::LOAD_TRUE, opcode::RET], parameters))?;
        let (takes_without, without) = effect(&bytes, (&[opcode::RET_VOID], parameters))?;
        let seen = match (with, without) {
            (1, 1) => Kind::Call,
            (1, 0) => Kind::Method,
            other => return Err(format!("call {op:02X} leaves {other:?}")),
        };
        if (takes_with, takes_without) != (parameters, parameters) || found.is_some_and(|kind| kind != seen) {
            return Err(format!("call {op:02X} with {parameters} parameters: takes {takes_with}, {takes_without}"));
        }
        found = Some(seen);
    }
    found.ok_or_else(|| "no callee was tried".into())
}

/// The temp effect: a borrow alone passes pool 0; a give-back lets a borrow on each side of it do with pool 1.
pub fn temp(op: u8) -> Result<i8, String> {
    let looked_at = instruction(op, 0);
    if observe::pool(&looked_at, 0)? == 1 {
        return Ok(1);
    }
    // Nothing runs behind a return, so a give-back there could not be seen and would change nothing.
    if cfg::flow_of(op, &looked_at[1..]) == Flow::Return {
        return Ok(0);
    }
    let borrow = instruction(opcode::LOAD_CONST_STR, 0);
    let body = [borrow.as_slice(), &looked_at, &borrow].concat();
    match observe::pool(&body, 1)? {
        0 => Ok(-1),
        2 => Ok(0),
        other => Err(format!("{op:02X} between two borrows: {other}")),
    }
}

/// Kinds and temp effects as numbers in tables.bin; 0 is an unassigned byte, and no temp effect.
fn row(op: u8, list: &[Row]) -> Result<([u8; 6], String), String> {
    if !opcode::is_assigned(op) {
        return Ok(([0; 6], format!("{op} 0\n")));
    }
    let size = opcode::instruction_size(op) as u8;
    let (number, takes, leaves, words) = match kind(op, list)? {
        Kind::Fixed { takes, leaves } => (1, takes, leaves, format!("fixed {takes} {leaves}")),
        Kind::Builtin => (2, 0, 0, "builtin".into()),
        Kind::Call => (3, 0, 0, "call".into()),
        Kind::Method => (4, 0, 0, "method".into()),
    };
    let temp = temp(op)?;
    let temp_number = if temp < 0 { 2 } else { temp as u8 };
    let bytes = [size, number, takes as u8, leaves as u8, temp_number, 0];
    Ok((bytes, format!("{op} {size} {words} temp {temp}\n")))
}

pub fn run(dir: &Path) -> Report {
    let list = export::code_list()?;
    let mut text = String::from(
        "# Made by `differential tables`: byte, size (0 where unassigned), then for the assigned the kind of stack effect\n\
         # (fixed with takes and leaves; builtin, call, method as the program says) and the temp effect.\n",
    );
    let mut rows = Vec::new();
    for op in 0..=u8::MAX {
        let (bytes, line) = row(op, &list)?;
        rows.push(bytes);
        text += &line;
    }
    crate::write(dir, "tables.txt", text.as_bytes())?;
    crate::write(dir, "tables.bin", &rows.concat())?;
    let kinds = |number: u8| rows.iter().filter(|row| row[1] == number).count();
    let temps = |number: u8| rows.iter().filter(|row| row[0] != 0 && row[4] == number).count();
    Ok(format!(
        "{} assigned: {} fixed, {} builtin, {} call, {} method; temp 0: {}, 1: {}, -1: {}\n",
        256 - kinds(0),
        kinds(1),
        kinds(2),
        kinds(3),
        kinds(4),
        temps(0),
        temps(1),
        temps(2),
    ))
}
