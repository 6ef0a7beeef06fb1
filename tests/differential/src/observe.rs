//! Small programs through which the private parts of document 000's two checks can be seen from outside.
//!
//! Function 0 is empty and legal, function 1 is the body that is looked at, and further functions may follow: document
//! 000 takes a function's id as its position.

use crate::code_section::{CodeSection, FuncEntry};
use crate::id_types::FunctionId;
use crate::verify::{verify_stack_balance, StackImbalance};
use crate::verify_temp_bufs::{verify_temp_buffer_bound, TempBufferOverrun};

pub const LOOKED_AT: u16 = 1;
pub const CALLEE: u16 = 2;
const HIGHEST: u16 = u16::MAX;

/// A program of `bodies`, each with its parameter count, behind the empty function 0.
fn program(bodies: &[(&[u8], u16)], maximum: u16) -> CodeSection {
    let mut code = CodeSection::default();
    let empty: (&[u8], u16) = (&[], 0);
    for (at, (body, parameters)) in std::iter::once(&empty).chain(bodies).enumerate() {
        code.functions.push(FuncEntry {
            function_id: FunctionId::new(at as u16),
            code_offset: code.bytecode.len() as u32,
            code_length: body.len() as u32,
            max_stack_depth: maximum,
            num_locals: 0,
            num_params: *parameters,
        });
        code.bytecode.extend_from_slice(body);
    }
    code
}

/// The stack check's first violation, if it lies in the body that is looked at.
pub fn stack(bodies: &[(&[u8], u16)]) -> Option<StackImbalance> {
    stack_at(bodies, HIGHEST)
}

pub fn stack_at(bodies: &[(&[u8], u16)], maximum: u16) -> Option<StackImbalance> {
    let found = verify_stack_balance(&program(bodies, maximum)).err()?;
    (found.function_id() == FunctionId::new(LOOKED_AT)).then_some(found)
}

/// The depth at which the body that is looked at is left by its end, from "9 there" or from acceptance at 0.
pub fn depth_at_the_end(bodies: &[(&[u8], u16)]) -> Result<u16, String> {
    match stack(bodies) {
        None => Ok(0),
        Some(StackImbalance::UnbalancedReturn { actual, .. }) => Ok(actual),
        Some(other) => Err(format!("{:02X?}: {other:?}", bodies[0].0)),
    }
}

/// Whether a METHOD_CALL of `body` leaves a value: RET is among its instructions before its first decoding stop.
pub fn gives_back(body: &[u8]) -> bool {
    let [low, high] = CALLEE.to_le_bytes();
    let call = [crate::opcode::METHOD_CALL, low, high, 0, 0, 0, 0, 0];
    depth_at_the_end(&[(&call, 0), (body, 0)]).expect("a call alone is only left at 0 or 1") == 1
}

/// The pool check over one body, entered, at this pool: the depth that passes it, or 0 where the check accepts.
pub fn pool(body: &[u8], pool: u16) -> Result<u16, String> {
    let entries = [FunctionId::new(LOOKED_AT)];
    match verify_temp_buffer_bound(&program(&[(body, 0)], HIGHEST), &[], &entries, pool) {
        Ok(()) => Ok(0),
        Err(TempBufferOverrun::ExceedsDeclaredPool { depth, .. }) => Ok(depth),
        Err(other) => Err(format!("{body:02X?}: {other:?}")),
    }
}
