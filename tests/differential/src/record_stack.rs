//! `record-stack`: document 000's stack check of small random programs, in a form that a test without Rust can replay.
//!
//! programs.bin, for each: number of functions, one byte; for each function id, parameters, maximum, offset and length, two bytes
//! each; length of the code, two bytes, and the code; then the answer in six numbers of four bytes: number, function, offset, a,
//! b, c, the target of 7 in two's complement. Low byte first.

use crate::program::Program;
use crate::programs::Programs;
use crate::Report;
use std::path::Path;

const NAME: &str = "programs.bin";

/// Code bytes at most, and functions.
const LONGEST: usize = 64;
const MOST: usize = 3;

/// The file is of use only if every answer is in it this often.
const AT_LEAST: usize = 100;

pub fn run(seed: u64, count: u64, dir: &Path) -> Report {
    let mut programs = Programs::new(seed, LONGEST)?;
    let mut file = Vec::new();
    let mut seen = [0; 10];
    let mut written = 0;
    while written < count {
        let made = programs.any();
        let (program, numbers): (Program, _) = match made.names {
            None => (made.program.clone(), made.program.answer()),
            Some(names) => (names.program(&made.program), names.answer(made.program.answer())),
        };
        // An answer that random programs give often makes room for the others.
        let enough = (count as usize).div_ceil(9);
        if program.functions.len() > MOST || seen[numbers[0] as usize] >= enough {
            continue;
        }
        program.write(&mut file);
        file.extend(numbers.iter().flat_map(|number| number.to_le_bytes()));
        seen[numbers[0] as usize] += 1;
        written += 1;
    }
    let mut report = format!("{NAME}: {count} in {} bytes\n", file.len());
    for (number, &times) in seen.iter().enumerate() {
        if times < AT_LEAST {
            return Err(format!("{NAME}: answer {number} only {times} times, {AT_LEAST} are wanted: raise COUNT"));
        }
        report += &format!("{times:>10} answer {number}\n");
    }
    crate::write(dir, NAME, &file)?;
    Ok(report)
}
