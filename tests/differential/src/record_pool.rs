//! `record-pool`: document 000's pool check of small random programs, in a form that a test without Rust can replay.
//!
//! pools.bin, for each: the functions and the code as in programs.bin; number of descriptors, two bytes, and for each its type
//! id and its function id, two bytes each; number of entries, one byte, and the entries, two bytes each; the pool, two bytes;
//! then the answer in six numbers of four bytes: number, function, offset, depth, declared, 0. Low byte first.

use crate::pools::Pools;
use crate::Report;
use std::collections::BTreeMap;
use std::path::Path;

const NAME: &str = "pools.bin";

/// Code bytes at most, functions, descriptors and entries; and bytes of the file.
const LONGEST: usize = 48;
const MOST_FUNCTIONS: usize = 3;
const MOST_DESCRIPTORS: usize = 4;
const MOST_ENTRIES: usize = 4;
const FILE: usize = 262_144;

/// The file is of use only if every answer is in it this often.
const AT_LEAST: u64 = 300;

/// A loop that grows at a high pool takes its time, which a replay should not.
const FAST: u16 = 300;

pub fn run(seed: u64, count: u64, dir: &Path) -> Report {
    let mut pools = Pools::new(seed, LONGEST)?;
    let mut file = Vec::new();
    let mut seen: BTreeMap<u32, u64> = BTreeMap::new();
    let mut written = 0;
    while written < count {
        let made = pools.any();
        let (program, numbers) = match made.names {
            None => (made.program.clone(), made.program.answer()),
            Some(names) => (made.program.renamed(names), names.answer(made.program.answer())),
        };
        let slow = numbers[0] == 20 && program.pool > FAST;
        // An answer that random programs give often makes room for the others.
        let times = seen.entry(numbers[0]).or_default();
        if program.program.functions.len() > MOST_FUNCTIONS
            || program.descriptors.len() > MOST_DESCRIPTORS
            || program.entries.len() > MOST_ENTRIES
            || slow
            || *times >= count * 2 / 7
        {
            continue;
        }
        program.write(&mut file);
        file.extend(numbers.iter().flat_map(|number| number.to_le_bytes()));
        *times += 1;
        written += 1;
    }
    if file.len() > FILE {
        return Err(format!("{NAME}: {} bytes, more than {FILE}", file.len()));
    }
    let mut report = format!("{NAME}: {count} in {} bytes\n", file.len());
    for number in [0, 20, 21, 22] {
        let times = seen.get(&number).copied().unwrap_or(0);
        if times < AT_LEAST {
            return Err(format!("{NAME}: answer {number} only {times} times, {AT_LEAST} are wanted: raise COUNT"));
        }
        report += &format!("{times:>10} answer {number}\n");
    }
    crate::write(dir, NAME, &file)?;
    Ok(report)
}
