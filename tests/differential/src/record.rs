//! `record`: document 000's answers on small random bodies, in a form that a test without Rust can replay.
//!
//! bodies.bin, for each body: length n, n body bytes, outcome (0 whole, 1 unknown, 2 cut), offset of the stop and the byte there
//! (0 and 0 if whole), n marks (an instruction's size at its first byte before the first stop, else 0), 1 if RET is among those
//! instructions else 0. All single bytes.
//!
//! targets.bin, for each: length n, n bytes of a body that decodes, offset of an instruction, its way on (0 next, 1 jump,
//! 2 branch, 3 return), 1 if the target is legal else 0, the signed target in four bytes, low byte first (0 and 0 for next
//! and return).

use crate::bodies::{Aim, Bodies, AIMS};
use crate::reading::{self, BRANCH, JUMP, NEXT, RETURN};
use crate::Report;
use std::collections::BTreeMap;
use std::path::Path;

const LONGEST: usize = 40;

/// The file is of use only if every sort is in it this often.
const AT_LEAST: usize = 100;

const BODY_SORTS: &[&str] = &["whole", "unknown", "cut", "with RET", "without RET"];
const TARGET_SORTS: &[&str] = &[
    "next",
    "jump legal",
    "jump illegal",
    "branch legal",
    "branch illegal",
    "return",
    "target a start",
    "target the length",
    "target inside",
    "target before 0",
    "target past the length",
];

type Tally = BTreeMap<&'static str, usize>;
type Make = fn(&mut Bodies, u64, &mut Tally) -> Vec<u8>;

fn bodies(bodies: &mut Bodies, count: u64, tally: &mut Tally) -> Vec<u8> {
    let mut file = Vec::new();
    for _ in 0..count {
        let length = bodies.random.between(0, LONGEST);
        let body = bodies.any(length);
        let said = reading::read(&body);
        file.push(length as u8);
        file.extend(&body);
        file.extend([said.outcome, said.stop as u8, said.byte]);
        file.extend(&said.marks);
        file.push(said.has_ret.into());
        *tally.entry(["whole", "unknown", "cut"][said.outcome as usize]).or_default() += 1;
        *tally.entry(if said.has_ret { "with RET" } else { "without RET" }).or_default() += 1;
    }
    file
}

fn targets(bodies: &mut Bodies, count: u64, tally: &mut Tally) -> Vec<u8> {
    let mut wanted = vec![(NEXT, Aim::Anywhere), (RETURN, Aim::Anywhere)];
    wanted.extend(AIMS.iter().flat_map(|&aim| [(JUMP, aim), (BRANCH, aim)]));
    let mut file = Vec::new();
    for turn in 0..count as usize {
        let (way, aim) = wanted[turn % wanted.len()];
        let (body, at) = bodies.with_instruction(way, aim);
        let marks = reading::marks(&body);
        let (way, offset) = reading::flow(&body, &marks, at);
        let (legal, target) = match way {
            JUMP | BRANCH => reading::target(&marks, at, offset),
            _ => (false, 0),
        };
        file.push(body.len() as u8);
        file.extend(&body);
        file.extend([at as u8, way, legal.into()]);
        file.extend(target.to_le_bytes());
        *tally.entry(name(way, legal)).or_default() += 1;
        if matches!(way, JUMP | BRANCH) {
            *tally.entry(place(&body, legal, target)).or_default() += 1;
        }
    }
    file
}

fn name(way: u8, legal: bool) -> &'static str {
    match (way, legal) {
        (JUMP, true) => "jump legal",
        (JUMP, false) => "jump illegal",
        (BRANCH, true) => "branch legal",
        (BRANCH, false) => "branch illegal",
        (NEXT, _) => "next",
        _ => "return",
    }
}

fn place(body: &[u8], legal: bool, target: i32) -> &'static str {
    let length = body.len() as i32;
    match (legal, target) {
        (true, target) if target == length => "target the length",
        (true, _) => "target a start",
        (false, ..=-1) => "target before 0",
        (false, target) if target > length => "target past the length",
        (false, _) => "target inside",
    }
}

pub fn run(seed: u64, count: u64, dir: &Path) -> Report {
    let files: [(&str, Make, &[&str]); 2] =
        [("bodies.bin", bodies, BODY_SORTS), ("targets.bin", targets, TARGET_SORTS)];
    let mut report = String::new();
    let mut source = Bodies::new(seed);
    for (name, make, sorts) in files {
        let mut tally = Tally::new();
        let file = make(&mut source, count, &mut tally);
        report += &format!("{name}: {count} in {} bytes\n", file.len());
        for sort in sorts {
            let seen = tally.get(sort).copied().unwrap_or(0);
            if seen < AT_LEAST {
                return Err(format!("{name}: {sort} only {seen} times, {AT_LEAST} are wanted: raise COUNT"));
            }
            report += &format!("{seen:>10} {sort}\n");
        }
        crate::write(dir, name, &file)?;
    }
    Ok(report)
}
