//! `compare`: the same questions to document 000, in this process, and to a driver over the static library, by a pipe.

use crate::cases::{self, Case};
use crate::export::Row;
use crate::opcode;
use crate::opcode::builtin::{allocates_temp_buf, arg_count_opt};
use crate::pipe;
use crate::reading::{self, Reading, BRANCH, JUMP};
use crate::Report;
use std::collections::BTreeMap;

/// So many differences are printed in full.
const SHOWN: usize = 10;

/// Counts of what was seen, under its name.
type Tally = BTreeMap<&'static str, u64>;

/// An answer's bytes, read from the front.
struct Answer<'a>(&'a [u8]);

impl Answer<'_> {
    fn bytes(&mut self, count: usize) -> Result<&[u8], String> {
        if self.0.len() < count {
            return Err("the answer is too short".into());
        }
        let (front, rest) = self.0.split_at(count);
        self.0 = rest;
        Ok(front)
    }

    fn word(&mut self) -> Result<u32, String> {
        Ok(u32::from_le_bytes(self.bytes(4)?.try_into().unwrap()))
    }

    fn long(&mut self) -> Result<u64, String> {
        Ok(u64::from_le_bytes(self.bytes(8)?.try_into().unwrap()))
    }

    fn end(&self) -> Result<(), String> {
        same("bytes left over in the answer", &0, &self.0.len())
    }
}

fn same<T: PartialEq + std::fmt::Debug + ?Sized>(what: &str, expected: &T, found: &T) -> Result<(), String> {
    if expected == found {
        return Ok(());
    }
    Err(format!("{what}: wanted {expected:?}, the driver says {found:?}"))
}

/// Judges answers in the order of their questions; a lookup is in the list that came last.
struct Judge {
    list: Vec<Row>,
    /// The exported list comes first, and is document 000's own; a later one is made up.
    lists: usize,
    tally: Tally,
}

impl Judge {
    fn count(&mut self, what: &'static str) {
        *self.tally.entry(what).or_default() += 1;
    }

    fn judge(&mut self, case: Case, answer: &[u8]) -> Result<(), String> {
        let mut answer = Answer(answer);
        match case {
            Case::Sizes => self.sizes(&mut answer)?,
            Case::Body(body) => self.body(&body, &mut answer).map_err(|why| format!("body {}: {why}", hex(&body)))?,
            Case::List(rows) => {
                self.count("lists");
                same("rows", &(rows.len() as u32), &answer.word()?)?;
                self.list = rows;
                self.lists += 1;
            }
            Case::Lookup(ids) => {
                for id in ids {
                    self.lookup(id, answer.word()?)?;
                }
            }
        }
        answer.end()
    }

    fn sizes(&mut self, answer: &mut Answer) -> Result<(), String> {
        for op in 0..=u8::MAX {
            let expected = if opcode::is_assigned(op) { opcode::instruction_size(op) as u32 } else { 0 };
            same(&format!("size of {op:02X}"), &expected, &answer.word()?)?;
            self.count(if expected == 0 { "bytes unassigned" } else { "bytes assigned" });
        }
        Ok(())
    }

    fn body(&mut self, body: &[u8], answer: &mut Answer) -> Result<(), String> {
        let said = reading::read(body);
        let starts = answer.word()?;
        same("outcome", &said.outcome, &((starts % 4) as u8))?;
        same("offset of the stop", &(said.stop as u32), &(starts / 4))?;
        same("has RET", &u32::from(said.has_ret), &answer.word()?)?;
        same("marks", said.marks.as_slice(), answer.bytes(body.len())?)?;
        self.count(["bodies whole", "bodies unknown", "bodies cut"][said.outcome as usize]);
        self.count(if said.has_ret { "bodies with RET" } else { "bodies without RET" });
        if body.len() > 300 {
            self.count("bodies above 300 bytes");
        }
        for at in (0..body.len()).filter(|&at| said.marks[at] != 0) {
            let (flow, target) = (answer.word()?, answer.long()?);
            self.way(body, &said, at, flow, target).map_err(|why| format!("at {at}: {why}"))?;
        }
        Ok(())
    }

    fn way(&mut self, body: &[u8], said: &Reading, at: usize, flow: u32, target: u64) -> Result<(), String> {
        let (way, offset) = reading::flow(body, &said.marks, at);
        same("way on", &way, &((flow % 4) as u8))?;
        same("offset word", &u32::from(offset as u16), &(flow / 4))?;
        self.count(["ways next", "ways jump", "ways branch", "ways return"][way as usize]);
        if !matches!(way, JUMP | BRANCH) {
            return Ok(());
        }
        let (legal, expected) = reading::target(&said.marks, at, offset);
        same("target", &(legal, expected), &(target & 1 == 1, (target >> 1) as u32 as i32))?;
        same("bits above the target", &0, &(target >> 33))?;
        self.count(match (legal, expected) {
            (true, target) if target as usize == body.len() => "targets legal, the length",
            (true, _) => "targets legal, a start",
            (false, ..=-1) => "targets illegal, before 0",
            (false, target) if target as usize > body.len() => "targets illegal, past the length",
            (false, _) => "targets illegal, no start",
        });
        Ok(())
    }

    fn lookup(&mut self, id: u16, found: u32) -> Result<(), String> {
        let row = if self.lists == 1 {
            arg_count_opt(id).map(|count| (count, u32::from(allocates_temp_buf(id))))
        } else {
            // No Rust speaks of other lists: row by row, as 01 reads.
            self.list.iter().find(|row| row.id == id).map(|row| (row.count, u32::from(row.flag)))
        };
        let expected = row.map_or(0, |(count, flag)| 1 + 2 * flag + 4 * u32::from(count));
        same(&format!("lookup of {id} in {} rows", self.list.len()), &expected, &found)?;
        self.count(match (self.lists == 1, row) {
            (true, None) => "ids unknown",
            (true, Some((_, 0))) => "ids listed",
            (true, Some(_)) => "ids listed, borrowing",
            (false, None) => "made-up lists, ids unknown",
            (false, Some(_)) => "made-up lists, ids listed",
        });
        Ok(())
    }
}

fn hex(bytes: &[u8]) -> String {
    let shown: Vec<String> = bytes.iter().take(320).map(|byte| format!("{byte:02X}")).collect();
    let more = if bytes.len() > 320 { format!(" .. ({} bytes)", bytes.len()) } else { String::new() };
    format!("`{}`{more}", shown.join(" "))
}

pub fn run(seed: u64, count: u64, command: &[&str]) -> Report {
    let mut driver = pipe::ask(command, cases::all(seed, count)?)?;
    let mut judge = Judge { list: vec![], lists: 0, tally: Tally::new() };
    let mut differences = 0;
    let mut report = String::new();
    for (number, case) in cases::all(seed, count)?.enumerate() {
        let answer = match driver.answer() {
            Ok(answer) => answer,
            Err(why) => return Err(format!("{report}case {number}: {why}")),
        };
        if let Err(why) = judge.judge(case, &answer) {
            differences += 1;
            if differences <= SHOWN {
                report += &format!("case {number} of seed {seed}: {why}\n");
            }
        }
    }
    driver.finish().map_err(|why| format!("{report}{why}"))?;
    for (what, times) in &judge.tally {
        report += &format!("{times:>10} {what}\n");
    }
    report += &format!("{differences} differences\n");
    if differences == 0 {
        Ok(report)
    } else {
        Err(report)
    }
}
