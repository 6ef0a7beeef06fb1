//! `file`: the bench file's reader and writer of a driver against those of `file_format`, every cell and every byte.

use crate::file_format::{self, Columns, Refused, Sizes, Wrote, COLUMNS, LIMITS};
use crate::files::{self, Made};
use crate::pipe::{self, Question};
use crate::random::Random;
use crate::Report;
use std::collections::BTreeMap;

/// The kinds of requests (tests/driver/PROTOCOL.md).
const READ: u8 = 7;
const WRITE: u8 = 8;

/// So many differences are printed.
const SHOWN: usize = 5;

enum Query {
    Read { fill: u8, lent: [usize; COLUMNS], made: Made },
    Write { fill: u8, room: usize, pool: u16, columns: Columns },
}

fn lengths(cells: [usize; COLUMNS]) -> impl Iterator<Item = u8> {
    cells.into_iter().flat_map(|cells| (cells as u32).to_le_bytes())
}

/// The cells of all columns, low byte first, offsets and lengths in eight bytes.
fn cells(columns: &Columns) -> Vec<u8> {
    let words = |columns: &[&Vec<u16>]| -> Vec<u8> {
        columns.iter().flat_map(|column| column.iter()).flat_map(|word| word.to_le_bytes()).collect()
    };
    let c = columns;
    let mut bytes = words(&[&c.list_ids, &c.list_counts, &c.list_flags, &c.function_ids, &c.parameters, &c.maxima]);
    bytes.extend(c.offsets.iter().chain(&c.lengths).flat_map(|number| number.to_le_bytes()));
    bytes.extend(words(&[&c.type_ids, &c.descriptor_functions, &c.entries]));
    bytes.extend(&c.code);
    bytes
}

impl Question for Query {
    fn request(&self) -> (u8, Vec<u8>) {
        match self {
            Query::Read { fill, lent, made } => {
                let mut bytes = vec![*fill];
                bytes.extend(lengths(*lent));
                bytes.extend(&made.file);
                (READ, bytes)
            }
            Query::Write { fill, room, pool, columns } => {
                let mut bytes = vec![*fill];
                bytes.extend((*room as u32).to_le_bytes());
                bytes.extend(pool.to_le_bytes());
                bytes.extend(lengths(columns.cells()));
                bytes.extend(cells(columns));
                (WRITE, bytes)
            }
        }
    }
}

fn read_query(random: &mut Random) -> Query {
    let made = files::any(random);
    Query::Read { fill: random.byte(), lent: files::lent(random), made }
}

fn write_query(random: &mut Random) -> Query {
    let columns = files::columns(random);
    let pool = random.word();
    let length = match file_format::write(pool, &columns, usize::MAX) {
        Wrote::File(file) => file.len(),
        Wrote::NoRoom | Wrote::Refused => file_format::LONGEST,
    };
    Query::Write { fill: random.byte(), room: files::room(random, length), pool, columns }
}

/// So many files, and a fifth as many columns to be written.
fn all(seed: u64, count: u64) -> impl Iterator<Item = Query> + Send {
    let mut random = Random::new(seed);
    let files = (0..count).map(move |_| read_query(&mut random));
    let mut random = Random::new(!seed);
    files.chain((0..count.div_ceil(5)).map(move |_| write_query(&mut random)))
}

/// What the driver must say of a buffer: number, nothing else changed, length and file.
fn wrote_bytes(wrote: &Wrote) -> Vec<u8> {
    let (number, file) = match wrote {
        Wrote::File(file) => (4 * file.len() as u32, file.as_slice()),
        Wrote::Refused => (31 * 4 + 1, [].as_slice()),
        Wrote::NoRoom => (2, [].as_slice()),
    };
    let mut bytes = number.to_le_bytes().to_vec();
    bytes.push(0);
    bytes.extend((file.len() as u32).to_le_bytes());
    bytes.extend(file);
    bytes
}

#[derive(Default)]
struct Judge {
    /// What files are read into; what refused ones leave there is never looked at.
    columns: Columns,
    tally: BTreeMap<String, u64>,
    differences: u64,
    shown: String,
}

impl Judge {
    fn count(&mut self, what: String) {
        *self.tally.entry(what).or_default() += 1;
    }

    /// The refusal of short columns comes before the file is looked at.
    fn outcome(&mut self, lent: &[usize; COLUMNS], file: &[u8]) -> Result<Sizes, Refused> {
        if lent.iter().zip(LIMITS).any(|(&cells, limit)| cells < limit) {
            return Err(Refused { number: 30, place: 0 });
        }
        self.columns.resize(LIMITS);
        file_format::read(file, &mut self.columns)
    }

    /// What the driver must say: eight numbers, that no other cell changed, and for a file that was read its cells, the same
    /// file written again, and no room in one byte less.
    fn wanted(&mut self, lent: &[usize; COLUMNS], made: &Made) -> Vec<u8> {
        let mut bytes = vec![];
        let mut put = |numbers: [usize; 8]| bytes.extend(numbers.iter().flat_map(|&n| (n as u32).to_le_bytes()));
        match self.outcome(lent, &made.file) {
            Err(Refused { number, place }) => {
                self.count(format!("files refused with {number}"));
                put([number as usize, place, 0, 0, 0, 0, 0, 0]);
                bytes.push(0);
            }
            Ok(sizes) => {
                self.count("files read and written again".into());
                if made.file.len() == file_format::LONGEST {
                    self.count("files of 65536 bytes, read and written again".into());
                }
                let Sizes { pool, rows, functions, descriptors, entries, code } = sizes;
                put([0, 0, pool.into(), rows, functions, descriptors, entries, code]);
                bytes.push(0);
                self.columns.resize(sizes.cells());
                bytes.extend(cells(&self.columns));
                let wrote = file_format::write(pool, &self.columns, made.file.len());
                assert!(wrote == Wrote::File(made.file.clone()), "the second reading does not write back what it read");
                bytes.extend(wrote_bytes(&wrote));
                bytes.extend(wrote_bytes(&Wrote::NoRoom));
            }
        }
        bytes
    }

    fn judge(&mut self, query: &Query, answer: &[u8]) {
        let wanted = match query {
            Query::Read { lent, made, .. } => {
                self.count(format!("files, {}", made.sort));
                match made.file.len() {
                    0..65_536 => {}
                    65_538.. => self.count("files above 65537 bytes".into()),
                    length => self.count(format!("files of {length} bytes")),
                }
                self.wanted(lent, made)
            }
            Query::Write { room, pool, columns, .. } => {
                let wrote = file_format::write(*pool, columns, *room);
                if wrote == Wrote::NoRoom && *room > file_format::LONGEST {
                    self.count("columns without room within 65536 bytes".into());
                }
                self.count(match &wrote {
                    Wrote::File(_) => "columns written".into(),
                    Wrote::Refused => "columns refused with 31".into(),
                    Wrote::NoRoom => "columns without room".into(),
                });
                wrote_bytes(&wrote)
            }
        };
        if answer != wanted {
            self.differ(query, &wanted, answer);
        }
    }

    fn differ(&mut self, query: &Query, wanted: &[u8], found: &[u8]) {
        self.differences += 1;
        if self.differences > SHOWN as u64 {
            return;
        }
        let at = wanted.iter().zip(found).position(|(a, b)| a != b).unwrap_or(wanted.len().min(found.len()));
        let front = |bytes: &[u8]| format!("{:02X?}", &bytes[..bytes.len().min(200)]);
        let (kind, request) = query.request();
        self.shown += &format!(
            "request {kind} {}\n  wanted {} bytes {}\n  the driver says {} bytes {}\n  the first difference is at {at}\n",
            front(&request),
            wanted.len(),
            front(wanted),
            found.len(),
            front(found)
        );
    }

    fn report(&self) -> Report {
        let mut report = self.shown.clone();
        for (what, times) in &self.tally {
            report += &format!("{times:>10} {what}\n");
        }
        report += &format!("{} differences\n", self.differences);
        if self.differences == 0 {
            Ok(report)
        } else {
            Err(report)
        }
    }
}

/// Every answer that there is, so often at least.
const ANSWERS: [&str; 10] = [
    "files read and written again",
    "files refused with 30",
    "files refused with 31",
    "files refused with 40",
    "files refused with 41",
    "files refused with 42",
    "files refused with 43",
    "columns written",
    "columns refused with 31",
    "columns without room",
];

pub fn run(seed: u64, count: u64, command: &[&str]) -> Report {
    let mut driver = pipe::ask(command, all(seed, count))?;
    let mut judge = Judge::default();
    for (number, query) in all(seed, count).enumerate() {
        let answer = driver.answer().map_err(|why| format!("question {number} of seed {seed}: {why}"))?;
        judge.judge(&query, &answer);
    }
    driver.finish()?;
    let report = judge.report()?;
    let least = count / 2000;
    match ANSWERS.iter().find(|&&answer| judge.tally.get(answer).copied().unwrap_or(0) < least) {
        Some(answer) => Err(format!("{report}{answer}: fewer than {least} times")),
        None => Ok(report),
    }
}
