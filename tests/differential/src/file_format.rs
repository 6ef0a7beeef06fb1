//! The bench file, read as 01 has it ("Bench file, program and C entry") and written, apart from the crates. The writer's refusals are those of
//! `write_file`: 01 does not speak of writing.

/// The most rows of each table, and the most bytes of code.
pub const ROWS: usize = 6_144;
pub const FUNCTIONS: usize = 128;
pub const DESCRIPTORS: usize = 256;
pub const ENTRIES: usize = 32;
pub const CODE: usize = 12_288;

/// The longest file.
pub const LONGEST: usize = 65_536;

/// The tables of a program column by column: to be read into, or as they are to be written.
#[derive(Clone, Debug, Default, PartialEq)]
pub struct Columns {
    pub list_ids: Vec<u16>,
    pub list_counts: Vec<u16>,
    pub list_flags: Vec<u16>,
    pub function_ids: Vec<u16>,
    pub parameters: Vec<u16>,
    pub maxima: Vec<u16>,
    pub offsets: Vec<u64>,
    pub lengths: Vec<u64>,
    pub type_ids: Vec<u16>,
    pub descriptor_functions: Vec<u16>,
    pub entries: Vec<u16>,
    pub code: Vec<u8>,
}

/// The number of columns.
pub const COLUMNS: usize = 12;

/// The most cells of each, in the order of `Columns`.
pub const LIMITS: [usize; COLUMNS] =
    [ROWS, ROWS, ROWS, FUNCTIONS, FUNCTIONS, FUNCTIONS, FUNCTIONS, FUNCTIONS, DESCRIPTORS, DESCRIPTORS, ENTRIES, CODE];

impl Columns {
    pub fn of(cells: [usize; COLUMNS]) -> Columns {
        let mut columns = Columns::default();
        columns.resize(cells);
        columns
    }

    /// Columns of so many cells each: cut, or grown by zeros.
    pub fn resize(&mut self, cells: [usize; COLUMNS]) {
        let [a, b, c, d, e, f, g, h, i, j, k, l] = cells;
        self.list_ids.resize(a, 0);
        self.list_counts.resize(b, 0);
        self.list_flags.resize(c, 0);
        self.function_ids.resize(d, 0);
        self.parameters.resize(e, 0);
        self.maxima.resize(f, 0);
        self.offsets.resize(g, 0);
        self.lengths.resize(h, 0);
        self.type_ids.resize(i, 0);
        self.descriptor_functions.resize(j, 0);
        self.entries.resize(k, 0);
        self.code.resize(l, 0);
    }

    pub fn cells(&self) -> [usize; COLUMNS] {
        [
            self.list_ids.len(),
            self.list_counts.len(),
            self.list_flags.len(),
            self.function_ids.len(),
            self.parameters.len(),
            self.maxima.len(),
            self.offsets.len(),
            self.lengths.len(),
            self.type_ids.len(),
            self.descriptor_functions.len(),
            self.entries.len(),
            self.code.len(),
        ]
    }
}

/// What was read: the pool, and how many rows of each table and bytes of code.
#[derive(Clone, Copy, Debug, PartialEq)]
pub struct Sizes {
    pub pool: u16,
    pub rows: usize,
    pub functions: usize,
    pub descriptors: usize,
    pub entries: usize,
    pub code: usize,
}

impl Sizes {
    /// How many cells of each column.
    pub fn cells(&self) -> [usize; COLUMNS] {
        let Sizes { rows, functions, descriptors, entries, code, .. } = *self;
        let [a, b, c] = [rows; 3];
        let [d, e, f, g, h] = [functions; 5];
        [a, b, c, d, e, f, g, h, descriptors, descriptors, entries, code]
    }
}

/// A refusal's number and place.
#[derive(Clone, Copy, Debug, PartialEq)]
pub struct Refused {
    pub number: u32,
    pub place: usize,
}

struct Reader<'a> {
    file: &'a [u8],
    at: usize,
}

impl Reader<'_> {
    fn early(&self) -> Refused {
        Refused { number: 41, place: self.file.len() }
    }

    fn number(&mut self) -> Result<u16, Refused> {
        let group = |byte: u8| u16::from(byte & 127);
        let (number, length) = match self.file[self.at..] {
            [low @ 0..=127, ..] => (u16::from(low), 1),
            [low, middle @ 1..=127, ..] => (group(low) | group(middle) << 7, 2),
            [low, middle @ 128..=255, high @ 1..=3, ..] => (group(low) | group(middle) << 7 | group(high) << 14, 3),
            [] | [_] | [_, 128..=255] => return Err(self.early()),
            _ => return Err(Refused { number: 40, place: self.at }),
        };
        self.at += length;
        Ok(number)
    }

    fn count(&mut self, limit: usize) -> Result<usize, Refused> {
        let count = usize::from(self.number()?);
        if count > limit {
            return Err(Refused { number: 31, place: 0 });
        }
        Ok(count)
    }
}

/// Reads a file into the fronts of the columns, in one pass. The columns must have their most cells; what a refused file has put
/// into them means nothing.
pub fn read(file: &[u8], into: &mut Columns) -> Result<Sizes, Refused> {
    if file.len() > LONGEST {
        return Err(Refused { number: 43, place: LONGEST });
    }
    let mut reader = Reader { file, at: 0 };
    let pool = reader.number()?;
    let rows = reader.count(ROWS)?;
    let list = into.list_ids.iter_mut().zip(&mut into.list_counts).zip(&mut into.list_flags);
    for ((id, count), flag) in list.take(rows) {
        *id = reader.number()?;
        *count = reader.number()?;
        *flag = reader.number()?;
    }
    let functions = reader.count(FUNCTIONS)?;
    for row in 0..functions {
        into.function_ids[row] = reader.number()?;
        into.parameters[row] = reader.number()?;
        into.maxima[row] = reader.number()?;
        into.offsets[row] = reader.number()?.into();
        into.lengths[row] = reader.number()?.into();
    }
    let descriptors = reader.count(DESCRIPTORS)?;
    for row in 0..descriptors {
        into.type_ids[row] = reader.number()?;
        into.descriptor_functions[row] = reader.number()?;
    }
    let entries = reader.count(ENTRIES)?;
    for entry in &mut into.entries[..entries] {
        *entry = reader.number()?;
    }
    let code = reader.count(CODE)?;
    let Some(bytes) = file.get(reader.at..reader.at + code) else {
        return Err(reader.early());
    };
    into.code[..code].copy_from_slice(bytes);
    let end = reader.at + code;
    if end < file.len() {
        return Err(Refused { number: 42, place: end });
    }
    Ok(Sizes { pool, rows, functions, descriptors, entries, code })
}

/// What writing comes to: the file, 31, or no room.
#[derive(Clone, Debug, PartialEq)]
pub enum Wrote {
    File(Vec<u8>),
    Refused,
    NoRoom,
}

/// The shortest form of a number.
pub fn form(number: u16) -> Vec<u8> {
    let mut bytes = vec![];
    let mut rest = number;
    while rest > 127 {
        bytes.push(rest as u8 | 128);
        rest >>= 7;
    }
    bytes.push(rest as u8);
    bytes
}

/// One row after the other, or none if the columns differ in length or have too many rows or a number above 65,535.
fn table(file: &mut Vec<u8>, limit: usize, columns: &[Vec<u64>]) -> Option<()> {
    let rows = columns[0].len();
    if rows > limit || columns.iter().any(|column| column.len() != rows) {
        return None;
    }
    file.extend(form(rows as u16));
    for row in 0..rows {
        for column in columns {
            file.extend(form(u16::try_from(column[row]).ok()?));
        }
    }
    Some(())
}

fn written(pool: u16, columns: &Columns) -> Option<Vec<u8>> {
    let wide = |column: &[u16]| column.iter().map(|&word| u64::from(word)).collect::<Vec<u64>>();
    let Columns { list_ids, list_counts, list_flags, function_ids, parameters, maxima, offsets, lengths, .. } = columns;
    let functions = [function_ids, parameters, maxima].map(|column| wide(column));
    let [ids, parameters, maxima] = functions;
    let mut file = form(pool);
    table(&mut file, ROWS, &[list_ids, list_counts, list_flags].map(|column| wide(column)))?;
    table(&mut file, FUNCTIONS, &[ids, parameters, maxima, offsets.clone(), lengths.clone()])?;
    table(&mut file, DESCRIPTORS, &[wide(&columns.type_ids), wide(&columns.descriptor_functions)])?;
    table(&mut file, ENTRIES, &[wide(&columns.entries)])?;
    if columns.code.len() > CODE {
        return None;
    }
    file.extend(form(columns.code.len() as u16));
    file.extend(&columns.code);
    Some(file)
}

/// The program's file, if it fits so many bytes and no more than the longest has.
pub fn write(pool: u16, columns: &Columns, room: usize) -> Wrote {
    match written(pool, columns) {
        None => Wrote::Refused,
        Some(file) if file.len() > room.min(LONGEST) => Wrote::NoRoom,
        Some(file) => Wrote::File(file),
    }
}
