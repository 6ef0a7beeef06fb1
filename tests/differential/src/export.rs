//! `export`: the code list of document 000, over all 65,536 ids.

use crate::opcode::builtin::{allocates_temp_buf, arg_count_opt};
use crate::Report;
use std::path::Path;

/// 01's limit on the rows of a code list.
pub const ROW_LIMIT: usize = 6144;

#[derive(Clone, Copy, Debug, PartialEq, Eq)]
pub struct Row {
    pub id: u16,
    pub count: u16,
    pub flag: u16,
}

impl Row {
    pub fn bytes(self) -> [u8; 6] {
        let [a, b] = self.id.to_le_bytes();
        let [c, d] = self.count.to_le_bytes();
        let [e, f] = self.flag.to_le_bytes();
        [a, b, c, d, e, f]
    }
}

/// A row for each id with a count, ids rising.
pub fn code_list() -> Result<Vec<Row>, String> {
    let mut rows = Vec::new();
    for id in 0..=u16::MAX {
        let borrows = allocates_temp_buf(id);
        match arg_count_opt(id) {
            Some(count) => rows.push(Row { id, count, flag: borrows.into() }),
            None if borrows => return Err(format!("id {id} borrows a buffer and has no count")),
            None => {}
        }
    }
    if rows.len() > ROW_LIMIT {
        return Err(format!("{} rows are more than {ROW_LIMIT}", rows.len()));
    }
    Ok(rows)
}

pub fn run(dir: &Path) -> Report {
    let rows = code_list()?;
    let mut text = String::from("# Made by `differential export`: id, argument count, borrows a buffer.\n");
    for Row { id, count, flag } in &rows {
        text += &format!("{id} {count} {flag}\n");
    }
    let binary: Vec<u8> = rows.iter().flat_map(|row| row.bytes()).collect();
    crate::write(dir, "code-list.txt", text.as_bytes())?;
    crate::write(dir, "code-list.bin", &binary)?;
    let borrowing: Vec<u16> = rows.iter().filter(|row| row.flag == 1).map(|row| row.id).collect();
    Ok(format!("{} rows, borrowing: {borrowing:?}\n", rows.len()))
}
