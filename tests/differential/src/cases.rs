//! The questions of a comparison, one after the other, from a seed: who asks and who judges make the same ones.

use crate::bodies::Bodies;
use crate::export::{self, Row, ROW_LIMIT};
use crate::opcode;
use crate::pipe::Question;
use crate::program::CODE_LIMIT;

pub enum Case {
    /// The size of each of the 256 bytes.
    Sizes,
    /// Everything about one body.
    Body(Vec<u8>),
    /// The list that later lookups are in.
    List(Vec<Row>),
    /// Ids to look up.
    Lookup(Vec<u16>),
}

/// The kinds of requests (tests/driver/PROTOCOL.md).
const SIZES: u8 = 1;
const BODY: u8 = 2;
pub const LIST: u8 = 3;
const LOOKUP: u8 = 4;

impl Question for Case {
    fn request(&self) -> (u8, Vec<u8>) {
        match self {
            Case::Sizes => (SIZES, vec![]),
            Case::Body(body) => (BODY, body.clone()),
            Case::List(rows) => (LIST, rows.iter().flat_map(|row| row.bytes()).collect()),
            Case::Lookup(ids) => (LOOKUP, ids.iter().flat_map(|id| id.to_le_bytes()).collect()),
        }
    }
}

/// Sizes; every id in the exported list; every body of at most two bytes; a lone JMP with every offset word; `count` random
/// bodies; made-up lists.
pub fn all(seed: u64, count: u64) -> Result<impl Iterator<Item = Case>, String> {
    let list = export::code_list()?;
    let fixed = [Case::Sizes, Case::List(list), Case::Lookup((0..=u16::MAX).collect())];
    let one = (0..=u8::MAX).map(|a| Case::Body(vec![a]));
    let two = (0..=u16::MAX).map(|word| Case::Body(word.to_le_bytes().to_vec()));
    let jumps = (0..=u16::MAX).map(|word| {
        let [low, high] = word.to_le_bytes();
        Case::Body(vec![opcode::JMP, low, high])
    });
    let mut source = Bodies::new(seed);
    let random = (0..count).map(move |turn| {
        let longest = if turn % 100 == 99 { CODE_LIMIT } else { 300 };
        let length = match source.random.below(20) {
            0 => longest,
            _ => source.random.between(0, longest),
        };
        Case::Body(source.any(length))
    });
    let mut source = Bodies::new(!seed);
    let lists = (0..count.div_ceil(100)).flat_map(move |_| made_up_list(&mut source));
    Ok(fixed.into_iter().chain([Case::Body(vec![])]).chain(one).chain(two).chain(jumps).chain(random).chain(lists))
}

/// A list of rising ids with any counts, and ids to look up in it: each of its own, their neighbours and others.
fn made_up_list(source: &mut Bodies) -> [Case; 2] {
    let random = &mut source.random;
    let limit = random.one_of(&[0, 1, 2, 3, 10, 100, 1000, ROW_LIMIT]);
    let mut ids: Vec<u16> = (0..random.between(0, limit)).map(|_| random.word()).collect();
    if !ids.is_empty() && random.below(4) == 0 {
        ids[0] = random.one_of(&[0, u16::MAX]);
    }
    ids.sort();
    ids.dedup();
    let rows = ids.iter().map(|&id| Row { id, count: random.word(), flag: random.word() & 1 }).collect();
    let mut asked: Vec<u16> = ids.iter().flat_map(|&id| [id.wrapping_sub(1), id, id.wrapping_add(1)]).collect();
    asked.extend((0..50).map(|_| random.word()));
    asked.extend([0, u16::MAX]);
    [Case::List(rows), Case::Lookup(asked)]
}
