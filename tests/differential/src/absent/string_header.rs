//! Stands for `STRING_HEADER_BYTES`, which `type_section.rs` names: three 16-bit fields before a string's data.

pub const STRING_HEADER_BYTES: usize = 6;
