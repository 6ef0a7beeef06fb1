//! Stands for the module `id_types`, which document 000 names and does not contain: two ids over u16.

use std::fmt;

macro_rules! id {
    ($name:ident) => {
        #[derive(Clone, Copy, Debug, PartialEq, Eq, Hash)]
        pub struct $name(u16);

        #[allow(dead_code)]
        impl $name {
            pub const fn new(raw: u16) -> Self {
                $name(raw)
            }

            pub const fn raw(self) -> u16 {
                self.0
            }

            pub const fn to_le_bytes(self) -> [u8; 2] {
                self.0.to_le_bytes()
            }
        }

        impl fmt::Display for $name {
            fn fmt(&self, f: &mut fmt::Formatter<'_>) -> fmt::Result {
                self.0.fmt(f)
            }
        }
    };
}

id!(FunctionId);
id!(FbTypeId);
