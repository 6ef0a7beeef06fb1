//! Stands for the module `policy`: the two policies that `builtin.rs` folds into an id, with three and two alternatives.
//! Neither lookup of the code list goes through them.

pub trait BehaviorPolicy: Sized {
    fn index(self) -> u16;
    fn from_index(index: u16) -> Option<Self>;
}

macro_rules! policy {
    ($name:ident, $alternatives:literal) => {
        #[derive(Clone, Copy, Debug, PartialEq, Eq)]
        pub struct $name(u16);

        impl BehaviorPolicy for $name {
            fn index(self) -> u16 {
                self.0
            }

            fn from_index(index: u16) -> Option<Self> {
                (index < $alternatives).then_some($name(index))
            }
        }
    };
}

policy!(StringToNumNonNumeric, 3);
policy!(StringToNumFailure, 2);
