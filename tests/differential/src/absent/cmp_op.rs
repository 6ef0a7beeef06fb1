//! Stands for the module `cmp_op`, which `opcode.rs` only passes on: nothing of it is used by the checks.
