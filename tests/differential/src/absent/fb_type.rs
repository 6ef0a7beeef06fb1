//! Stands for the module `fb_type`, which `opcode.rs` only passes on: nothing of it is used by the checks.
