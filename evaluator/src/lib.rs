//! An evaluator of GDB agent expressions written from document 01 alone. It
//! shares nothing with the proved crates; their test vectors and the differential
//! tests come from it.

pub mod counts;
pub mod frames;
pub mod generate;
pub mod hex;
pub mod isa;
pub mod leaf;
pub mod machine;
pub mod memory;
pub mod random;
pub mod reader;
pub mod reads;
pub mod runs;
pub mod vectors;
pub mod verify;
pub mod walks;
pub mod words;
