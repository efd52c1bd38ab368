//! The C surface beside the given Rust: the answers of both to a case, and what they came to. The fuzzer asks by it too.
pub mod classes;
pub mod ours;
pub mod tally;
