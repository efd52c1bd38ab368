//! What asks the Rust: a line or a packed record in, a line out.
pub mod ask;
pub mod cases;
pub mod differences;
pub(crate) mod leaf;
pub mod record;
pub mod rng;
pub mod table;
pub mod words;
