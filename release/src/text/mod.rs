//! The text form of records, which docs/TEXT-FORM.md describes: one command a line, with names in place of
//! stretches of the pool.

pub mod alike;
mod edit;
mod fault;
pub mod letters;
mod place;
mod read;
pub mod sort;
mod tokens;
mod words;
mod write;

pub use edit::{added, removed};
pub use fault::Fault;
pub use read::{assemble, read};
pub use tokens::{quoted, written};
pub use write::{constant_value, line, operands, show, texts};
