//! The comparison part of metadata-gen, built unchanged, as the judge of its
//! port: answers of the check, the list, the owner call and the check of
//! pointers, and the records to ask them of.

include!(concat!(env!("OUT_DIR"), "/metadata_gen.rs"));

pub mod answers;
pub mod commands;
pub mod draft_vectors;
pub mod edits;
pub mod extent;
pub mod generate;
mod items;
pub mod json;
pub mod keys_gen;
pub mod load;
pub mod model;
pub mod operands;
pub mod pairs;
pub mod parts;
pub mod pointers;
pub mod reader;
pub mod replay;
pub mod rng;
pub mod samples;
pub mod shelf;
pub mod shelf_vectors;
pub mod shrink;
pub mod stats;
pub mod utf8_vectors;
pub mod values;
pub mod vectors;
pub mod verdicts;
pub mod visit;

pub use answers::{Answer, Owner, check, list, owner};
pub use model::Side;
pub use pointers::pointers;
