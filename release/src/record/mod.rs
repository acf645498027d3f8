//! Records as bytes: their file, their commands, their numbers, their layouts, the order of their sections, and drafts in a shelf's file.

pub mod apart;
pub mod commands;
pub mod decode;
pub mod encode;
pub mod layout;
pub mod numbers;
pub mod owners;
pub mod pair;
pub mod parts;
pub mod pointers;
pub mod reorder;
pub mod room;
pub mod sections;
pub mod shelf;
pub mod twice;

use crate::Answer;

/// Why a record has no layouts, no sections, no text form or no judged pointers.
#[derive(Clone, Copy, Debug, PartialEq, Eq)]
pub enum Problem {
    /// The proved call refuses the record.
    Refused(Answer),
    /// A command of a record that the proved call took cannot be decoded.
    Undecoded { place: usize },
    /// A line of the list, counted from 1, is not the one that the record's names ask for.
    Unfit { line: usize },
}
