//! The example of a page: what is given to a call, and the answer that comes back.

use crate::record::parts::Parts;
use crate::record::room::{check_whole, load_whole};
use crate::text::{assemble, Fault};
use crate::{draft_add, draft_remove, list, pointers, shelf_back, shelf_new, shelf_set, Answer, Side};

/// A smallest case that gives a number. Records are texts wherever the text form can say them.
pub enum Example {
    /// A current record against a released one.
    Checked { current: &'static str, released: &'static str },
    /// The file of a record, in bytes, as the current one against any other.
    Bytes { file: &'static [u8] },
    /// The list of a record, lent this many bytes.
    Room { record: &'static str, room: usize },
    /// The check of a record's pointers.
    Pointers { record: &'static str },
    /// A type added to a draft.
    Added { draft: &'static str, addition: &'static str, released: &'static str },
    /// A type taken out of a draft.
    Removed { draft: &'static str, name: &'static str, released: &'static str },
    /// A pair of the load.
    Load { outcome: u32, seed: u32 },
    /// A draft set under a name on a new shelf.
    Set { name: &'static str, draft: &'static str },
    /// A draft asked for by a name on a new shelf.
    Back { name: &'static str, released: &'static str },
}

impl Example {
    /// The answer of the proved call.
    pub fn answer(&self) -> Result<Answer, Fault> {
        Ok(match self {
            Example::Checked { current, released } => {
                let (current, released) = (record(current)?, record(released)?);
                check_whole(current.record(), released.record()).0
            }
            Example::Bytes { file } => check_whole(in_bytes(file).record(), Parts::default().record()).0,
            Example::Room { record: text, room } => {
                list(record(text)?.record(), Side::Current, &mut vec![0; *room])
            }
            Example::Pointers { record: text } => pointers(record(text)?.record()),
            Example::Added { draft, addition, released } => {
                let (addition, released) = (record(addition)?, record(released)?);
                let mut draft = record(draft)?.to_bytes();
                draft_add(0, &mut draft, addition.record(), released.record()).answer
            }
            Example::Removed { draft, name, released } => {
                let released = record(released)?;
                let mut draft = record(draft)?.to_bytes();
                draft_remove(0, &mut draft, name.as_bytes(), released.record()).answer
            }
            Example::Load { outcome, seed } => load_whole(*outcome, *seed).0,
            Example::Set { name, draft } => {
                let draft = record(draft)?.to_bytes();
                shelf_set(shelf_new(), name.as_bytes(), &draft, &mut vec![0; draft.len()]).answer
            }
            Example::Back { name, released } => {
                let released = record(released)?;
                shelf_back(shelf_new(), name.as_bytes(), &mut [], &[], released.record()).answer
            }
        })
    }
}

/// The record of an example's text.
pub fn record(text: &str) -> Result<Parts, Fault> {
    assemble(text.as_bytes())
}

/// The record of an example's file.
pub fn in_bytes(mut file: &[u8]) -> Parts {
    // Reading from a slice does not fail.
    Parts::read(&mut file).unwrap_or_default()
}
