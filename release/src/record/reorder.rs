//! Whether two records have the same sections in another order, as W-214 of document 02 moves them: whole sections,
//! and in a section its values, members or variants. Fields keep their order.

use std::collections::{HashMap, VecDeque};

use super::apart::{apart, Apart};
use super::commands::{MEMBER, VALUE, VARIANT};
use super::sections::Block;
use crate::Record;

/// How the sections of one record stand to those of another.
pub enum Order {
    /// They are not the same.
    Apart(Apart),
    /// They say the same.
    Alike { moves: Moves, bytes: Bytes },
}

/// Where the same sections lie in the two records, byte by byte.
#[derive(Clone, Copy, Debug, PartialEq, Eq)]
pub enum Bytes {
    /// The records are the same.
    Equal,
    /// The pool is the same, and every command is one of the other's: what W-214 is proved of.
    Moved,
    /// The pool is the same; texts lie at other places of it, or bytes differ that no call reads.
    OtherPlaces,
    OtherPool,
}

/// How many stand at another place among those of their parent than their counterparts do.
#[derive(Clone, Copy, Debug, Default, PartialEq, Eq)]
pub struct Moves {
    pub sections: usize,
    pub values: usize,
    pub members: usize,
    pub variants: usize,
}

/// Compares two records, each given with its block.
pub fn order((one, first): (Record, &Block), (other, second): (Record, &Block)) -> Order {
    if let Some(apart) = apart(first, second) {
        return Order::Apart(apart);
    }
    let mut moves = Moves::default();
    moves.count(first, second);
    let bytes = match (one.pool == other.pool, first.bytes == second.bytes) {
        (true, true) if one.stream == other.stream => Bytes::Equal,
        (true, true) => Bytes::Moved,
        (true, false) => Bytes::OtherPlaces,
        (false, _) => Bytes::OtherPool,
    };
    Order::Alike { moves, bytes }
}

impl Moves {
    pub fn none(&self) -> bool {
        *self == Moves::default()
    }

    fn count(&mut self, first: &Block, second: &Block) {
        for (at, found) in counterparts(&first.parts, &second.parts).into_iter().enumerate() {
            let Some(to) = found else { continue };
            let (part, other) = (&first.parts[at], &second.parts[to]);
            let counted = match part.opener().command.byte {
                VALUE => &mut self.values,
                MEMBER => &mut self.members,
                VARIANT => &mut self.variants,
                _ => &mut self.sections,
            };
            *counted += usize::from(at != to);
            self.count(part, other);
        }
    }
}

/// For each of these blocks the index of its counterpart among the others: of equal ones the n-th has the n-th.
pub fn counterparts(ones: &[Block], others: &[Block]) -> Vec<Option<usize>> {
    let mut places: HashMap<&str, VecDeque<usize>> = HashMap::new();
    for (at, other) in others.iter().enumerate() {
        places.entry(&other.contents).or_default().push_back(at);
    }
    ones.iter().map(|one| places.get_mut(one.contents.as_str())?.pop_front()).collect()
}
