//! Fixed cases: the edges of document 01, and a case or more for each numbered
//! finding that an input can show. Labels begin with the finding's letter and
//! number, with the request of document 02 and the finding's number, or with
//! `edge`.

mod chains;
mod early;
pub mod edits;
mod late;
pub mod lists;
pub mod owners;
pub mod pointers;
pub mod records;
pub mod shelves;
pub mod utf8;

use super::Pair;
use super::encode::encode_spread;
use super::make;
use crate::model::{Content, Item, Struct};

/// A pair of readable contents.
#[derive(Clone, Debug)]
pub struct FixedPair {
    pub label: &'static str,
    pub current: Content,
    pub released: Content,
}

impl FixedPair {
    /// Put an item at the end of the current record.
    fn now(mut self, item: impl Into<Item>) -> Self {
        self.current.items.push(item.into());
        self
    }

    /// Put an item at the end of the released record.
    fn then(mut self, item: impl Into<Item>) -> Self {
        self.released.items.push(item.into());
        self
    }

    fn both(self, item: impl Into<Item>) -> Self {
        let item = item.into();
        self.now(item.clone()).then(item)
    }

    /// The pair as bytes, each text at a place of its own.
    pub fn encoded(&self) -> Pair {
        Pair {
            current: encode_spread(&self.current),
            released: encode_spread(&self.released),
        }
    }
}

/// All fixed pairs.
pub fn pairs() -> Vec<FixedPair> {
    [early::pairs(), late::pairs(), chains::pairs()].concat()
}

/// The release that fixed pairs are checked in, and the one before it.
const NOW: &str = "0.9.0";
const THEN: &str = "0.8.0";

fn now() -> Content {
    make::content(NOW)
}

fn then() -> Content {
    make::content(THEN)
}

fn pair(label: &'static str, current: Content, released: Content) -> FixedPair {
    FixedPair {
        label,
        current,
        released,
    }
}

/// A pair that has this item in both records.
fn shared(label: &'static str, item: impl Into<Item>) -> FixedPair {
    pair(label, now(), then()).both(item)
}

/// A pair that has this item in the current record and that one in the copy.
fn changed(label: &'static str, is: impl Into<Item>, was: impl Into<Item>) -> FixedPair {
    pair(label, now().with(is), then().with(was))
}

/// The structure of the metadata slot, with the generation constant G.
fn metadata(name: &str) -> Struct {
    make::root(name, "metadata", "G")
}
