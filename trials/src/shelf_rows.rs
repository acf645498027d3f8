//! The time of the calls of a shelf that holds eight drafts, beside the check's on the same pair.

use menqachu::{Shelf, shelf_back, shelf_new, shelf_set};
use oracle::edits::parts_of;
use oracle::generate::Pair;
use oracle::reader::{POOL_LIMIT, STREAM_LIMIT};

use crate::clock::{least, timed};
use crate::differ::record;
use crate::edit_rows::print_row;
use crate::inputs::{self, Input};

/// A shelf that holds a draft eight times, in a buffer that they fill, and the copy.
pub struct Shelves {
    pub pair: Pair,
    draft: Vec<u8>,
    shelf: Shelf,
    pub held: Vec<u8>,
}

const NAMES: [&[u8]; 8] = [b"1", b"2", b"3", b"4", b"5", b"6", b"7", b"8"];

impl Shelves {
    pub fn of(input: &Input) -> Self {
        let pair = input.records();
        let draft = parts_of(&pair.current);
        let mut held = vec![0; NAMES.len() * draft.len()];
        let mut shelf = shelf_new();
        for name in NAMES {
            let set = shelf_set(shelf, name, &draft, &mut held);
            assert_eq!(set.answer.number, 0, "{}", input.name);
            shelf = set.shelf;
        }
        Shelves { pair, draft, shelf, held }
    }

    /// Sets the first name again: all other drafts move.
    pub fn set(&self, held: &mut [u8]) -> u32 {
        shelf_set(self.shelf, NAMES[0], &self.draft, held).answer.number
    }

    /// Comes back to the last name.
    pub fn back(&self, draft: &mut [u8]) -> u32 {
        shelf_back(self.shelf, NAMES[7], draft, &self.held, record(&self.pair.released)).answer.number
    }
}

/// A buffer for any draft.
pub fn lent() -> Vec<u8> {
    vec![0; 8 + STREAM_LIMIT + POOL_LIMIT]
}

/// A line a call, on the small and the realistic pair.
pub fn run() {
    for input in inputs::named().iter().take(2) {
        let shelves = Shelves::of(input);
        let (mut held, mut draft) = (shelves.held.clone(), lent());
        let mut out = vec![0; oracle::answers::ROOM];
        let (now, was) = (record(&shelves.pair.current), record(&shelves.pair.released));
        assert_eq!([shelves.set(&mut held), shelves.back(&mut draft)], [0; 2], "{}", input.name);
        let [check, set, back] = least([
            &mut || timed(|| menqachu::check(now, was, &mut out)),
            &mut || timed(|| shelves.set(&mut held)),
            &mut || timed(|| shelves.back(&mut draft)),
        ]);
        for (call, ours) in [("shelf_set", set), ("shelf_back", back)] {
            print_row(call, input, now.stream.len(), ours, check);
        }
    }
}

/// One call on one input so many times and nothing else; none where the words name no call or no input.
pub fn repeat(call: &str, name: &str, turns: u64) -> Option<()> {
    let input = inputs::named().into_iter().find(|input| input.name == name)?;
    let shelves = Shelves::of(&input);
    let (mut held, mut draft) = (shelves.held.clone(), lent());
    for _ in 0..turns {
        let number = match call {
            "shelf_set" => shelves.set(&mut held),
            "shelf_back" => shelves.back(&mut draft),
            _ => return None,
        };
        std::hint::black_box(number);
    }
    Some(())
}
