//! The time of the calls of a draft beside the check's on the same pair.

use menqachu::Record;
use oracle::edits::parts_of;
use oracle::generate::encode::{Encoded, encode_over};
use oracle::generate::make;
use oracle::model::Item;
use oracle::reader::{POOL_LIMIT, STREAM_LIMIT};

use crate::clock::{least, timed};
use crate::differ::record;
use crate::inputs::{self, Input};
use crate::table::grouped;

const HEAD: &str = "\
| call | input | stream, bytes | ours, ns | our check, ns | ours / our check |
|---|---|---|---|---|---|";

/// A draft, its copy, and its last type by its name and as an addition.
pub struct Edits {
    pub pair: oracle::generate::Pair,
    pub whole: Vec<u8>,
    pub less: Vec<u8>,
    pub addition: Encoded,
    pub name: String,
}

impl Edits {
    pub fn of(input: &Input) -> Self {
        let pair = input.records();
        let is_type = |item: &&Item| matches!(item, Item::Struct(_) | Item::Family(_));
        let last = input.current.items.iter().rfind(is_type).expect("an input has types");
        let mut whole = parts_of(&pair.current);
        whole.resize(8 + STREAM_LIMIT + POOL_LIMIT, 0);
        let mut less = whole.clone();
        let removed = menqachu::draft_remove(0, &mut less, last.name().as_bytes(), record(&pair.released));
        assert_eq!(removed.answer.number, 0, "{}", input.name);
        let release = input.current.release.as_deref().expect("a current record has a release");
        let addition = encode_over(&make::content(release).with(last.clone()), pair.current.pool.clone());
        let name = last.name().to_string();
        Edits { pair, whole, less, addition, name }
    }

    fn copy(&self) -> Record<'_> {
        record(&self.pair.released)
    }

    /// Takes the last type out of the draft, which `buffer` is made to hold first.
    pub fn remove(&self, buffer: &mut [u8]) -> u32 {
        buffer.copy_from_slice(&self.whole);
        menqachu::draft_remove(0, buffer, self.name.as_bytes(), self.copy()).answer.number
    }

    /// Adds it again.
    pub fn add(&self, buffer: &mut [u8]) -> u32 {
        buffer.copy_from_slice(&self.less);
        menqachu::draft_add(0, buffer, record(&self.addition), self.copy()).answer.number
    }

    pub fn count(&self) -> u32 {
        menqachu::draft_count(&self.whole, self.copy()).answer.number
    }
}

/// A line a call, on the small and the realistic pair.
pub fn run() {
    println!("\n{HEAD}");
    for input in inputs::named().iter().take(2) {
        let edits = Edits::of(input);
        let mut out = vec![0; oracle::answers::ROOM];
        let (now, was) = (record(&edits.pair.current), edits.copy());
        let mut buffers = [edits.whole.clone(), edits.whole.clone()];
        let [removed, added] = &mut buffers;
        assert_eq!([edits.count(), edits.remove(removed), edits.add(added)], [0; 3], "{}", input.name);
        let [check, count, remove, add] = least([
            &mut || timed(|| menqachu::check(now, was, &mut out)),
            &mut || timed(|| edits.count()),
            &mut || timed(|| edits.remove(removed)),
            &mut || timed(|| edits.add(added)),
        ]);
        for (call, ours) in [("draft_count", count), ("draft_remove", remove), ("draft_add", add)] {
            print_row(call, input, now.stream.len(), ours, check);
        }
    }
}

/// A line of the table.
pub fn print_row(call: &str, input: &Input, bytes: usize, ours: f64, check: f64) {
    let [bytes, time, beside] = [bytes as f64, ours, check].map(|n| grouped(n.round() as u64));
    let ratio = ours / check;
    println!("| {call} | {} | {bytes} | {time} | {beside} | {ratio:.2} |", input.name);
}

/// One call on one input so many times and nothing else; none where the words name no call or no input.
pub fn repeat(call: &str, name: &str, turns: u64) -> Option<()> {
    let input = inputs::named().into_iter().find(|input| input.name == name)?;
    let edits = Edits::of(&input);
    let mut buffer = edits.whole.clone();
    for _ in 0..turns {
        let number = match call {
            "draft_count" => edits.count(),
            "draft_remove" => edits.remove(&mut buffer),
            "draft_add" => edits.add(&mut buffer),
            _ => return None,
        };
        std::hint::black_box(number);
    }
    Some(())
}
