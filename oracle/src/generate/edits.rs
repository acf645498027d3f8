//! Drafts in lent buffers, copies to count against, and edits of drafts.

use super::encode::{Encoded, encode, encode_spread, encode_tight};
use super::{damage, heavy, make, mutated, stepped, wild, wild_pair};
use crate::commands;
use crate::edits::{Edit, edit, held, parts_of};
use crate::model::{Content, Item, Side};
use crate::reader::{POOL_LIMIT, STREAM_LIMIT, VAST, read};
use crate::rng::Rng;

/// A draft in its buffer, and the copy that its count is against.
#[derive(Clone, Debug, PartialEq, Eq)]
pub struct Series {
    pub buffer: Vec<u8>,
    pub copy: Encoded,
    /// The types that the copy was made from, to be added again.
    shipped: Vec<Item>,
}

/// What one case is to show. The answer is the oracle's.
#[derive(Clone, Copy, Debug, PartialEq, Eq)]
pub enum Fault {
    None,
    /// The draft is refused with this number.
    Draft(u32),
    /// The copy is refused with this number.
    Copy(u32),
}

/// A draft and a copy, mostly readable.
pub fn series(rng: &mut Rng) -> Series {
    let fault = match rng.below(100) {
        0..=1 => Fault::Draft(rng.between(1, 9) as u32),
        2..=3 => Fault::Copy(rng.between(1, 9) as u32),
        _ => Fault::None,
    };
    faulty_series(fault, rng)
}

pub fn faulty_series(fault: Fault, rng: &mut Rng) -> Series {
    let draft = match rng.below(10) {
        0..=3 => stepped(rng),
        4..=7 => wild_pair(rng),
        _ => mutated(rng),
    };
    let current = match fault {
        Fault::Draft(8) => return stated_long(&draft.released, rng),
        Fault::Draft(number) => damage::damaged(&draft.current, number, Side::Current, rng),
        _ => loosened(written(&draft.current, rng), rng),
    };
    let copy = match fault {
        Fault::Copy(number) => damage::damaged(&draft.released, number, Side::Released, rng),
        _ => written(&draft.released, rng),
    };
    Series {
        buffer: lent(&current, rng),
        copy,
        shipped: types_of(&draft.released),
    }
}

/// A draft near one of its limits, so that an addition passes it.
pub fn full_series(rng: &mut Rng) -> Series {
    let mut content = make::content("0.9.0");
    let wide = rng.chance(70);
    let mut s = make::structure("full");
    for nth in 0..if wide { 61 } else { 880 } {
        let name = match wide {
            true => format!("{nth:x<255}"),
            false => format!("f{}", nth % 10),
        };
        s.fields.push(make::scalar(&name, "u8"));
    }
    content.items.push(s.into());
    let record = loosened(encode_tight(&content), rng);
    Series::of(lent(&record, rng), encode_tight(&make::content("0.8.0")))
}

/// An addition to a full draft, on either side of the limits.
pub fn full_edit(rng: &mut Rng) -> Edit {
    let mut s = make::structure("more");
    let long = rng.chance(60);
    for nth in 0..rng.between(1, 120) {
        let name = match long {
            true => format!("{nth:y<200}"),
            false => "n".into(),
        };
        s.fields.push(make::scalar(&name, "u8"));
    }
    let content = make::content("0.9.0").with(s);
    Edit::Add(match rng.chance(50) {
        true => encode_tight(&content),
        false => encode_spread_fit(&content),
    })
}

/// Each text at a place of its own, if such a pool is short enough.
fn encode_spread_fit(content: &Content) -> Encoded {
    let spread = encode_spread(content);
    match spread.pool.len() <= POOL_LIMIT {
        true => spread,
        false => encode_tight(content),
    }
}

/// A draft whose stated lengths are above a limit.
fn stated_long(copy: &Content, rng: &mut Rng) -> Series {
    let limit = *rng.pick(&[STREAM_LIMIT, POOL_LIMIT]);
    let stated = *rng.pick(&[limit as u32 + 1, 65_536, u32::MAX]);
    let mut buffer = Vec::new();
    if limit == POOL_LIMIT {
        let stream = encode_tight(&make::content("0.9.0")).stream;
        buffer.extend((stream.len() as u32).to_le_bytes());
        buffer.extend(stream);
    }
    buffer.extend(stated.to_le_bytes());
    buffer.extend(std::iter::repeat_n(b'a', rng.below(20)));
    Series {
        buffer,
        copy: encode_tight(copy),
        shipped: types_of(copy),
    }
}

/// A record as bytes, its texts shared, overlapping or apart.
fn written(content: &Content, rng: &mut Rng) -> Encoded {
    match rng.below(4) {
        0 => encode_tight(content),
        1 => encode_spread(content),
        _ => encode(content, rng),
    }
}

/// The record with bytes that no text covers in front of its texts, between
/// them and behind them.
fn loosened(mut record: Encoded, rng: &mut Rng) -> Encoded {
    for _ in 0..rng.below(4) {
        let room = POOL_LIMIT - record.pool.len();
        let more = rng.below(9).min(room);
        let at = match rng.below(3) {
            0 => 0,
            1 => rng.below(record.pool.len() + 1),
            _ => record.pool.len(),
        };
        loosen(&mut record, at, more, rng);
    }
    record
}

/// Put bytes into the pool of a readable record, unless a text would be torn.
fn loosen(record: &mut Encoded, at: usize, more: usize, rng: &mut Rng) {
    let mut starts = Vec::new();
    let mut place = 0;
    while let Some(forms) = commands::operands(record.stream[place]) {
        let mut operand = place + 1;
        for form in forms {
            let bytes = &record.stream[operand..operand + form.width()];
            if form.is_text() && bytes != [0xFF, 0xFF, 0] {
                let start = usize::from(u16::from_le_bytes([bytes[0], bytes[1]]));
                let end = start + usize::from(bytes[2]);
                if start < at && at < end {
                    return;
                }
                if start >= at {
                    starts.push((operand, start + more));
                }
            }
            operand += form.width();
        }
        if record.stream[place] == commands::END {
            break;
        }
        place = operand;
    }
    for (operand, start) in starts {
        record.stream[operand..operand + 2].copy_from_slice(&(start as u16).to_le_bytes());
    }
    let bytes: Vec<u8> = (0..more).map(|_| rng.between(0x20, 0x7E) as u8).collect();
    record.pool.splice(at..at, bytes);
}

/// A buffer with a record in it: room behind it or none, and now and then a
/// pool that ends early.
fn lent(record: &Encoded, rng: &mut Rng) -> Vec<u8> {
    let mut buffer = parts_of(record);
    match rng.below(20) {
        0 => {
            let cut = rng.below(12).min(buffer.len());
            buffer.truncate(buffer.len() - cut);
        }
        1..=5 => {}
        6..=12 => buffer.resize(buffer.len() + rng.below(200), 0xA5),
        _ => buffer.resize(buffer.len() + 4000, 0xA5),
    }
    buffer
}

fn types_of(content: &Content) -> Vec<Item> {
    let types = content.items.iter().filter(|item| is_type(item));
    types.cloned().collect()
}

fn is_type(item: &Item) -> bool {
    matches!(item, Item::Struct(_) | Item::Family(_))
}

impl Series {
    /// A draft in its buffer beside a copy, with no types to be added again.
    pub fn of(buffer: Vec<u8>, copy: Encoded) -> Series {
        Series {
            buffer,
            copy,
            shipped: Vec::new(),
        }
    }

    /// What the draft says, if it can be read.
    fn content(&self) -> Option<Content> {
        let draft = held(&self.buffer);
        let read = read(Side::Current, &draft.stream, &draft.pool);
        read.ok().map(|record| record.content)
    }

    /// An edit to make next. Now and then the buffer is made such that there is
    /// just enough room for the result, or a byte too little.
    pub fn next_edit(&mut self, rng: &mut Rng) -> Edit {
        let content = self.content().unwrap_or_default();
        let next = match rng.chance(60) {
            true => Edit::Add(self.addition(&content, rng)),
            false => Edit::Remove(removed_name(&content, rng)),
        };
        if rng.chance(25) {
            self.fit(&next, rng);
        }
        next
    }

    /// An addition that is refused with this number, 1 to 7 for itself, 9 for
    /// the result.
    pub fn refused_addition(&self, number: u32, rng: &mut Rng) -> Edit {
        let mut added = make::content("0.9.0").with(wild::type_item(rng));
        if number == VAST {
            heavy::load(&mut added, heavy::vast(rng), rng);
            added.items.truncate(1);
            return Edit::Add(written(&added, rng));
        }
        Edit::Add(damage::damaged(&added, number, Side::Current, rng))
    }

    fn fit(&mut self, next: &Edit, rng: &mut Rng) {
        let mut ample = self.buffer.clone();
        ample.resize(8 + STREAM_LIMIT + POOL_LIMIT, 0xA5);
        let done = edit(0, &ample, next, &self.copy);
        if done.number == 0 {
            let needed = parts_of(&held(&done.buffer)).len();
            let least = parts_of(&held(&self.buffer)).len();
            let room = needed - usize::from(rng.chance(50));
            self.buffer.resize(room.max(least), 0xA5);
        }
    }

    fn addition(&self, content: &Content, rng: &mut Rng) -> Encoded {
        let mut added = make::content(&rng.word(&["0.9.0", "", "1.0", "unused"]));
        added.unreleased = rng.chance(20);
        let mut item = self.added_type(content, rng);
        if rng.chance(6) {
            let fields = heavy::vast(rng);
            let mut lists = item.fields_mut();
            let at = rng.below(lists.len());
            lists[at].extend(fields);
        }
        added.items.push(item);
        match rng.below(100) {
            0..=7 => return damage::damaged(&added, rng.between(1, 7) as u32, Side::Current, rng),
            8..=12 => misshape(&mut added, rng),
            _ => {}
        }
        let mut record = loosened(written(&added, rng), rng);
        if rng.chance(2) {
            damage::scramble(&mut record, rng);
        }
        record
    }

    /// A type of the copy, as it was or with a change, or one of few names.
    fn added_type(&self, content: &Content, rng: &mut Rng) -> Item {
        let item = match self.shipped.is_empty() || rng.chance(50) {
            true => wild::type_item(rng),
            false => rng.pick(&self.shipped).clone(),
        };
        let mut alone = make::content("").with(item);
        if rng.chance(20) {
            wild::mutate(&mut alone, rng);
        }
        let types = types_of(&alone);
        let mut item = types
            .first()
            .cloned()
            .unwrap_or_else(|| make::structure("a").into());
        if rng.chance(25) {
            rename(&mut item, other_name(content, rng));
        }
        item
    }
}

/// A name that the draft holds in some way, as a type's or as something else's.
fn other_name(content: &Content, rng: &mut Rng) -> String {
    let mut names: Vec<String> = content
        .items
        .iter()
        .map(|item| item.name().to_string())
        .collect();
    for family in content.families() {
        let composed = family
            .variants
            .iter()
            .map(|v| format!("{}::{}", family.name, v.discriminant));
        names.extend(composed);
    }
    names.push(String::new());
    names.push("new".into());
    rng.pick(&names).clone()
}

fn rename(item: &mut Item, name: String) {
    match item {
        Item::Struct(s) => s.name = name,
        Item::Family(f) => f.name = name,
        _ => {}
    }
}

/// More than one type in an addition, none, or an item that is no type.
fn misshape(added: &mut Content, rng: &mut Rng) {
    match rng.below(4) {
        0 => added.items.clear(),
        1 => added.items.push(make::structure("second").into()),
        2 => added.items.push(make::version("v", 1).into()),
        _ => rng.insert(&mut added.items, make::enumeration("e", 1).into()),
    }
}

/// A name to take out: mostly one of a type.
fn removed_name(content: &Content, rng: &mut Rng) -> Vec<u8> {
    let types = types_of(content);
    if types.is_empty() || rng.chance(15) {
        return match rng.below(4) {
            0 => Vec::new(),
            1 => b"nobody".to_vec(),
            2 => vec![0xFF; 300],
            _ => other_name(content, rng).into_bytes(),
        };
    }
    rng.pick(&types).name().as_bytes().to_vec()
}
