//! Small cases of every number, as JSON lines.

use std::collections::{BTreeMap, BTreeSet};

use serde_json::{Value as Json, json};

use crate::answers::{Answer, NO_ROOM, Owner, ROOM, list, owner};
use crate::generate::draft::Draft;
use crate::generate::encode::{Encoded, encode_tight};
use crate::generate::questions::{self, Question};
use crate::generate::{self, Pair, wild};
use crate::model::{Content, Item, Side};
use crate::reader::{LONG, read};
use crate::rng::Rng;
use crate::shrink::{Contents, shrink};
use crate::verdicts::{FIRST_VERDICT, LAST_VERDICT};

/// How many cases are drawn for each one that is kept.
const TRIES: usize = 12;

/// Streams of refused records have fewer bytes than this, if they can.
const SMALL: usize = 150;

/// Words that tell the forms of one verdict's text from each other.
const MARKS: [&str; 11] = [
    "constant ",
    "enum ",
    "plugin key ",
    "bit field ",
    "::",
    "gained",
    "changed since",
    "a release before",
    "is not standalone",
    "4294967296",
    "padding",
];

/// Cases by their form, so that each form gets its turn.
#[derive(Default)]
struct Shelf {
    forms: BTreeMap<String, BTreeSet<(usize, String)>>,
}

impl Shelf {
    fn put(&mut self, form: String, size: usize, line: Json) {
        let cases = self.forms.entry(form).or_default();
        cases.insert((size, line.to_string()));
    }

    /// The lines of `count` cases: of each form the smallest, then of each the
    /// next, and so on.
    fn smallest(self, count: usize) -> Vec<String> {
        let mut forms: Vec<_> = self.forms.into_values().map(|f| f.into_iter()).collect();
        let mut kept = Vec::new();
        while kept.len() < count && !forms.is_empty() {
            let mut round: Vec<_> = forms.iter_mut().filter_map(|f| f.next()).collect();
            round.sort();
            forms.retain(|cases| cases.len() > 0);
            kept.extend(round);
        }
        kept.truncate(count);
        kept.into_iter().map(|(_, line)| line).collect()
    }
}

/// The lines of `samples`: `per_number` pairs of each number.
pub fn pairs(seed: u64, per_number: usize) -> Vec<String> {
    let mut rng = Rng::new(seed);
    let mut lines = accepted_pairs(per_number, &mut rng);
    for number in 1..=9 {
        lines.extend(refused_pairs(number, per_number, &mut rng));
    }
    lines.extend(roomless_pairs(per_number, &mut rng));
    for verdict in FIRST_VERDICT..=LAST_VERDICT {
        lines.extend(faulty_pairs(verdict, per_number, &mut rng));
    }
    lines
}

/// Accepted pairs, half of them such that a version entry is needed.
fn accepted_pairs(count: usize, rng: &mut Rng) -> Vec<String> {
    let (mut raised, mut others) = (Shelf::default(), Shelf::default());
    for _ in 0..count * TRIES {
        let contents = contents(generate::stepped(rng));
        let form = accepted_form(&contents);
        let needed = without_entries(&contents).check(ROOM).number != 0;
        let small = shrink(contents, |next| accepted_form(next) == form);
        let shelf = if needed { &mut raised } else { &mut others };
        put_pair(shelf, form, &tight(&small), ROOM);
    }
    let mut lines = raised.smallest(count / 2);
    lines.extend(others.smallest(count - lines.len()));
    lines
}

/// The answer, the answer without version entries, and what differs.
fn accepted_form(contents: &Contents) -> String {
    let numbers = [tight(contents), without_entries(contents)].map(|p| p.check(ROOM).number);
    format!("{numbers:?} {}", difference(contents))
}

/// The pair without the current record's version entries.
fn without_entries(contents: &Contents) -> Pair {
    let mut contents = contents.clone();
    let entry = |item: &Item| matches!(item, Item::Version(_));
    contents[0].items.retain(|item| !entry(item));
    tight(&contents)
}

/// Which sorts of items differ between the records of a pair.
fn difference(contents: &Contents) -> String {
    let only = |one: &Content, other: &Content| -> Vec<&str> {
        let items = one.items.iter().filter(|item| !other.items.contains(item));
        let mut sorts: Vec<&str> = items.map(sort_of).collect();
        sorts.sort();
        sorts
    };
    let (current, released) = (&contents[0], &contents[1]);
    format!(
        "{:?} {:?}",
        only(current, released),
        only(released, current)
    )
}

fn sort_of(item: &Item) -> &'static str {
    match item {
        Item::Constant(_) => "constant",
        Item::Alias(_) => "alias",
        Item::Enum(_) => "enum",
        Item::BitField(_) => "bit field",
        Item::Struct(_) => "struct",
        Item::Family(_) => "family",
        Item::Key(_) => "key",
        Item::Version(_) => "version",
    }
}

fn faulty_pairs(verdict: u32, count: usize, rng: &mut Rng) -> Vec<String> {
    let mut shelf = Shelf::default();
    for _ in 0..count * TRIES {
        let (form, small) = small_fault(verdict, rng);
        if tight(&small).check(ROOM).number == verdict {
            put_pair(&mut shelf, form, &tight(&small), ROOM);
        }
    }
    shelf.smallest(count)
}

/// A pair with a fault, shrunk, and the form of its answer.
fn small_fault(verdict: u32, rng: &mut Rng) -> (String, Contents) {
    let contents = contents(generate::faulty(verdict, rng));
    let form = form_of(&tight(&contents).check(ROOM));
    let small = shrink(contents, |next| form_of(&tight(next).check(ROOM)) == form);
    (form, small)
}

/// A verdict's number and the marks of its text.
fn form_of(answer: &Answer) -> String {
    let marks = MARKS.iter().filter(|mark| answer.text.contains(*mark));
    format!("{} {:?}", answer.number, marks.collect::<Vec<_>>())
}

/// Verdicts with no room at all, or with a byte less than their text needs.
fn roomless_pairs(count: usize, rng: &mut Rng) -> Vec<String> {
    let mut shelf = Shelf::default();
    for nth in 0..count * TRIES {
        let verdict = rng.between(FIRST_VERDICT as usize, LAST_VERDICT as usize);
        let (form, small) = small_fault(verdict as u32, rng);
        let pair = tight(&small);
        let needed = pair.check(ROOM).length as usize;
        let room = match nth % 3 {
            0 => 0,
            _ => needed.saturating_sub(1),
        };
        if pair.check(room).number == NO_ROOM {
            put_pair(&mut shelf, form, &pair, room);
        }
    }
    shelf.smallest(count)
}

/// Records with each sort of command, or the stream's end, at the place that is
/// refused.
fn refused_pairs(number: u32, count: usize, rng: &mut Rng) -> Vec<String> {
    let mut shelf = Shelf::default();
    for nth in 0..count * TRIES * 4 {
        let side = Side::BOTH[nth % 2];
        let record = generate::small_record(number, side, rng);
        if number == LONG || record.stream.len() < SMALL {
            let form = record_form(&record, side);
            put_pair(&mut shelf, form, &Pair::beside(record, side), ROOM);
        }
    }
    shelf.smallest(count)
}

fn contents(draft: Draft) -> Contents {
    vec![draft.current, draft.released]
}

fn tight(contents: &Contents) -> Pair {
    Pair {
        current: encode_tight(&contents[0]),
        released: encode_tight(&contents[1]),
    }
}

fn put_pair(shelf: &mut Shelf, form: String, pair: &Pair, room: usize) {
    let answer = pair.check(room);
    let (current, released) = (&pair.current, &pair.released);
    let line = json!({
        "number": answer.number, "side": answer.side, "place": answer.place,
        "length": answer.length, "text": answer.text, "room": room,
        "cur_stream": hex(&current.stream), "cur_pool": hex(&current.pool),
        "rel_stream": hex(&released.stream), "rel_pool": hex(&released.pool),
    });
    shelf.put(form, size(current) + size(released), line);
}

fn size(record: &Encoded) -> usize {
    record.stream.len() + record.pool.len()
}

fn hex(bytes: &[u8]) -> String {
    bytes.iter().map(|byte| format!("{byte:02x}")).collect()
}

/// The lines of `samples-list`: `per_number` records of each number.
pub fn lists(seed: u64, per_number: usize) -> Vec<String> {
    let mut rng = Rng::new(seed);
    let mut lines = Vec::new();
    for number in 0..=NO_ROOM {
        let mut shelf = Shelf::default();
        for nth in 0..per_number * TRIES {
            let side = Side::BOTH[nth % 2];
            let record = match number {
                NO_ROOM => generate::small_record(0, side, &mut rng),
                _ => generate::small_record(number, side, &mut rng),
            };
            put_list(&mut shelf, &record, number, side);
        }
        lines.extend(shelf.smallest(per_number));
    }
    lines
}

/// Put a record to list on the shelf if its answer has this number.
fn put_list(shelf: &mut Shelf, record: &Encoded, number: u32, side: Side) {
    let whole = list(&record.stream, &record.pool, side, ROOM);
    let room = match number {
        NO_ROOM => (whole.length as usize).saturating_sub(1),
        _ => ROOM,
    };
    let answer = list(&record.stream, &record.pool, side, room);
    if answer.number == number {
        let line = json!({
            "number": answer.number, "side": answer.side, "place": answer.place,
            "length": answer.length, "text": answer.text, "room": room,
            "read_as": side.number(), "stream": hex(&record.stream), "pool": hex(&record.pool),
        });
        shelf.put(record_form(record, side), size(record), line);
    }
}

/// The kinds of a readable record's fields, or the side and the command that a
/// refused one is refused for.
fn record_form(record: &Encoded, side: Side) -> String {
    match read(side, &record.stream, &record.pool) {
        Ok(read) => {
            let mut items = read.content.items;
            let lists = items.iter_mut().flat_map(Item::fields_mut);
            let kinds: BTreeSet<&String> = lists.flatten().map(|f| &f.kind).collect();
            format!("{kinds:?}")
        }
        Err(refusal) => format!("{side:?} {:?}", record.stream.get(refusal.place)),
    }
}

/// The lines of `samples-owner`: `per_answer` questions of each answer.
pub fn owners(seed: u64, per_answer: usize) -> Vec<String> {
    let mut rng = Rng::new(seed);
    let mut shelves: [Shelf; 3] = Default::default();
    for _ in 0..per_answer * TRIES {
        let content = wild::graph(4, &mut rng);
        let name = questions::asked(&content, &mut rng);
        let form = owner_form(&content, &name);
        let small = shrink(vec![content], |next| owner_form(&next[0], &name) == form);
        let record = encode_tight(&small[0]);
        put_owner(&mut shelves, form, &Question { record, name });
        let refused = questions::refused_question(&mut rng);
        put_owner(&mut shelves, String::new(), &refused);
    }
    let kept = shelves.map(|shelf| shelf.smallest(per_answer));
    kept.into_iter().flatten().collect()
}

fn put_owner(shelves: &mut [Shelf; 3], form: String, question: &Question) {
    let Question { record, name } = question;
    let (answer, a, b) = owner(&record.stream, &record.pool, name).numbers();
    let line = json!({
        "answer": answer, "a": a, "b": b, "name": hex(name),
        "stream": hex(&record.stream), "pool": hex(&record.pool),
    });
    shelves[usize::from(answer)].put(form, size(record) + name.len(), line);
}

/// The sort of an owner answer, with the sorts of the record's types and
/// whether the name is declared.
fn owner_form(content: &Content, name: &[u8]) -> String {
    let record = encode_tight(content);
    let answer = match owner(&record.stream, &record.pool, name) {
        Owner::None => "none",
        Owner::Named(_) => "named",
        Owner::Refused(_) => "refused",
    };
    let sorts: Vec<&str> = content.items.iter().map(sort_of).collect();
    let declared = content.items.iter().any(|i| i.name().as_bytes() == name);
    format!("{answer} {sorts:?} {declared}")
}
