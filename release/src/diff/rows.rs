//! Two layouts row by row: which field of one stands beside which field of the other, and what changed.

use std::collections::{BTreeSet, HashMap};

use super::State;
use crate::record::layout::{Field, Layouts};
use crate::record::numbers::{named, word};

/// A type that either record describes.
pub struct Type<'a> {
    pub name: &'a [u8],
    pub state: State,
    /// The verdicts on the type as a whole.
    pub numbers: Vec<u32>,
    pub rows: Vec<Row<'a>>,
    /// Its fields in each record, none where it is not described.
    pub released: &'a [Field],
    pub current: &'a [Field],
}

/// A released field beside the current one that the check compares it with, or either alone.
pub struct Row<'a> {
    pub released: Option<&'a Field>,
    pub current: Option<&'a Field>,
    /// The verdicts on the field.
    pub numbers: Vec<u32>,
}

/// All types of both layouts, in byte order of their names, with no numbers yet.
pub fn types<'a>(released: &'a Layouts, current: &'a Layouts) -> Vec<Type<'a>> {
    let names: BTreeSet<&Vec<u8>> = released.keys().chain(current.keys()).collect();
    let pair = |name: &'a Vec<u8>| {
        let (was, is) = (released.get(name), current.get(name));
        let state = State::of(was, is);
        let fields = |layout: Option<&'a Vec<Field>>| layout.map_or(&[][..], Vec::as_slice);
        let (was, is) = (fields(was), fields(is));
        Type { name, state, numbers: Vec::new(), rows: rows(was, is), released: was, current: is }
    };
    names.into_iter().map(pair).collect()
}

/// The released fields in their order, each with the first current field of its name, as the check looks it
/// up; a current field without a partner follows the current field before it.
fn rows<'a>(released: &'a [Field], current: &'a [Field]) -> Vec<Row<'a>> {
    let mut first_of: HashMap<&[u8], usize> = HashMap::new();
    for (index, field) in current.iter().enumerate() {
        first_of.entry(&field.name).or_insert(index);
    }
    let beside: Vec<Option<usize>> =
        released.iter().map(|field| first_of.get(&field.name[..]).copied()).collect();
    // The last row at which a current field stands.
    let mut last_row: HashMap<usize, usize> = HashMap::new();
    for (row, index) in beside.iter().enumerate() {
        last_row.extend(index.map(|index| (index, row)));
    }
    let alone = |from: usize| {
        let unpaired = current.iter().enumerate().skip(from).take_while(|(at, _)| !last_row.contains_key(at));
        unpaired.map(|(_, field)| Row { released: None, current: Some(field), numbers: Vec::new() })
    };
    let mut rows: Vec<Row> = alone(0).collect();
    for (at, (field, index)) in released.iter().zip(&beside).enumerate() {
        let partner = index.map(|index| &current[index]);
        rows.push(Row { released: Some(field), current: partner, numbers: Vec::new() });
        if let Some(index) = index.filter(|index| last_row.get(index) == Some(&at)) {
            rows.extend(alone(index + 1));
        }
    }
    rows
}

impl Type<'_> {
    /// What is said of the type as a whole: how it stands, and the verdicts on it.
    pub fn told(&self) -> String {
        let state = match self.state {
            State::Gone if !self.numbers.is_empty() => None,
            state => Some(state.word().to_string()),
        };
        let told: Vec<String> = state.into_iter().chain(self.numbers.iter().copied().map(named)).collect();
        told.join(", ")
    }
}

impl<'a> Row<'a> {
    pub fn name(&self) -> &'a [u8] {
        self.released.or(self.current).map_or(b"", |field| &field.name)
    }

    /// What changed, in the order in which the check looks.
    pub fn marks(&self) -> Vec<&'static str> {
        let (was, is) = match (self.released, self.current) {
            (Some(was), Some(is)) => (was, is),
            (None, _) => return vec!["new"],
            (_, None) => return vec!["gone"],
        };
        let same_text = was.description == is.description;
        let changes = [
            (was.offset != is.offset, "moved"),
            (was.size != is.size, "resized"),
            (!same_text, "redescribed"),
            (same_text && is.padding && !was.padding, "now padding"),
            (same_text && was.padding && !is.padding, "no longer padding"),
        ];
        changes.into_iter().filter(|(changed, _)| *changed).map(|(_, mark)| mark).collect()
    }
    /// The verdicts on the field, and the changes that none of them is about.
    pub fn told(&self) -> Vec<String> {
        let words: Vec<&str> = self.numbers.iter().filter_map(|number| word(*number)).collect();
        // The word of 34 is longer than the mark; those of the others are the marks themselves.
        let among = |mark: &&str| words.contains(mark) || (*mark == "gone" && words.contains(&"field gone"));
        let marks = self.marks().into_iter().filter(|mark| !among(mark)).map(String::from);
        self.numbers.iter().copied().map(named).chain(marks).collect()
    }
}
