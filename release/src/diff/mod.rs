//! What two records differ in: the lines of their text form, the layouts field by field and byte by byte, and the generations, each
//! with the numbers of the verdicts that are about it. `release diff` and `release report` both show what is found here.

pub mod bytes;
pub mod lines;
pub mod rows;
pub mod schema;
pub mod slots;
pub mod verdicts;

use std::collections::HashMap;

use crate::record::commands::Said;
use crate::record::layout::{layouts, Layouts};
use crate::record::numbers::named;
use crate::record::{decode, Problem};
use crate::{Record, Side};
use lines::Line;
use rows::Type;
use schema::Schema;
use slots::Slot;
use verdicts::{verdicts, About, Verdict};

/// How something of one record stands to the other.
#[derive(Clone, Copy, Debug, PartialEq, Eq)]
pub enum State {
    Same,
    Changed,
    New,
    Gone,
}

impl State {
    /// The state of two values of which at least one is there.
    pub fn of<T: PartialEq>(released: Option<T>, current: Option<T>) -> State {
        match (released, current) {
            (None, _) => State::New,
            (_, None) => State::Gone,
            (was, is) if was == is => State::Same,
            _ => State::Changed,
        }
    }

    pub fn word(self) -> &'static str {
        match self {
            State::Same => "same",
            State::Changed => "changed",
            State::New => "new",
            State::Gone => "gone",
        }
    }
}

/// What is said of a difference: that something is new, and else the verdicts on it before that it changed or is gone.
pub fn marks(state: State, numbers: &[u32]) -> Vec<String> {
    let said = match state {
        State::New => true,
        State::Same => false,
        State::Changed | State::Gone => numbers.is_empty(),
    };
    let state = said.then(|| state.word().to_string());
    state.into_iter().chain(numbers.iter().copied().map(named)).collect()
}

/// A record with its layouts.
pub struct Read {
    pub commands: Vec<Said>,
    pub layouts: Layouts,
}

impl Read {
    pub fn of(record: Record, side: Side) -> Result<Read, Problem> {
        let layouts = layouts(record, side)?;
        let commands = decode::commands(record).map_err(|place| Problem::Undecoded { place })?;
        Ok(Read { commands, layouts })
    }
}

/// What two records have, what is the same too.
pub struct Differences<'a> {
    pub lines: Vec<Line<'a>>,
    pub slots: Vec<Slot<'a>>,
    pub types: Vec<Type<'a>>,
    /// In the order of the check, of which the first is the answer.
    pub verdicts: Vec<Verdict<'a>>,
}

pub fn differences<'a>(current: &'a Read, released: &'a Read) -> Differences<'a> {
    let (is, was) = (Schema::of(current), Schema::of(released));
    let mut types = rows::types(&released.layouts, &current.layouts);
    let verdicts = verdicts(&is, &was, &types);
    let mut about: HashMap<About, Vec<u32>> = HashMap::new();
    for verdict in &verdicts {
        let numbers = about.entry(verdict.about).or_default();
        if !numbers.contains(&verdict.number) {
            numbers.push(verdict.number);
        }
    }
    let numbers = |of: About| about.get(&of).cloned().unwrap_or_default();
    for one in &mut types {
        one.numbers = numbers(About::Type(one.name));
        for (at, row) in one.rows.iter_mut().enumerate() {
            row.numbers = numbers(About::Row(one.name, at));
        }
    }
    let lines = lines::lines(&released.commands, &current.commands, &numbers);
    Differences { lines, slots: slots::slots(&was, &is, &numbers), types, verdicts }
}
