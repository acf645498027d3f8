//! What is said behind a line, in its colour.

use menqachu::diff::rows::{Row, Type};
use menqachu::diff::{marks, State};

use super::columns::Cell;
use crate::command::paint::Style;

fn style(state: State, numbers: &[u32]) -> Style {
    match state {
        _ if !numbers.is_empty() => Style::Verdict,
        State::New => Style::New,
        State::Same => Style::Kept,
        State::Changed | State::Gone => Style::Changed,
    }
}

/// What is said of a line or a slot.
pub fn of_state(state: State, numbers: &[u32]) -> Cell {
    Cell::new(marks(state, numbers).join(", "), style(state, numbers))
}

pub fn of_type(one: &Type) -> Cell {
    Cell::new(one.told(), style(one.state, &one.numbers))
}

pub fn of_row(row: &Row) -> Cell {
    let state = if row.released.is_none() { State::New } else { State::Changed };
    Cell::new(row.told().join(", "), style(state, &row.numbers))
}
