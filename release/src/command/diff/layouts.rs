//! The layouts side by side, and of each changed type its bytes.

use menqachu::diff::bytes::{counted, runs, Part, Run};
use menqachu::diff::rows::{Row, Type};
use menqachu::diff::{Differences, State};
use menqachu::record::layout::Field;
use menqachu::text::alike::Alike;
use menqachu::text::letters::width;

use super::columns::{Cell, Line, Table};
use super::marks;
use crate::command::output::counted as number_of;
use crate::command::paint::Style;

/// As many characters of a field's name and description stand in a line of bytes that it has at most eighty with both.
const PART: usize = 30;
/// As many lines of bytes are shown without being asked for all.
const FOLD: usize = 16;

/// The types that differ, or all, under headings; none where there is none.
pub fn lines(found: &Differences, alike: &Alike, all: bool) -> Vec<Line> {
    let shown = |one: &&Type| all || one.state != State::Same || differs(one);
    let mut lines: Vec<Line> =
        found.types.iter().filter(shown).flat_map(|one| of_type(one, alike, all)).collect();
    if !lines.is_empty() {
        let heading = |text: &str| Cell::new(text, Style::Heading);
        let over = ["", "released", "", "", "current"].map(heading);
        let heads = ["", "offset", "size", "type", "offset", "size", "type"].map(heading);
        lines
            .splice(0..0, [Line::Over(Table::Fields, over.into()), Line::Cells(Table::Fields, heads.into())]);
    }
    lines
}

/// Whether a field is marked: of two fields of one name also where the types are equal.
fn differs(one: &Type) -> bool {
    one.rows.iter().any(|row| !row.marks().is_empty())
}

fn of_type(one: &Type, alike: &Alike, all: bool) -> Vec<Line> {
    // Where the order alone changed, no field is marked and all are shown.
    let all_rows = all || (one.state == State::Changed && !differs(one));
    let shown = |row: &&Row| all_rows || !row.marks().is_empty();
    let rows: Vec<Line> = one.rows.iter().filter(shown).map(|row| of_field(row, alike)).collect();
    let mut lines = vec![heading(one, one.rows.len() - rows.len(), alike)];
    lines.extend(rows);
    if one.state == State::Changed {
        lines.extend(strip(one, alike, all));
    }
    lines
}

/// The type's name, its state and the verdicts on it; `left` of its fields are not shown.
fn heading(one: &Type, left: usize, alike: &Alike) -> Line {
    let note = match one.state {
        _ if one.rows.is_empty() => ", without fields".to_string(),
        // Types are equal if they have the same fields in the same order.
        State::Changed if !differs(one) => ", in the order or number of its fields alone".to_string(),
        _ if left > 0 => format!(", {} as before", number_of(left as u64, "field")),
        _ => String::new(),
    };
    let name = Cell::new(format!("{}: ", alike.named(one.name)), Style::Heading);
    Line::Whole(vec![name, marks::of_type(one), Cell::plain(note)])
}

fn of_field(row: &Row, alike: &Alike) -> Line {
    let mut cells = vec![Cell::plain(format!("    {}", alike.named(row.name())))];
    for field in [row.released, row.current] {
        match field {
            Some(field) => {
                let described = Cell::plain(alike.named(&field.description));
                cells.extend([Cell::number(field.offset), Cell::number(field.size), described]);
            }
            None => {
                let none = Cell { text: "-".to_string(), style: Style::Plain, right: true };
                cells.extend([none, Cell::none(), Cell::none()]);
            }
        }
    }
    cells.push(marks::of_row(row));
    Line::Cells(Table::Fields, cells)
}

/// What stood in each byte of a type and what stands there now; none where no byte has changed.
fn strip(one: &Type, alike: &Alike, all: bool) -> Vec<Line> {
    let runs = runs(one.released, one.current);
    if runs.iter().all(Run::is_kept) {
        return Vec::new();
    }
    let stretches: Vec<&[Run]> = match all {
        true => runs.chunks(1).collect(),
        false => runs.chunk_by(|one, next| one.is_kept() && next.is_kept()).collect(),
    };
    let heads = ["    byte", "stood there", "stands there now"].map(|text| Cell::new(text, Style::Heading));
    let most = if all || stretches.len() <= FOLD { stretches.len() } else { FOLD - 1 };
    let mut lines = vec![Line::Cells(Table::Bytes, heads.into())];
    lines.extend(stretches[..most].iter().map(|runs| of_bytes(runs, alike)));
    if most < stretches.len() {
        let left = number_of((stretches.len() - most) as u64, "more line");
        lines.push(Line::Whole(vec![Cell::new(format!("    .. {left}; --all shows them"), Style::Kept)]));
    }
    lines
}

/// A run of bytes, or kept ones one after the other.
fn of_bytes(runs: &[Run], alike: &Alike) -> Line {
    let (from, to) = (runs[0].from, runs[runs.len() - 1].to);
    let kept = runs[0].is_kept();
    let style = if kept { Style::Kept } else { Style::Plain };
    let was = match runs {
        [run] => part(run.released, alike),
        _ => number_of(runs.len() as u64, "field"),
    };
    let is = if kept { "as before".to_string() } else { part(runs[0].current, alike) };
    let cells = vec![
        Cell::new(format!("    {}", counted(from, to)), style),
        Cell::new(was, style),
        Cell::new(is, style),
    ];
    Line::Cells(Table::Bytes, cells)
}

/// A field, or which bytes of it: with its description where that has room.
fn part(part: Option<Part>, alike: &Alike) -> String {
    let Some(part) = part else { return "-".to_string() };
    let Field { name, description, .. } = part.field;
    let which = if part.is_whole() { String::new() } else { format!("[{}]", counted(part.from, part.to)) };
    let name = alike.named(name);
    let whole = format!("{name}{which} {}", alike.named(description));
    if width(&whole) <= PART {
        return whole;
    }
    if width(&name) + which.len() <= PART {
        return format!("{name}{which}");
    }
    let kept: String = name.chars().take(PART - 2 - which.len()).collect();
    format!("{kept}..{which}")
}
