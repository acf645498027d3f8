//! Lines of cells in columns.

use menqachu::text::letters::width;

use crate::command::paint::{Paint, Style};

/// Columns are as wide as they have characters. A longer cell shifts the cells behind it, so that one long name does not widen the whole table.
const WIDEST: usize = 40;
/// Blanks between columns.
const GAP: usize = 2;

pub struct Cell {
    pub text: String,
    pub style: Style,
    /// A number ends where its column ends.
    pub right: bool,
}

impl Cell {
    pub fn new(text: impl Into<String>, style: Style) -> Cell {
        Cell { text: text.into(), style, right: false }
    }

    pub fn plain(text: impl Into<String>) -> Cell {
        Cell::new(text, Style::Plain)
    }

    pub fn number(number: u64) -> Cell {
        Cell { text: number.to_string(), style: Style::Plain, right: true }
    }

    pub fn none() -> Cell {
        Cell::plain("")
    }
}

pub enum Line {
    /// Cells in the columns of one of the tables, which it counts for.
    Cells(Table, Vec<Cell>),
    /// A heading over the columns of a table, which it does not widen.
    Over(Table, Vec<Cell>),
    /// Cells one after the other.
    Whole(Vec<Cell>),
}

/// The tables of a page: the lines of one have the same columns.
#[derive(Clone, Copy, PartialEq, Eq)]
pub enum Table {
    Declarations,
    Fields,
    Bytes,
}

pub fn laid_out(lines: &[Line], paint: Paint) -> String {
    let of = |table: Table| (table, starts(lines, table));
    let tables = [Table::Declarations, Table::Fields, Table::Bytes].map(of);
    let columns =
        |table: Table| tables.iter().find(|(of, _)| *of == table).map_or(&[][..], |(_, starts)| starts);
    let line = |line: &Line| match line {
        Line::Cells(table, cells) | Line::Over(table, cells) => set(cells, columns(*table), paint),
        Line::Whole(cells) => cells.iter().map(|cell| paint.dressed(&cell.text, cell.style)).collect(),
    };
    lines.iter().map(|one| line(one) + "\n").collect()
}

/// Where the columns of a table begin and end.
fn starts(lines: &[Line], table: Table) -> Vec<(usize, usize)> {
    let mut widths: Vec<usize> = Vec::new();
    for line in lines {
        let Line::Cells(of, cells) = line else { continue };
        if *of == table {
            widths.resize(widths.len().max(cells.len()), 0);
            for (most, cell) in widths.iter_mut().zip(cells) {
                *most = (*most).max(width(&cell.text).min(WIDEST));
            }
        }
    }
    let mut next = 0;
    let column = |width: usize| {
        let start = next;
        next += width + GAP;
        (start, start + width)
    };
    widths.into_iter().map(column).collect()
}

/// A line of cells, each at its column's place or behind a longer one.
fn set(cells: &[Cell], columns: &[(usize, usize)], paint: Paint) -> String {
    let mut line = String::new();
    let mut end = 0;
    for (cell, (start, last)) in cells.iter().zip(columns).filter(|(cell, _)| !cell.text.is_empty()) {
        let wide = width(&cell.text);
        let place = if cell.right { last.saturating_sub(wide).max(*start) } else { *start };
        let place = if end == 0 { place } else { place.max(end + GAP) };
        line.push_str(&" ".repeat(place - end));
        line.push_str(&paint.dressed(&cell.text, cell.style));
        end = place + wide;
    }
    line
}
