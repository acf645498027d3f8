//! The byte map of a type: the fields of the last release beside the fields of now, and what a reader that shipped takes
//! from the new bytes.

use std::collections::BTreeMap;

use menqachu::diff::bytes::{counted, edges, runs, Run};
use menqachu::diff::rows::{Row, Type};
use menqachu::diff::State;
use menqachu::record::layout::Field;

use super::html::{name, section};
use crate::command::output::counted as number_of;

/// The maps of all types that the last release describes and that are changed or gone.
pub fn maps(types: &[Type]) -> String {
    let touched: Vec<&Type> =
        types.iter().filter(|one| matches!(one.state, State::Changed | State::Gone)).collect();
    if touched.is_empty() {
        return section("Bytes", "<p>No type of the last release has changed.</p>\n");
    }
    let maps: String = touched.into_iter().map(map).collect();
    let legend = "<p class=\"legend\">Each block is a field, from top to bottom byte by byte. The last column is what a \
                  reader built for the last release takes for a field when it is given the new bytes.</p>\n";
    section("Bytes", &format!("{legend}{maps}"))
}

/// What changed in a field of either record.
fn marks(one: &Type, field: &Field) -> Vec<&'static str> {
    let is = |one: Option<&Field>| one.is_some_and(|one| std::ptr::eq(one, field));
    one.rows.iter().find(|row| is(row.released) || is(row.current)).map_or(Vec::new(), Row::marks)
}

/// A row of the grid: a stretch of bytes, or the place of a field without bytes.
struct Scale {
    rows: Vec<Option<(u64, u64)>>,
    /// The first row at an offset, and the row of the bytes from it on.
    first: BTreeMap<u64, usize>,
    bytes: BTreeMap<u64, usize>,
}

impl Scale {
    fn of(was: &[Field], is: &[Field]) -> Scale {
        let edges = edges(was, is);
        let mut scale = Scale { rows: Vec::new(), first: BTreeMap::new(), bytes: BTreeMap::new() };
        for (index, &edge) in edges.iter().enumerate() {
            scale.first.insert(edge, scale.rows.len());
            let without = |fields: &[Field]| {
                fields.iter().filter(|field| field.size == 0 && field.offset == edge).count()
            };
            scale.rows.extend((0..without(was).max(without(is))).map(|_| None));
            if let Some(&next) = edges.get(index + 1) {
                scale.bytes.insert(edge, scale.rows.len());
                scale.rows.push(Some((edge, next)));
            }
        }
        scale
    }

    /// The rows of a field, counted from 0, the last not among them; `nth` counts the fields without bytes at its offset.
    fn span(&self, field: &Field, nth: usize) -> (usize, usize) {
        let at = |map: &BTreeMap<u64, usize>, offset| map.get(&offset).copied().unwrap_or_default();
        if field.size == 0 {
            let row = at(&self.first, field.offset) + nth;
            return (row, row + 1);
        }
        (at(&self.bytes, field.offset), at(&self.first, field.offset + field.size))
    }

    /// The heights of the rows: more bytes are higher, but not by much.
    fn heights(&self) -> String {
        let height = |row: &Option<(u64, u64)>| {
            let bytes = row.map_or(1, |(from, to)| to - from).max(1);
            let more = f64::from(u64::BITS - 1 - bytes.leading_zeros()) * 0.6;
            format!("minmax({:.1}em,auto)", 2.0 + more.min(4.0))
        };
        self.rows.iter().map(height).collect::<Vec<String>>().join(" ")
    }
}

fn map(one: &Type) -> String {
    let (was, is) = (one.released, one.current);
    let (scale, runs) = (Scale::of(was, is), runs(was, is));
    let mut blocks = String::new();
    for (row, bytes) in scale.rows.iter().enumerate() {
        if let Some((from, to)) = bytes {
            blocks.push_str(&block("byte", 1, (row, row + 1), &counted(*from, *to)));
        }
    }
    for (field, span) in spans(&scale, was) {
        let marks = marks(one, field);
        blocks.push_str(&block(class(field, &marks), 2, span, &told(field, &[])));
        if !field.padding {
            let (good, text) = taken(field, is, &runs);
            blocks.push_str(&block(if good { "right" } else { "wrong" }, 4, span, &text));
        }
    }
    for (field, span) in spans(&scale, is) {
        let marks = marks(one, field);
        blocks.push_str(&block(class(field, &marks), 3, span, &told(field, &marks)));
    }
    let heads = "<b class=\"head\">byte</b><b class=\"head\">last release</b><b class=\"head\">now</b>\
                 <b class=\"head\">an old reader takes</b>\n";
    let (title, state, heights) = (name(one.name), one.told(), scale.heights());
    format!(
        "<h3>{title} <small>{state}</small></h3>\n<div class=\"map\" style=\"grid-template-rows:auto {heights}\">\n\
         {heads}{blocks}</div>\n"
    )
}

/// Each field with its rows.
fn spans<'a>(scale: &Scale, fields: &'a [Field]) -> Vec<(&'a Field, (usize, usize))> {
    let mut without: BTreeMap<u64, usize> = BTreeMap::new();
    let span = |field: &'a Field| {
        let nth = without.entry(field.offset).or_default();
        let span = scale.span(field, *nth);
        *nth += usize::from(field.size == 0);
        (field, span)
    };
    fields.iter().map(span).collect()
}

/// A block in a column; the rows of the grid are counted from 1, and the first has the headings.
fn block(class: &str, column: usize, (from, to): (usize, usize), text: &str) -> String {
    format!(
        "<div class=\"{class}\" style=\"grid-area:{}/{column}/{}/{}\">{text}</div>\n",
        from + 2,
        to + 2,
        column + 1
    )
}

fn class(field: &Field, marks: &[&str]) -> &'static str {
    match marks {
        _ if field.padding => "padding",
        [] => "same",
        ["new"] => "new",
        _ => "moved",
    }
}

fn told(field: &Field, marks: &[&str]) -> String {
    let marks = if marks.is_empty() { String::new() } else { format!(" <em>{}</em>", marks.join(", ")) };
    format!("{} <small>{}</small>{marks}", name(&field.name), name(&field.description))
}

/// What a reader of the last release takes for a field, and whether it is that field.
fn taken(old: &Field, is: &[Field], runs: &[Run]) -> (bool, String) {
    let same = |new: &&Field| {
        (&new.name, new.offset, new.size, &new.description)
            == (&old.name, old.offset, old.size, &old.description)
    };
    if is.iter().find(same).is_some_and(|new| !new.padding) {
        return (true, "as before".to_string());
    }
    let inside = |run: &&Run| run.released.is_some_and(|part| std::ptr::eq(part.field, old));
    let parts: Vec<String> = runs.iter().filter(inside).map(told_part).collect();
    (false, if parts.is_empty() { "no bytes".to_string() } else { parts.join(", ") })
}

/// What stands in a run of bytes now.
fn told_part(run: &Run) -> String {
    let Some(part) = run.current else {
        return format!("{} behind the end", number_of(run.to - run.from, "byte"));
    };
    let which = match (part.from, part.to) {
        _ if part.is_whole() => "all".to_string(),
        (from, to) if to - from == 1 => format!("byte {from}"),
        (from, to) => format!("bytes {from} to {}", to - 1),
    };
    format!("{which} of {} <small>{}</small>", name(&part.field.name), name(&part.field.description))
}
