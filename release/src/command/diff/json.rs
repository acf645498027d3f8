//! All of both records and what differs, as JSON.

use menqachu::diff::bytes::{runs, Part, Run};
use menqachu::diff::lines::Line;
use menqachu::diff::rows::{Row, Type};
use menqachu::diff::schema::Held;
use menqachu::diff::slots::{Generation, Slot};
use menqachu::diff::{Differences, State};
use menqachu::record::commands::{FIELD, HEAD};
use menqachu::record::layout::Field;
use menqachu::text::line;

use crate::command::json::Json;

pub fn whole(found: &Differences) -> Json {
    let declared =
        found.lines.iter().filter(|pair| pair.said().is_some_and(|said| said.command.byte != FIELD));
    Json::Object(vec![
        ("refusal", Json::Null),
        ("types", Json::List(found.types.iter().map(of_type).collect())),
        ("declarations", Json::List(declared.map(of_line).collect())),
        ("generations", Json::List(found.slots.iter().map(of_slot).collect())),
    ])
}

fn numbers(numbers: &[u32]) -> Json {
    Json::List(numbers.iter().map(|number| Json::Number((*number).into())).collect())
}

fn of_type(one: &Type) -> Json {
    let runs = if one.state == State::Changed { runs(one.released, one.current) } else { Vec::new() };
    Json::Object(vec![
        ("name", Json::bytes(one.name)),
        ("state", Json::text(one.state.word())),
        ("numbers", numbers(&one.numbers)),
        ("fields", Json::List(one.rows.iter().map(of_row).collect())),
        ("bytes", Json::List(runs.iter().map(of_run).collect())),
    ])
}

fn of_row(row: &Row) -> Json {
    Json::Object(vec![
        ("name", Json::bytes(row.name())),
        ("marks", Json::List(row.marks().into_iter().map(Json::text).collect())),
        ("numbers", numbers(&row.numbers)),
        ("released", Json::or_null(row.released.map(of_field))),
        ("current", Json::or_null(row.current.map(of_field))),
    ])
}

fn of_field(field: &Field) -> Json {
    Json::Object(vec![
        ("offset", Json::Number(field.offset)),
        ("size", Json::Number(field.size)),
        ("description", Json::bytes(&field.description)),
    ])
}

fn of_run(run: &Run) -> Json {
    let part = |part: Part| {
        let (name, from) = (Json::bytes(&part.field.name), Json::Number(part.from));
        Json::Object(vec![("field", name), ("from", from)])
    };
    Json::Object(vec![
        ("from", Json::Number(run.from)),
        ("to", Json::Number(run.to)),
        ("released", Json::or_null(run.released.map(part))),
        ("current", Json::or_null(run.current.map(part))),
    ])
}

fn of_line(pair: &Line) -> Json {
    let said = pair.said();
    let name = said.filter(|said| said.command.byte != HEAD).and_then(|said| said.text(0));
    let parent = Some(&pair.parent).filter(|parent| !parent.is_empty());
    Json::Object(vec![
        ("command", Json::text(said.map_or("", |said| said.command.word))),
        ("in", Json::or_null(parent.map(Json::text))),
        ("name", Json::or_null(name.map(Json::bytes))),
        ("state", Json::text(pair.state.word())),
        ("numbers", numbers(&pair.numbers)),
        ("released", Json::or_null(pair.released.map(|said| Json::text(line(said))))),
        ("current", Json::or_null(pair.current.map(|said| Json::text(line(said))))),
    ])
}

fn of_slot(slot: &Slot) -> Json {
    let generation = |one: Generation| {
        let number = match one.value {
            Some(Held::Integer(number)) => u32::try_from(number).ok(),
            _ => None,
        };
        Json::Object(vec![
            ("structure", Json::bytes(one.structure)),
            ("constant", Json::or_null(one.constant.map(Json::bytes))),
            ("number", Json::or_null(number.map(|number| Json::Number(number.into())))),
        ])
    };
    Json::Object(vec![
        ("slot", Json::bytes(slot.slot)),
        ("state", Json::text(slot.state.word())),
        ("numbers", numbers(&slot.numbers)),
        ("released", Json::or_null(slot.released.map(generation))),
        ("current", Json::or_null(slot.current.map(generation))),
    ])
}
