//! `release pointers`: whether the pointers of a record name what they must.

use menqachu::record::numbers::word;
use menqachu::record::pointers::{broken, Broken};
use menqachu::text::letters::shown;
use menqachu::text::written;
use menqachu::Side;

use super::args::Args;
use super::files::Given;
use super::json::Json;
use super::output::print_line;
use super::{alike, files, problem, Done, DONE, STOPPED};

/// A pointer that names only the other of a structure and a family.
const OTHER: u32 = 60;

pub fn run(args: &Args) -> Done {
    let given = files::record(&args.operands[0])?;
    let broken = broken(given.record()).map_err(|problem| {
        problem::stop(problem, &given, Some(Side::Current), args.json.then_some("broken"))
    })?;
    if args.json {
        let value = vec![("refusal", Json::Null), ("broken", Json::or_null(broken.as_ref().map(json)))];
        print_line(&Json::Object(value).to_string())?;
    } else {
        print_line(&broken.as_ref().map_or("accepted".to_string(), |broken| line(broken, &given)))?;
        let name = broken.as_ref().and_then(|broken| broken.name.as_deref());
        alike::tell(&[given.record()], b"", name.unwrap_or_default());
    }
    Ok(if broken.is_some() { STOPPED } else { DONE })
}

fn line(broken: &Broken, given: &Given) -> String {
    let (number, kind) = (broken.number, shown(&broken.kind));
    let field = format!("{}.{}", shown(&broken.type_name), shown(&broken.field));
    let named = match &broken.name {
        None => "has no name".to_string(),
        Some(name) => format!("names {}, which is {}", written(name), found(broken)),
    };
    let line = given.line_at(broken.place).map_or(String::new(), |line| format!("line {line}, "));
    let place = format!("{line}place {} of the stream", broken.place);
    format!("{number} {}: {place}, {field}: {kind} {named}", word(number).unwrap_or_default())
}

/// What the name is instead of what it must be.
fn found(broken: &Broken) -> &'static str {
    match (broken.number, &broken.kind[..]) {
        (OTHER, b"tagged_fam_ptr") => "a structure",
        (OTHER, _) => "a family",
        _ => "neither a structure nor a family",
    }
}

fn json(broken: &Broken) -> Json {
    Json::Object(vec![
        ("number", Json::Number(broken.number.into())),
        ("word", Json::or_null(word(broken.number).map(Json::text))),
        ("place", Json::Number(broken.place as u64)),
        ("type", Json::bytes(&broken.type_name)),
        ("field", Json::bytes(&broken.field)),
        ("kind", Json::bytes(&broken.kind)),
        ("name", Json::or_null(broken.name.as_deref().map(Json::bytes))),
    ])
}
