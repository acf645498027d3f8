//! `release list`: the layouts of a record.

use menqachu::record::layout::{layouts, Field, Layouts};
use menqachu::record::room::list_whole;
use menqachu::record::Problem;
use menqachu::text::letters::shown_lines;
use menqachu::Side;

use super::args::Args;
use super::json::Json;
use super::output::{print, print_line};
use super::{files, problem, Done, DONE};

pub fn run(args: &Args) -> Done {
    let given = files::record(&args.operands[0])?;
    let side = if args.released { Side::Released } else { Side::Current };
    if args.json {
        let layouts = layouts(given.record(), side);
        let layouts = layouts.map_err(|problem| problem::stop(problem, &given, Some(side), Some("types")))?;
        print_line(&json(&layouts).to_string())?;
    } else {
        let (answer, list) = list_whole(given.record(), side);
        if answer.number != 0 {
            return Err(problem::stop(Problem::Refused(answer), &given, Some(side), None));
        }
        print(shown_lines(&list).as_bytes())?;
    }
    Ok(DONE)
}

fn json(layouts: &Layouts) -> Json {
    let types = layouts.iter().map(|(name, fields)| {
        let fields = fields.iter().map(named_field_json).collect();
        Json::Object(vec![("name", Json::bytes(name)), ("fields", Json::List(fields))])
    });
    Json::Object(vec![("refusal", Json::Null), ("types", Json::List(types.collect()))])
}

fn named_field_json(field: &Field) -> Json {
    Json::Object(vec![
        ("name", Json::bytes(&field.name)),
        ("offset", Json::Number(field.offset)),
        ("size", Json::Number(field.size)),
        ("description", Json::bytes(&field.description)),
    ])
}
