//! `release lint`: where one record is outside the premises of what is proved of chains, and what its sizes pass over.

use menqachu::premises::chain::{outside, Link};
use menqachu::premises::remarks::remarks;
use menqachu::record::sections::readable;

use super::args::Args;
use super::json::Json;
use super::output::{print, print_line};
use super::premises::place_json;
use super::{files, problem, Done, DONE, STOPPED};

pub fn run(args: &Args) -> Done {
    let given = files::record(&args.operands[0])?;
    let commands = readable(given.record());
    let commands =
        commands.map_err(|problem| problem::stop(problem, &given, None, args.json.then_some("premises")))?;
    let remarks = remarks(&commands);
    let outside = outside(&[Link { label: "the record".to_string(), commands }]);
    if args.json {
        let places = outside.iter().map(|outside| Json::Object(place_json(outside)));
        let value = vec![
            ("refusal", Json::Null),
            ("premises", Json::List(places.collect())),
            ("remarks", Json::List(remarks.iter().map(Json::text).collect())),
        ];
        print_line(&Json::Object(value).to_string())?;
    } else {
        let places = outside.iter().map(|outside| format!("{}: {}\n", outside.premise.key, outside.what));
        let lines: String = places.chain(remarks.iter().map(|what| format!("remark: {what}\n"))).collect();
        print(if lines.is_empty() { "no remarks\n" } else { &lines }.as_bytes())?;
    }
    Ok(if outside.is_empty() && remarks.is_empty() { DONE } else { STOPPED })
}
