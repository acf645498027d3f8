//! `release owner`: the versioned structure that a name belongs to.

use menqachu::text::letters::shown;
use menqachu::{owner, Owner, Side};

use super::answer::Told;
use super::args::Args;
use super::json::Json;
use super::output::{complain, print_line};
use super::{alike, files, problem, Done, DONE, STOPPED};

pub fn run(args: &Args) -> Done {
    let given = files::record(&args.operands[0])?;
    let record = given.record();
    let name = args.operands[1].as_encoded_bytes();
    let owner = match owner(record, name) {
        Owner::Refused { number, place } => {
            let told = Told::of_given(number, Some(Side::Current), place, &given);
            return Err(problem::refused(&told, &given, args.json.then_some("owner")));
        }
        Owner::Named { start, len } => record.pool.get(start..start.saturating_add(len)),
        Owner::Nobody => None,
    };
    if args.json {
        let value = vec![("refusal", Json::Null), ("owner", Json::or_null(owner.map(Json::bytes)))];
        print_line(&Json::Object(value).to_string())?;
    } else {
        match owner {
            Some(owner) => print_line(&shown(owner))?,
            // A root may have any name, so nobody is no word on standard output.
            None => {
                complain(&format!("{}: nobody owns {}", given.shown(), shown(name)));
                alike::tell(&[record], name, name);
            }
        }
    }
    Ok(if owner.is_some() { DONE } else { STOPPED })
}
