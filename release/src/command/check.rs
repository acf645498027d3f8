//! `release check`: one record against another.

use menqachu::record::room::check_whole;
use menqachu::{Record, Side};

use super::answer::{with, Told};
use super::args::Args;
use super::files::Given;
use super::json::Json;
use super::output::{print, print_line};
use super::premises::Notes;
use super::{alike, files, Done};

pub fn run(args: &Args) -> Done {
    let current = files::record(&args.operands[0])?;
    let released = files::record(&args.operands[1])?;
    let told = told_of(&current, &released);
    let notes = match told.accepted() {
        true => Notes::of(&[("the released record", &released), ("the current record", &current)])?,
        false => Notes::default(),
    };
    let hint = told.hint(current.record(), released.record());
    if args.json {
        let value = with(told.json(), "hint", Json::or_null(hint.map(Json::text)));
        print_line(&with(value, "premises", notes.json()).to_string())?;
    } else {
        let hint = hint.map_or(String::new(), |hint| format!("hint: {hint}\n"));
        print(format!("{}\n{hint}{}", told.line(), notes.lines()).as_bytes())?;
        let message = told.message().unwrap_or_default().as_bytes();
        alike::tell(&[current.record(), released.record()], b"", message);
    }
    Ok(told.status())
}

/// What the proved check says of two records that were given.
pub fn told_of(current: &Given, released: &Given) -> Told {
    let told = told(current.record(), released.record());
    match told.side() {
        Some(Side::Current) => told.in_text(current),
        Some(Side::Released) => told.in_text(released),
        None => told,
    }
}

/// What the proved check says of two records.
pub fn told(current: Record, released: Record) -> Told {
    let (answer, message) = check_whole(current, released);
    Told::of_check(&answer, &message, current, released)
}
