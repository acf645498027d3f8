//! `release reordered`: whether two records have the same sections in another order.

use menqachu::record::apart::{Apart, What};
use menqachu::record::commands::Said;
use menqachu::record::reorder::{order, Bytes, Moves, Order};
use menqachu::record::sections::{cut, readable};
use menqachu::record::twice::twice;

use super::args::Args;
use super::files::Given;
use super::json::Json;
use super::output::{print, print_line};
use super::{files, problem, Done, Stop, DONE, STOPPED};

pub fn run(args: &Args) -> Done {
    let one = files::record(&args.operands[0])?;
    let other = files::record(&args.operands[1])?;
    let (said, said_there) = (read(&one, args.json)?, read(&other, args.json)?);
    let (first, second) = (cut(&said, one.record().stream), cut(&said_there, other.record().stream));
    let compared = Compared {
        order: order((one.record(), &first), (other.record(), &second)),
        sections: first.parts.len(),
        twice: twice(&first),
    };
    if args.json {
        let value = Json::Object(vec![("refusal", Json::Null), ("order", compared.json())]);
        print_line(&value.to_string())?;
    } else {
        print(compared.lines().as_bytes())?;
    }
    Ok(if compared.covered() { DONE } else { STOPPED })
}

fn read(given: &Given, json: bool) -> Result<Vec<Said>, Stop> {
    let read = readable(given.record());
    read.map_err(|problem| problem::stop(problem, given, None, json.then_some("order")))
}

/// How two records stand to each other, with what the premise asks of the first; the second then meets it as well.
struct Compared {
    order: Order,
    sections: usize,
    twice: Option<String>,
}

impl Compared {
    /// Whether it is proved that either is accepted where the other is, beside any record that meets the premise too.
    fn covered(&self) -> bool {
        match self.order {
            Order::Alike { bytes: Bytes::Equal, .. } => true,
            Order::Alike { bytes: Bytes::Moved, .. } => self.twice.is_none(),
            _ => false,
        }
    }

    fn lines(&self) -> String {
        let (moves, bytes) = match &self.order {
            Order::Apart(apart) => return format!("not reordered: {}\n", apart_line(apart)),
            Order::Alike { moves, bytes } => (moves, *bytes),
        };
        let sections = self.sections;
        if bytes == Bytes::Equal {
            return format!("equal: {}, nothing moved\n", counted(sections, "section"));
        }
        let mut lines = match moves.none() {
            true => format!("in the same order: {}, nothing moved\n", counted(sections, "section")),
            false => format!("reordered: {}\n", moves_line(moves, sections)),
        };
        if let Some(reason) = unproved(bytes) {
            lines.push_str(&format!("{reason}, which the proof does not cover\n"));
        }
        if let Some(name) = &self.twice {
            lines.push_str(&format!("{name} stands twice, so one may be accepted where the other is not\n"));
        }
        if self.covered() {
            lines.push_str("either is accepted where the other is, beside any record in which no name or slot stands twice\n");
        }
        lines
    }

    fn json(&self) -> Json {
        let (answer, alike, apart) = match &self.order {
            Order::Apart(apart) => ("apart", None, Some(apart)),
            Order::Alike { moves, bytes: Bytes::Equal } => ("equal", Some((moves, Bytes::Equal)), None),
            Order::Alike { moves, bytes } => ("reordered", Some((moves, *bytes)), None),
        };
        let bytes = alike.map(|(_, bytes)| bytes);
        let same_pool = bytes.map(|bytes| Json::Bool(bytes != Bytes::OtherPool));
        let same_bytes = bytes.map(|bytes| Json::Bool(matches!(bytes, Bytes::Equal | Bytes::Moved)));
        let twice = self.twice.as_ref().filter(|_| alike.is_some());
        Json::Object(vec![
            ("answer", Json::text(answer)),
            ("covered", Json::Bool(self.covered())),
            ("sections", Json::or_null(alike.map(|_| Json::Number(self.sections as u64)))),
            ("moved", Json::or_null(alike.map(|(moves, _)| moves_json(moves)))),
            ("same_pool", Json::or_null(same_pool)),
            ("same_bytes", Json::or_null(same_bytes)),
            ("twice", Json::or_null(twice.map(|name| Json::text(name.as_str())))),
            ("apart", Json::or_null(apart.map(apart_json))),
        ])
    }
}

/// How the bytes differ otherwise than by moves.
fn unproved(bytes: Bytes) -> Option<&'static str> {
    match bytes {
        Bytes::Equal | Bytes::Moved => None,
        Bytes::OtherPlaces => {
            Some("texts lie at other places of the pool, or bytes differ that nothing reads")
        }
        Bytes::OtherPool => Some("the pool is another one"),
    }
}

/// `1 section`, `2 sections`
fn counted(count: usize, what: &str) -> String {
    format!("{count} {what}{}", if count == 1 { "" } else { "s" })
}

fn moves_line(moves: &Moves, sections: usize) -> String {
    let parts = [(moves.values, "value"), (moves.members, "member"), (moves.variants, "variant")];
    let [values, members, variants] = parts.map(|(count, what)| counted(count, what));
    let moved = moves.sections;
    let all = counted(sections, "section");
    format!("{moved} of {all}, {values}, {members} and {variants} stand at another place")
}

fn moves_json(moves: &Moves) -> Json {
    let number = |count: usize| Json::Number(count as u64);
    Json::Object(vec![
        ("sections", number(moves.sections)),
        ("values", number(moves.values)),
        ("members", number(moves.members)),
        ("variants", number(moves.variants)),
    ])
}

fn apart_line(apart: &Apart) -> String {
    let at = apart.at.join(", ");
    match &apart.what {
        What::Operand { name, first, second } => {
            format!("{at}: {name} is {first} in the first record and {second} in the second")
        }
        What::Command { first, second } => {
            let [first, second] =
                [first, second].map(|name| name.clone().unwrap_or_else(|| "no more".to_string()));
            format!("{at}: the first record has {first} where the second has {second}")
        }
        What::Count { second: 0, .. } => format!("{at} is in the first record alone"),
        What::Count { first: 0, .. } => format!("{at} is in the second record alone"),
        What::Count { first, second } => {
            let [first, second] = [first, second].map(|count| counted(*count, "time"));
            format!("{at} stands {first} in the first record and {second} in the second")
        }
    }
}

fn apart_json(apart: &Apart) -> Json {
    let text = |text: &Option<String>| Json::or_null(text.as_deref().map(Json::text));
    let (what, operand, first, second) = match &apart.what {
        What::Operand { name, first, second } => {
            ("operand", Json::text(*name), Json::text(first.as_str()), Json::text(second.as_str()))
        }
        What::Command { first, second } => ("command", Json::Null, text(first), text(second)),
        What::Count { first, second } => {
            ("count", Json::Null, Json::Number(*first as u64), Json::Number(*second as u64))
        }
    };
    Json::Object(vec![
        ("at", Json::List(apart.at.iter().map(|name| Json::text(name.as_str())).collect())),
        ("what", Json::text(what)),
        ("operand", operand),
        ("first", first),
        ("second", second),
    ])
}
