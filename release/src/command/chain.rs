//! `release chain`: offered records in turn, each against the last accepted one.

use menqachu::record::room::list_whole;
use menqachu::Side;

use super::answer::{with, Told};
use super::args::Args;
use super::check::told_of;
use super::files::Given;
use super::json::Json;
use super::output::{print, print_line};
use super::premises::Notes;
use super::progress::Progress;
use super::{alike, files, Done, Stop, DONE, STOPPED};

pub fn run(args: &Args) -> Done {
    // Each record is read and then checked.
    let mut progress = Progress::new(2 * args.operands.len() as u64);
    let mut given = Vec::new();
    for file in &args.operands {
        progress.at(given.len() as u64);
        given.push(files::record(file)?);
    }
    let Some((first, offered)) = given.split_first() else {
        return Err(Stop::failed("chain: expected a first record"));
    };
    // The first record is never checked itself, so the list call says whether it can be read as released.
    let (answer, _) = list_whole(first.record(), Side::Released);
    if answer.number != 0 {
        let refusal = Told::of_given(answer.number, Some(Side::Released), answer.place, first);
        return no_first(first, &refusal, args.json);
    }
    let links = links(first, offered, &mut progress);
    let notes = notes(first, &links)?;
    if args.json {
        let value = json(first, None, &links);
        print_line(&with(value, "premises", notes.json()).to_string())?;
    } else {
        let lines: String = links.iter().map(|link| link.line() + "\n").collect();
        print((lines + &notes.lines()).as_bytes())?;
        for link in &links {
            alike::tell(
                &[link.offered.record(), link.against.record()],
                b"",
                link.told.message().unwrap_or_default().as_bytes(),
            );
        }
    }
    Ok(if links.iter().all(|link| link.told.accepted()) { DONE } else { STOPPED })
}

/// An offered record, what it was checked against, and the answer.
struct Link<'a> {
    offered: &'a Given,
    against: &'a Given,
    told: Told,
}

fn links<'a>(first: &'a Given, offered: &'a [Given], progress: &mut Progress) -> Vec<Link<'a>> {
    let (mut last, all) = (first, offered.len() + 1);
    let mut links = Vec::new();
    for (at, offered) in offered.iter().enumerate() {
        progress.at((all + at) as u64);
        let link = Link { offered, against: last, told: told_of(offered, last) };
        if link.told.accepted() {
            last = offered;
        }
        links.push(link);
    }
    links
}

/// Where the first record and the accepted ones are outside the premises.
fn notes(first: &Given, links: &[Link]) -> Result<Notes, Stop> {
    let accepted = links.iter().filter(|link| link.told.accepted()).map(|link| link.offered);
    let chain: Vec<(String, &Given)> =
        std::iter::once(first).chain(accepted).map(|given| (given.shown(), given)).collect();
    let chain: Vec<(&str, &Given)> = chain.iter().map(|(label, given)| (label.as_str(), *given)).collect();
    Notes::of(&chain)
}

impl Link<'_> {
    fn line(&self) -> String {
        let (offered, against) = (self.offered.shown(), self.against.shown());
        if self.told.accepted() {
            format!("{offered}: accepted after {against}")
        } else {
            format!("{offered}: dropped after {against}: {}", self.told.line())
        }
    }

    fn json(&self) -> Json {
        Json::Object(vec![
            ("file", Json::text(self.offered.name())),
            ("against", Json::text(self.against.name())),
            ("answer", self.told.json()),
        ])
    }
}

fn json(first: &Given, refusal: Option<Json>, links: &[Link]) -> Json {
    let accepted = links.iter().rfind(|link| link.told.accepted());
    let last = accepted.map_or(first, |link| link.offered);
    let last = refusal.is_none().then(|| Json::text(last.name()));
    Json::Object(vec![
        ("first", Json::text(first.name())),
        ("refusal", Json::or_null(refusal)),
        ("offered", Json::List(links.iter().map(Link::json).collect())),
        ("last", Json::or_null(last)),
    ])
}

fn no_first(first: &Given, refusal: &Told, as_json: bool) -> Done {
    if as_json {
        let value = json(first, Some(refusal.json()), &[]);
        print_line(&with(value, "premises", Json::List(Vec::new())).to_string())?;
    }
    let line = refusal.line();
    Err(Stop::damaged(format!("{}: no chain can begin with it: {line}", first.shown())))
}
