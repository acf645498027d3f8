//! `release report`: a page for a browser on what a record changes, in one file without outside parts.

mod changes;
mod html;
mod map;
mod style;

use std::io::{stdout, IsTerminal};

use menqachu::diff::rows::Type;
use menqachu::diff::{differences, State};
use menqachu::explain::page;
use menqachu::record::numbers::word;
use menqachu::Side;

use super::answer::Told;
use super::args::Args;
use super::check::told;
use super::diff::read;
use super::files::Given;
use super::output::print;
use super::premises::Notes;
use super::{files, Done, Stop, DONE};
use html::{escaped, in_code, list, plain, section};

pub fn run(args: &Args) -> Done {
    if stdout().is_terminal() {
        let advice = "a page is for a browser: send it to a file, as in `release report CURRENT RELEASED > report.html`";
        return Err(Stop::failed(advice));
    }
    let current = files::record(&args.operands[0])?;
    let released = files::record(&args.operands[1])?;
    print(whole(&current, &released)?.as_bytes()).map(|()| DONE)
}

/// The page of two records that can be read.
fn whole(current: &Given, released: &Given) -> Result<String, Stop> {
    let (is, was) = (read(current, Side::Current, None)?, read(released, Side::Released, None)?);
    let told = told(current.record(), released.record());
    let found = differences(&is, &was);
    let parts = [
        verdict(&told, current, released),
        map::maps(&found.types),
        changes::section(&found.lines),
        new_types(&found.types),
        premises(&told, current, released)?,
    ];
    let title = format!("{} against {}", current.shown(), released.shown());
    Ok(html::page(&title, style::STYLE, &parts.concat(), &foot()))
}

/// The verdict in words: the message, what it means, why it is a fault, and what to do.
fn verdict(told: &Told, current: &Given, released: &Given) -> String {
    let files = format!(
        "<p>Record about to ship: {}<br>Last release: {}</p>\n",
        plain(&current.shown()),
        plain(&released.shown())
    );
    let Some(page) = page(told.number()) else {
        return format!("<div class=\"verdict good\">\n<h1>Accepted</h1>\n{files}</div>\n");
    };
    let title = format!("Not accepted: {} {}", page.number, word(page.number).unwrap_or_default());
    let message = told.message().unwrap_or_default();
    let mut words = vec![("What it means", in_code(page.means)), ("Why it is a fault", in_code(page.why))];
    let hint = told.hint(current.record(), released.record()).filter(|hint| hint != page.cure);
    words.extend(hint.map(|hint| ("Lines to change", plain(&hint))));
    words.push(("What to do", in_code(page.cure)));
    let words: String =
        words.iter().map(|(name, text)| format!("<dt>{name}</dt><dd>{text}</dd>\n")).collect();
    let message = plain(message);
    format!("<div class=\"verdict bad\">\n<h1>{title}</h1>\n<p class=\"message\">{message}</p>\n{files}<dl>\n{words}</dl>\n</div>\n")
}

/// Types that no reader that shipped knows.
fn new_types(types: &[Type]) -> String {
    let new = types.iter().filter(|one| one.state == State::New);
    let names: Vec<String> = new.map(|one| html::name(one.name)).collect();
    if names.is_empty() {
        return String::new();
    }
    section("New types", &list(&names))
}

/// Where what is proved of chains does not cover the two records.
fn premises(told: &Told, current: &Given, released: &Given) -> Result<String, Stop> {
    if !told.accepted() {
        let words = "<p>What is proved speaks of accepted records. This one is not accepted, so it stands in no chain.</p>\n";
        return Ok(section("What is proved", words));
    }
    let notes = Notes::of(&[("the released record", released), ("the current record", current)])?;
    let lines: Vec<String> =
        notes.places().map(|(key, what)| format!("<b>{key}</b>: {}", plain(what))).collect();
    let words = if lines.is_empty() {
        "<p>Over every chain of accepted records no field, enum value or bit member is lost or moved, and under one \
         generation number no byte of a type changes. Both records are inside the premises of this.</p>\n"
            .to_string()
    } else {
        let front = "<p>Over every chain of accepted records no field, enum value or bit member is lost or moved, and \
                     under one generation number no byte of a type changes. Its premises are not met here:</p>\n";
        format!("{front}{}", list(&lines))
    };
    Ok(section("What is proved", &words))
}

fn foot() -> String {
    let revision = escaped(env!("MENQACHU_REVISION"));
    format!("release {}, proved library of revision {revision}", env!("CARGO_PKG_VERSION"))
}
