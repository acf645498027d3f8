//! `release explain`: what a number means, why it is a fault, what to do, and a smallest example.

use std::ffi::OsStr;

use menqachu::explain::example::{in_bytes, record, Example};
use menqachu::explain::{page, pages, Page};
use menqachu::record::numbers::{number, word};
use menqachu::record::parts::Parts;
use menqachu::text::Fault;

use super::args::Args;
use super::check::told;
use super::files::shown;
use super::json::Json;
use super::output::{print, print_line};
use super::{Done, Stop, DONE};

/// How many letters a line of a page has at most.
const WIDTH: usize = 88;

pub fn run(args: &Args) -> Done {
    let Some(given) = args.operands.first() else {
        return all(args.json);
    };
    let page = asked(given)?;
    if args.json {
        print_line(&json(page).to_string())?;
    } else {
        let text =
            text(page).map_err(|fault| Stop::failed(format!("the example of {}: {fault}", page.number)))?;
        print(text.as_bytes())?;
    }
    Ok(DONE)
}

fn all(as_json: bool) -> Done {
    if as_json {
        print_line(&Json::List(pages().map(json).collect()).to_string())?;
    } else {
        let line =
            |page: &Page| format!("{:>2}  {}\n", page.number, word(page.number).unwrap_or("(no word)"));
        let lines: String = pages().map(line).collect();
        print(format!("{lines}`release explain NUMBER` says more of one\n").as_bytes())?;
    }
    Ok(DONE)
}

/// The page of a number, or of a word.
fn asked(given: &OsStr) -> Result<&'static Page, Stop> {
    let text = given.to_str();
    let asked = text.and_then(|text| text.parse().ok().or_else(|| number(text)));
    asked.and_then(page).ok_or_else(|| {
        let given = shown(given);
        Stop::failed(format!("no number {given} is given; `release explain` lists all of them"))
    })
}

fn json(page: &Page) -> Json {
    Json::Object(vec![
        ("number", Json::Number(page.number.into())),
        ("word", Json::or_null(word(page.number).map(Json::text))),
        ("means", Json::text(page.means)),
        ("why", Json::text(page.why)),
        ("cure", Json::text(page.cure)),
    ])
}

fn text(page: &Page) -> Result<String, Fault> {
    let word = word(page.number).map_or(String::new(), |word| format!(" {word}"));
    let parts = [("means", page.means), ("why", page.why), ("what to do", page.cure)];
    let mut text = format!("{}{word}\n\n", page.number);
    for (name, words) in parts {
        text.push_str(&wrapped(name, words));
    }
    Ok(text + "\n" + &example(page)?)
}

/// Words in lines, behind a name.
fn wrapped(name: &str, words: &str) -> String {
    let mut lines = String::new();
    let mut line = format!("{name:<10}");
    for word in words.split(' ') {
        if line.len() + 1 + word.len() > WIDTH {
            lines.push_str(&(line + "\n"));
            line = " ".repeat(10);
        }
        line.push(' ');
        line.push_str(word);
    }
    lines + &line + "\n"
}

/// The example with the answer that it gets.
fn example(page: &Page) -> Result<String, Fault> {
    let number = page.number;
    let word = word(number).unwrap_or_default();
    let lines = match &page.example {
        Example::Checked { current, released } => {
            let told = told(record(current)?.record(), record(released)?.record());
            let texts = block("current", current) + &block("released", released);
            texts + &gives("release check current released", &told.line())
        }
        Example::Bytes { file } => {
            let parts = in_bytes(file);
            let told = told(parts.record(), Parts::default().record());
            bytes(file) + &gives("release check example.rec with any other record", &told.line())
        }
        Example::Room { record, room } => {
            let needed = page.example.answer()?.len;
            let answer = format!("{number} {word}: {needed} bytes are needed");
            block("record", record) + &gives(&format!("the list call with a buffer of {room} bytes"), &answer)
        }
        Example::Pointers { record } => {
            let place = page.example.answer()?.place;
            let answer = format!("{number} {word}: place {place} of the stream");
            block("record", record) + &gives("release pointers record", &answer)
        }
        Example::Added { draft, addition, released } => {
            let texts = block("draft", draft) + &block("addition", addition);
            let texts = texts + &block("released", released);
            texts + &gives("release draft add draft addition released", &format!("{number} {word}"))
        }
        Example::Removed { draft, name, released } => {
            let call = format!("release draft remove draft {name} released");
            let texts = block("draft", draft) + &block("released", released);
            texts + &gives(&call, &format!("{number} {word}"))
        }
        Example::Load { outcome, seed } => {
            gives(&format!("release load {outcome} {seed}"), &format!("{number} {word}"))
        }
        Example::Set { name, draft } => {
            let call = format!("release shelf set a-new-shelf {name} draft");
            block("draft", draft) + &gives(&call, &format!("{number} {word}"))
        }
        Example::Back { name, released } => {
            let call = format!("release shelf back a-new-shelf {name} draft released");
            block("released", released) + &gives(&call, &format!("{number} {word}"))
        }
    };
    Ok(format!("example\n{lines}"))
}

fn gives(call: &str, answer: &str) -> String {
    format!("  {call} gives\n    {answer}\n")
}

/// A record's text under its name.
fn block(name: &str, text: &str) -> String {
    let lines: String = text.lines().map(|line| format!("    {line}\n")).collect();
    format!("  {name}\n{lines}")
}

/// A record's file in bytes, and how a shell makes it.
fn bytes(file: &[u8]) -> String {
    let hex: Vec<String> = file.iter().map(|byte| format!("{byte:02X}")).collect();
    let octal: String = file.iter().map(|byte| format!("\\{byte:03o}")).collect();
    format!("  example.rec, in bytes\n    {}\n    printf '{octal}' > example.rec\n", hex.join(" "))
}
