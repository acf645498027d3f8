//! The subcommands and how one is chosen.

mod about;
mod alike;
mod answer;
mod args;
mod assemble;
mod burn_in;
mod chain;
mod check;
mod diff;
mod draft;
mod explain;
mod files;
mod help;
mod json;
mod lint;
mod list;
mod load;
mod output;
mod owner;
mod paint;
mod pointers;
mod premises;
mod problem;
mod progress;
mod reordered;
mod report;
mod shelf;
mod show;
mod source;

use std::ffi::OsString;

use args::{Args, Asked, Rule};

/// Accepted, or done.
pub const DONE: u8 = 0;
/// A verdict, an offered record dropped, a name without an owner, a pointer that breaks the rule, records that are not reordered, or a remark.
pub const STOPPED: u8 = 1;
/// A record that is refused, or a text that is not a record's.
pub const DAMAGED: u8 = 2;
/// Wrong usage, or a file that cannot be read or written.
pub const FAILED: u8 = 3;

/// Why a command ends early: the exit status, and what standard error says, if anything.
#[derive(Debug)]
pub struct Stop {
    pub status: u8,
    pub message: String,
}

impl Stop {
    pub fn failed(message: impl Into<String>) -> Stop {
        Stop { status: FAILED, message: message.into() }
    }

    pub fn damaged(message: impl Into<String>) -> Stop {
        Stop { status: DAMAGED, message: message.into() }
    }
}

/// The exit status of a command, or why it ends early.
pub type Done = Result<u8, Stop>;

struct Entry {
    rule: Rule,
    run: fn(&Args) -> Done,
}

/// Those of a command that reads records.
const JSON: &[&str] = &["--json", "--record", "--text"];
const PLAIN: &[&str] = &["--record", "--text"];
const BURN_IN: &[&str] = &["--json", "--seeds=", "--outcome="];
const MANY: usize = usize::MAX;

static ENTRIES: [Entry; 18] = [
    Entry { rule: rule("check", help::CHECK, 2, 2, JSON), run: check::run },
    Entry { rule: rule("chain", help::CHAIN, 2, MANY, JSON), run: chain::run },
    Entry {
        rule: rule("list", help::LIST, 1, 1, &["--json", "--released", "--record", "--text"]),
        run: list::run,
    },
    Entry { rule: rule("owner", help::OWNER, 2, 2, JSON), run: owner::run },
    Entry { rule: rule("pointers", help::POINTERS, 1, 1, JSON), run: pointers::run },
    Entry {
        rule: rule("diff", help::DIFF, 2, 2, &["--all", "--json", "--record", "--text"]),
        run: diff::run,
    },
    Entry { rule: rule("report", help::REPORT, 2, 2, PLAIN), run: report::run },
    Entry { rule: rule("draft", help::DRAFT, 3, 4, JSON), run: draft::run },
    Entry { rule: rule("shelf", help::SHELF, 2, 5, JSON), run: shelf::run },
    Entry { rule: rule("reordered", help::REORDERED, 2, 2, JSON), run: reordered::run },
    Entry { rule: rule("lint", help::LINT, 1, 1, JSON), run: lint::run },
    Entry { rule: rule("explain", help::EXPLAIN, 0, 1, &["--json"]), run: explain::run },
    Entry { rule: rule("assemble", help::ASSEMBLE, 1, 1, &[]), run: assemble::run },
    Entry { rule: rule("show", help::SHOW, 1, 1, PLAIN), run: show::run },
    Entry { rule: rule("load", help::LOAD, 2, 2, &[]), run: load::run },
    Entry { rule: rule("burn-in", help::BURN_IN, 0, 0, BURN_IN), run: burn_in::run },
    Entry { rule: rule("help", help::HELP, 0, 1, &[]), run: about::help },
    Entry { rule: rule("completions", help::COMPLETIONS, 0, 0, &[]), run: about::completions },
];

const fn rule(
    name: &'static str,
    help: &'static str,
    least: usize,
    most: usize,
    options: &'static [&'static str],
) -> Rule {
    Rule { name, help, least, most, options }
}

/// Runs the command that these words ask for, and gives the exit status.
pub fn run(words: Vec<OsString>) -> u8 {
    match chosen(&words) {
        Ok(status) => status,
        Err(stop) => {
            output::complain(&stop.message);
            stop.status
        }
    }
}

fn chosen(words: &[OsString]) -> Done {
    let Some((first, rest)) = words.split_first() else {
        return Err(Stop::failed(format!("expected a command\n{}", help::COMMANDS)));
    };
    if first == "--help" || first == "-h" {
        return output::print(help::WHOLE.as_bytes()).map(|()| DONE);
    }
    if first == "--version" {
        return about::version();
    }
    let Some(entry) = ENTRIES.iter().find(|entry| first == entry.rule.name) else {
        let given = files::shown(first);
        return Err(Stop::failed(format!("expected a command, found {given}\n{}", help::COMMANDS)));
    };
    match args::parse(&entry.rule, rest)? {
        Asked::Help => output::print(entry.rule.help.as_bytes()).map(|()| DONE),
        Asked::Run(args) => (entry.run)(&args),
    }
}
