//! Holds the proved calls against the Rust.
//!
//!     trials checks SEED COUNT [LEAST]   pairs drawn, and checked; every number is to come LEAST times
//!     trials lists SEED COUNT            records drawn, listed as current and as released
//!     trials owners SEED COUNT           records drawn, asked for owners
//!     trials pointers SEED COUNT         records drawn, their pointers judged
//!     trials chains SEED COUNT           chains of offers, and what the last keeps of the first
//!     trials sections SEED COUNT         pairs in another order of their sections, accepted as before
//!     trials pairs SEED COUNT            pairs of byte strings, the pairs of their bytes compared from the back
//!     trials pools SEED COUNT            pools of UTF-8 and not, with texts of them, beside Rust's own decoder
//!     trials load SEED COUNT             pairs of the load call, checked, and a share held to the model
//!     trials drafts SEED COUNT           series of edits of a draft, and the count found afresh after each
//!     trials shelf SEED COUNT            series of calls of a shelf, made by calls alone or forged
//!     trials memcheck SEED COUNT         the calls on blocks of exact lengths, to be run under valgrind
//!     trials stack                       the smallest thread that suffices for the largest records
//!     trials fuzz SECONDS SEED [FOLDER]  a search for pairs that differ; they are written to the folder
//!     trials bench                       the time of each call beside the Rust's
//!     trials bench --against FOLDER      the time of each call beside that of the archive in this folder
//!     trials repeat CALL INPUT TURNS [--against FOLDER]
//!                                        one call on one of the measured inputs, for a tool that counts instructions

mod against;
mod bench;
mod chains;
mod clock;
mod coverage;
mod differ;
mod drafts;
mod edit_rows;
mod fuzz;
mod inputs;
mod kept;
mod load;
mod memcheck;
mod mutate;
mod other;
mod pairs;
mod pointers;
mod pools;
mod premises;
mod sections;
mod shelf_rows;
mod shelves;
mod stack;
mod table;
mod tally;

use std::path::Path;
use std::process::ExitCode;

const USAGE: &str =
    "usage: trials checks SEED COUNT [LEAST] | trials lists|owners|pointers|chains|sections|pairs|pools|load|drafts|shelf|memcheck SEED COUNT
       trials fuzz SECONDS SEED [FOLDER] | trials stack | trials bench [--against FOLDER]
       trials repeat check|list|owner INPUT TURNS [--against FOLDER]
       trials repeat pointers|load|draft_count|draft_remove|draft_add|shelf_set|shelf_back INPUT TURNS";

fn main() -> ExitCode {
    let words: Vec<String> = std::env::args().skip(1).collect();
    let words: Vec<&str> = words.iter().map(String::as_str).collect();
    match run(&words) {
        Some(true) => ExitCode::SUCCESS,
        Some(false) => ExitCode::FAILURE,
        None => {
            eprintln!("{USAGE}");
            ExitCode::from(2)
        }
    }
}

/// Whether the run found nothing amiss; none where the words are no command.
fn run(words: &[&str]) -> Option<bool> {
    let number = |at: usize| words.get(at).and_then(|word| word.parse::<u64>().ok());
    match (*words.first()?, words.len()) {
        ("bench" | "repeat", _) => measure(words),
        ("checks", 3 | 4) => {
            let least = if words.len() == 4 { number(3)? } else { 0 };
            let pairs = differ::checks(number(1)?, number(2)?);
            println!("{pairs}");
            Some(pairs.tally.differ() == 0 && pairs.rarest().1 as u64 >= least)
        }
        ("chains", 3) => {
            let chains = chains::run(number(1)?, number(2)?);
            println!("{chains}");
            Some(chains.tally.differ() == 0 && chains.lost == 0)
        }
        ("sections", 3) => {
            let sections = sections::run(number(1)?, number(2)?);
            println!("{sections}");
            Some(sections.hold())
        }
        ("load", 3) => {
            let load = load::run(number(1)?, number(2)?);
            println!("{load}");
            Some(load.tally.differ() == 0)
        }
        ("fuzz", 3 | 4) => {
            let folder = words.get(3).unwrap_or(&"found");
            let fuzz = fuzz::run(number(1)?, number(2)?, Path::new(folder));
            println!("{fuzz}");
            Some(fuzz.tally.differ() == 0)
        }
        ("stack", 1) => Some(stack::run()),
        ("stack-of", 4) => stack::call(words[1], number(2)? as usize, number(3)? as usize),
        (call @ ("lists" | "owners" | "pointers" | "pairs" | "pools" | "drafts" | "shelf" | "memcheck"), 3) => {
            let run = match call {
                "lists" => differ::lists,
                "owners" => differ::owners,
                "pointers" => pointers::run,
                "pairs" => pairs::run,
                "pools" => pools::run,
                "drafts" => drafts::run,
                "shelf" => shelves::run,
                _ => memcheck::run,
            };
            let tally = run(number(1)?, number(2)?);
            println!("{tally}");
            Some(tally.differ() == 0)
        }
        _ => None,
    }
}

/// A run that measures or is measured: nothing is amiss unless an archive is asked for that is not linked.
fn measure(words: &[&str]) -> Option<bool> {
    match words {
        ["bench"] => bench::run(),
        ["bench", "--against", folder] => match other::others(folder) {
            Some(others) => against::run(&others),
            None => return Some(false),
        },
        ["repeat", "load", input, turns] => load::repeat(input, turns.parse().ok()?)?,
        ["repeat", "pointers", input, turns] => pointers::repeat(input, turns.parse().ok()?)?,
        ["repeat", call, input, turns] if call.starts_with("draft_") => {
            edit_rows::repeat(call, input, turns.parse().ok()?)?
        }
        ["repeat", call, input, turns] if call.starts_with("shelf_") => {
            shelf_rows::repeat(call, input, turns.parse().ok()?)?
        }
        ["repeat", call, input, turns] => against::repeat(&other::OURS, call, input, turns.parse().ok()?)?,
        ["repeat", call, input, turns, "--against", folder] => match other::others(folder) {
            Some(others) => against::repeat(&others, call, input, turns.parse().ok()?)?,
            None => return Some(false),
        },
        _ => return None,
    }
    Some(true)
}
