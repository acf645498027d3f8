//! `release load`: a pair of records whose check gives a wanted outcome.

use std::ffi::OsStr;
use std::io::{stdout, IsTerminal};

use menqachu::record::numbers::word;
use menqachu::record::pair::{OUTCOMES, SEEDS};
use menqachu::record::room::load_whole;

use super::args::Args;
use super::files::shown;
use super::output::print;
use super::{Done, Stop, DONE};

pub fn run(args: &Args) -> Done {
    if stdout().is_terminal() {
        let advice =
            "a pair is bytes and no text: send it to a file, as in `release load OUTCOME SEED > PAIR`";
        return Err(Stop::failed(advice));
    }
    let outcome = number(&args.operands[0], "an outcome")?;
    let seed = number(&args.operands[1], "a seed")?;
    let (answer, pair) = load_whole(outcome, seed);
    match answer.number {
        0 => print(&pair).map(|()| DONE),
        number => Err(unfit(number)),
    }
}

/// A number of 32 bits from the command line.
pub fn number(given: &OsStr, what: &str) -> Result<u32, Stop> {
    let parsed = given.to_str().and_then(|text| text.parse().ok());
    parsed.ok_or_else(|| Stop::failed(format!("expected {what}, found {}", shown(given))))
}

/// What the load call refuses.
pub fn unfit(number: u32) -> Stop {
    let outcomes: Vec<String> = OUTCOMES.iter().map(u32::to_string).collect();
    let word = word(number).unwrap_or_default();
    let (outcomes, last) = (outcomes.join(", "), SEEDS - 1);
    Stop::failed(format!("{number} {word}: the outcome is one of {outcomes}, the seed at most {last}"))
}
