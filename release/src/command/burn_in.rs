//! `release burn-in`: pairs of many seeds, each made by the load call and checked.

use std::ffi::OsStr;
use std::ops::Range;

use menqachu::record::pair::{Pair, OUTCOMES, SEEDS};
use menqachu::record::room::{check_whole, load_whole};

use super::args::Args;
use super::files::shown;
use super::json::Json;
use super::load::{number, unfit};
use super::output::{counted, print_line, print_on};
use super::progress::Progress;
use super::{Done, Stop, DONE, STOPPED};

/// How many seeds a line of the report stands for.
const LINE: u32 = 1000;

pub fn run(args: &Args) -> Done {
    let Some(seeds) = args.value("--seeds") else {
        return Err(Stop::failed("burn-in: expected --seeds A..B"));
    };
    let seeds = range(seeds)?;
    let outcomes = match args.value("--outcome") {
        Some(outcome) => vec![number(outcome, "an outcome")?],
        None => OUTCOMES.to_vec(),
    };
    // Lines are for people: with --json the summary is all that is printed.
    let lines = !args.json;
    let mut progress = Progress::new(seeds.len() as u64);
    let mut told = |burnt: &Burnt| {
        progress.at(burnt.done.into());
        if lines && burnt.done % LINE == 0 {
            print_on(&burnt.so_far())
        } else {
            Ok(())
        }
    };
    let burnt = burn(seeds, &outcomes, made, &mut told)?;
    print_line(&if args.json { burnt.json().to_string() } else { burnt.line() })?;
    Ok(if burnt.difference.is_none() { DONE } else { STOPPED })
}

/// How far a burn-in is.
struct Burnt<'a> {
    seeds: Range<u32>,
    outcomes: &'a [u32],
    done: u32,
    pairs: u64,
    bytes: u64,
    difference: Option<Difference>,
}

/// A pair whose check gives another number.
struct Difference {
    seed: u32,
    outcome: u32,
    number: u32,
}

/// What a pair came to: its length, and the number that its check gives.
type Made = Result<(usize, u32), Stop>;

/// Makes and checks the pair of each seed with each outcome, up to the first difference.
fn burn<'a>(
    seeds: Range<u32>,
    outcomes: &'a [u32],
    make: impl Fn(u32, u32) -> Made,
    told: &mut impl FnMut(&Burnt) -> Result<(), Stop>,
) -> Result<Burnt<'a>, Stop> {
    let mut burnt = Burnt { seeds: seeds.clone(), outcomes, done: 0, pairs: 0, bytes: 0, difference: None };
    for seed in seeds {
        for &outcome in outcomes {
            let (length, number) = make(outcome, seed)?;
            if number != outcome {
                burnt.difference = Some(Difference { seed, outcome, number });
                return Ok(burnt);
            }
            burnt.pairs += 1;
            burnt.bytes += length as u64;
        }
        burnt.done += 1;
        told(&burnt)?;
    }
    Ok(burnt)
}

fn made(outcome: u32, seed: u32) -> Made {
    let (answer, bytes) = load_whole(outcome, seed);
    if answer.number != 0 {
        return Err(unfit(answer.number));
    }
    let pair = Pair::read(&bytes).map_err(|error| Stop::failed(format!("a pair cannot be read: {error}")))?;
    let (checked, _) = check_whole(pair.current.record(), pair.released.record());
    Ok((bytes.len(), checked.number))
}

impl Burnt<'_> {
    fn line(&self) -> String {
        let Range { start, end } = self.seeds;
        let (pairs, bytes) = (counted(self.pairs, "pair"), counted(self.bytes, "byte"));
        match &self.difference {
            None => format!("seeds {start}..{end}: {pairs}, {bytes}, each with its outcome"),
            Some(Difference { seed, outcome, number }) => {
                let theirs = if self.pairs == 1 { "its own" } else { "theirs" };
                format!(
                    "seed {seed}, outcome {outcome}: the check gives {number}, after {pairs} with {theirs}"
                )
            }
        }
    }

    /// A line for each thousand seeds.
    fn so_far(&self) -> String {
        let (pairs, bytes) = (counted(self.pairs, "pair"), counted(self.bytes, "byte"));
        format!("{}, {pairs}, {bytes}", counted(self.done.into(), "seed"))
    }

    fn json(&self) -> Json {
        let number = |number: u32| Json::Number(number.into());
        let difference = self.difference.as_ref().map(|found| {
            Json::Object(vec![
                ("seed", number(found.seed)),
                ("outcome", number(found.outcome)),
                ("number", number(found.number)),
            ])
        });
        Json::Object(vec![
            ("from", number(self.seeds.start)),
            ("to", number(self.seeds.end)),
            ("outcomes", Json::List(self.outcomes.iter().copied().map(number).collect())),
            ("pairs", Json::Number(self.pairs)),
            ("bytes", Json::Number(self.bytes)),
            ("difference", Json::or_null(difference)),
        ])
    }
}

/// Seeds from one up to another, which is not among them.
fn range(given: &OsStr) -> Result<Range<u32>, Stop> {
    let parsed = given.to_str().and_then(|text| text.split_once(".."));
    let parsed = parsed.and_then(|(from, to)| Some(from.parse().ok()?..to.parse().ok()?));
    match parsed {
        Some(seeds) if seeds.start < seeds.end && seeds.end <= SEEDS => Ok(seeds),
        _ => {
            let given = shown(given);
            Err(Stop::failed(format!(
                "expected seeds as A..B, A below B and B at most {SEEDS}, found {given}"
            )))
        }
    }
}

#[cfg(test)]
mod tests {
    use super::*;

    /// The first difference ends a burn-in, with its seed and outcome.
    #[test]
    fn first_difference() {
        let make = |outcome, seed| Ok((10, if seed == 7 && outcome == 35 { 36 } else { outcome }));
        let mut told = 0;
        let mut count = |_: &Burnt| -> Result<(), Stop> {
            told += 1;
            Ok(())
        };
        let burnt = burn(5..9, &OUTCOMES, make, &mut count).expect("pairs");
        assert_eq!(burnt.line(), "seed 7, outcome 35: the check gives 36, after 15 pairs with theirs");
        let json = r#""pairs":15,"bytes":150,"difference":{"seed":7,"outcome":35,"number":36}}"#;
        assert!(burnt.json().to_string().ends_with(json));
        assert_eq!(told, 2);
    }
}
