//! How many answers were held against each other, by what they answer.

use std::collections::BTreeMap;
use std::fmt;

use oracle::generate::Pair;
use oracle::stats::Stats;
use oracle::verdicts::{FIRST_VERDICT, LAST_VERDICT, PASSES, UNRAISED};
use oracle::{Answer, Side};

use crate::table::grouped;

/// How many questions got each answer, how many answers to them were compared, and how many differ.
#[derive(Default)]
pub struct Tally {
    questions: BTreeMap<String, u64>,
    answers: u64,
    differ: u64,
}

impl Tally {
    /// Count a question by the answer that it gets with all the room it needs.
    pub fn question(&mut self, answer: String) {
        *self.questions.entry(answer).or_default() += 1;
    }

    /// Count an answer; one that differs is printed whole.
    pub fn answer(&mut self, same: bool, what: impl fmt::Debug) {
        self.answers += 1;
        if !same {
            self.differ += 1;
            eprintln!("differs: {what:?}");
        }
    }

    pub fn differ(&self) -> u64 {
        self.differ
    }
}

impl fmt::Display for Tally {
    fn fmt(&self, f: &mut fmt::Formatter) -> fmt::Result {
        if !self.questions.is_empty() {
            writeln!(f, "| answer | questions |\n|---|---|")?;
        }
        for (answer, count) in &self.questions {
            writeln!(f, "| {answer} | {} |", grouped(*count))?;
        }
        writeln!(f, "\n{} answers compared, {} differ", grouped(self.answers), self.differ)
    }
}

/// A refusal as a row of a tally, so that rows stand in the order of numbers.
pub fn refusal(number: u32, side: u32) -> String {
    format!("refusal {number}, {}", if side == 0 { "current" } else { "released" })
}

/// The counts of a run of pairs.
#[derive(Default)]
pub struct Pairs {
    pub stats: Stats,
    pub tally: Tally,
    /// How often the one message came that is not the Rust's.
    named: u64,
}

impl Pairs {
    /// Count a pair with the answer that it gets with all the room it needs.
    pub fn count(&mut self, pair: &Pair, meant: &Answer) {
        self.stats.count(pair, meant);
        self.named += u64::from(meant.number == UNRAISED && meant.text.contains(" to 4294967296, and add "));
    }

    /// The refusal or verdict that came least often, and how often.
    pub fn rarest(&self) -> (String, usize) {
        let refusals = (1..=9).flat_map(|number| Side::BOTH.map(|side| (number, side)));
        let verdicts = (FIRST_VERDICT..=LAST_VERDICT).map(|number| (number, Side::Current));
        let counts = refusals.chain(verdicts).map(|(number, side)| {
            let name = if number < FIRST_VERDICT {
                refusal(number, side.number())
            } else {
                format!("verdict {number}")
            };
            (name, self.stats.of(number, side))
        });
        counts.min_by_key(|(_, count)| *count).expect("there are numbers")
    }
}

impl fmt::Display for Pairs {
    fn fmt(&self, f: &mut fmt::Formatter) -> fmt::Result {
        let shown = |count: usize| grouped(count as u64);
        writeln!(f, "| reached | pairs |\n|---|---|")?;
        for ((pass, _), reached) in PASSES.iter().zip(self.stats.reached()) {
            writeln!(f, "| {pass} | {} |", shown(reached))?;
        }
        let (accepted, changed) = (self.stats.of(0, Side::Current), self.stats.accepted_with_change());
        writeln!(f, "| accepted | {} |", shown(accepted))?;
        writeln!(f, "| accepted with a change beside the release | {} |", shown(changed))?;
        writeln!(f, "\n| refusal | current | released |\n|---|---|---|")?;
        for number in 1..=9 {
            let [current, released] = Side::BOTH.map(|side| shown(self.stats.of(number, side)));
            writeln!(f, "| {number} | {current} | {released} |")?;
        }
        writeln!(f, "\n| verdict | pairs |\n|---|---|")?;
        for number in FIRST_VERDICT..=LAST_VERDICT {
            writeln!(f, "| {number} | {} |", shown(self.stats.of(number, Side::Current)))?;
        }
        let (rarest, count) = self.rarest();
        writeln!(
            f,
            "\nThe rarest is {rarest}, {} times. The one message that 01 names (43 at the last",
            shown(count)
        )?;
        writeln!(f, "generation) came {} times, as 01 asks for it.\n{}", grouped(self.named), self.tally)
    }
}
