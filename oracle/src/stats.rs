//! How far a run of generated pairs reaches.

use std::collections::BTreeMap;

use crate::answers::{Answer, ROOM};
use crate::generate::{self, Pair};
use crate::model::{Content, Side};
use crate::reader::read;
use crate::rng::Rng;
use crate::verdicts::{FIRST_VERDICT, LAST_VERDICT, PASSES, pass_of};

#[derive(Debug, Default)]
pub struct Stats {
    pairs: usize,
    reached: [usize; PASSES.len()],
    numbers: BTreeMap<(u32, u32), usize>,
    changed: usize,
    bytes: usize,
}

/// Count over `pairs` generated pairs.
pub fn run(seed: u64, pairs: usize) -> Stats {
    let mut rng = Rng::new(seed);
    let mut stats = Stats::default();
    for _ in 0..pairs {
        let pair = generate::pair(&mut rng);
        stats.count(&pair, &pair.check(ROOM));
    }
    stats
}

impl Stats {
    /// Count a pair with the answer to it.
    pub fn count(&mut self, pair: &Pair, answer: &Answer) {
        self.pairs += 1;
        self.bytes += pair.current.stream.len() + pair.released.stream.len();
        *self
            .numbers
            .entry((answer.number, answer.side))
            .or_default() += 1;
        for reached in &mut self.reached[..passes_reached(answer, pair)] {
            *reached += 1;
        }
        if answer.number == 0 && really_changed(pair) {
            self.changed += 1;
        }
    }

    /// How many pairs gave this number on this side.
    pub fn of(&self, number: u32, side: Side) -> usize {
        let count = self.numbers.get(&(number, side.number()));
        count.copied().unwrap_or(0)
    }

    /// How many pairs were accepted with more changed than the release.
    pub fn accepted_with_change(&self) -> usize {
        self.changed
    }

    /// How many pairs reached each pass.
    pub fn reached(&self) -> [usize; PASSES.len()] {
        self.reached
    }

    pub fn report(&self) -> String {
        let mut out = format!("pairs {}\n", self.pairs);
        out += &format!(
            "mean stream bytes of a pair {}\n",
            self.bytes / self.pairs.max(1)
        );
        out += &format!("accepted {}\n", self.of(0, Side::Current));
        out += &format!("accepted with a real change {}\n", self.changed);
        for ((name, _), reached) in PASSES.iter().zip(self.reached) {
            out += &format!("reached {name} {reached}\n");
        }
        for number in 1..=9 {
            let [current, released] = Side::BOTH.map(|side| self.of(number, side));
            out += &format!("refusal {number} current {current} released {released}\n");
        }
        for number in FIRST_VERDICT..=LAST_VERDICT {
            out += &format!("verdict {number} {}\n", self.of(number, Side::Current));
        }
        out
    }
}

/// How many of the passes the check came to.
fn passes_reached(answer: &Answer, pair: &Pair) -> usize {
    match answer.number {
        0 if content(pair, Side::Released).unreleased => 1,
        0 => PASSES.len(),
        FIRST_VERDICT.. => pass_of(answer.number) + 1,
        _ => 0,
    }
}

/// Whether two readable records differ in more than the release.
fn really_changed(pair: &Pair) -> bool {
    content(pair, Side::Current).items != content(pair, Side::Released).items
}

fn content(pair: &Pair, side: Side) -> Content {
    let record = match side {
        Side::Current => &pair.current,
        Side::Released => &pair.released,
    };
    let record = read(side, &record.stream, &record.pool);
    record.expect("a judged record is readable").content
}
