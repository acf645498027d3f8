//! W-214 of document 02: records with their sections in another order are accepted where they were before.

use std::fmt;

use menqachu::record::reorder::{Bytes, Order, order};
use menqachu::record::sections::{cut, readable};
use menqachu::record::twice::twice;
use oracle::answers::ROOM;
use oracle::generate::Pair;
use oracle::generate::encode::Encoded;
use oracle::generate::sections::{doubled, sectioned};
use oracle::generate::shuffle::{SORTS, shuffled};
use oracle::rng::Rng;
use oracle::{Answer, Side};

use crate::differ::{self, record};
use crate::premises;
use crate::table::grouped;
use crate::tally::Tally;

/// The count of pairs that the least numbers below are for; another count asks for its share of them.
const WHOLE: u64 = 20_000;
const LEAST_OF_EACH_ANSWER: u64 = 8_000;
const LEAST_MOVED: u64 = 500;
const LEAST_OTHER_VERDICTS: u64 = 200;

/// One pair outside the premise to so many within it; of so many, one at least is to show that the premise is needed.
const CONTROLLED: u64 = 20;
const LEAST_CONTROL: u64 = 10;

/// Which records of a pair are put into another order.
const MOVED: [(&[Side], &str); 3] = [
    (&[Side::Current], "the current record alone"),
    (&[Side::Released], "the released one alone"),
    (&Side::BOTH, "both"),
];

/// What a run of pairs came to.
#[derive(Default)]
pub struct Sections {
    tally: Tally,
    count: u64,
    unused: u64,
    accepted: u64,
    refused: u64,
    other_verdicts: u64,
    other_messages: u64,
    /// Pairs that are accepted in one order and refused in the other.
    changed: u64,
    unreadable: u64,
    /// How many pairs had a sort moved in the current record alone, in the released one alone, in both.
    moved: [[u64; MOVED.len()]; SORTS.len()],
    control: Control,
}

/// The pairs in which a name or slot stands twice.
#[derive(Default)]
struct Control {
    pairs: u64,
    changed: u64,
}

/// A pair and the same in another order, with the answers to both.
struct Moved {
    before: Answer,
    after: Answer,
    /// The sorts that were moved in each record that was.
    sorts: Vec<[bool; SORTS.len()]>,
}

pub fn run(seed: u64, count: u64) -> Sections {
    let mut rng = Rng::new(seed);
    let mut run = Sections { count, ..Sections::default() };
    while run.accepted + run.refused < count {
        let pair = sectioned(&mut rng);
        let which = ((run.accepted + run.refused) % MOVED.len() as u64) as usize;
        match run.once(&pair).and_then(|once| run.moved(&pair, which, &mut rng).filter(|_| once)) {
            Some(moved) => run.conclude(&moved, which),
            None => run.unused += 1,
        }
    }
    while run.control.pairs < count / CONTROLLED {
        let pair = doubled(&mut rng);
        let which = rng.below(MOVED.len());
        if run.once(&pair) != Some(false) {
            continue;
        }
        if let Some(moved) = run.moved(&pair, which, &mut rng) {
            run.control.pairs += 1;
            run.control.changed += u64::from(moved.changed());
        }
    }
    run
}

impl Sections {
    /// Whether a pair meets the premise, which the command `release reordered` must find too; none if it can't be read.
    fn once(&mut self, pair: &Pair) -> Option<bool> {
        let mut all = true;
        for (side, encoded) in [(Side::Current, &pair.current), (Side::Released, &pair.released)] {
            let read = oracle::reader::read(side, &encoded.stream, &encoded.pool).ok()?;
            let once = premises::once_each(&read.content);
            let said = readable(record(encoded)).ok()?;
            let found = twice(&cut(&said, &encoded.stream));
            self.tally.answer(found.is_none() == once, (encoded, found));
            all &= once;
        }
        Some(all)
    }

    /// A readable pair with these records in another order; none where there was nothing to move.
    fn moved(&mut self, pair: &Pair, which: usize, rng: &mut Rng) -> Option<Moved> {
        let mut now = pair.clone();
        let mut sorts = Vec::new();
        for side in MOVED[which].0 {
            let one = match side {
                Side::Current => &mut now.current,
                Side::Released => &mut now.released,
            };
            let other = shuffled(one, rng);
            sorts.push(other.moved);
            if !other.moved.contains(&true) {
                return None;
            }
            self.tally.answer(is_reordered(one, &other.record), (&*one, &other.record));
            *one = other.record;
        }
        Some(Moved { before: self.check(pair), after: self.check(&now), sorts })
    }

    /// The answer to a pair, which the exported call must give.
    fn check(&mut self, pair: &Pair) -> Answer {
        let meant = pair.check(usize::MAX);
        differ::check(&mut self.tally, pair, &meant, ROOM);
        meant
    }

    fn conclude(&mut self, moved: &Moved, which: usize) {
        let (before, after) = (&moved.before, &moved.after);
        self.tally.question(differ::class(after));
        match before.number {
            0 => self.accepted += 1,
            _ => self.refused += 1,
        }
        self.changed += u64::from(moved.changed());
        self.unreadable += u64::from((1..=9).contains(&after.number));
        self.other_verdicts += u64::from(before.number != after.number);
        self.other_messages += u64::from(before.number == after.number && before.text != after.text);
        for (at, counts) in self.moved.iter_mut().enumerate() {
            counts[which] += u64::from(moved.sorts.iter().all(|sorts| sorts[at]));
        }
    }

    /// What the run has to show, how often it did, and how often it has to at least.
    fn shown(&self) -> Vec<(String, u64, u64)> {
        let share = |least: u64| least * self.count / WHOLE;
        let mut shown = vec![
            ("accepted in both orders".to_string(), self.accepted, share(LEAST_OF_EACH_ANSWER)),
            ("refused in both orders".to_string(), self.refused, share(LEAST_OF_EACH_ANSWER)),
            ("of them with another verdict".to_string(), self.other_verdicts, share(LEAST_OTHER_VERDICTS)),
        ];
        for ((_, sort), counts) in SORTS.iter().zip(&self.moved) {
            for ((_, which), count) in MOVED.iter().zip(counts) {
                shown.push((format!("{sort} moved in {which}"), *count, share(LEAST_MOVED)));
            }
        }
        let least = u64::from(self.control.pairs >= LEAST_CONTROL);
        shown.push(("accepted in one order alone, outside the premise".into(), self.control.changed, least));
        shown
    }

    /// Whether nothing is amiss: no acceptance changed, and all was shown that has to be.
    pub fn hold(&self) -> bool {
        let amiss = self.tally.differ() + self.changed + self.unreadable;
        amiss == 0 && self.shown().iter().all(|(_, count, least)| count >= least)
    }
}

impl Moved {
    fn changed(&self) -> bool {
        (self.before.number == 0) != (self.after.number == 0)
    }
}

/// Whether the command `release reordered` finds one record to be the other in another order.
fn is_reordered(one: &Encoded, other: &Encoded) -> bool {
    let (Ok(said), Ok(there)) = (readable(record(one)), readable(record(other))) else { return false };
    let (first, second) = (cut(&said, &one.stream), cut(&there, &other.stream));
    let order = order((record(one), &first), (record(other), &second));
    matches!(order, Order::Alike { bytes: Bytes::Moved, .. })
}

impl fmt::Display for Sections {
    fn fmt(&self, f: &mut fmt::Formatter) -> fmt::Result {
        writeln!(f, "| pairs | |\n|---|---|")?;
        let counts = [
            ("pairs that meet the premise, put into another order", self.count),
            ("drawn beside them: unreadable, outside the premise, or with nothing to move", self.unused),
            ("accepted", self.accepted),
            ("refused by a verdict", self.refused),
            ("of them with another verdict in the other order", self.other_verdicts),
            ("of them with the verdict's number alone the same", self.other_messages),
            ("accepted in one order and refused in the other", self.changed),
            ("no longer readable", self.unreadable),
        ];
        for (what, count) in counts {
            writeln!(f, "| {what} | {} |", grouped(count))?;
        }
        let heads = MOVED.map(|(_, which)| which).join(" | ");
        writeln!(f, "\n| pairs with another place of their | {heads} |\n|---|---|---|---|")?;
        for ((_, sort), counts) in SORTS.iter().zip(&self.moved) {
            writeln!(f, "| {sort} | {} |", counts.map(grouped).join(" | "))?;
        }
        let (changed, pairs) = (grouped(self.control.changed), grouped(self.control.pairs));
        writeln!(
            f,
            "\nControl: of {pairs} pairs in which a name or slot stands twice, {changed} are accepted in one"
        )?;
        writeln!(f, "order and refused in the other.\n\n{}", self.tally)?;
        for (what, count, least) in self.shown().iter().filter(|(_, count, least)| count < least) {
            writeln!(f, "Too few: {what}, {count} of {least}.")?;
        }
        Ok(())
    }
}
