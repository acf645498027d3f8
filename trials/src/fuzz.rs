//! A search for pairs that the calls answer otherwise than the Rust: pairs are changed again and again, and one that reaches
//! something new is kept to be changed further. New is an edge of the proved code, or how often it is taken, and an answer of
//! the oracle of a sort not seen before.

use std::collections::HashSet;
use std::path::Path;
use std::time::{Duration, Instant};
use std::{fmt, fs};

use oracle::answers::ROOM;
use oracle::generate::findings::{self, records};
use oracle::generate::{self, Aim, Pair, aimed};
use oracle::rng::Rng;
use oracle::verdicts::{FIRST_VERDICT, LAST_VERDICT};
use oracle::{Answer, Owner, Side};

use crate::coverage::Reached;
use crate::differ;
use crate::inputs;
use crate::mutate::mutated;
use crate::pointers;
use crate::table::grouped;
use crate::tally::Tally;

/// Pairs of more bytes are tried and not kept, so that a turn stays short.
const KEPT_BYTES: usize = 12_000;

/// What a search came to.
pub struct Fuzz {
    pub tally: Tally,
    pairs: u64,
    begun: usize,
    corpus: Vec<Pair>,
    classes: HashSet<Class>,
    reached: Reached,
    took: Duration,
}

/// The sort of an answer of the oracle: which call, number, side, and a size in powers of two.
type Class = [u32; 4];

/// Search for so many seconds; pairs that differ are written to the folder.
pub fn run(seconds: u64, seed: u64, folder: &Path) -> Fuzz {
    let mut rng = Rng::new(seed);
    let mut fuzz = Fuzz {
        tally: Tally::default(),
        pairs: 0,
        begun: 0,
        corpus: Vec::new(),
        classes: HashSet::new(),
        reached: Reached::default(),
        took: Duration::ZERO,
    };
    for pair in beginnings(&mut rng) {
        fuzz.turn(pair, folder, &mut rng);
    }
    fuzz.begun = fuzz.corpus.len();
    let start = Instant::now();
    while start.elapsed() < Duration::from_secs(seconds) {
        let (pair, other) = (rng.pick(&fuzz.corpus), rng.pick(&fuzz.corpus));
        let next = mutated(pair, other, &mut rng);
        fuzz.turn(next, folder, &mut rng);
    }
    fuzz.took = start.elapsed();
    fuzz
}

/// The fixed pairs and records, pairs of every number, and the small record.
fn beginnings(rng: &mut Rng) -> Vec<Pair> {
    let mut pairs: Vec<Pair> = findings::pairs().iter().map(|pair| pair.encoded()).collect();
    for fixed in records::records() {
        pairs.extend(Side::BOTH.map(|side| Pair::beside(fixed.record.clone(), side)));
    }
    let pointers = findings::pointers::records().into_iter();
    pairs.extend(pointers.map(|fixed| Pair::beside(fixed.record, Side::Current)));
    for number in FIRST_VERDICT..=LAST_VERDICT {
        pairs.extend((0..3).map(|_| aimed(Aim::Verdict(number), rng)));
    }
    for number in 1..=9 {
        pairs.extend(Side::BOTH.map(|side| aimed(Aim::Refusal(number, side), rng)));
    }
    pairs.extend((0..50).map(|_| generate::pair(rng)));
    pairs.push(inputs::small().records());
    pairs
}

impl Fuzz {
    /// Ask all calls of a pair; it is kept if it reaches something new, and written down if an answer differs.
    fn turn(&mut self, pair: Pair, folder: &Path, rng: &mut Rng) {
        let differed = self.tally.differ();
        let classes = self.ask(&pair, rng);
        self.pairs += 1;
        if self.tally.differ() > differed {
            write_down(&pair, folder, self.pairs);
        }
        let mut new = self.reached.visit();
        for class in classes {
            new |= self.classes.insert(class);
        }
        let bytes = [&pair.current, &pair.released].map(|record| record.stream.len() + record.pool.len());
        if new && bytes.iter().sum::<usize>() <= KEPT_BYTES {
            self.corpus.push(pair);
        }
    }

    /// Hold the answers of all calls to the oracle's; what sorts they are of.
    fn ask(&mut self, pair: &Pair, rng: &mut Rng) -> [Class; 5] {
        let meant = pair.check(ROOM);
        let needed = meant.length as usize;
        let room = *rng.pick(&[ROOM, needed, needed.saturating_sub(1), rng.clone().below(300)]);
        differ::check(&mut self.tally, pair, &meant, room);
        let (record, side) = match rng.chance(50) {
            true => (&pair.current, Side::Current),
            false => (&pair.released, Side::Released),
        };
        let listed = oracle::list(&record.stream, &record.pool, side, usize::MAX);
        let room = *rng.pick(&[listed.length as usize, ROOM]);
        differ::list(&mut self.tally, record, side, &listed, room);
        let name = differ::names(&pair.current, b"a".to_vec(), rng).pop().expect("there is a name");
        let owner = differ::owner(&mut self.tally, &pair.current, &name);
        let pointed = pointers::ask(&mut self.tally, &pair.current);
        classes(&meant, &listed, owner, &pointed)
    }
}

/// The sorts of the answers to a check, a list, a question for an owner and a check of pointers.
fn classes(check: &Answer, list: &Answer, owner: Owner, pointers: &Answer) -> [Class; 5] {
    let size = |n: u32| n.checked_ilog2().map_or(0, |log| log + 1);
    let (answer, number, _) = owner.numbers();
    let number = if answer == 2 { number } else { 0 };
    [
        [0, check.number, check.side, size(check.place)],
        [1, check.number, check.side, size(check.length)],
        [2, list.number, list.side, size(list.length)],
        [3, answer.into(), number, 0],
        [4, pointers.number, 0, size(pointers.place)],
    ]
}

/// A pair as the check program reads it.
fn write_down(pair: &Pair, folder: &Path, nth: u64) {
    let parts = [&pair.current.stream, &pair.current.pool, &pair.released.stream, &pair.released.pool];
    let bytes = parts.map(|part| [&(part.len() as u32).to_le_bytes()[..], part].concat()).concat();
    let file = folder.join(format!("differs-{nth}.in"));
    let written = fs::create_dir_all(folder).and_then(|()| fs::write(&file, bytes));
    written.unwrap_or_else(|error| eprintln!("{}: {error}", file.display()));
}

impl fmt::Display for Fuzz {
    fn fmt(&self, f: &mut fmt::Formatter) -> fmt::Result {
        let (taken, edges) = self.reached.edges();
        let instrumented = match edges {
            0 => "none: the archive is a plain one".to_string(),
            edges => format!("{} of {} taken", grouped(taken as u64), grouped(edges as u64)),
        };
        writeln!(f, "| fuzz | |\n|---|---|")?;
        writeln!(f, "| seconds | {} |", self.took.as_secs())?;
        writeln!(f, "| pairs | {} |", grouped(self.pairs))?;
        writeln!(f, "| kept to begin with | {} |", self.begun)?;
        writeln!(f, "| kept at the end | {} |", self.corpus.len())?;
        writeln!(f, "| sorts of answers | {} |", self.classes.len())?;
        writeln!(f, "| edges of the proved code | {instrumented} |")?;
        writeln!(f, "{}", self.tally)
    }
}
