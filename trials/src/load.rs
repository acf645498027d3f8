//! Pairs of the load call: all are checked, a share of them also held to the oracle's model, byte for byte.

use std::fmt;

use menqachu::record::pair::Pair;
use menqachu::{Answer, check, load};
use oracle::load::{LAST_SEED, OUTCOMES, UNFIT, pair, validate};
use oracle::rng::Rng;

use crate::clock::{least, timed};
use crate::table::grouped;
use crate::tally::Tally;

/// Longer than any pair.
const ROOM: usize = 16_384;
/// The byte in every place of a lent buffer, so that one that changes is seen.
const MARK: u8 = 0xa5;
/// One pair in so many is held to the model.
const SHARE: u64 = 10;

/// The counts of a run.
#[derive(Default)]
pub struct Load {
    pub tally: Tally,
    modelled: u64,
    bytes: u64,
    longest: usize,
}

/// So many drawn seeds, the first and the last seed before them, with the six outcomes by turns; and drawn numbers that give 61.
pub fn run(seed: u64, count: u64) -> Load {
    let mut rng = Rng::new(seed);
    let mut found = Load::default();
    let ends = [0, LAST_SEED].into_iter().flat_map(|seed| OUTCOMES.map(|outcome| (outcome, seed)));
    for (outcome, seed) in ends {
        found.pair(outcome, seed);
        found.model(outcome, seed);
    }
    for nth in 0..count {
        let outcome = OUTCOMES[nth as usize % OUTCOMES.len()];
        let seed = rng.below(LAST_SEED as usize + 1) as u32;
        found.pair(outcome, seed);
        if nth % SHARE == 0 {
            found.model(outcome, seed);
            found.unfit(rng.draw() as u32, seed);
            found.unfit(outcome, LAST_SEED + 1 + seed);
        }
    }
    found
}

impl Load {
    /// The check of the pair gives the outcome.
    fn pair(&mut self, outcome: u32, seed: u32) {
        let mut out = [MARK; ROOM];
        let answer = load(outcome, seed, &mut out);
        let bytes = &out[..answer.len.min(ROOM)];
        let whole = Answer { number: 0, side: 0, place: 0, len: bytes.len() };
        let number = Pair::read(bytes)
            .map(|pair| check(pair.current.record(), pair.released.record(), &mut [0; 1_024]).number);
        self.tally.question(format!("outcome {outcome:2}"));
        self.bytes += bytes.len() as u64;
        self.longest = self.longest.max(bytes.len());
        let untouched = out[bytes.len()..].iter().all(|&byte| byte == MARK);
        let same = answer == whole && untouched && number.is_ok_and(|number| number == outcome);
        self.tally.answer(same, (outcome, seed, answer));
    }

    /// The bytes are the model's, in a buffer just long enough, and nothing is written to one a byte short; the validator and
    /// the Rust's own `compare` find the pair as it should be.
    fn model(&mut self, outcome: u32, seed: u32) {
        let meant = pair(outcome, seed).expect("a fit outcome and seed");
        let whole = Answer { number: 0, side: 0, place: 0, len: meant.len() };
        let mut just = vec![MARK; meant.len()];
        let mut short = vec![MARK; meant.len() - 1];
        let same = load(outcome, seed, &mut just) == whole
            && just == meant
            && load(outcome, seed, &mut short) == Answer { number: 10, ..whole }
            && short.iter().all(|&byte| byte == MARK)
            && validate::judge(outcome, seed, &just).is_ok();
        self.modelled += 1;
        self.tally.answer(same, ("model", outcome, seed));
    }

    /// 61, and nothing is written.
    fn unfit(&mut self, outcome: u32, seed: u32) {
        if OUTCOMES.contains(&outcome) && seed <= LAST_SEED {
            return;
        }
        let mut out = [MARK; 64];
        let answer = load(outcome, seed, &mut out);
        let same = answer == Answer { number: UNFIT, side: 0, place: 0, len: 0 } && out == [MARK; 64];
        self.tally.question("61".into());
        self.tally.answer(same, (outcome, seed, answer));
    }
}

impl fmt::Display for Load {
    fn fmt(&self, f: &mut fmt::Formatter) -> fmt::Result {
        let [modelled, bytes, longest] = [self.modelled, self.bytes, self.longest as u64].map(grouped);
        write!(
            f,
            "{}\n{modelled} pairs are the model's byte for byte; {bytes} bytes in all, the longest pair {longest}",
            self.tally
        )
    }
}

/// Added to an outcome it gives none: 1 would lead from 34 to 35 and from 35 to 36.
const NO_OUTCOME: u32 = 256;

/// The time of the call, over the seeds 0 to 999 with an outcome each: a line of the benchmark.
pub fn bench() {
    let mut out = [0; ROOM];
    let bytes: usize = (0..1_000).map(|seed| load(outcome(seed), seed, &mut out).len).sum();
    let mut turn = |room: usize, unfit: u32| {
        timed(|| {
            (0..1_000).map(|seed| load(outcome(seed) + unfit, seed, &mut out[..room]).len).sum::<usize>()
        })
    };
    let [written] = least([&mut || turn(ROOM, 0)]);
    let [measured] = least([&mut || turn(0, 0)]);
    let [refused] = least([&mut || turn(ROOM, NO_OUTCOME)]);
    println!("\n| call | a call, ns | a byte, ns |\n|---|---|---|");
    let (a_call, a_byte) = (|all: f64| all / 1_000.0, |all: f64| all / bytes as f64);
    println!(
        "| load, {} bytes on average | {:.0} | {:.3} |",
        bytes / 1_000,
        a_call(written),
        a_byte(written)
    );
    println!("| load, no room | {:.0} | |", a_call(measured));
    println!("| load, 61 | {:.1} | |", a_call(refused));
}

/// The pairs of the seeds 0 to 999 so many times and nothing else: "written", or "measured" where there is no room.
pub fn repeat(name: &str, turns: u64) -> Option<()> {
    let room = match name {
        "written" => ROOM,
        "measured" => 0,
        _ => return None,
    };
    let mut out = [0; ROOM];
    for _ in 0..turns {
        let lengths = (0..1_000).map(|seed| load(outcome(seed), seed, &mut out[..room]).len);
        std::hint::black_box(lengths.sum::<usize>());
    }
    Some(())
}

fn outcome(seed: u32) -> u32 {
    OUTCOMES[seed as usize % OUTCOMES.len()]
}
