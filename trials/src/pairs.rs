//! The pairs of bytes compared from the back beside the oracle's count, and the time of the call.

use oracle::generate::slices::slices;
use oracle::pairs::pairs_compared;
use oracle::rng::Rng;

use crate::clock::{least, timed};
use crate::tally::Tally;

/// So many pairs of byte strings, each both ways round.
pub fn run(seed: u64, count: u64) -> Tally {
    let mut rng = Rng::new(seed);
    let mut tally = Tally::default();
    for _ in 0..count {
        let [a, b] = slices(&mut rng);
        tally.question(class(&a, &b));
        ask(&mut tally, &[a.clone(), b.clone()]);
        ask(&mut tally, &[b, a]);
    }
    tally
}

/// Hold the call's answer to the oracle's. Each slice is a block of its exact length.
pub fn ask(tally: &mut Tally, given: &[Vec<u8>; 2]) {
    let lent = given.clone();
    let answer = menqachu::pairs_compared(&lent[0], &lent[1]);
    let meant = pairs_compared(&given[0], &given[1]);
    tally.answer(answer == meant && lent == *given, (given, answer, meant));
}

/// A pair as a row of a tally.
fn class(a: &[u8], b: &[u8]) -> String {
    if a.len() != b.len() {
        let (long, short) = if a.len() > b.len() { (a, b) } else { (b, a) };
        return match long.ends_with(short) {
            true => "unequal lengths, one the other's back".into(),
            false => "unequal lengths".into(),
        };
    }
    match (a == b, pairs_compared(a, b)) {
        (true, _) => "equal".into(),
        (false, 1) => "unequal in the last byte".into(),
        (false, 2..=8) => "unequal in the last 8 bytes".into(),
        (false, 9..=255) => "unequal in the last 255 bytes".into(),
        (false, _) => "unequal before the last 255 bytes".into(),
    }
}

/// How many calls a turn makes.
const CALLS: usize = 1_000;

/// The time of the call on names of 16 and 250 bytes, beside that of Rust's own comparison of them.
pub fn bench() {
    println!("\n| call | names | ours, ns | Rust's ==, ns |\n|---|---|---|---|");
    for length in [16, 250] {
        let name = vec![b'x'; length];
        let mut first = name.clone();
        first[0] = b'y';
        let mut last = name.clone();
        last[length - 1] = b'y';
        let others =
            [("equal", name.clone()), ("the first byte differs", first), ("the last byte differs", last)];
        for (what, other) in others {
            let [ours, rust] = least([
                &mut || timed(|| repeated(|| menqachu::pairs_compared(shown(&name), shown(&other)))),
                &mut || timed(|| repeated(|| usize::from(shown(&name) == shown(&other)))),
            ]);
            let [ours, rust] = [ours, rust].map(|time| time / CALLS as f64);
            println!("| pairs_compared | {length} bytes, {what} | {ours:.1} | {rust:.1} |");
        }
    }
}

fn repeated(mut call: impl FnMut() -> usize) -> usize {
    (0..CALLS).map(|_| call()).sum()
}

/// A slice of which the compiler knows nothing.
fn shown(bytes: &[u8]) -> &[u8] {
    std::hint::black_box(bytes)
}
