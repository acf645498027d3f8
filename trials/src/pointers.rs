//! The check of pointers beside the oracle's, and its time beside the owner call's.

use std::hint::black_box;

use oracle::Answer;
use oracle::generate::encode::Encoded;
use oracle::generate::{self, pointers};
use oracle::rng::Rng;

use crate::against;
use crate::clock::{least, timed};
use crate::differ::record;
use crate::inputs;
use crate::table::grouped;
use crate::tally::{Tally, refusal};

/// Records asked whether their pointers name what they must: every fourth one of a pair, the others made of pointers.
pub fn run(seed: u64, count: u64) -> Tally {
    let mut rng = Rng::new(seed);
    let mut tally = Tally::default();
    for nth in 0..count {
        let encoded = match nth % 4 {
            0 => generate::pair(&mut rng).current,
            _ => pointers::record(&mut rng),
        };
        let meant = ask(&mut tally, &encoded);
        tally.question(match meant.number {
            0 => "accepted".into(),
            number @ 1..=9 => refusal(number, meant.side),
            number => format!("pointer {number}"),
        });
    }
    tally
}

/// Hold the call's answer to the oracle's, which is given back.
pub fn ask(tally: &mut Tally, encoded: &Encoded) -> Answer {
    let meant = oracle::pointers(&encoded.stream, &encoded.pool);
    let lent = encoded.clone();
    let answer = menqachu::pointers(record(&lent));
    let numbers = (answer.number, answer.side, answer.place, answer.len);
    let same = numbers == (meant.number, meant.side, meant.place as usize, meant.length as usize);
    tally.answer(same && lent == *encoded, (encoded, answer, &meant));
    meant
}

/// The time of the call beside that of the owner call, which reads the same record and walks its references.
pub fn bench() {
    println!(
        "\n| call | input | stream, bytes | ours, ns | the owner call's, ns | ours / the owner call's |\n|---|---|---|---|---|---|"
    );
    for input in [inputs::small(), inputs::realistic(32_768), inputs::many_pointers()] {
        let current = input.records().current;
        let now = record(&current);
        let [ours, owner] = least([&mut || timed(|| menqachu::pointers(now)), &mut || {
            timed(|| menqachu::owner(now, input.asked.as_bytes()))
        }]);
        let [bytes, shown, beside] =
            [current.stream.len() as f64, ours, owner].map(|n| grouped(n.round() as u64));
        println!("| pointers | {} | {bytes} | {shown} | {beside} | {:.2} |", input.name, ours / owner);
    }
}

/// The call on one of the measured inputs so many times and nothing else; none where no input has the name.
pub fn repeat(name: &str, turns: u64) -> Option<()> {
    let current = against::named(name)?.records().current;
    (0..turns).for_each(|_| _ = black_box(menqachu::pointers(record(&current))));
    Some(())
}
