//! The calls on heap blocks of exact lengths, for valgrind's memcheck to watch. A slice that is lent is a block of its
//! own, so a byte read or written past its end is one outside of any block.

use oracle::Side;
use oracle::answers::ROOM;
use oracle::generate::encode::Encoded;
use oracle::generate::questions::question;
use oracle::generate::slices::slices;
use oracle::generate::{self, Pair};
use oracle::rng::Rng;

use crate::differ;
use crate::inputs;
use crate::pairs;
use crate::pointers;
use crate::pools;
use crate::tally::Tally;

/// So many drawn pairs, and the records that are measured.
pub fn run(seed: u64, count: u64) -> Tally {
    let mut rng = Rng::new(seed);
    let mut tally = Tally::default();
    for input in inputs::named() {
        calls(&mut tally, &input.records(), &mut rng);
    }
    calls(&mut tally, &inputs::deepest().records(), &mut rng);
    for _ in 0..count {
        let pair = generate::pair(&mut rng);
        calls(&mut tally, &pair, &mut rng);
    }
    for _ in 0..count {
        pairs::ask(&mut tally, &slices(&mut rng));
        pools::ask(&mut tally, &mut rng);
    }
    tally
}

fn calls(tally: &mut Tally, pair: &Pair, rng: &mut Rng) {
    exact(&pair.current.clone());
    let meant = pair.check(ROOM);
    tally.question(differ::class(&meant));
    let needed = meant.length as usize;
    for room in [needed, needed.saturating_sub(1)] {
        differ::check(tally, pair, &meant, room);
    }
    let (record, side) = match rng.chance(50) {
        true => (&pair.current, Side::Current),
        false => (&pair.released, Side::Released),
    };
    let meant = oracle::list(&record.stream, &record.pool, side, usize::MAX);
    differ::list(tally, record, side, &meant, meant.length as usize);
    let asked = question(rng);
    differ::owner(tally, &pair.current, &asked.name);
    differ::owner(tally, &asked.record, &asked.name);
    pointers::ask(tally, &pair.current);
    pointers::ask(tally, &asked.record);
}

/// The calls are lent clones, and a clone has no room beyond its bytes.
fn exact(clone: &Encoded) {
    assert_eq!(clone.stream.capacity(), clone.stream.len());
    assert_eq!(clone.pool.capacity(), clone.pool.len());
}
