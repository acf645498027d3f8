//! Series of edits of a draft, each held to the oracle's: the answer, every byte of the buffer, the count, and the count
//! found afresh.

use oracle::edits::{self, Edit, Edited};
use oracle::generate::edits::{Series, full_edit, full_series, series};
use oracle::generate::encode::Encoded;
use oracle::rng::Rng;

use crate::differ::record;
use crate::tally::Tally;

/// How many edits a series has at most.
const MOST: usize = 30;

/// So many series; one in two hundred begins with a draft near its limits.
pub fn run(seed: u64, count: u64) -> Tally {
    let mut rng = Rng::new(seed);
    let mut tally = Tally::default();
    for nth in 0..count {
        if nth % 200 == 0 {
            full(&mut tally, &mut rng);
        } else {
            drawn(&mut tally, series(&mut rng), &mut rng);
        }
    }
    tally
}

fn drawn(tally: &mut Tally, mut draft: Series, rng: &mut Rng) {
    let mut changed = afresh(tally, &draft.buffer, &draft.copy);
    for _ in 0..rng.between(1, MOST) {
        let next = draft.next_edit(rng);
        let given = if rng.chance(2) { rng.below(1000) } else { changed };
        let edited = edited(tally, given, &draft.buffer, &next, &draft.copy);
        if edited.number == 0 {
            changed = edited.changed;
            let found = afresh(tally, &edited.buffer, &draft.copy);
            tally.answer(found == changed, (&draft, &next, found, changed));
        }
        draft.buffer = edited.buffer;
    }
}

/// Additions to a draft that is nearly full.
fn full(tally: &mut Tally, rng: &mut Rng) {
    let draft = full_series(rng);
    let changed = afresh(tally, &draft.buffer, &draft.copy);
    for _ in 0..4 {
        edited(tally, changed, &draft.buffer, &full_edit(rng), &draft.copy);
    }
}

/// The count, held to the oracle's.
pub fn afresh(tally: &mut Tally, buffer: &[u8], copy: &Encoded) -> usize {
    let meant = edits::count(buffer, copy);
    let lent = (buffer.to_vec(), copy.clone());
    let answer = menqachu::draft_count(&lent.0, record(&lent.1));
    let same = answers(&answer, &meant) && lent.0 == buffer && lent.1 == *copy;
    tally.answer(same, (buffer, copy, answer, &meant));
    tally.question(format!("count, {}", class(&meant)));
    answer.changed
}

/// An edit, held to the oracle's, which is given back.
pub fn edited(tally: &mut Tally, given: usize, buffer: &[u8], next: &Edit, copy: &Encoded) -> Edited {
    let meant = edits::edit(given, buffer, next, copy);
    let mut lent = (buffer.to_vec(), next.clone(), copy.clone());
    let (answer, kind) = match &lent.1 {
        Edit::Add(more) => (menqachu::draft_add(given, &mut lent.0, record(more), record(&lent.2)), "add"),
        Edit::Remove(name) => (menqachu::draft_remove(given, &mut lent.0, name, record(&lent.2)), "remove"),
    };
    let same = answers(&answer, &meant) && lent == (meant.buffer.clone(), next.clone(), copy.clone());
    tally.answer(same, (given, buffer, next, copy, answer, &meant));
    tally.question(format!("{kind}, {}", class(&meant)));
    meant
}

fn answers(answer: &menqachu::DraftAnswer, meant: &Edited) -> bool {
    let a = answer.answer;
    (a.number, a.side, a.place, a.len, answer.changed)
        == (meant.number, meant.side, meant.place, meant.length, meant.changed)
}

/// An answer as a row of a tally.
fn class(meant: &Edited) -> String {
    match meant.number {
        0 => "done".into(),
        number @ 1..=9 => format!("refusal {number}, side {}", meant.side),
        number => format!("number {number:02}"),
    }
}
