//! Series of calls of a shelf, each held to the oracle's: the answer, the shelf, and every byte of both buffers. What was set under a name must
//! come back as long as no shelf is forged, with the count that is found afresh, and edits go on from there.

use std::collections::BTreeMap;

use oracle::edits::{held, parts_of};
use oracle::generate::edits::{full_series, series};
use oracle::generate::shelves::{Call, Draw, Editor, editor};
use oracle::rng::Rng;
use oracle::shelf::Shelved;

use crate::differ::record;
use crate::drafts::{afresh, edited};
use crate::tally::Tally;

/// How many calls a series has.
const CALLS: usize = 20;

/// So many series; one in two hundred has drafts near their limits.
pub fn run(seed: u64, count: u64) -> Tally {
    let mut rng = Rng::new(seed);
    let mut tally = Tally::default();
    for nth in 0..count {
        let draw: Draw = if nth % 200 == 0 { full_series } else { series };
        drawn(&mut tally, draw, &mut rng);
    }
    tally
}

fn drawn(tally: &mut Tally, draw: Draw, rng: &mut Rng) {
    let mut editor = editor(draw, rng);
    let mut set: BTreeMap<Vec<u8>, Vec<u8>> = BTreeMap::new();
    for _ in 0..CALLS {
        let before = editor.clone();
        let call = editor.next_call(draw, rng);
        if is_forged(&before, &editor) {
            set.clear();
        }
        let meant = called(tally, &editor, &call);
        match (&call, meant.number) {
            (Call::Set(name), 0) => {
                set.insert(name.clone(), parts_of(&held(&editor.draft.buffer)));
            }
            (Call::Back(name), 0) => {
                let kept = set.get(name).is_none_or(|parts| meant.draft.starts_with(parts));
                tally.answer(kept, (&editor, &call));
                counted(tally, &mut editor, &meant, rng);
                continue;
            }
            _ => {}
        }
        editor.shelf = meant.shelf;
        editor.held = meant.held;
    }
}

/// Whether the rows or the bytes of the held buffer were changed by no call.
fn is_forged(before: &Editor, after: &Editor) -> bool {
    let common = before.held.len().min(after.held.len());
    before.shelf != after.shelf || before.held[..common] != after.held[..common]
}

/// The draft that came back: its count is the one found afresh, and an edit goes on with it.
fn counted(tally: &mut Tally, editor: &mut Editor, meant: &Shelved, rng: &mut Rng) {
    editor.draft.buffer.clone_from(&meant.draft);
    let found = afresh(tally, &editor.draft.buffer, &editor.draft.copy);
    tally.answer(found == meant.changed, (&editor, found, meant.changed));
    if rng.chance(50) {
        let next = editor.draft.next_edit(rng);
        let edit = edited(tally, found, &editor.draft.buffer, &next, &editor.draft.copy);
        editor.draft.buffer = edit.buffer;
    }
}

/// A call, held to the oracle's, which is given back.
fn called(tally: &mut Tally, editor: &Editor, call: &Call) -> Shelved {
    let meant = editor.answer(call);
    let mut lent = editor.clone();
    let given = rows_as_struct(editor);
    let (draft, copy) = (&mut lent.draft.buffer, record(&lent.draft.copy));
    let (answer, kind) = match call {
        Call::Set(name) => (menqachu::shelf_set(given, name, draft, &mut lent.held), "set"),
        Call::Back(name) => (menqachu::shelf_back(given, name, draft, &lent.held, copy), "back"),
    };
    let mut after = editor.clone();
    after.shelf = meant.shelf;
    let same_shelf = answer.shelf == rows_as_struct(&after);
    let same_bytes = (&lent.draft.buffer, &lent.held) == (&meant.draft, &meant.held);
    let same = answers(&answer, &meant) && same_shelf && same_bytes && lent.draft.copy == editor.draft.copy;
    tally.answer(same, (editor, call, answer, &meant));
    tally.question(format!("{kind}, {}", class(&meant)));
    meant
}

/// The shelf as the struct of the calls.
pub fn rows_as_struct(editor: &Editor) -> menqachu::Shelf {
    let rows = &editor.shelf;
    let mut names = [0; 128];
    for (name, row) in names.chunks_exact_mut(16).zip(rows) {
        name.copy_from_slice(&row.name);
    }
    let [name_lens, starts, lens] =
        [rows.map(|row| row.name_len), rows.map(|row| row.start), rows.map(|row| row.len)];
    menqachu::Shelf { names, name_lens, starts, lens }
}

fn answers(answer: &menqachu::ShelfAnswer, meant: &Shelved) -> bool {
    let a = answer.answer;
    (a.number, a.side, a.place, a.len, answer.changed)
        == (meant.number, meant.side, meant.place, meant.length, meant.changed)
}

/// An answer as a row of a tally.
fn class(meant: &Shelved) -> String {
    match meant.number {
        0 => "done".into(),
        number @ 1..=9 => format!("refusal {number}, side {}", meant.side),
        number => format!("number {number}"),
    }
}
