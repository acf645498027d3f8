//! The calls of a shelf on findings W-211.1 to W-211.14.

use std::collections::BTreeMap;

use oracle::Side;
use oracle::edits::{held, parts_of};
use oracle::generate::edits::series;
use oracle::generate::findings::shelves::{FixedCall, fixed_calls};
use oracle::generate::shelves::{Call, Editor, editor};
use oracle::reader::read;
use oracle::rng::Rng;
use oracle::shelf::{Row, Shelf, Shelved, row_of};

/// Holds every fixed case of a finding to its answer, and each to what every
/// answer leaves.
fn holds(finding: &str, cases: usize) {
    let front = format!("{finding} ");
    let all = fixed_calls().into_iter();
    let cases_of = all.filter(|case| case.label.starts_with(&front));
    let mut seen = 0;
    for case in cases_of {
        let after = case.editor.answer(&case.call);
        let answer = (
            after.number,
            after.side,
            after.place,
            after.length,
            after.changed,
        );
        assert_eq!(answer, case.answer, "{}", case.label);
        leaves(&case.editor, &case.call, &after, case.label);
        seen += 1;
    }
    assert_eq!(seen, cases, "{finding}");
}

fn bytes_of<'a>(row: &Row, buffer: &'a [u8]) -> &'a [u8] {
    &buffer[row.start..row.start + row.len]
}

/// What every answer leaves: after a refusal all as it was; after a setting each
/// other held row with its bytes, none of them over another, and the draft under
/// its name; after coming back the draft and nothing else.
fn leaves(editor: &Editor, call: &Call, after: &Shelved, label: &str) {
    let draft = &editor.draft.buffer;
    let untouched = (&editor.shelf, draft, &editor.held);
    if after.number != 0 {
        let left = (&after.shelf, &after.draft, &after.held);
        assert_eq!((left, after.changed), (untouched, 0), "{label}");
        return;
    }
    match call {
        Call::Set(name) => {
            let row = row_of(&after.shelf, name).expect(label);
            let parts = parts_of(&held(draft));
            assert_eq!(bytes_of(&after.shelf[row], &after.held), parts, "{label}");
            assert_eq!((&after.draft, after.held.len()), (draft, editor.held.len()));
            assert_eq!(after.changed, 0, "{label}");
            others_stay(editor, row, after, label);
        }
        Call::Back(name) => {
            assert_eq!((&after.shelf, &after.held), (&editor.shelf, &editor.held));
            let row = row_of(&editor.shelf, name).expect(label);
            let record = held(bytes_of(&editor.shelf[row], &editor.held));
            assert!(read(Side::Current, &record.stream, &record.pool).is_ok());
            let parts = parts_of(&record);
            let front = [&parts, &draft[parts.len()..]].concat();
            assert_eq!(after.draft, front, "{label}");
        }
    }
}

/// The rows beside the one that was set.
fn others_stay(editor: &Editor, set: usize, after: &Shelved, label: &str) {
    let mut used = vec![0; after.held.len()];
    for (nth, (was, is)) in editor.shelf.iter().zip(&after.shelf).enumerate() {
        if is.is_held() {
            used[is.start..is.start + is.len]
                .iter_mut()
                .for_each(|uses| *uses += 1);
        }
        if nth == set {
            continue;
        }
        let kept = (was.name, was.name_len, was.len);
        assert_eq!((is.name, is.name_len, is.len), kept, "{label}");
        if was.is_held() {
            let bytes = bytes_of(was, &editor.held);
            assert_eq!(bytes_of(is, &after.held), bytes, "{label}");
        }
    }
    assert!(used.iter().all(|uses| *uses <= 1), "{label}");
}

fn case(label: &str) -> FixedCall {
    let found = fixed_calls().into_iter().find(|case| case.label == label);
    found.unwrap_or_else(|| panic!("{label} is no label"))
}

fn answered(label: &str) -> Shelved {
    let FixedCall { editor, call, .. } = case(label);
    editor.answer(&call)
}

#[test]
fn w211_01_each_refusal_before_the_next() {
    holds("w211.1", 9);
}

#[test]
fn w211_02_names_and_how_many() {
    holds("w211.2", 12);
    let shelf = answered("w211.2 the last of eight again").shelf;
    assert_eq!(row_of(&shelf, b"8"), Some(7));
}

#[test]
fn w211_03_rows_and_bytes_of_names() {
    holds("w211.3", 11);
    let shelf = answered("w211.3 bytes after a name set again").shelf;
    assert_eq!(shelf[0].name, *b"ab\0\0\0\0\0\0\0\0\0\0\0\0\0\0");
}

#[test]
fn w211_04_every_held_place_is_judged() {
    holds("w211.4", 6);
}

#[test]
fn w211_05_places_outside() {
    holds("w211.5", 13);
}

#[test]
fn w211_06_places_over_each_other() {
    holds("w211.6", 15);
}

#[test]
fn w211_07_what_is_held() {
    holds("w211.7", 8);
    let after = answered("w211.7 bytes of no use are held");
    assert!(after.held.ends_with(b"no use"));
    let after = answered("w211.7 a pool that ends early");
    assert_eq!(held(&after.held).pool.len(), 5 + 11 + 3);
}

#[test]
fn w211_08_room_for_the_drafts_then_held() {
    holds("w211.8", 16);
}

#[test]
fn w211_09_room_for_the_draft() {
    holds("w211.9", 6);
}

#[test]
fn w211_10_places_cut_short() {
    holds("w211.10", 9);
}

#[test]
fn w211_11_the_count() {
    holds("w211.11", 5);
}

#[test]
fn w211_12_a_refusal_changes_nothing() {
    holds("w211.12", 6);
}

#[test]
fn w211_13_shelves_that_no_call_made() {
    holds("w211.13", 9);
    let shelf = answered("w211.13 the first of two is replaced").shelf;
    let places = [0, 1].map(|row| (shelf[row].start, shelf[row].len));
    assert_eq!(places, [(40, 50), (0, 40)]);
    let moved = answered("w211.13 a place without a name moves").shelf;
    assert_eq!((moved[1].start, moved[1].len), (0, 30));
}

/// The decisions: the order of the buffer, the row of a name, free rows, and the
/// bytes behind the drafts.
#[test]
fn w211_14_where_names_and_drafts_lie() {
    holds("w211.14", 2);
    let given = case("w211.14 the first free row").editor;
    let starts = |shelf: &Shelf| [0, 1, 2, 3].map(|row| shelf[row].start);
    let after = answered("w211.14 the first free row");
    assert_eq!(starts(&after.shelf), [30, 70, 0, 0]);
    assert_eq!(after.held[120..], given.held[120..]);
    let again = answered("w211.14 the row of the name");
    assert_eq!(starts(&again.shelf), [30, 30, 0, 0]);
    assert_eq!(again.held[80..], given.held[80..]);
}

/// Drawn series of calls, as long as no shelf is forged: each name comes back as
/// it was set last, whatever was set, refused or taken back since.
#[test]
fn w211_drawn_series() {
    let mut rng = Rng::new(211);
    let mut numbers: BTreeMap<u32, usize> = BTreeMap::new();
    for _ in 0..300 {
        let mut editor = editor(series, &mut rng);
        let mut last: BTreeMap<Vec<u8>, Vec<u8>> = BTreeMap::new();
        for _ in 0..20 {
            let mut drawn = editor.clone();
            let call = drawn.next_call(series, &mut rng);
            let common = drawn.held.len().min(editor.held.len());
            if drawn.shelf != editor.shelf || drawn.held[..common] != editor.held[..common] {
                continue;
            }
            editor = drawn;
            let before = editor.clone();
            let after = editor.take(&call);
            leaves(&before, &call, &after, "drawn");
            *numbers.entry(after.number).or_default() += 1;
            match (&call, after.number) {
                (Call::Set(name), 0) => {
                    let parts = parts_of(&held(&before.draft.buffer));
                    last.insert(name.clone(), parts);
                }
                (Call::Back(name), 0) => assert!(after.draft.starts_with(&last[name])),
                _ => {}
            }
        }
    }
    let all = [0, 4, 10, 57, 58];
    assert!(
        all.iter().all(|number| numbers[number] >= 20),
        "{numbers:?}"
    );
}

/// Over shelves forged again and again nothing is left that an answer may not.
#[test]
fn w211_drawn_forgeries() {
    let mut rng = Rng::new(2110);
    let mut numbers: BTreeMap<u32, usize> = BTreeMap::new();
    for _ in 0..300 {
        let mut editor = editor(series, &mut rng);
        for _ in 0..20 {
            if rng.chance(20) {
                editor.forge(&mut rng);
            }
            let call = editor.next_call(series, &mut rng);
            let before = editor.clone();
            let after = editor.take(&call);
            leaves(&before, &call, &after, "forged");
            *numbers.entry(after.number).or_default() += 1;
        }
    }
    assert!(numbers[&0] >= 500 && numbers[&58] >= 500, "{numbers:?}");
}
