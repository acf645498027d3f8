//! The edits of a draft on findings W-210.1 to W-210.18.

use oracle::edits::{self, Edit, Edited, held};
use oracle::generate::edits::series;
use oracle::generate::findings::edits::{FixedEdit, GIVEN, edits as fixed};
use oracle::model::{Content, Item};
use oracle::reader::read;
use oracle::rng::Rng;
use oracle::{Side, commands};

fn answered(case: &FixedEdit) -> Edited {
    match &case.call {
        None => edits::count(&case.buffer, &case.copy),
        Some(edit) => edits::edit(GIVEN, &case.buffer, edit, &case.copy),
    }
}

/// Holds every fixed case of a finding to its answer, and a refused one to its
/// buffer.
fn holds(finding: &str, cases: usize) {
    let front = format!("{finding} ");
    let cases_of = fixed()
        .into_iter()
        .filter(|case| case.label.starts_with(&front));
    let mut seen = 0;
    for case in cases_of {
        let edited = answered(&case);
        let answer = (
            edited.number,
            edited.side,
            edited.place,
            edited.length,
            edited.changed,
        );
        assert_eq!(answer, case.answer, "{}", case.label);
        if edited.number != 0 || case.call.is_none() {
            assert_eq!(edited.buffer, case.buffer, "{}", case.label);
        }
        seen += 1;
    }
    assert_eq!(seen, cases, "{finding}");
}

fn case(label: &str) -> FixedEdit {
    let found = fixed().into_iter().find(|case| case.label == label);
    found.unwrap_or_else(|| panic!("{label} is no label"))
}

fn content(buffer: &[u8]) -> Content {
    let record = held(buffer);
    read(Side::Current, &record.stream, &record.pool)
        .expect("a readable draft")
        .content
}

#[test]
fn w210_01_each_refusal_before_the_next() {
    holds("w210.1", 6);
}

#[test]
fn w210_02_a_refusal_changes_nothing() {
    holds("w210.2", 3);
}

#[test]
fn w210_03_head_one_type_and_the_end() {
    holds("w210.3", 9);
}

#[test]
fn w210_04_the_head_is_judged_and_left() {
    holds("w210.4", 3);
    let long = case("w210.4 the head takes no room");
    let after = answered(&long).buffer;
    assert_eq!(content(&after).release.as_deref(), Some("0.9.0"));
}

#[test]
fn w210_05_sizes_are_those_of_the_result() {
    holds("w210.5", 3);
}

#[test]
fn w210_06_names_that_are_held() {
    holds("w210.6", 7);
}

#[test]
fn w210_07_names_that_are_not() {
    holds("w210.7", 4);
}

#[test]
fn w210_08_the_first_in_the_stream_goes() {
    holds("w210.8", 3);
    let sorts = |label: &str| {
        let items = content(&answered(&case(label)).buffer).items;
        items
            .iter()
            .map(|item| matches!(item, Item::Family(_)))
            .collect::<Vec<_>>()
    };
    assert_eq!(sorts("w210.8 the family stands first"), [false]);
    assert_eq!(sorts("w210.8 the structure stands first"), [true]);
}

#[test]
fn w210_09_other_commands_keep_every_byte_but_the_starts() {
    holds("w210.9", 1);
    let mut given = case("w210.9 all parts go");
    let ignored = given.buffer.len() - 201 - held(&given.buffer).pool.len() - 4 - 5;
    given.call = Some(Edit::Remove(b"tile".to_vec()));
    given.buffer[ignored + 1..ignored + 5].fill(0xAB);
    let before = commands_of(&held(&given.buffer).stream);
    let after = commands_of(&held(&answered(&given).buffer).stream);
    let left: Vec<_> = before.iter().filter(|c| !is_tile(c)).collect();
    assert_eq!(after.iter().collect::<Vec<_>>(), left);
    assert!(
        after
            .iter()
            .any(|command| command.ends_with(&[0, 0xAB, 0xAB, 0xAB, 0xAB]))
    );
}

/// The commands of a stream, with 0 in place of each start.
fn commands_of(stream: &[u8]) -> Vec<Vec<u8>> {
    let mut found = Vec::new();
    let mut rest = stream;
    while rest[0] != commands::END {
        let forms = commands::operands(rest[0]).expect("a command");
        let (command, after) = rest.split_at(commands::width(forms));
        let mut command = command.to_vec();
        let mut at = 1;
        for form in forms {
            if form.is_text() {
                command[at..at + 2].fill(0);
            }
            at += form.width();
        }
        found.push(command);
        rest = after;
    }
    found
}

/// The structure of the fixed drafts, by the length of its name, and its field.
fn is_tile(command: &[u8]) -> bool {
    match command[0] {
        commands::STRUCT => true,
        commands::FIELD => command[9] == 3,
        _ => false,
    }
}

#[test]
fn w210_10_what_texts_cover() {
    holds("w210.10", 2);
}

#[test]
fn w210_11_room_to_the_byte() {
    holds("w210.11", 4);
}

#[test]
fn w210_12_the_result_at_its_limits() {
    holds("w210.12", 3);
}

#[test]
fn w210_13_a_removal_is_never_refused_for_room() {
    holds("w210.13", 2);
}

#[test]
fn w210_14_texts_of_others_stay() {
    holds("w210.14", 2);
    let left = content(&answered(&case("w210.14 overlapping texts stay")).buffer);
    assert_eq!(left.items[0].name(), "abcd");
}

#[test]
fn w210_15_parts_are_whole_afterwards() {
    holds("w210.15", 6);
    let given = case("w210.15 a pool that ends early");
    let after = answered(&given).buffer;
    let front = edits::parts_of(&held(&after));
    assert_eq!(front, after[..front.len()]);
    assert_eq!(after[front.len()..], given.buffer[front.len()..]);
}

#[test]
fn w210_16_which_layouts_count() {
    holds("w210.16", 6);
}

#[test]
fn w210_17_a_type_may_change_the_count_by_more_than_one() {
    holds("w210.17", 3);
}

#[test]
fn w210_18_the_rest_of_the_buffer_stays() {
    holds("w210.18", 1);
    let given = case("w210.18 a wrong count is set right");
    let after = answered(&given).buffer;
    let end = edits::parts_of(&held(&after)).len();
    assert_eq!(after[end..], given.buffer[end..]);
}

/// Over drawn series: the items that are not edited stay, in their order, and
/// the count is the one found afresh.
#[test]
fn w210_drawn_series() {
    let mut rng = Rng::new(210);
    let mut numbers = std::collections::BTreeSet::new();
    for _ in 0..300 {
        let mut draft = series(&mut rng);
        let mut changed = edits::count(&draft.buffer, &draft.copy).changed;
        for _ in 0..10 {
            let next = draft.next_edit(&mut rng);
            let edited = edits::edit(changed, &draft.buffer, &next, &draft.copy);
            numbers.insert(edited.number);
            if edited.number == 0 {
                let (was, is) = (content(&draft.buffer), content(&edited.buffer));
                assert_eq!((&was.release, was.unreleased), (&is.release, is.unreleased));
                match next {
                    Edit::Add(_) => assert_eq!(is.items[..was.items.len()], was.items),
                    Edit::Remove(_) => assert!(less_one(&was.items, &is.items)),
                }
                assert_eq!(
                    edits::count(&edited.buffer, &draft.copy).changed,
                    edited.changed
                );
            } else {
                assert_eq!((&edited.buffer, edited.changed), (&draft.buffer, changed));
            }
            (draft.buffer, changed) = (edited.buffer, edited.changed);
        }
    }
    assert!(
        [0, 3, 9, 10, 55, 56]
            .iter()
            .all(|number| numbers.contains(number)),
        "{numbers:?}"
    );
}

fn less_one(was: &[Item], is: &[Item]) -> bool {
    (0..was.len()).any(|at| [&was[..at], &was[at + 1..]].concat() == is)
}
