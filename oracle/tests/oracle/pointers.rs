//! The check of pointers on the findings of W-212.

use crate::common::pointers;
use oracle::generate::findings::records;
use oracle::generate::words::POINTERS;
use oracle::rng::Rng;
use oracle::{Side, generate};

/// The place of the first command after a head, and the widths of commands.
const FIRST: u32 = 5;
const STRUCT: u32 = 10;
const FAMILY: u32 = 17;
const VARIANT: u32 = 4;
const FIELD: u32 = 33;
const KEY: u32 = 7;

/// The place of the one field of a structure that stands after items of these
/// widths.
fn after(widths: u32) -> u32 {
    FIRST + widths + STRUCT
}

#[test]
fn w212_1_refusals_come_first() {
    let end = after(0) + FIELD;
    for (label, answer) in [
        ("w212.1 a vast type after the broken pointer", (9, end)),
        ("w212.1 a cut stream after the broken pointer", (1, end)),
        ("w212.1 a byte after the end", (3, end + 1)),
        (
            "w212.1 an unknown command after the broken pointer",
            (2, end),
        ),
        ("w212.1 a pool that is too short", (4, after(0))),
        ("w212.1 a pool that is too long", (8, 0)),
        ("w212.1 a flag of 2", (6, 0)),
        ("w212.1 a release that is missing", (5, 0)),
        (
            "w212.1 the field's command and not its key",
            (59, after(FIELD + KEY)),
        ),
        ("w212.1 an unreleased record", (59, after(0))),
        ("w212.1 an empty record", (0, 0)),
    ] {
        assert_eq!(pointers(label), answer, "{label}");
    }
    assert_eq!(pointers("w212.1 a bad letter").0, 7);
}

#[test]
fn w212_2_the_first_by_place() {
    let (common, second) = (FIRST + FAMILY, after(0) + FIELD);
    for (label, answer) in [
        ("w212.2 a family before a structure", (59, common)),
        ("w212.2 a structure before a family", (60, after(0))),
        ("w212.2 59 before 60", (59, after(0))),
        ("w212.2 60 before 59", (60, after(0))),
        (
            "w212.2 a name later in byte order stands first",
            (60, after(0)),
        ),
        ("w212.2 a family's common field", (59, common)),
        ("w212.2 a variant's field", (59, common + VARIANT + FIELD)),
        (
            "w212.2 the field of a second variant",
            (59, common + FIELD + 2 * VARIANT),
        ),
        (
            "w212.2 a structure that a later one replaces",
            (59, after(0)),
        ),
        (
            "w212.2 a structure that replaces an earlier one",
            (59, second + STRUCT),
        ),
        (
            "w212.2 a structure that a family of its name replaces",
            (59, after(0)),
        ),
        (
            "w212.2 a variant that a later one replaces",
            (59, common + VARIANT),
        ),
        ("w212.2 a family that a later one replaces", (59, common)),
    ] {
        assert_eq!(pointers(label), answer, "{label}");
    }
}

#[test]
fn w212_2_the_last_field_of_a_long_stream() {
    for (label, answer) in [
        ("w212.2 a stream of 2029 bytes", (59, after(60 * FIELD))),
        ("w212.2 a stream of 2062 bytes", (59, after(61 * FIELD))),
        ("w212.2 the last of 992 fields", (59, after(991 * FIELD))),
        ("w212.2 992 fields that are right", (0, 0)),
    ] {
        assert_eq!(pointers(label), answer, "{label}");
    }
}

#[test]
fn w212_3_the_operand_that_names() {
    let (s, f, both) = (after(STRUCT), after(FAMILY), after(STRUCT + FAMILY));
    for (label, answer) in [
        ("w212.3 struct_ptr by its type", (0, 0)),
        ("w212.3 struct_ptr with an element alone", (59, s)),
        ("w212.3 struct_ptr whose element is right", (59, s)),
        ("w212.3 struct_ptr whose element is a family", (0, 0)),
        ("w212.3 struct_array_ptr by its element", (0, 0)),
        ("w212.3 struct_array_ptr with a type alone", (59, s)),
        ("w212.3 struct_array_ptr whose type is a family", (0, 0)),
        (
            "w212.3 struct_array_ptr whose element is a family",
            (60, both),
        ),
        ("w212.3 struct_ptr_array_ptr by its element", (0, 0)),
        ("w212.3 struct_ptr_array_ptr with a type alone", (59, s)),
        (
            "w212.3 struct_ptr_array_ptr whose element is a family",
            (60, both),
        ),
        ("w212.3 tagged_fam_ptr by its type", (0, 0)),
        ("w212.3 tagged_fam_ptr with an element alone", (59, f)),
        ("w212.3 tagged_fam_ptr whose element is right", (60, f)),
    ] {
        assert_eq!(pointers(label), answer, "{label}");
    }
}

#[test]
fn w212_4_no_name_and_the_empty_one() {
    let (s, f) = (after(STRUCT), after(FAMILY));
    for (label, answer) in [
        ("w212.4 struct_ptr without a name", (59, after(0))),
        ("w212.4 struct_array_ptr without a name", (59, after(0))),
        ("w212.4 struct_ptr_array_ptr without a name", (59, after(0))),
        ("w212.4 tagged_fam_ptr without a name", (59, after(0))),
        (
            "w212.4 no name beside a structure of the empty name",
            (59, s),
        ),
        ("w212.4 the empty name of nothing", (59, after(0))),
        ("w212.4 the empty name of a structure", (0, 0)),
        ("w212.4 the empty name of a family", (60, f)),
        ("w212.4 a family of the empty name", (0, 0)),
        (
            "w212.4 a structure of the empty name where a family must be",
            (60, s),
        ),
    ] {
        assert_eq!(pointers(label), answer, "{label}");
    }
}

#[test]
fn w212_5_what_is_declared() {
    for label in [
        "w212.5 a structure declared later",
        "w212.5 a family declared later",
        "w212.5 a structure that points at itself",
        "w212.5 a family that points at itself",
        "w212.5 a structure named as a variant is",
    ] {
        assert_eq!(pointers(label), (0, 0), "{label}");
    }
    for label in [
        "w212.5 a variant",
        "w212.5 a variant where a structure must be",
        "w212.5 an enum",
        "w212.5 an alias",
        "w212.5 a bit field",
        "w212.5 a constant",
        "w212.5 an unstored key",
        "w212.5 a version entry",
        "w212.5 the front of a structure's name",
        "w212.5 a field's name",
        "w212.5 a family's own fields",
    ] {
        assert_eq!(pointers(label).0, 59, "{label}");
    }
}

#[test]
fn w212_6_one_name_for_both() {
    for label in [
        "w212.6 both, and a structure must be",
        "w212.6 both, and a family must be",
        "w212.6 the family first, and a structure must be",
        "w212.6 the family first, and a family must be",
    ] {
        assert_eq!(pointers(label), (0, 0), "{label}");
    }
    assert_eq!(pointers("w212.6 only a family"), (60, after(FAMILY)));
    assert_eq!(pointers("w212.6 only a structure"), (60, after(STRUCT)));
}

#[test]
fn w212_7_kinds_by_their_whole_word() {
    use oracle::generate::findings::pointers::records;
    let numbers = |label: &str| -> Vec<u32> {
        let fixed = records().into_iter().filter(|r| r.label == label);
        fixed
            .map(|r| oracle::pointers(&r.record.stream, &r.record.pool).number)
            .collect()
    };
    let judged = POINTERS.map(|kind| match kind {
        "struct_ptr" | "struct_array_ptr" | "struct_ptr_array_ptr" | "tagged_fam_ptr" => 59,
        _ => 0,
    });
    assert_eq!(numbers("w212.7 a pointer's kind"), judged);
    assert_eq!(numbers("w212.7 another kind"), [0; 8]);
    assert_eq!(numbers("w212.7 a word that is no kind"), [0; 11]);
}

#[test]
fn the_check_of_pointers_refuses_as_the_reader_does() {
    for fixed in records::records() {
        let (stream, pool) = (&fixed.record.stream, &fixed.record.pool);
        let answer = oracle::pointers(stream, pool);
        match oracle::reader::read(Side::Current, stream, pool) {
            Ok(_) => assert!(matches!(answer.number, 0 | 59 | 60), "{}", fixed.label),
            Err(refusal) => {
                assert_eq!(
                    (answer.number, answer.place as usize),
                    (refusal.number, refusal.place)
                );
            }
        }
        assert_eq!((answer.side, answer.length), (0, 0));
    }
}

#[test]
fn drawn_records_have_every_answer() {
    let mut rng = Rng::new(7);
    let mut counts = [0; 61];
    for _ in 0..4_000 {
        let record = generate::pointers::record(&mut rng);
        counts[oracle::pointers(&record.stream, &record.pool).number as usize] += 1;
    }
    for number in [0, 59, 60] {
        assert!(counts[number] >= 400, "{number}: {counts:?}");
    }
    for number in [1, 2, 3, 4, 5, 6, 7, 9] {
        assert!(counts[number] >= 10, "{number}: {counts:?}");
    }
}
