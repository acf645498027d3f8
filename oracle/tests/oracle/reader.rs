//! The reader on the edges of document 01 and on findings A and B.

use crate::common::{readable, reading, refused, refused_as};
use oracle::Side;
use oracle::model::{Item, Value};

#[test]
fn a01_the_first_vast_type_is_the_first_in_the_stream() {
    assert_eq!(
        refused("a01 a vast family front before a vast structure"),
        (9, 17)
    );
    assert_eq!(
        refused("a01 a vast variant before a vast structure"),
        (9, 26)
    );
    assert_eq!(refused("a01 a vast structure before a vast family"), (9, 5));
}

#[test]
fn a02_a_replaced_type_is_judged_too() {
    assert_eq!(
        refused("a02 a vast structure replaced by one of its name"),
        (9, 5)
    );
}

#[test]
fn a03_sizes_are_judged_after_all_commands() {
    assert_eq!(refused("a03 a vast enum declared after its use"), (9, 5));
    readable("a03 the first of two enums is small");
    assert_eq!(refused("a03 the first of two enums is huge"), (9, 5));
}

#[test]
fn a04_the_head_flag_is_read_on_both_sides() {
    assert!(readable("a04 a head flagged 1").content.unreleased);
    assert_eq!(refused("a04 a head flagged 2"), (6, 0));
}

#[test]
fn a10_a_long_part_goes_before_all_else() {
    assert_eq!(refused("a10 a long pool beside an empty stream"), (8, 0));
    assert_eq!(refused("edge a pool of 16385 bytes"), (8, 0));
    assert_eq!(
        refused("edge a bad letter goes before an unknown command"),
        (7, 2)
    );
}

#[test]
fn b13_an_empty_text_is_a_text() {
    readable("b13 an empty text at the pool's end");
    assert_eq!(refused("b13 an empty text after the pool's end"), (4, 5));
    readable("b13 a text up to the pool's end");
    assert_eq!(refused("b13 a text one byte past the pool"), (4, 5));
    assert_eq!(
        refused("b13 the absent form where a text must stand"),
        (4, 5)
    );
    assert_eq!(refused("b13 the absent start with a length"), (4, 5));
    let release = readable("b13 an empty release").content.release;
    assert_eq!(release.as_deref(), Some(""));
}

#[test]
fn b14_operands_are_judged_by_number() {
    assert_eq!(refused("b14 4 before 5 and 6"), (4, 5));
    assert_eq!(refused("b14 5 before 6"), (5, 5));
    assert_eq!(refused("b14 is-text 2 without text"), (6, 5));
    assert_eq!(refused("b14 an unused text outside"), (4, 5));
    assert_eq!(refused("b14 a used text outside"), (4, 5));
    assert_eq!(
        refused_as("b14 a head without release flagged 2", Side::Current),
        (5, 0)
    );
    assert_eq!(
        refused_as("b14 a head without release flagged 2", Side::Released),
        (6, 0)
    );
}

#[test]
fn b14_the_unused_form_of_a_constant_is_ignored() {
    assert_eq!(constant("b14 is-text 0 without text"), Value::Integer(7));
    assert_eq!(constant("b14 an unused integer"), Value::Text("a".into()));
    assert_eq!(constant("b19 a text constant"), Value::Text("text".into()));
}

fn constant(label: &str) -> Value {
    match &readable(label).content.items[..] {
        [Item::Constant(constant)] => constant.value.clone(),
        other => panic!("{label} is {other:?}"),
    }
}

#[test]
fn b15_unknown_then_cut_then_misplaced() {
    assert_eq!(refused("b15 an empty stream"), (1, 0));
    assert_eq!(refused("b15 the end alone"), (3, 0));
    assert_eq!(refused("b15 an unknown byte alone"), (2, 0));
    assert_eq!(refused("b15 another first command, whole"), (3, 0));
    assert_eq!(refused("b15 another first command, cut"), (1, 0));
    assert_eq!(refused("b15 a cut head"), (1, 0));
    assert_eq!(refused("b15 no end"), (1, 5));
    assert_eq!(refused("b15 an unknown byte at the very end"), (2, 5));
    assert_eq!(refused("b15 byte 00 at the very end"), (2, 5));
    assert_eq!(refused("b15 a misplaced command that is cut"), (1, 5));
    assert_eq!(refused("b15 a misplaced command that is whole"), (3, 5));
    assert_eq!(
        refused("b15 a misplaced command with a text outside"),
        (3, 5)
    );
    assert_eq!(refused("b15 a second head"), (3, 5));
}

#[test]
fn b15_everything_after_the_end_is_misplaced() {
    assert_eq!(refused("b15 an unknown byte after the end"), (3, 6));
    assert_eq!(refused("b15 byte 00 after the end"), (3, 6));
    assert_eq!(refused("b15 a second end"), (3, 6));
}

#[test]
fn b16_demanded_texts_are_demanded_of_current_records_alone() {
    for (label, place) in [
        ("edge a head without release", 0),
        ("b16 an undated key of a structure", 48),
        ("b16 an undated key of a family", 55),
        ("b16 an undated key of a variant", 59),
        ("b16 an undated unstored key", 5),
        ("b16 an undated bit field", 5),
    ] {
        assert_eq!(refused_as(label, Side::Current), (5, place), "{label}");
        assert!(reading(label, Side::Released).is_ok(), "{label}");
    }
    for label in [
        "b16 an undated enum",
        "b16 an undated value",
        "b16 an undated member",
        "b16 an undated constant",
    ] {
        readable(label);
    }
}

#[test]
fn b17_what_may_stand_where() {
    for (label, place) in [
        ("b17 a second key of a field", 55),
        ("b17 a key without field", 15),
        ("b17 a key after a variant", 26),
        ("b17 a field after a constant", 35),
        ("b17 a field after an alias", 22),
        ("b17 a field after an enum", 27),
        ("b17 a field after a bit field", 26),
        ("b17 a field after an unstored key", 22),
        ("b17 a field after a version", 23),
        ("b17 a variant after an unstored key", 29),
        ("b17 a variant after a constant", 42),
        ("b17 a variant of a structure", 15),
        ("b17 a variant of a structure after a family", 32),
        ("b17 a variant of a structure with a field", 48),
        ("b17 a value after an alias", 39),
        ("b17 a value after a member", 44),
        ("b17 a member after a value", 43),
        ("b17 an end between", 16),
    ] {
        assert_eq!(refused(label), (3, place), "{label}");
    }
}

#[test]
fn b17_what_stays_open() {
    for label in [
        "b17 a field after a key",
        "b17 a variant after a variant",
        "b17 a variant after a key",
        "b17 a field of a second structure",
        "b17 values",
        "b17 members",
    ] {
        readable(label);
    }
}

#[test]
fn b17_a_field_after_a_variant_is_the_variants() {
    let counts = |label| match &readable(label).content.items[..] {
        [Item::Family(f)] => {
            let own = f.variants.iter().map(|v| v.fields.len());
            (f.common_fields.len(), own.collect::<Vec<_>>())
        }
        other => panic!("{label} is {other:?}"),
    };
    assert_eq!(counts("b17 a field of a variant"), (0, vec![2]));
    assert_eq!(counts("b17 a variant after a field"), (1, vec![1, 0]));
}

#[test]
fn b18_the_bytes_of_an_absent_number_are_ignored() {
    let field = |label| match &readable(label).content.items[..] {
        [Item::Struct(s)] => s.fields[0].clone(),
        other => panic!("{label} is {other:?}"),
    };
    let absent = field("b18 absent numbers with bytes");
    assert_eq!(
        (absent.count, absent.rows, absent.cols, absent.size),
        (None, None, None, None)
    );
    let present = field("b18 present numbers of a kind without");
    assert_eq!(present.size, Some(u32::MAX));
    assert_eq!(refused("b18 a number flagged 2"), (6, 15));
    assert_eq!(refused("b18 the last number flagged 2"), (6, 15));
    assert_eq!(refused("b18 a member's width flagged 2"), (6, 16));
}

#[test]
fn b19_texts_that_nothing_reads_are_judged() {
    assert_eq!(refused("b19 a slot outside"), (4, 5));
    assert_eq!(refused("b19 a version constant outside"), (4, 5));
    assert_eq!(refused("b19 a version's structure outside"), (4, 5));
}

#[test]
fn b20_texts_may_overlap_and_be_long() {
    let record = readable("b20 equal and overlapping names");
    assert_ne!(record.struct_names[0], record.struct_names[1]);
    let names: Vec<&str> = record.content.structs().map(|s| s.name.as_str()).collect();
    assert_eq!(names, ["abc", "abc"]);
    readable("b20 a layout name of 512 bytes");
}

#[test]
fn c27_products_are_exact() {
    assert_eq!(
        refused("c27 rows and columns whose product wraps to 0"),
        (9, 5)
    );
    assert_eq!(refused("c27 rows and columns beyond 64 bits"), (9, 5));
    readable("c27 rows and columns of an unknown element");
}

#[test]
fn edge_limits_of_stream_pool_and_size() {
    readable("edge a stream of 32768 bytes");
    assert_eq!(refused("edge a stream of 32769 bytes"), (8, 0));
    readable("edge a pool of 16384 bytes");
    readable("edge a type that ends at 4294967295");
    assert_eq!(refused("edge a type that ends at 4294967296"), (9, 5));
}

#[test]
fn edge_pool_bytes() {
    readable("edge pool bytes 20 and 7e");
    assert_eq!(refused("edge pool byte 1f"), (7, 5));
    assert_eq!(refused("edge pool byte 7f"), (7, 5));
    assert_eq!(refused("edge pool byte ff"), (7, 5));
}
