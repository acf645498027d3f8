//! The check's answers on findings A, D, F and G and on the edges of document
//! 01.

use crate::common::{answer, number};
use oracle::answers::{NO_ROOM, ROOM};
use oracle::generate::findings;

/// Whether a verdict's text begins with these words.
fn begins(label: &str, words: &str) {
    let text = answer(label).text;
    assert!(text.starts_with(words), "{label}: {text}");
}

#[test]
fn a05_of_two_constants_the_later_is_compared_and_the_first_is_the_generation() {
    assert_eq!(number("a05 the later constant changed"), 21);
    assert_eq!(number("a05 the earlier constant changed"), 0);
    assert_eq!(number("a05 the first constant is the generation"), 0);
}

#[test]
fn a06_a_family_replaces_a_structure_of_its_name() {
    assert_eq!(number("a06 a structure after a family of its name"), 0);
    assert_eq!(number("a06 a structure before a family of its name"), 0);
}

#[test]
fn a07_the_later_of_the_released_ones_in_the_plugin_api_counts() {
    assert_eq!(number("a07 a later doublet outside the plugin API"), 0);
    assert_eq!(number("a07 a later doublet in the plugin API"), 18);
    assert_eq!(number("a07 the later of two enums"), 0);
    assert_eq!(number("a07 a released enum outside the plugin API"), 0);
    assert_eq!(number("a07 the later of two keys"), 18);
    begins(
        "a07 an unstored key after a field's",
        "plugin key k named 0.5.0 in",
    );
}

#[test]
fn a08_the_first_double_colon_is_the_joint() {
    assert_eq!(number("a08 a discriminant with colons"), 43);
}

#[test]
fn a09_the_front_is_in_the_list_of_fields() {
    assert_eq!(
        number("a09 a common field with the discriminant's name"),
        35
    );
}

#[test]
fn a12_keys_of_fields_come_before_unstored_ones() {
    begins(
        "a12 a field's key before an earlier unstored one",
        "plugin key stored is not",
    );
}

#[test]
fn d29_an_unreleased_copy_is_judged_before_all_else() {
    assert_eq!(number("d29 a flagged copy with keys and versions alone"), 0);
    assert_eq!(number("d29 a flagged copy with an alias"), 11);
    assert_eq!(number("d29 a flagged copy without release"), 0);
    assert_eq!(number("d29 a flagged current record"), 0);
}

#[test]
fn d30_releases_compare_as_numbers_and_dates_as_texts() {
    assert_eq!(number("d30 both releases bad"), 12);
    assert_eq!(number("d30 0.10.0 after 0.9.0"), 0);
    assert_eq!(number("d30 0.9.0 after 0.10.0"), 15);
    assert_eq!(number("d30 a date is compared as text"), 18);
    assert_eq!(number("d30 a date may be any text"), 0);
}

#[test]
fn b13_an_empty_release_is_unreadable() {
    assert_eq!(number("b13 an empty release now"), 12);
    assert_eq!(number("b13 an empty release then"), 14);
    begins(
        "b13 a generation constant with an empty name",
        " was 3 in the last release and is 5",
    );
}

#[test]
fn edge_releases() {
    assert_eq!(number("edge 0.8.0 after 0.8.0"), 15);
    assert_eq!(number("edge 00.8.0 now"), 12);
    assert_eq!(number("edge 4294967296.0.0 now"), 12);
    assert_eq!(number("edge 4294967295.0.0 now"), 0);
    assert_eq!(number("edge 00.8.0 then"), 14);
    assert_eq!(number("edge 0.8.0 after no release"), 0);
    assert_eq!(number("edge 0.7.9 after no release"), 13);
}

#[test]
fn d31_first_releases() {
    begins(
        "d31 constants before enums and keys",
        "constant c is not in the copy",
    );
    assert_eq!(number("d31 a constant without date"), 0);
    assert_eq!(
        number("d31 an enum without date is skipped with its values"),
        0
    );
    assert_eq!(number("d31 a constant that was not in the plugin API"), 17);
    assert_eq!(number("d31 a value's old date is its enum's"), 0);
    assert_eq!(number("d31 a value's old date is its own"), 18);
    assert_eq!(number("d31 a value without any date that names now"), 19);
    assert_eq!(number("d31 a value without any date that names another"), 0);
    assert_eq!(number("d31 a new value without date"), 16);
    assert_eq!(number("d31 a new value with a wrong date"), 17);
    assert_eq!(number("d31 a new value with its date"), 0);
    assert_eq!(number("d31 a new enum with a new value"), 0);
    assert_eq!(number("d31 an unstated enum that names now"), 19);
    begins(
        "d31 the copy's release in a text",
        "constant c was already in the plugin API of a release before 0.8.0 and names 0.9.0,",
    );
}

#[test]
fn d32_constants_in_byte_order_and_the_exemption() {
    begins("d32 names in byte order", "constant B was 1");
    begins("d32 gone before changed, by name", "constant b was 1");
    assert_eq!(number("d32 a generation that became text"), 21);
    assert_eq!(number("d32 a generation that became negative"), 21);
    assert_eq!(number("d32 a generation above 32 bits"), 21);
    assert_eq!(number("d32 a text generation, unchanged"), 41);
    assert_eq!(number("d32 a generation gone"), 20);
}

#[test]
fn d33_constants_compare_as_text() {
    assert_eq!(number("d33 an integer that became its text"), 0);
    assert_eq!(number("d33 an integer that became another text"), 21);
    assert_eq!(number("d33 the least integer"), 0);
}

#[test]
fn d34_enums() {
    begins(
        "d34 the second doublet is judged",
        "e::b was in the last release and is gone",
    );
    assert_eq!(number("d34 the first current doublet counts"), 0);
    assert_eq!(number("d34 the second current doublet does not"), 25);
    assert_eq!(number("d34 an enum without values gone"), 0);
    assert_eq!(number("d34 an enum with values gone"), 22);
    begins(
        "d34 one of two names for a number gone",
        "e::a is called b now",
    );
    assert_eq!(number("d34 a value that took another's number"), 23);
    begins(
        "d34 the first of two values with the old number",
        "e::a is called b now",
    );
    assert_eq!(number("d34 a value gone"), 25);
}

#[test]
fn d35_bit_fields() {
    assert_eq!(number("d35 an absent width is 1 for a renamed member"), 27);
    assert_eq!(number("d35 width 0 is not 1 for a renamed member"), 28);
    assert_eq!(number("d35 an absent width is 1"), 0);
    assert_eq!(number("d35 moved and widened"), 29);
    assert_eq!(number("d35 width 0"), 30);
    assert_eq!(number("d35 moved down"), 29);
    assert_eq!(number("d35 the first current member of a name counts"), 29);
    begins(
        "d35 the first of two members with the old bits",
        "b::x is called y now",
    );
    assert_eq!(number("d35 the first current doublet counts"), 0);
    assert_eq!(number("d35 the second current doublet does not"), 28);
    assert_eq!(number("d35 a renamed member before its date"), 27);
}

#[test]
fn d35_bit_field_releases() {
    assert_eq!(number("d35 a copy without date"), 0);
    assert_eq!(number("d35 a copy's member without date"), 0);
    assert_eq!(
        number("d35 a copy's member with a date in a field without"),
        32
    );
    assert_eq!(number("d35 the first released doublet counts"), 0);
    assert_eq!(number("d35 the second current doublet is judged too"), 32);
    begins("d35 the current order", "bit field z is not in the copy");
}

#[test]
fn d36_layout_names_are_ordered_whole() {
    begins("d36 fam::v before fam;", "fam::v was in the last release");
    begins("d36 fam0 before fam::v", "fam0 was in the last release");
    begins("d36 fam! before fam0", "fam! was in the last release");
    begins("d36 two splits of one name", "a:::b.n was 1 byte(s)");
}

#[test]
fn d37_a_field_may_not_become_padding() {
    assert_eq!(number("d37 a field that became padding"), 37);
    assert_eq!(number("d37 a field that became padding elsewhere"), 35);
    assert_eq!(number("d37 a field that became longer padding"), 36);
    assert_eq!(number("d37 padding of the name before the field"), 36);
    assert_eq!(number("d37 padding gone"), 0);
    assert_eq!(number("d37 padding renamed"), 40);
    assert_eq!(number("d37 a strange kind became padding"), 40);
}

#[test]
fn d38_a_type_without_fields_is_a_layout() {
    assert_eq!(number("d38 a type without fields gone"), 33);
    assert_eq!(number("d38 a type without fields new"), 40);
    assert_eq!(number("d38 a type without fields"), 0);
    assert_eq!(number("d38 an owned type without fields new"), 43);
}

#[test]
fn d39_standalone_families() {
    begins(
        "d39 39 of the first family before 38 of the second",
        "b has gained gap since",
    );
    assert_eq!(number("d39 38 before 39 of one family"), 38);
    assert_eq!(number("d39 no longer standalone"), 38);
    assert_eq!(number("d39 a structure that became a standalone family"), 0);
    begins("d39 padding gained", "b has gained gap since");
    begins("d39 padding changed", "b has changed since");
    begins("d39 padding gone", "b has changed since");
    begins(
        "d39 a field in place of padding of its name",
        "b has changed since",
    );
    assert_eq!(number("d39 a new variant"), 0);
    begins(
        "d39 a variant that gained a field",
        "b::v has gained n since",
    );
    assert_eq!(number("d39 the first released family of the name"), 0);
}

#[test]
fn d40_order_of_the_roots() {
    begins(
        "d40 info before metadata",
        "I was 3 in the last release and is 1 now",
    );
    begins(
        "d40 metadata before runtime",
        "M was 3 in the last release and is 9 now",
    );
    begins(
        "d40 an uncovered type before a fall",
        "zz's layout has changed",
    );
    begins(
        "d40 the first uncovered type in byte order",
        "B's layout has changed",
    );
    assert_eq!(number("d40 a released text constant is skipped"), 0);
    begins(
        "d40 variants of two families, one of them owned",
        "g::v's layout has changed",
    );
    assert_eq!(number("d40 no constant though nothing changed"), 41);
    assert_eq!(number("d40 an absent released constant is skipped"), 0);
}

#[test]
fn d41_generation_texts() {
    begins(
        "d41 the first changed layout in byte order",
        "m is still generation 3, and a's layout",
    );
    assert_eq!(number("d41 a layout of the metadata root alone"), 0);
    assert_eq!(number("d41 an entry for another number"), 44);
    assert_eq!(number("d41 an entry for another structure"), 44);
    assert_eq!(number("d41 an entry in the copy alone"), 44);
    assert_eq!(number("d41 a fall of any size"), 46);
    let leap = answer("d41 a leap after a copy without release");
    assert_eq!(leap.number, 45);
    assert!(
        leap.text
            .contains("in between.  The copy compared against is of a release before")
    );
    assert_eq!(number("d41 a rise of any size"), 45);
}

#[test]
fn edge_generations() {
    assert_eq!(number("edge 3 to 3"), 0);
    assert_eq!(number("edge 3 to 3 with a change"), 43);
    assert_eq!(number("edge 3 to 4 with a change and an entry"), 0);
    assert_eq!(number("edge 3 to 4 with an entry"), 0);
    assert_eq!(number("edge 3 to 4 without entry"), 44);
    assert_eq!(number("edge 3 to 5"), 45);
    assert_eq!(number("edge 3 to 2"), 46);
    assert_eq!(number("edge a released generation of -1"), 42);
    assert_eq!(number("edge a released generation above 32 bits"), 42);
}

#[test]
fn edge_the_one_text_that_is_not_the_rusts() {
    let last = answer("edge the last generation with a change");
    assert_eq!(last.number, 43);
    assert_eq!(
        last.text,
        "m is still generation 4294967295, and m's layout has changed since the last release - \
         raise G to 4294967296, and add a [[versions]] entry saying which release that \
         generation ships in"
    );
    assert_eq!(last.length as usize, last.text.len());
}

#[test]
fn d42_a_layout_is_looked_up_by_its_front() {
    assert_eq!(number("d42 a structure a::b asks for a"), 43);
    assert_eq!(number("d42 a structure a::b does not ask for itself"), 40);
    assert_eq!(number("d42 a structure ::x asks for the empty name"), 43);
    begins(
        "d42 a variant of a: does not ask for a:",
        "a:::v's layout has changed",
    );
    assert_eq!(number("d42 a variant of a: asks for a"), 43);
    assert_eq!(
        number("d42 a standalone family excuses a structure of its front"),
        0
    );
}

#[test]
fn f47_what_no_pass_notices() {
    let noticed: Vec<_> = findings::pairs()
        .into_iter()
        .filter(|pair| pair.label.starts_with("f47"))
        .map(|pair| (pair.label, pair.encoded().check(ROOM).number))
        .collect();
    assert_eq!(noticed.len(), 10);
    for (label, number) in noticed {
        assert_eq!(number, 0, "{label}");
    }
}

#[test]
fn c23_c28_changes_without_any_layout_change() {
    assert_eq!(number("c23 a reference that moved"), 0);
    assert_eq!(number("c28 a length type spelled out"), 0);
    assert_eq!(number("c28 a length type left out"), 0);
}

#[test]
fn g48_a_strange_kind_can_leave_over_two_links() {
    assert_eq!(number("g48 a strange kind becomes padding"), 0);
    assert_eq!(number("g48 padding goes"), 0);
}

#[test]
fn g49_a_field_is_held_to_the_first_of_its_name() {
    assert_eq!(number("g49 the second of two fields of a name"), 35);
    assert_eq!(number("g49 a second field of a shipped name"), 0);
    assert_eq!(number("g49 a field of a type with colons stays"), 0);
    assert_eq!(number("g49 a field of a type with colons moves"), 35);
    assert_eq!(number("g49 a flagged copy with a field"), 11);
}

#[test]
fn g50_what_the_generation_clause_needs() {
    assert_eq!(
        number("g50 a structure x::v beside a standalone family x"),
        0
    );
    assert_eq!(
        number("g50 the first structure of the name names the constant"),
        0
    );
    assert_eq!(number("g50 a renamed constant is skipped"), 0);
    assert_eq!(number("g50 a text constant is skipped"), 0);
}

#[test]
fn g51_g53_under_a_generation() {
    assert_eq!(number("g51 a standalone family under a generation"), 39);
    assert_eq!(number("g53 the copy's ownership is not looked at"), 0);
}

#[test]
fn g52_standing_can_be_walked_around() {
    assert_eq!(number("g52 a family becomes a structure"), 0);
    assert_eq!(number("g52 a structure becomes a standalone family"), 0);
    assert_eq!(number("g52 a family becomes standalone"), 38);
}

#[test]
fn g54_a_changed_type_means_a_rise_of_one() {
    assert_eq!(number("g54 a changed type and a rise of one"), 0);
    assert_eq!(number("g54 a changed type and no rise"), 43);
    assert_eq!(number("g54 a changed type and a rise of two"), 45);
}

#[test]
fn no_room_writes_nothing_and_gives_the_length() {
    for pair in findings::pairs() {
        let whole = pair.encoded().check(ROOM);
        let needed = whole.length as usize;
        assert_eq!(pair.encoded().check(needed), whole);
        if needed > 0 {
            let short = pair.encoded().check(needed - 1);
            assert_eq!((short.number, short.side, short.place), (NO_ROOM, 0, 0));
            assert_eq!((short.length, short.text.as_str()), (whole.length, ""));
        }
    }
}
