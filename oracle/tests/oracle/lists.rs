//! The list and the owner call on findings A, B, C, D and E.

use crate::common::{listed, owner_names, owners};
use oracle::Side;
use oracle::answers::{NO_ROOM, Owner, ROOM};
use oracle::generate::findings::{lists, records};

#[test]
fn edge_the_record_of_document_01() {
    assert_eq!(
        listed("edge the record of document 01"),
        "tile.n 0 2 scalar u16\ntile.skip 2 1 scalar u8\ntile.gap 3 1 padding\n"
    );
    assert_eq!(listed("edge an empty record"), "");
}

#[test]
fn edge_sizes() {
    let scalars = listed("edge scalars");
    assert!(scalars.starts_with("s.a 0 1 scalar\ns.b 1 0 scalar u64\n"));
    assert!(scalars.ends_with("s.d 2 1 scalar char\ns.e 3 2 scalar u16\ns.f 5 4 scalar u32\n"));
    assert!(listed("edge arrays").starts_with("s.a 0 6 inline_array u16 x 3\n"));
    assert_eq!(
        listed("edge undeclared types"),
        "s.a 0 1 enum x\ns.b 1 2 type_alias x\ns.c 3 0 bitfield x\n\
         s.d 3 4 struct_array_ptr tile\n"
    );
    assert!(listed("edge the eight pointers").ends_with("s.h 28 4 fn_ptr\ns.i 32 0 string\n"));
    assert_eq!(
        listed("edge a size at the limit"),
        "s.p 0 4294967295 padding\ns.n 4294967295 0 string\n"
    );
}

#[test]
fn a06_the_later_layout_stays() {
    let family = "s.d 0 1 enum e\ns.l 1 1 scalar u8\ns.c 2 1 scalar u8\ns::v.n 0 1 scalar u8\n";
    assert_eq!(listed("a06 a structure after a family"), family);
    assert_eq!(listed("a06 a structure before a family"), family);
    assert_eq!(
        listed("a06 the later of two structures"),
        "s.m 0 2 scalar u16\n"
    );
}

#[test]
fn a11_exactly_65536_bytes_fit() {
    assert_eq!(listed("a11 a list of 65536 bytes").len(), ROOM);
    let over = lists::lists().into_iter();
    let over = over.last().expect("there are lists");
    assert_eq!(over.label, "a11 a list of 65537 bytes");
    let record = over.encoded();
    for side in Side::BOTH {
        let answer = oracle::list(&record.stream, &record.pool, side, ROOM);
        assert_eq!((answer.number, answer.side, answer.place), (NO_ROOM, 0, 0));
        assert_eq!(
            (answer.length as usize, answer.text.as_str()),
            (ROOM + 1, "")
        );
    }
}

#[test]
fn b13_an_empty_type_is_a_type() {
    assert_eq!(
        listed("b13 empty types"),
        "s.a 0 0 scalar \ns.b 0 1 scalar \ns.c 1 0 inline_array  x 2\ns.d 1 1 enum \n"
    );
}

#[test]
fn b20_long_names() {
    let list = listed("b20 names of 255 bytes");
    let last = list.lines().last().expect("there are lines");
    assert_eq!(last.len(), 255 + 2 + 255 + 1 + 255 + " 0 1 scalar u8".len());
}

#[test]
fn c21_a_description_prefers_the_type() {
    assert_eq!(
        listed("c21 a type before an element"),
        "s.a 0 1 scalar u32\ns.b 1 2 scalar u16\ns.c 3 1 enum e\ns.d 4 2 type_alias t\n\
         s.e 6 0 bitfield b\n"
    );
}

#[test]
fn c22_arrays_use_the_element_alone() {
    assert_eq!(
        listed("c22 arrays do not look at the type"),
        "s.a 0 4 inline_array u16 x 2\ns.b 4 8 inline_array2d u16 x 2 x 2\n\
         s.c 12 0 inline_array u8 x 0\n"
    );
    assert_eq!(
        listed("c22 numbers of other kinds"),
        "s.a 0 1 scalar u8\ns.b 1 4 struct_ptr t\ns.c 5 0 string\ns.d 5 5 inline_array u8 x 5\n\
         s.e 10 8 padding\n"
    );
}

#[test]
fn c23_a_pointer_shows_its_type_first() {
    assert_eq!(
        listed("c23 pointers with both names"),
        "s.a 0 4 struct_array_ptr shown\ns.b 4 4 struct_ptr x\n"
    );
}

#[test]
fn c24_aliases_are_not_followed() {
    assert_eq!(
        listed("c24 sizes of named types"),
        "s.a 0 0 enum x\ns.b 0 0 type_alias x\ns.c 0 0 bitfield x\n"
    );
    assert_eq!(
        listed("c24 an alias of an alias"),
        "s.a 0 1 enum x\ns.b 1 0 type_alias x\ns.c 1 0 bitfield x\n"
    );
}

#[test]
fn c25_unknown_kinds_have_size_0() {
    assert_eq!(
        listed("c25 unknown kinds"),
        "s.a 0 0  x\ns.b 0 0 \ns.c 0 0 padding  u8\ns.d 0 0 Padding\ns.e 0 0 scalars u32\n\
         s.f 0 0 scala u32\n"
    );
}

#[test]
fn c26_the_first_declaration_counts() {
    assert_eq!(
        listed("c26 the first declaration counts"),
        "s.a 0 3 enum x\ns.b 3 1 type_alias x\ns.c 4 7 bitfield x\n"
    );
}

#[test]
fn c28_an_absent_length_type_is_u8() {
    assert_eq!(
        listed("c28 fronts of families"),
        "f.d 0 2 enum e\nf.l 2 1 scalar u8\nf.c 3 1 scalar u8\nf::v.n 0 4 scalar u32\n\
         g.d 0 2 enum e\ng.l 2 2 scalar u16\n"
    );
}

#[test]
fn d36_names_in_byte_order() {
    let list = listed("d36 names in byte order");
    let names: Vec<&str> = list.lines().filter_map(|l| l.split('.').next()).collect();
    let order = [
        "", "Fam", "fam", "fam", "fam!", "fam0", "fam::v", "fam;", "fama",
    ];
    assert_eq!(names, order);
    assert!(listed("d36 two splits of one name").ends_with("a:::b.n 0 1 scalar u8\n"));
}

#[test]
fn d38_types_without_fields_have_no_line() {
    assert_eq!(
        listed("d38 types without fields"),
        "b.n 0 1 scalar u8\nc.d 0 1 enum e\nc.l 1 1 scalar u8\n"
    );
}

#[test]
fn refusals_of_the_list_have_the_side_it_was_read_as() {
    for fixed in records::records() {
        for side in Side::BOTH {
            let (stream, pool) = (&fixed.record.stream, &fixed.record.pool);
            let answer = oracle::list(stream, pool, side, ROOM);
            match oracle::reader::read(side, stream, pool) {
                Ok(_) => assert_eq!(answer.number, 0, "{}", fixed.label),
                Err(refusal) => {
                    assert_eq!(
                        (answer.number, answer.side),
                        (refusal.number, side.number())
                    );
                    assert_eq!((answer.place as usize, answer.length), (refusal.place, 0));
                }
            }
        }
    }
}

fn names(owners: &[Option<&str>]) -> Vec<Option<String>> {
    let owners = owners.iter();
    owners.map(|owner| owner.map(str::to_string)).collect()
}

#[test]
fn e43_the_slotted_structure_gives_the_name_and_the_first_of_it_the_fields() {
    let slotted = owners("e43 the slotted structure is the second of its name");
    let root = Some((18, "a".to_string()));
    assert_eq!(slotted, [root.clone(), root, None]);
    let metadata = Some((30, "a".to_string()));
    assert_eq!(
        owners("e43 one name in two slots"),
        [metadata.clone(), metadata]
    );
    assert_eq!(
        owner_names("e43 two structures in one slot"),
        names(&[Some("a"), None, Some("a"), None])
    );
    assert_eq!(
        owner_names("e43 the slot of the first of the name stops the walk"),
        names(&[None, Some("r")])
    );
}

#[test]
fn e44_roots_and_other_slot_texts() {
    assert_eq!(
        owner_names("e44 slot texts that are no roots"),
        names(&[Some("r"), None, None, None])
    );
    assert_eq!(
        owner_names("e44 roots that refer to each other"),
        names(&[Some("i"), Some("r"), Some("m"), Some("r")])
    );
    assert_eq!(
        owner_names("e44 a type that three roots reach"),
        names(&[Some("m"), Some("r")])
    );
    assert_eq!(
        owner_names("e44 an info root alone"),
        names(&[Some("i"), Some("i"), None])
    );
    assert_eq!(owner_names("e44 no root"), names(&[None, None]));
    assert_eq!(owner_names("e44 an empty record"), names(&[None, None]));
    assert_eq!(
        owner_names("e44 a root with an empty name"),
        names(&[Some(""), Some("")])
    );
}

#[test]
fn e45_whose_fields_are_walked() {
    let r = Some("r");
    assert_eq!(
        owner_names("e45 a structure hides a family of its name"),
        names(&[r, r, None, None])
    );
    assert_eq!(
        owner_names("e45 a family's common and variant fields"),
        names(&[r, r, r, r, None])
    );
    assert_eq!(
        owner_names("e45 the first family of the name"),
        names(&[r, None, None])
    );
}

#[test]
fn e46_undeclared_names_cycles_and_depth() {
    let r = Some("r");
    assert_eq!(
        owner_names("e46 undeclared names"),
        names(&[r, r, None, None])
    );
    assert_eq!(
        owner_names("e46 a cycle and a self-reference"),
        names(&[r, r, r])
    );
    assert_eq!(owner_names("e46 a long chain"), names(&[Some("0")]));
    for full in [
        "e46 as many undeclared names as a stream holds",
        "e46 the deepest walk",
    ] {
        assert_eq!(owner_names(full), names(&[r]), "{full}");
    }
}

#[test]
fn d42_the_owner_call_does_not_shorten() {
    assert_eq!(
        owner_names("d42 the call does not shorten its name"),
        names(&[None, None, Some("a"), Some("a")])
    );
}

#[test]
fn c23_where_a_reference_is() {
    let r = Some("r");
    for kind in ["c23 struct_ptr", "c23 tagged_fam_ptr", "c23 simple_fam_ptr"] {
        assert_eq!(owner_names(kind), names(&[r, None, r, None]), "{kind}");
    }
    for kind in ["c23 struct_array_ptr", "c23 struct_ptr_array_ptr"] {
        assert_eq!(owner_names(kind), names(&[None, r, None, r]), "{kind}");
    }
    for kind in [
        "c23 opaque_ptr",
        "c23 cstr_ptr",
        "c23 fn_ptr",
        "c23 scalar",
        "c23 a kind with a space",
        "c23 a kind in capitals",
    ] {
        assert_eq!(owner_names(kind), names(&[None; 4]), "{kind}");
    }
    assert_eq!(
        owner_names("c23 a reference without name"),
        names(&[None, None])
    );
}

#[test]
fn the_owner_call_refuses_as_the_reader_does() {
    for fixed in records::records() {
        let (stream, pool) = (&fixed.record.stream, &fixed.record.pool);
        let answer = oracle::owner(stream, pool, b"a");
        let refusal = oracle::reader::read(Side::Current, stream, pool).err();
        match refusal {
            Some(refusal) => assert_eq!(answer, Owner::Refused(refusal), "{}", fixed.label),
            None => assert!(!matches!(answer, Owner::Refused(_)), "{}", fixed.label),
        }
    }
}
