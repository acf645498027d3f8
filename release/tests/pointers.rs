//! `release pointers`.
mod common;

use common::{run, run_on, Folder};

/// A record of a structure `tile`, a family `frame` with a variant `fast`, and these lines of fields in the variant.
fn record(folder: &Folder, fields: &str) -> String {
    let text = format!(
        "head 1.0.0\nstruct tile\n  field n scalar\nfamily frame op ops len\n  variant fast\n{fields}\nend"
    );
    folder.record("given.rec", &text)
}

#[test]
fn accepted() {
    let folder = Folder::new("pointers_accepted");
    let right = record(
        &folder,
        "field a struct_ptr type=tile\nfield b tagged_fam_ptr type=frame\nfield c simple_fam_ptr type=x",
    );
    assert_eq!(run(&["pointers", &right]).said(0), "accepted\n");
    assert_eq!(run(&["pointers", &right, "--json"]).said(0), "{\"refusal\":null,\"broken\":null}\n");
}

/// What is said of each sort of a wrong name: the type's whole name, the field, its kind and the name.
#[test]
fn broken() {
    let folder = Folder::new("pointers_broken");
    for (field, line) in [
        ("a struct_ptr type=frame", "60 names the other: place 69 of the stream, frame::fast.a: struct_ptr names frame, which is a family"),
        ("a struct_array_ptr type=tile element=frame", "60 names the other: place 69 of the stream, frame::fast.a: struct_array_ptr names frame, which is a family"),
        ("a tagged_fam_ptr type=tile", "60 names the other: place 69 of the stream, frame::fast.a: tagged_fam_ptr names tile, which is a structure"),
        ("a struct_ptr type=gone", "59 names neither: place 69 of the stream, frame::fast.a: struct_ptr names gone, which is neither a structure nor a family"),
        ("a tagged_fam_ptr type=frame::fast", "59 names neither: place 69 of the stream, frame::fast.a: tagged_fam_ptr names frame::fast, which is neither a structure nor a family"),
        ("a struct_ptr_array_ptr type=tile", "59 names neither: place 69 of the stream, frame::fast.a: struct_ptr_array_ptr has no name"),
        ("a struct_ptr type=\"\"", "59 names neither: place 69 of the stream, frame::fast.a: struct_ptr names \"\", which is neither a structure nor a family"),
    ] {
        let given = record(&folder, &format!("field {field}"));
        assert_eq!(run(&["pointers", &given]).said(1), format!("{line}\n"));
    }
}

#[test]
fn the_first_is_told() {
    let folder = Folder::new("pointers_first");
    let given = record(&folder, "field a scalar\nfield b tagged_fam_ptr\nfield c struct_ptr type=frame");
    // The head has 5 bytes, a structure 10, a field 33, a family 17, a variant 4.
    let place = 5 + 10 + 33 + 17 + 4 + 33;
    let json = format!(
        "{{\"refusal\":null,\"broken\":{{\"number\":59,\"word\":\"names neither\",\"place\":{place},\"type\":\"frame::fast\",\
         \"field\":\"b\",\"kind\":\"tagged_fam_ptr\",\"name\":null}}}}\n"
    );
    assert_eq!(run(&["pointers", &given, "--json"]).said(1), json);
}

#[test]
fn damaged_records_and_usage() {
    let ran = run_on(&["pointers", "-"], b"");
    assert!(ran
        .complained(2)
        .starts_with("release: standard input: 1 cut: current record, place 0 of the stream"));
    let ran = run_on(&["pointers", "-", "--json"], b"");
    assert_eq!(ran.status, 2);
    assert!(ran.text().starts_with("{\"refusal\":{\"accepted\":false,\"number\":1,"), "{}", ran.text());
    assert!(ran.text().ends_with(",\"broken\":null}\n"), "{}", ran.text());
    assert!(run(&["pointers"]).complained(3).contains("usage: release pointers RECORD [--json]"));
    assert!(run(&["pointers", "a", "b"]).complained(3).contains("usage: release pointers RECORD [--json]"));
}
