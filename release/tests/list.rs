//! `release list` and `release owner`.
mod common;

use common::{run, run_on, top, Folder};

/// Every case of the list program. A list that is longer than that program's buffer is printed here.
#[test]
fn the_program_s_cases() {
    let mut count = 0;
    for entry in std::fs::read_dir(top().join("cases/layout_list")).expect("the cases") {
        let path = entry.expect("a case").path();
        if path.extension().is_none_or(|end| end != "in") {
            continue;
        }
        let ran = run_on(&["list", "-"], &std::fs::read(&path).expect("an input"));
        let expected = std::fs::read_to_string(path.with_extension("out")).expect("an output");
        let refusal = expected.split(' ').next().and_then(|first| first.parse::<u32>().ok());
        match refusal {
            Some(10) => assert_eq!((ran.status, ran.out.len()), (0, 65_537)),
            Some(number) => {
                let words: Vec<&str> = expected.split_whitespace().collect();
                let front = format!("release: standard input: {number} ");
                let place = format!(": current record, place {} of the ", words[2]);
                let line = ran.complained(2);
                assert!(line.starts_with(&front) && line.contains(&place), "{line}");
            }
            None => assert_eq!(ran.said(0), expected, "{}", path.display()),
        }
        count += 1;
    }
    assert!(count >= 11);
}

#[test]
fn sides() {
    let folder = Folder::new("list_sides");
    let unnamed = folder.record("unnamed.rec", "head\nstruct tile\nfield n scalar\nend");
    assert_eq!(run(&["list", &unnamed, "--released"]).said(0), "tile.n 0 1 scalar\n");
    let line = format!(
        "release: {unnamed}: 5 missing: current record, place 0 of the stream, command 01 head: a required text \
         is absent\n"
    );
    assert_eq!(run(&["list", &unnamed]).complained(2), line);
}

/// Names with dots, spaces and numbers; a family behind a struct of its name; a type without fields.
const ODD: &str = r#"
head 1.0.0
family b op ops len
    field "x.y 0 1" scalar
    variant "v w"
        field "" ""
struct b
    field hidden scalar
struct "a.b c"
    field "d 4 5.e" scalar type="u16"
struct empty
end
"#;

#[test]
fn names_that_hold_dots_and_spaces() {
    let folder = Folder::new("list_odd");
    let odd = folder.record("odd.rec", ODD);
    let lines =
        "a.b c.d 4 5.e 0 2 scalar u16\nb.op 0 1 enum ops\nb.len 1 1 scalar u8\nb.x.y 0 1 2 1 scalar\n\
                 b::v w. 0 0 \n";
    assert_eq!(run(&["list", &odd]).said(0), lines);
    let field = |name: &str, offset: u32, size: u32, description: &str| {
        format!(
            "{{\"name\":\"{name}\",\"offset\":{offset},\"size\":{size},\"description\":\"{description}\"}}"
        )
    };
    let expected = format!(
        "{{\"refusal\":null,\"types\":[{{\"name\":\"a.b c\",\"fields\":[{}]}},{{\"name\":\"b\",\"fields\":[{},{},{}]}},\
         {{\"name\":\"b::v w\",\"fields\":[{}]}},{{\"name\":\"empty\",\"fields\":[]}}]}}\n",
        field("d 4 5.e", 0, 2, "scalar u16"),
        field("op", 0, 1, "enum ops"),
        field("len", 1, 1, "scalar u8"),
        field("x.y 0 1", 2, 1, "scalar"),
        field("", 0, 0, ""),
    );
    assert_eq!(run(&["list", "--json", &odd]).said(0), expected);
}

#[test]
fn json_of_a_damaged_record() {
    let ran = run_on(&["list", "--json", "-", "--released"], b"");
    let expected = "{\"refusal\":{\"accepted\":false,\"number\":1,\"word\":\"cut\",\"message\":null,\
                    \"side\":\"released\",\"part\":\"stream\",\"place\":0,\"byte\":null,\"command\":null},\
                    \"types\":null}\n";
    assert_eq!((ran.status, ran.text()), (2, expected));
    assert!(ran.err.starts_with("release: standard input: 1 cut: released record, "), "{}", ran.err);
}

const OWNED: &str = r#"
head 1.0.0
constant G 1
struct scan slot=metadata version=G
    field tiles struct_ptr type=tile
    field other struct_ptr type=--odd
    field own struct_ptr type=live
struct live slot=runtime version=G
    field "last one" struct_ptr type="last one"
struct tile
end
"#;

#[test]
fn owners() {
    let folder = Folder::new("owner");
    let owned = folder.record("owned.rec", OWNED);
    assert_eq!(run(&["owner", &owned, "tile"]).said(0), "scan\n");
    assert_eq!(run(&["owner", &owned, "scan"]).said(0), "scan\n");
    assert_eq!(run(&["owner", &owned, "last one"]).said(0), "live\n");
    assert_eq!(run(&["owner", &owned, "--", "--odd"]).said(0), "scan\n");
    let nobody = |name: &str| format!("release: {owned}: nobody owns {name}\n");
    assert_eq!(run(&["owner", &owned, "nobody"]).complained(1), nobody("nobody"));
    assert_eq!(run(&["owner", &owned, ""]).complained(1), nobody(""));
    assert_eq!(run(&["owner", "--json", &owned, "tile"]).said(0), "{\"refusal\":null,\"owner\":\"scan\"}\n");
    assert_eq!(run(&["owner", &owned, "nobody", "--json"]).said(1), "{\"refusal\":null,\"owner\":null}\n");
    // A root may be called none, or have no letters at all.
    for root in ["none", "\"\""] {
        let text = format!("head 1.0.0\nconstant G 1\nstruct {root} slot=info version=G\nend");
        let record = folder.record("root.rec", &text);
        let name = root.trim_matches('"');
        assert_eq!(run(&["owner", &record, name]).said(0), format!("{name}\n"));
        assert_eq!(run(&["owner", &record, "other"]).status, 1);
    }
}

#[test]
fn owner_in_a_damaged_record() {
    let ran = run_on(&["owner", "-", "tile"], b"\x01\0\0\0\x10");
    let line =
        "release: standard input: 2 unknown: current record, place 0 of the stream, byte 10: the command \
                byte is 00 or above 0F\n";
    assert_eq!(ran.complained(2), line);
    let ran = run_on(&["owner", "-", "tile", "--json"], b"\x01\0\0\0\x10");
    let expected = "{\"refusal\":{\"accepted\":false,\"number\":2,\"word\":\"unknown\",\"message\":null,\
                    \"side\":\"current\",\"part\":\"stream\",\"place\":0,\"byte\":\"10\",\"command\":null},\
                    \"owner\":null}\n";
    assert_eq!((ran.status, ran.text()), (2, expected));
}

#[test]
fn usage_and_files() {
    assert!(run(&["list"]).complained(3).contains("expected 1 operand, found 0"));
    assert!(run(&["list", "a", "b"]).complained(3).contains("expected 1 operand, found 2"));
    assert!(run(&["list", "missing.rec"]).complained(3).contains("cannot read missing.rec"));
    assert!(run(&["list", ""]).complained(3).contains("cannot read"));
    assert!(run(&["owner", "missing.rec", "x"]).complained(3).contains("cannot read missing.rec"));
    assert!(run(&["owner", "missing.rec"]).complained(3).contains("usage: release owner RECORD NAME"));
    assert!(run(&["owner", "a", "b", "--released"]).complained(3).contains("there is no option --released"));
}
