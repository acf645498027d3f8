//! `release chain`: offered records in turn.
mod common;

use common::{record, run, run_on, Folder};

fn text(release: &str, constants: &str) -> String {
    format!("head {release}\n{constants}\nend")
}

#[test]
fn all_accepted() {
    let folder = Folder::new("chain_accepted");
    let a = folder.record("a.rec", &text("1.0.0", ""));
    let b = folder.record("b.rec", &text("1.1.0", "constant B 1"));
    let c = folder.record("c.rec", &text("1.2.0", "constant B 1"));
    let lines = format!("{b}: accepted after {a}\n{c}: accepted after {b}\n");
    assert_eq!(run(&["chain", &a, &b, &c]).said(0), lines);
}

/// A dropped record is passed over: the next one is checked against the last accepted one.
#[test]
fn dropped_records_are_passed_over() {
    let folder = Folder::new("chain_dropped");
    let a = folder.record("a.rec", &text("1.0.0", "constant A 1"));
    let bad = folder.record("bad.rec", &text("1.1.0", "constant A 2"));
    let cut = folder.file("cut.rec", b"\x01\0\0\0\x01");
    let good = folder.record("good.rec", &text("1.0.5", "constant A 1"));
    let ran = run(&["chain", &a, &bad, &cut, &good]);
    let lines: Vec<&str> = ran.said(1).lines().collect();
    assert_eq!(lines.len(), 3);
    let dropped = format!("{bad}: dropped after {a}: 21 constant changed: constant A was 1 in the last");
    assert!(lines[0].starts_with(&dropped), "{}", lines[0]);
    let damaged =
        format!("{cut}: dropped after {a}: 1 cut: current record, place 0 of the stream, command 01 head: ");
    assert!(lines[1].starts_with(&damaged), "{}", lines[1]);
    assert_eq!(lines[2], format!("{good}: accepted after {a}"));
}

#[test]
fn json() {
    let folder = Folder::new("chain_json");
    let a = folder.record("a.rec", &text("1.0.0", ""));
    let b = folder.record("b.rec", &text("1.1.0", ""));
    let cut = folder.file("cut.rec", b"");
    let accepted = "{\"accepted\":true,\"number\":0,\"word\":\"accepted\",\"message\":null,\"side\":null,\
                    \"part\":null,\"place\":null,\"byte\":null,\"command\":null}";
    let refused = |side: &str| {
        format!(
            "{{\"accepted\":false,\"number\":1,\"word\":\"cut\",\"message\":null,\"side\":\"{side}\",\
             \"part\":\"stream\",\"place\":0,\"byte\":null,\"command\":null}}"
        )
    };
    let expected = format!(
        "{{\"first\":\"{a}\",\"refusal\":null,\"offered\":[{{\"file\":\"{b}\",\"against\":\"{a}\",\
         \"answer\":{accepted}}},{{\"file\":\"{cut}\",\"against\":\"{b}\",\"answer\":{}}}],\"last\":\"{b}\",\"premises\":[]}}\n",
        refused("current")
    );
    assert_eq!(run(&["chain", "--json", &a, &b, &cut]).said(1), expected);

    let ran = run(&["chain", "--json", &cut, &a]);
    let expected = format!(
        "{{\"first\":\"{cut}\",\"refusal\":{},\"offered\":[],\"last\":null,\"premises\":[]}}\n",
        refused("released")
    );
    assert_eq!((ran.status, ran.text()), (2, expected.as_str()));
    assert!(ran.err.contains("no chain can begin with it"), "{}", ran.err);
}

#[test]
fn a_first_record_that_cannot_be_read() {
    let folder = Folder::new("chain_first");
    let cut = folder.file("cut.rec", b"");
    let a = folder.record("a.rec", &text("1.0.0", ""));
    let line = format!(
        "release: {cut}: no chain can begin with it: 1 cut: released record, place 0 of the stream, the end of \
         the stream: the stream ends inside a command, or without 0F\n"
    );
    assert_eq!(run(&["chain", &cut, &a]).complained(2), line);
}

/// A record without a release can be read as released, and so begin a chain, but not be offered.
#[test]
fn a_first_record_without_a_release() {
    let folder = Folder::new("chain_unnamed");
    let unnamed = folder.record("unnamed.rec", "head\nend");
    let a = folder.record("a.rec", &text("1.0.0", ""));
    assert_eq!(run(&["chain", &unnamed, &a]).said(0), format!("{a}: accepted after {unnamed}\n"));
    assert!(run(&["chain", &a, &unnamed]).said(1).contains(": 5 missing: current record, place 0"));
}

/// Records may follow each other on standard input, also behind one whose part is too long.
#[test]
fn from_standard_input() {
    let a = record(&text("1.0.0", "")).to_bytes();
    let b = record(&text("1.1.0", "")).to_bytes();
    let long = [&32_769_u32.to_le_bytes()[..], &[b' '; 32_769], &0_u32.to_le_bytes()].concat();
    let ran = run_on(&["chain", "-", "-", "-"], &[&a[..], &long, &b].concat());
    let lines =
        "standard input: dropped after standard input: 8 long: current record, place 0 of the stream: \
                 the commands are over 32,768 bytes, or the pool is over 16,384\n\
                 standard input: accepted after standard input\n";
    assert_eq!(ran.said(1), lines);
}

#[test]
fn usage_and_files() {
    let folder = Folder::new("chain_files");
    let a = folder.record("a.rec", &text("1.0.0", ""));
    assert!(run(&["chain", &a]).complained(3).contains("expected 2 or more operands, found 1"));
    assert!(run(&["chain", &a, &a, "missing.rec"]).complained(3).contains("cannot read missing.rec"));
    assert!(run(&["chain", "--all", &a, &a]).complained(3).contains("there is no option --all"));
}
