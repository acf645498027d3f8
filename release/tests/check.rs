//! `release check`: its line, its JSON and its exit status for every answer.
mod common;

use std::collections::{BTreeMap, HashSet};

use common::vectors::{pairs, Pair};
use common::{command, record, run, run_on, top, Folder};

const BOTH: [&str; 3] = ["check", "-", "-"];

/// Two releases of a record with a generation number.
fn text(release: &str, generation: u32, fields: &str) -> String {
    format!(
        "head {release}\nconstant G {generation}\nstruct scan slot=metadata version=G\n\
         field tiles struct_ptr type=tile\nstruct tile\n{fields}\nversion scan {generation}\nend"
    )
}

#[test]
fn accepted_and_verdict_and_refusal() {
    let folder = Folder::new("check_answers");
    let old = folder.record("old.rec", &text("1.0.0", 3, "field n scalar type=u16"));
    let new = folder.record("new.rec", &text("1.1.0", 3, "field n scalar type=u16"));
    let wide = folder.record("wide.rec", &text("1.1.0", 4, "field n scalar type=u32"));
    let mut cut = record(&text("1.1.0", 3, "field n scalar type=u16"));
    cut.stream.truncate(60);
    let cut = folder.file("cut.rec", &cut.to_bytes());

    assert_eq!(run(&["check", &new, &old]).said(0), "accepted\n");
    let resized = "36 resized: tile.n was 2 byte(s) in the last release and is 4 now - a shipped field's \
                   bytes stay where they are\nhint: put back in struct tile: field n scalar type=u16\n";
    assert_eq!(run(&["check", &wide, &old]).said(1), resized);
    let refused =
        "1 cut: current record, place 35 of the stream, command 0B field: the stream ends inside a \
                   command, or without 0F\n";
    assert_eq!(run(&["check", &cut, &old]).said(2), refused);
    assert_eq!(run(&["check", &new, &cut]).said(2), refused.replace("current", "released"));
}

#[test]
fn json() {
    let folder = Folder::new("check_json");
    let old = folder.record("old.rec", "head 1.0.0\nconstant \"a\\\"\\\\b\" 1\nend");
    let new = folder.record("new.rec", "head 1.1.0\nconstant \"a\\\"\\\\b\" 1\nend");
    let gone = folder.record("gone.rec", "head 1.1.0\nend");
    let letter = folder.file("letter.rec", b"\x01\0\0\0\x0f\x01\0\0\0\x07");

    assert_eq!(
        run(&["check", "--json", &new, &old]).said(0),
        "{\"accepted\":true,\"number\":0,\"word\":\"accepted\",\"message\":null,\"side\":null,\"part\":null,\
         \"place\":null,\"byte\":null,\"command\":null,\"hint\":null,\"premises\":[]}\n"
    );
    let ran = run(&["check", &gone, &old, "--json"]);
    let front =
        "{\"accepted\":false,\"number\":20,\"word\":\"constant gone\",\"message\":\"constant a\\\"\\\\b was";
    assert!(ran.said(1).starts_with(front), "{}", ran.text());
    assert_eq!(
        run(&["check", &new, &letter, "--json"]).said(2),
        "{\"accepted\":false,\"number\":7,\"word\":\"letter\",\"message\":null,\"side\":\"released\",\
         \"part\":\"pool\",\"place\":0,\"byte\":\"07\",\"command\":null,\"hint\":null,\"premises\":[]}\n"
    );
    let misplaced = folder.file("misplaced.rec", b"\x01\0\0\0\x0f");
    assert_eq!(
        run(&["check", &misplaced, &old, "--json"]).said(2),
        "{\"accepted\":false,\"number\":3,\"word\":\"misplaced\",\"message\":null,\"side\":\"current\",\
         \"part\":\"stream\",\"place\":0,\"byte\":\"0F\",\"command\":\"end\",\"hint\":null,\"premises\":[]}\n"
    );
}

/// The command at the place is named only where there is one.
#[test]
fn places_without_a_command() {
    let line = |current: &[u8]| run_on(&BOTH, current).said(2).to_string();
    assert_eq!(
        line(b""),
        "1 cut: current record, place 0 of the stream, the end of the stream: the stream ends inside a \
         command, or without 0F\n"
    );
    assert_eq!(
        line(b"\x01\0\0\0\x2e"),
        "2 unknown: current record, place 0 of the stream, byte 2E: the command byte is 00 or above 0F\n"
    );
    assert_eq!(
        line(b"\0\0\0\0\x02\0\0\0a\x80"),
        "7 letter: current record, place 1 of the pool, byte 80: no character of UTF-8 begins there\n"
    );
    assert_eq!(
        line(b"\0\0\0\0\x01\x40\0\0"),
        "8 long: current record, place 0 of the pool: the commands are over 32,768 bytes, or the pool is \
         over 16,384\n"
    );
}

/// A byte after the end is named if it is a command's.
#[test]
fn bytes_after_the_end() {
    let good = record("head 1.0.0\nend").to_bytes();
    for (byte, shown) in [(0x08, "command 08 struct"), (0x99, "byte 99")] {
        let after = [&b"\x07\0\0\0\x01\xff\xff\0\0\x0f"[..], &[byte], &[0; 4]].concat();
        let expected = format!(
            "3 misplaced: released record, place 6 of the stream, {shown}: a command stands where it may not, or \
             a byte follows 0F\n"
        );
        assert_eq!(run_on(&BOTH, &[&good[..], &after].concat()).said(2), expected);
    }
}

/// The answer alone, without the hint and the notes behind it.
fn first_line(text: &str) -> &str {
    text.split_inclusive('\n').next().unwrap_or_default()
}

/// What document 01's program prints of an answer, from what the command prints.
fn as_program(line: &str) -> String {
    let first = line.split(' ').next().unwrap_or_default();
    match (line, first.parse::<u32>()) {
        ("accepted\n", _) => "0\n".to_string(),
        (_, Ok(1..=9)) => {
            let side = if line.contains(": current record,") { 0 } else { 1 };
            let place = line.split(", place ").nth(1).and_then(|rest| rest.split(' ').next());
            format!("{first} {side} {}\n", place.expect("a place"))
        }
        _ => format!("{first} {}", line.split_once(": ").expect("a message").1),
    }
}

/// The cases of the check program, with both records on standard input, as that program reads them.
#[test]
fn the_program_s_cases() {
    let mut count = 0;
    for entry in std::fs::read_dir(top().join("cases/release_check")).expect("the cases") {
        let path = entry.expect("a case").path();
        if path.extension().is_some_and(|end| end == "in") {
            let ran = run_on(&BOTH, &std::fs::read(&path).expect("an input"));
            let expected = std::fs::read_to_string(path.with_extension("out")).expect("an output");
            assert_eq!(as_program(first_line(ran.text())), expected, "{}", path.display());
            count += 1;
        }
    }
    assert!(count >= 15);
}

/// The words of the verdicts, from the table that writes them.
fn words() -> BTreeMap<u32, String> {
    let table = std::fs::read_to_string(top().join("tools/verdicts.py")).expect("the table");
    let rows = table.lines().filter_map(|line| line.strip_prefix("    (")?.split_once(", '"));
    let words =
        rows.filter_map(|(number, rest)| Some((number.parse().ok()?, rest.split('\'').next()?.to_string())));
    words.collect()
}

fn expected_status(number: u32) -> i32 {
    match number {
        0 => 0,
        1..=9 => 2,
        _ => 1,
    }
}

fn holds(pair: &Pair, words: &BTreeMap<u32, String>) {
    let ran = run_on(&BOTH, &pair.bytes());
    let line = first_line(ran.said(expected_status(pair.answer.number)));
    let refusals = ["cut", "unknown", "misplaced", "outside", "missing", "flag", "letter", "long", "vast"];
    let number = pair.answer.number;
    match number {
        0 => assert_eq!(line, "accepted\n"),
        1..=9 => {
            let front = format!("{number} {}: ", refusals[number as usize - 1]);
            assert!(line.starts_with(&front), "{line}");
            assert_eq!(as_program(line), format!("{number} {} {}\n", pair.answer.side, pair.answer.place));
        }
        _ => {
            let message = String::from_utf8_lossy(&pair.message);
            assert_eq!(line, format!("{number} {}: {message}\n", words[&number]));
        }
    }
}

/// Every number and side once, by the oracle's answers.
#[test]
fn every_number_and_side() {
    let words = words();
    assert_eq!(words.len(), 36);
    let mut seen = HashSet::new();
    for pair in pairs() {
        if pair.answer.number != 10 && seen.insert((pair.answer.number, pair.answer.side)) {
            holds(&pair, &words);
        }
    }
    assert_eq!(seen.len(), 1 + 2 * 9 + 36);
}

#[test]
fn usage_and_files() {
    let folder = Folder::new("check_files");
    let good = folder.record("good.rec", "head 1.0.0\nend");
    let missing = folder.path().join("missing.rec");
    let missing = missing.to_str().expect("a path");
    let ran = run(&["check", &good, missing]);
    assert!(
        ran.complained(3).contains("cannot read") && ran.err.contains("name a file, or -"),
        "{}",
        ran.err
    );
    let directory = folder.path().to_str().expect("a path");
    assert!(run(&["check", directory, &good]).complained(3).contains("cannot read"));
    let usage =
        "release: check: expected 2 operands, found 1\nusage: release check CURRENT RELEASED [--json]\n\
                 `release check --help` says more\n";
    assert_eq!(run(&["check", &good]).complained(3), usage);
    assert!(run(&["check", &good, &good, &good]).complained(3).contains("expected 2 operands, found 3"));
    assert!(run(&["check", &good, &good, "--jsn"]).complained(3).contains("there is no option --jsn"));
    assert!(run(&["check", &good, &good, "--released"]).complained(3).contains("there is no option"));
}

/// File names that begin with a dash come behind `--`.
#[test]
fn names_behind_two_dashes() {
    let folder = Folder::new("check_dashes");
    folder.record("-new.rec", "head 1.1.0\nend");
    folder.record("-old.rec", "head 1.0.0\nend");
    let output = command().current_dir(folder.path()).args(["check", "--", "-new.rec", "-old.rec"]).output();
    assert_eq!(output.expect("the command runs").stdout, b"accepted\n");
}
