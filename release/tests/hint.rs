//! The hint after a verdict: its lines, put into the current record, take the verdict away.
mod common;

use common::vectors::pairs;
use common::{record, run, Folder};
use menqachu::explain::example::Example;
use menqachu::explain::hint::{hint, Edit, Hint};
use menqachu::explain::pages;
use menqachu::record::decode::commands;
use menqachu::record::parts::Parts;
use menqachu::record::room::check_whole;
use menqachu::record::sections::cut;
use menqachu::record::twice::twice;
use menqachu::text::{assemble, show};

/// The verdict of a pair with its hint.
fn hinted(current: &Parts, released: &Parts) -> Option<(u32, String, Hint)> {
    let (answer, message) = check_whole(current.record(), released.record());
    let message = String::from_utf8_lossy(&message).into_owned();
    let [current, released] = [current, released].map(|parts| commands(parts.record()).expect("commands"));
    let hint = hint(answer.number, &message, &current, &released)?;
    Some((answer.number, message, hint))
}

/// The line that a part stands in: `struct tile`, or `family step, variant MOVE`.
fn opener(lines: &[String], into: &str) -> Option<usize> {
    let find = |from: usize, name: &str| {
        let found =
            lines[from..].iter().position(|line| line == name || line.starts_with(&format!("{name} ")));
        found.map(|at| from + at)
    };
    match into.split_once(", variant ") {
        Some((family, variant)) => find(find(0, family)?, &format!("variant {variant}")),
        None => find(0, into),
    }
}

/// The text with an edit made.
fn edited(text: &str, edit: &Edit) -> Option<String> {
    let mut lines: Vec<String> = text.lines().map(|line| line.trim().to_string()).collect();
    match edit {
        Edit::Set { old, new, into, .. } => {
            let from = into.as_ref().map_or(Some(0), |into| opener(&lines, into))?;
            let at = from + lines[from..].iter().position(|line| line == old)?;
            lines[at] = new.clone();
        }
        Edit::Add { line, into, after } => {
            let at = match (into, after) {
                (None, _) => lines.iter().rposition(|line| line == "end")?,
                (Some(into), None) => opener(&lines, into)? + 1,
                (Some(into), Some(after)) => {
                    let from = opener(&lines, into)?;
                    from + 1 + lines[from..].iter().position(|line| line == after)?
                }
            };
            lines.insert(at, line.clone());
        }
    }
    Some(lines.join("\n"))
}

fn cured(current: &Parts, hint: &Hint) -> Option<Parts> {
    let mut text = show(current.record()).ok()?;
    for edit in &hint.edits {
        text = edited(&text, edit)?;
    }
    assemble(text.as_bytes()).ok()
}

/// The numbers whose page's example is cured by lines.
const MECHANICAL: [u32; 27] = [
    12, 15, 16, 17, 18, 20, 21, 22, 23, 24, 25, 26, 27, 28, 29, 30, 31, 32, 34, 36, 37, 38, 41, 43, 44, 45,
    46,
];

#[test]
fn the_examples_are_cured() {
    let mut seen = Vec::new();
    for page in pages() {
        let Example::Checked { current, released } = &page.example else { continue };
        let (current, released) = (record(current), record(released));
        let Some((number, _, hint)) = hinted(&current, &released) else {
            assert!(page.number < 11, "{}", page.number);
            continue;
        };
        if hint.edits.is_empty() {
            assert_eq!(hint.words, page.cure);
            continue;
        }
        seen.push(number);
        let cured = cured(&current, &hint).unwrap_or_else(|| panic!("{number}: {hint:?}"));
        let (answer, message) = check_whole(cured.record(), released.record());
        assert_eq!(answer.number, 0, "{number}: {hint:?}: {}", String::from_utf8_lossy(&message));
    }
    assert_eq!(seen, MECHANICAL);
}

/// The pairs of the vectors, without names that stand twice: the lines of a hint take its verdict away.
#[test]
fn the_vectors_are_cured() {
    let (mut tried, mut verdicts) = (0, 0);
    for pair in pairs() {
        if !(11..=46).contains(&pair.answer.number) {
            continue;
        }
        verdicts += 1;
        let (current, released) = (&pair.current, &pair.released);
        let (number, message, hint) = hinted(current, released).expect("a hint");
        assert!(!hint.words.is_empty() && !hint.words.contains('\n'), "{number}");
        let once = |parts: &Parts| {
            let commands = commands(parts.record()).expect("commands");
            twice(&cut(&commands, parts.record().stream)).is_none()
        };
        if hint.edits.is_empty() || !once(current) || !once(released) {
            continue;
        }
        let Some(cured) = cured(current, &hint) else { panic!("{number}: {hint:?}") };
        let (_, after) = check_whole(cured.record(), released.record());
        assert_ne!(String::from_utf8_lossy(&after), message, "{number}: {hint:?}");
        tried += 1;
    }
    assert!(tried > 200 && verdicts > 1000, "{tried} of {verdicts}");
}

#[test]
fn what_is_printed() {
    let folder = Folder::new("hint");
    let text = |release: &str, generation: u32, fields: &str| {
        format!("head {release}\nconstant GENERATION {generation}\nstruct scan slot=metadata version=GENERATION\n{fields}\nend")
    };
    let old = folder.record("old.rec", &text("1.0.0", 3, ""));
    let new = folder.record("new.rec", &text("1.1.0", 3, "field n scalar"));
    let ran = run(&["check", &new, &old]);
    let lines: Vec<&str> = ran.said(1).lines().collect();
    assert_eq!(lines.len(), 2);
    assert_eq!(lines[1], "hint: set constant GENERATION to 4 and add: version scan 4");
    let json = run(&["check", &new, &old, "--json"]);
    let hint = "\"hint\":\"set constant GENERATION to 4 and add: version scan 4\",\"premises\":[]}\n";
    assert!(json.said(1).ends_with(hint), "{}", json.text());
    let gone = folder.record("gone.rec", "head 1.1.0\nconstant GENERATION 3\nend");
    let ran = run(&["check", &gone, &old]);
    assert!(ran.said(1).ends_with("\nhint: Put the type back with all its fields.\n"), "{}", ran.text());
    // A refusal and an accepted record have none.
    let empty = folder.file("empty.rec", b"");
    assert!(!run(&["check", &empty, &old]).said(2).contains("hint"));
    assert!(run(&["check", &empty, &old, "--json"]).said(2).contains("\"hint\":null,"));
}
