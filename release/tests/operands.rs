//! Records and texts as operands: which of the two a file is taken as, and what is said of damaged ones.
mod common;

use std::collections::BTreeSet;

use common::{record, run, run_in, run_on, top, Folder};

const OLD: &str = "# the last release\nhead 1.0.0\nconstant G 1\n\nstruct scan slot=metadata version=G\n    \
                   field t struct_array_ptr element=tile\n\n# cut by old readers\nstruct tile\n    \
                   field n scalar type=u16 # wells\n    field gap padding size=1\n\nversion scan 1\nend\n";
const NEW: &str = "head 1.1.0\nconstant G 1\n\nstruct scan slot=metadata version=G\n    \
                   field t struct_array_ptr element=tile\n\nstruct tile\n    field gap padding size=1\n    \
                   field n scalar type=u16\n\nversion scan 1\nend\n";
const MORE: &str =
    "head 1.1.0\n# a well's focus\nstruct focus # new\n    # in steps\n    field z scalar type=u16\nend\n";

/// Every call that reads records, with the files `new`, `old` and `more`.
const CALLS: [&str; 26] = [
    "check new old",
    "check new old --json",
    "check old old",
    "chain old new old",
    "chain old new --json",
    "list new",
    "list new --released",
    "list new --json",
    "owner new tile",
    "owner new nobody",
    "owner new tile --json",
    "pointers new",
    "pointers new --json",
    "diff new old",
    "diff new old --all",
    "diff new old --json",
    "report new old",
    "draft count new old",
    "draft count new old --json",
    "reordered new old",
    "reordered new old --json",
    "lint new",
    "lint new --json",
    "show new",
    "shelf set shelf one new",
    "shelf set shelf two new --json",
];

/// Three folders with the same files: as records, as texts, and as texts that an editor of another system wrote.
fn folders(name: &str) -> [Folder; 3] {
    let [records, texts, marked] =
        ["records", "texts", "marked"].map(|sort| Folder::new(&format!("{name}_{sort}")));
    for (file, text) in [("old", OLD), ("new", NEW), ("more", MORE)] {
        records.record(file, text);
        texts.file(file, text.as_bytes());
        marked.file(file, format!("\u{feff}{}", text.replace('\n', "\r\n")).as_bytes());
    }
    [records, texts, marked]
}

/// What a call says of texts is what it says of their records.
#[test]
fn a_text_does_as_well_as_its_record() {
    let [records, texts, marked] = folders("operands_alike");
    for call in CALLS {
        let expected = run_in(records.path(), call);
        assert!(expected.status < 2, "{call}: {}", expected.err);
        for other in [&texts, &marked] {
            let ran = run_in(other.path(), call);
            assert_eq!(
                (ran.status, ran.text(), &ran.err),
                (expected.status, expected.text(), &expected.err),
                "{call}"
            );
        }
        let by_hand = run_in(texts.path(), &format!("{call} --text"));
        assert_eq!((by_hand.status, by_hand.text()), (expected.status, expected.text()), "{call} --text");
        let by_hand = run_in(records.path(), &format!("{call} --record"));
        assert_eq!((by_hand.status, by_hand.text()), (expected.status, expected.text()), "{call} --record");
    }
    assert_eq!(
        std::fs::read(records.path().join("shelf")).ok(),
        std::fs::read(texts.path().join("shelf")).ok()
    );
}

/// One operand a text, the other a record; and either from standard input.
#[test]
fn texts_beside_records_and_on_standard_input() {
    let folder = Folder::new("operands_mixed");
    let (old, new) = (folder.record("old.rec", OLD), folder.file("new.txt", NEW.as_bytes()));
    let line = run(&["check", &new, &old]).said(1).to_string();
    assert!(line.starts_with("35 moved: tile.n was at offset 0 "), "{line}");
    let (old_text, new_record) = (folder.file("old.txt", OLD.as_bytes()), folder.record("new.rec", NEW));
    assert_eq!(run(&["check", &new_record, &old_text]).said(1), line);
    assert_eq!(run_on(&["check", "-", &old], NEW.as_bytes()).said(1), line);
    assert_eq!(run_on(&["check", "-", &old, "--text"], b"").complained(2).lines().count(), 3);
    // A record ends by its lengths, and the text behind it with the input.
    let both = [record(NEW).to_bytes(), OLD.as_bytes().to_vec()].concat();
    assert_eq!(run_on(&["check", "-", "-"], &both).said(1), line);
    let ran = run_on(&["check", "-", "-"], [NEW, OLD].concat().as_bytes());
    assert!(ran.complained(2).contains("expected nothing after `end`"), "{}", ran.err);
    let ran = run_on(&["check", "-", "-"], NEW.as_bytes());
    assert!(ran.complained(3).contains("standard input was taken as a text up to its end"), "{}", ran.err);
}

/// A wrong text in every call: the file, the line, the column and the line itself, and no output.
#[test]
fn wrong_texts() {
    let folder = Folder::new("operands_wrong");
    folder.file("old", OLD.as_bytes());
    folder.file("new", NEW.replace("type=u16", "typ=u16").as_bytes());
    let expected =
        "release: new: line 9, column 20: expected type, element, count, rows, cols, size or the end of \
                    the line, found typ\n        field n scalar typ=u16\n                       ^\n";
    for call in CALLS.iter().filter(|call| call.contains("new")) {
        let ran = run_in(folder.path(), call);
        assert_eq!((ran.status, ran.text(), ran.err.as_str()), (2, "", expected), "{call}");
    }
    let ran = run_on(&["check", "-", "old"], b"head 1.0.0\nstruct\n");
    assert!(ran
        .err
        .starts_with("release: standard input: line 2, column 7: expected the name of the struct"));
}

/// A text that is refused as a record, and a pointer that breaks the rule: the line is told too.
#[test]
fn lines_of_refusals() {
    let folder = Folder::new("operands_refused");
    let undated = folder.file("undated", b"head 1.0.0\n\nbitfield flags 1\nend\n");
    let vast = folder.file(
        "vast",
        b"head 1.0.0\nalias a b\nstruct s\nfield a padding size=4294967295\nfield b scalar\nend",
    );
    let old = folder.file("old", OLD.as_bytes());
    let line = "5 missing: current record, line 3, place 5 of the stream, command 06 bit field: ";
    assert!(run(&["check", &undated, &old]).said(2).starts_with(line));
    assert!(run(&["list", &undated]).complained(2).contains(line));
    assert!(run(&["chain", &old, &undated]).said(1).contains(line));
    let line = "9 vast: released record, line 3, place 12 of the stream, command 08 struct: ";
    assert!(run(&["check", &old, &vast]).said(2).starts_with(line));
    assert!(run(&["chain", &vast, &old]).complained(2).contains(line));
    assert!(run(&["draft", "count", &old, &vast]).complained(2).contains(line));
    let pointer =
        folder.file("pointer", b"head 1.0.0\n# of nothing\nstruct s\n  field f struct_ptr type=t\nend\n");
    let line = "59 names neither: line 4, place 15 of the stream, s.f: struct_ptr names t, which is neither ";
    assert!(run(&["pointers", &pointer]).said(1).starts_with(line));
    // The record of the text has no lines.
    let undated = folder.record("undated.rec", "head 1.0.0\n\nbitfield flags 1\nend\n");
    assert!(run(&["list", &undated])
        .complained(2)
        .contains("5 missing: current record, place 5 of the stream"));
}

/// A record that is cut off anywhere is a record, with the number that it always had.
#[test]
fn cut_records_stay_records() {
    let folder = Folder::new("operands_cut");
    let whole = record(OLD).to_bytes();
    for length in 0..whole.len() {
        let file = folder.file("cut.rec", &whole[..length]);
        let ran = run(&["list", &file]);
        let by_hand = run(&["list", &file, "--record"]);
        assert_eq!((ran.status, &ran.err), (by_hand.status, &by_hand.err), "{length}");
        assert!(
            ran.complained(2).contains("cut.rec: 1 cut: ") || ran.err.contains("cut.rec: 4 outside: "),
            "{length}"
        );
    }
    // A file of fewer than four bytes is a record without its length, whatever they are.
    let few = folder.file("few", b"end");
    assert!(run(&["list", &few]).complained(2).contains("few: 1 cut: "));
}

/// A text with one byte that is none of a text is a record, which says so beside its number, and --text tells where.
#[test]
fn spoiled_texts() {
    let folder = Folder::new("operands_spoiled");
    let at = NEW.find("scan").expect("a name");
    for odd in [&b"\0"[..], b"\x1b", b"\x7f", b"\xb5", b"\xc3", b"\xed\xa0\x80"] {
        let text = [&NEW.as_bytes()[..at], odd, &NEW.as_bytes()[at..]].concat();
        let file = folder.file("spoiled", &text);
        let ran = run(&["list", &file]);
        let byte = format!(
            "the byte {:02X} at line 4, column 8, and so is taken as a record; --text takes ",
            odd[0]
        );
        let mut lines = ran.complained(2).lines();
        let note = lines.next().expect("a note");
        assert!(note.contains("spoiled begins like a text, but has ") && note.contains(&byte), "{note}");
        let number = "spoiled: 8 long: current record, place 0 of the stream: ";
        assert!(lines.next().is_some_and(|line| line.contains(number)), "{}", ran.err);
        let by_hand = run(&["list", &file, "--record"]);
        assert!(
            by_hand.complained(2).contains(number) && by_hand.err.lines().count() == 1,
            "{}",
            by_hand.err
        );
        let by_hand = run(&["list", &file, "--text"]);
        assert!(by_hand.complained(2).contains("spoiled: line 4, column 8: expected "), "{}", by_hand.err);
    }
    // In a comment any byte may stand, where the text is said to be one.
    let file = folder.file("comment", b"head 1.0.0 # \xb5m\nend\n");
    assert!(run(&["list", &file]).complained(2).contains("the byte B5 at line 1, column 14"));
    assert_eq!(run(&["list", &file, "--text"]).said(0), "");
}

/// A file whose bytes are all text is no record that could be read; --record gives its number.
#[test]
fn records_of_letters() {
    let folder = Folder::new("operands_letters");
    let file = folder.file("letters", b"\x20\x20\x20\x20 head 1.0.0\nend\n");
    assert_eq!(run(&["list", &file]).said(0), "");
    assert!(run(&["list", &file, "--record"])
        .complained(2)
        .contains("letters: 8 long: current record, place 0 "));
    // A length above the limit with bytes that are no text.
    for bytes in [&b"\xff\xff\xff\xff head"[..], b"AAAA\x01\xff\xff\0\0\x0f", b"\x80\x80\0\0"] {
        let file = folder.file("long", bytes);
        let ran = run(&["list", &file]);
        assert!(ran.complained(2).contains("long: 8 long: ") || bytes[2] == 0, "{}", ran.err);
    }
}

#[test]
fn by_hand() {
    let folder = Folder::new("operands_by_hand");
    let (text, bytes) = (folder.file("t", NEW.as_bytes()), folder.record("r", NEW));
    let ran = run(&["show", &bytes, "--text"]);
    assert!(ran.complained(2).contains("r: line 1, column "), "{}", ran.err);
    assert!(run(&["show", "--record", &text])
        .complained(2)
        .contains("t: 8 long: record, place 0 of the stream"));
    let ran = run(&["show", "--record", &text, "--text"]);
    assert!(ran.complained(3).contains("show: --record and --text are given both"), "{}", ran.err);
    assert_eq!(run(&["show", "--text", &text, "--text"]).said(0), run(&["show", &bytes]).said(0));
    for command in ["assemble", "explain", "load", "burn-in", "help", "completions"] {
        let ran = run(&[command, "--text", "x"]);
        assert!(ran.complained(3).contains("there is no option --text"), "{command}: {}", ran.err);
    }
    let endless = vec![b'\n'; 16 * 1024 * 1024 + 1];
    assert!(run_on(&["list", "-"], &endless).complained(3).contains("is over 16 MiB; the text form"));
}

/// Every command that reads records says in its help that it takes both options.
#[test]
fn every_command_that_reads_records() {
    let names: BTreeSet<&str> = CALLS.iter().filter_map(|call| call.split(' ').next()).collect();
    assert_eq!(names.len(), 12, "{names:?}");
    for name in names {
        let ran = run(&[name, "--help"]);
        assert!(ran.said(0).contains("\n  --record, --text  how every file is taken"), "{name}");
    }
}

/// An edit of a text changes its lines alone, and says what the edit of its record says.
#[test]
fn drafts_that_are_texts() {
    let [records, texts, marked] = folders("operands_drafts");
    let both = |call: &str| {
        let ran = run_in(records.path(), call);
        for other in [&texts, &marked] {
            let as_text = run_in(other.path(), call);
            assert_eq!(
                (ran.status, ran.text(), &ran.err),
                (as_text.status, as_text.text(), &as_text.err),
                "{call}"
            );
            let shown =
                [records.path(), other.path()].map(|folder| run_in(folder, "show new").text().to_string());
            assert_eq!(shown[0], shown[1], "{call}");
        }
        let read = |folder: &Folder| std::fs::read_to_string(folder.path().join("new")).expect("a text");
        (read(&texts), read(&marked))
    };
    let (text, marked_text) = both("draft add new more old");
    let block = "version scan 1\n\nstruct focus # new\n    # in steps\n    field z scalar type=u16\n\nend\n";
    assert_eq!(text, NEW.replace("version scan 1\nend\n", block));
    assert_eq!(marked_text, format!("\u{feff}{}", text.replace('\n', "\r\n")));
    assert!(both("draft add new more old").0 == text, "55 leaves it as it was");
    let (less, _) = both("draft remove new tile old");
    assert_eq!(
        less,
        text.replace("struct tile\n    field gap padding size=1\n    field n scalar type=u16\n\n", "")
    );
    assert!(both("draft remove new tile old").0 == less, "56 leaves it as it was");
    let (back, _) = both("draft remove new focus old --json");
    assert_eq!(back, less.replace("struct focus # new\n    # in steps\n    field z scalar type=u16\n\n", ""));
    // A record added to a text.
    texts.record("more", "head 1.1.0\nfamily f kind u8 len\nvariant a\nfield x scalar\nend");
    assert_eq!(run_in(texts.path(), "draft add new more old").said(0), "changed 3\n");
    let added = std::fs::read_to_string(texts.path().join("new")).expect("a text");
    let block = "family f kind u8 len\n    variant a\n        field x scalar\n\nend\n";
    assert!(added.ends_with(block), "{added}");
}

/// A shelf holds records; what comes back is a text where a text is, or where it is said to be.
#[test]
fn shelves_of_texts() {
    let [_, texts, _] = folders("operands_shelf");
    let run = |call: &str| run_in(texts.path(), call);
    let read = |name: &str| std::fs::read(texts.path().join(name)).expect("a file");
    let shown = run("show new").text().to_string();
    assert_eq!(run("shelf set shelf one new").said(0), "held 1\n");
    assert_eq!(run("shelf back shelf one fresh old").said(0), "changed 1\n");
    assert_eq!(read("fresh"), record(NEW).to_bytes());
    assert_eq!(run("shelf back shelf one fresh.txt old --text").said(0), "changed 1\n");
    assert_eq!(read("fresh.txt"), shown.as_bytes());
    assert_eq!(run("shelf back shelf one old new").said(0), "changed 0\n");
    assert_eq!(read("old"), shown.as_bytes());
    assert_eq!(run("shelf back shelf one fresh new").said(0), "changed 0\n");
    assert_eq!(read("fresh"), record(NEW).to_bytes());
    let ran = run("shelf back shelf one fresh.txt fresh --record");
    assert_eq!((ran.said(0), read("fresh.txt")), ("changed 0\n", record(NEW).to_bytes()));
}

/// The texts of the examples, as they are.
#[test]
fn the_first_line_of_the_story() {
    let examples = top().join("examples");
    let ran = run_in(&examples, "check moved.txt first.txt");
    assert!(ran.said(1).starts_with("35 moved: tile.n was at offset 0 in the last release and is at 1 now"));
    assert_eq!(run_in(&examples, "check added.txt first.txt").said(0), "accepted\n");
}
