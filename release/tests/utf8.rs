//! Texts of UTF-8 (document 02, W-206) in every command: as they are, or by their numbers where they could not be seen, and with their code
//! points where two look the same.
mod common;

use common::{record, run, run_on, Folder};
use menqachu::record::decode::commands;
use menqachu::record::parts::Parts;
use menqachu::text::{assemble, show};

/// Units, Greek, Cyrillic, CJK and a character of four bytes, as `show` writes them.
const UNITS: &str = "head 1.0.0\nconstant STEP_µm 5\nconstant NOTE text=\"Schrittweite in µm\"\n\nenum единица 1\n    \
                     value Ångström 0\n    value λ 1\n\nstruct Objektträger slot=metadata version=STEP_µm\n    \
                     field x_µm scalar type=u16\n    field 焦点 scalar type=u16\n    field 🔬 struct_ptr type=Objektträger\n\nend\n";

#[test]
fn texts_as_they_are() {
    let folder = Folder::new("utf8_units");
    let file = folder.record("units.rec", UNITS);
    assert_eq!(run(&["show", &file]).said(0), UNITS);
    let list = "Objektträger.x_µm 0 2 scalar u16\nObjektträger.焦点 2 2 scalar u16\n\
                Objektträger.🔬 4 4 struct_ptr Objektträger\n";
    assert_eq!(run(&["list", &file]).said(0), list);
    assert_eq!(run(&["owner", &file, "Objektträger"]).said(0), "Objektträger\n");
    let json = run(&["owner", &file, "Objektträger", "--json"]);
    assert_eq!(json.said(0), "{\"refusal\":null,\"owner\":\"Objektträger\"}\n");
    assert_eq!(run(&["pointers", &file]).said(0), "accepted\n");
}

/// A mark of byte order at the front is no part of the text; a comment may hold any byte.
#[test]
fn marks_and_comments() {
    let plain = record("head 1.0.0\nalias µ u8\nend");
    let marked = assemble("\u{feff}head 1.0.0\nalias µ u8\nend".as_bytes());
    assert_eq!(marked, Ok(plain.clone()));
    let odd = b"head 1.0.0 # \xff\xfe\nalias \xc2\xb5 u8#\x80\nend";
    assert!(assemble(odd)
        .expect_err("no blank before #")
        .to_string()
        .contains("expected a blank or = after u8"));
    let commented = b"head 1.0.0 # \xff\xfe\nalias \xc2\xb5 u8 #\x80\nend";
    assert_eq!(assemble(commented), Ok(plain));
}

/// What could not be seen is written by its number, in quotes, and read back.
#[test]
fn numbers_for_what_is_not_seen() {
    let text =
        "head 1.0.0\n\nstruct \"a\\u{202E}b\"\n    field \"\\u{80}\" scalar type=\"\\u{FEFF}u8\"\n    \
                field \"\\u{10FFFF}\" scalar\n    field \"a\\u{A0}\\\\u{41}\" scalar\n\nend\n";
    let shown = record(text);
    assert_eq!(show(shown.record()).as_deref(), Ok(text));
    let held = "1.0.0a\u{202e}b\u{80}scalar\u{feff}u8\u{10ffff}a\u{a0}\\u{41}";
    assert_eq!(String::from_utf8_lossy(&shown.pool), held);
    assert_eq!(record("head \"\\u{b5}\\u{00041}\"\nend"), record("head µA\nend"));

    let folder = Folder::new("utf8_unseen");
    let file = folder.file("unseen.rec", &shown.to_bytes());
    let list = run(&["list", &file]);
    assert!(list.said(0).starts_with("a\\u{202E}b.\\u{80} 0 0 scalar \\u{FEFF}u8\n"), "{}", list.text());
    let json = run(&["list", &file, "--json"]);
    let types = "{\"refusal\":null,\"types\":[{\"name\":\"a\\u202eb\",\"fields\":[{\"name\":\"\\u0080\",\"offset\":0,\"size\":0,\
                 \"description\":\"scalar \\ufeffu8\"},{\"name\":\"\\udbff\\udfff\",";
    assert!(json.said(0).starts_with(types), "{}", json.text());
    let earlier = folder.record("earlier.rec", "head 0.9.0\nstruct \"a\\u{202E}b\"\nend");
    let table = run(&["diff", &file, &earlier]);
    assert!(table.said(0).contains("\na\\u{202E}b: changed, 40 uncovered\n    \\u{80}"), "{}", table.text());
    let gone = folder.record("gone.rec", "head 1.1.0\nend");
    let verdict = run(&["check", &gone, &file]);
    assert!(verdict.said(1).starts_with("33 type gone: a\\u{202E}b was "), "{}", verdict.text());
}

#[test]
fn faults_of_characters() {
    let cases: [(&[u8], &str); 12] = [
        (b"head \xc3\nend", "expected UTF-8, found the byte C3"),
        (b"head \"\xc3\"\nend", "expected UTF-8, found the byte C3"),
        (b"head 1.0.0 \xed\xa0\x80 \nend", "expected UTF-8, found the byte ED"),
        ("head a\u{202e}b\nend".as_bytes(), "expected \"\\u{202E}\", since the character could not be seen"),
        (
            "head \"a\u{200b}\"\nend".as_bytes(),
            "expected \"\\u{200B}\", since the character could not be seen",
        ),
        ("head \u{85}\nend".as_bytes(), "expected \"\\u{85}\", since the character could not be seen"),
        ("head a\u{a0}b\nend".as_bytes(), "expected \"\\u{A0}\", since the character could not be seen"),
        (b"head \"\\u{1F}\"\nend", "expected no control character, found 1F"),
        (b"head \"\\u{D800}\"\nend", "expected a character's number after \\u, as in \\u{B5}"),
        (b"head \"\\u{110000}\"\nend", "expected a character's number after \\u, as in \\u{B5}"),
        (b"head \"\\u{}\"\nend", "expected a character's number after \\u, as in \\u{B5}"),
        (b"head \"\\ub5\"\nend", "expected a character's number after \\u, as in \\u{B5}"),
    ];
    for (text, expected) in cases {
        let fault = assemble(text).expect_err(expected);
        assert_eq!((fault.line, fault.message.as_str()), (1, expected));
    }
}

/// A text has at most 255 bytes, whatever its characters; a message shows its front in whole characters.
#[test]
fn lengths_in_bytes() {
    let alias = |name: &str| assemble(format!("head\nalias {name} u8\nend").as_bytes());
    assert!(alias(&("µ".repeat(127) + "a")).is_ok());
    let long = alias(&"µ".repeat(128)).expect_err("256 bytes").message;
    assert_eq!(long, "expected the name of the alias in at most 255 bytes, found 256");
    let word =
        assemble(("head\na".to_string() + &"µ".repeat(70)).as_bytes()).expect_err("no command").message;
    assert!(word.ends_with(&format!("found a{}.. (141 bytes)", "µ".repeat(59))), "{word}");
}

/// Texts that overlap in a pool of characters of three bytes: the lines of the pool have whole characters.
#[test]
fn pool_lines() {
    let mut stream = vec![0x01, 0xFF, 0xFF, 0, 0];
    let pool: Vec<u8> = (0..400_u32).flat_map(|i| format!("焦{i:x}\u{202e}").into_bytes()).collect();
    let text = std::str::from_utf8(&pool).expect("UTF-8");
    let whole = |start: usize| (start..start + 252).rev().find(|end| text.is_char_boundary(*end));
    for start in (0..1000).filter(|start| text.is_char_boundary(*start)) {
        let [low, high] = (start as u16).to_le_bytes();
        let length = whole(start).expect("a character") - start;
        stream.extend_from_slice(&[0x03, low, high, length as u8, low, high, 0]);
    }
    stream.push(0x0F);
    let record = Parts { stream, pool };
    let text = show(record.record()).expect("a text");
    assert!(text.starts_with("pool \"焦0\\u{202E}焦1"), "{}", &text[..40]);
    let again = assemble(text.as_bytes()).expect("a record");
    assert_eq!(again.pool, record.pool);
    assert_eq!(show(again.record()), Ok(text));
}

/// Columns are aligned by characters.
#[test]
fn columns() {
    let folder = Folder::new("utf8_columns");
    let new = folder.record(
        "new.rec",
        "head 1.1.0\nstruct t\nfield µm scalar type=u16\nfield 焦点 scalar type=u8\nfield A\u{30a}b scalar\nend",
    );
    let old = folder
        .record("old.rec", "head 1.0.0\nstruct t\nfield µm scalar type=u16\nfield 焦点 scalar type=u8\nend");
    let table = "
        released                  current
        offset  size  type        offset  size  type
t: changed, 40 uncovered
    µm       0     2  scalar u16       0     2  scalar u16
    焦点       2     1  scalar u8        2     1  scalar u8
    A\u{30a}b       -                         3     1  scalar      new
    byte  stood there    stands there now
    0-1   µm scalar u16  as before
    2     焦点 scalar u8   as before
    3     -              A\u{30a}b scalar
";
    let ran = run(&["diff", "--all", &new, &old]);
    assert!(ran.said(0).ends_with(table), "{}", ran.text());
}

/// Three spellings of one letter and two of another: three and two names, each shown with its code points.
#[test]
fn names_that_look_the_same() {
    let folder = Folder::new("utf8_alike");
    let text = "head 1.0.0\n\nstruct t\n    field \u{c5} scalar  # \u{c5} (U+00C5)\n    \
                field \u{212b} scalar  # \u{212b} (U+212B)\n    field A\u{30a} scalar  # A\u{30a} (U+0041 U+030A)\n    \
                field \u{b5}m scalar type=\u{3bc}m  # \u{b5}m (U+00B5), \u{3bc}m (U+03BC)\n    field n scalar\n\nend\n";
    let file = folder.record("alike.rec", text);
    assert_eq!(run(&["show", &file]).said(0), text);
    let commands = commands(record(text).record()).expect("commands");
    let names: std::collections::BTreeSet<&[u8]> = commands.iter().filter_map(|said| said.text(0)).collect();
    assert_eq!(names.len(), 7);
}

/// A field that is spelled otherwise is gone and new, and the table tells which is which.
#[test]
fn a_pair_that_looks_the_same() {
    let folder = Folder::new("utf8_pair");
    let old = folder
        .record("old.rec", "head 1.0.0\nstruct t\nfield \u{b5}m scalar\nfield p struct_ptr type=\u{c5}\nend");
    let new = folder.record(
        "new.rec",
        "head 1.1.0\nstruct t\nfield \u{3bc}m scalar\nfield p struct_ptr type=\u{212b}\nend",
    );
    let said = run(&["diff", &new, &old]);
    let rows: Vec<Vec<&str>> = said
        .said(0)
        .lines()
        .skip_while(|line| !line.starts_with("t: "))
        .skip(1)
        .map(|line| line.trim().split("  ").filter(|cell| !cell.is_empty()).collect())
        .collect();
    let cells = |row: &[&str]| row.iter().map(|cell| cell.trim().to_string()).collect::<Vec<_>>();
    let rows: Vec<Vec<String>> = rows.iter().map(|row| cells(row)).collect();
    assert_eq!(rows[0], ["\u{3bc}m (U+03BC)", "-", "0", "1", "scalar", "new"]);
    assert_eq!(rows[1], ["\u{b5}m (U+00B5)", "0", "1", "scalar", "-", "34 field gone"]);
    let (was, is) = ("struct_ptr \u{c5} (U+00C5)", "struct_ptr \u{212b} (U+212B)");
    assert_eq!(rows[2], ["p", "1", "4", was, "1", "4", is, "37 redescribed"]);

    let note =
        "release: note: \u{3bc}m (U+03BC) and \u{b5}m (U+00B5) look the same and are different names\n";
    let checked = run(&["check", &new, &old]);
    assert_eq!((checked.status, checked.err.as_str()), (1, note));
    assert!(checked.text().starts_with("34 field gone: t.\u{b5}m was "), "{}", checked.text());
    assert_eq!(run(&["check", &new, &old, "--json"]).err, "");
    assert_eq!(run(&["chain", &old, &new]).err, note);
}

/// What is asked for is spelled otherwise than in the record.
#[test]
fn a_name_asked_for_that_looks_the_same() {
    let folder = Folder::new("utf8_asked");
    let text = "head 1.0.0\nconstant G 1\nstruct \u{c5} slot=metadata version=G\nfield p struct_ptr type=A\u{30a}\nend";
    let file = folder.record("asked.rec", text);
    let note = |first: &str| format!("release: note: {first} look the same and are different names\n");
    let asked = run(&["owner", &file, "\u{212b}"]);
    assert_eq!((asked.status, asked.text()), (1, ""));
    let nobody = format!("release: {file}: nobody owns \u{212b}\n");
    assert_eq!(
        asked.err,
        nobody + &note("\u{c5} (U+00C5) and A\u{30a} (U+0041 U+030A) and \u{212b} (U+212B)")
    );
    assert_eq!(run(&["owner", &file, "\u{c5}"]).said(0), "\u{c5}\n");
    let broken = run(&["pointers", &file]);
    assert!(broken.text().contains("struct_ptr names A\u{30a}, which is neither"), "{}", broken.text());
    assert_eq!((broken.status, broken.err), (1, note("\u{c5} (U+00C5) and A\u{30a} (U+0041 U+030A)")));
    let removed = run(&["draft", "remove", &file, "\u{212b}", &file]);
    assert_eq!((removed.status, removed.text()), (3, ""));
    assert!(
        removed.err.contains("release: note: \u{c5} (U+00C5) and ")
            && removed.err.contains("56 no such name")
    );
}

/// Why a pool or a text is refused, and where.
#[test]
fn refusals() {
    let parts =
        |stream: &[u8], pool: &[u8]| Parts { stream: stream.to_vec(), pool: pool.to_vec() }.to_bytes();
    let head = |start: u8, length: u8| [0x01, start, 0, length, 0, 0x0F];
    let cases = [
        (parts(&head(0, 1), b"a\xe2\x84"), "7 letter: record, place 1 of the pool, byte E2: no character of UTF-8 begins there"),
        (parts(&head(0, 1), b"a\x7f"), "7 letter: record, place 1 of the pool, byte 7F: the byte is 00 to 1F or 7F hex"),
        (
            parts(&head(0, 1), "µ".as_bytes()),
            "4 outside: record, place 0 of the stream, command 01 head: a text begins or ends inside a character",
        ),
        (
            parts(&head(1, 0), "µ".as_bytes()),
            "4 outside: record, place 0 of the stream, command 01 head: a text begins or ends inside a character",
        ),
        (
            parts(&head(1, 2), "µ".as_bytes()),
            "4 outside: record, place 0 of the stream, command 01 head: a text reaches past the pool",
        ),
    ];
    for (bytes, line) in cases {
        let ran = run_on(&["show", "-"], &bytes);
        assert_eq!(ran.complained(2), format!("release: standard input: {line}\n"));
    }
}
