//! `release assemble` and `release show`: the text form.
mod common;

use common::{record, run, run_on, top, Folder};
use menqachu::record::decode::commands;
use menqachu::record::parts::Parts;
use menqachu::text::{assemble, show};

/// Every command with every operand, as `show` writes it.
const WHOLE: &str = r#"head 1.0.0 unreleased
constant A 3
constant B -9223372036854775808 api since=0.9.0
constant C text="a b" api since=0.9.0
constant D text=""
alias id u16

enum mode 1 api since=0.9.0
    value idle 0
    value busy -1 since=1.0.0

bitfield flags 4294967295 since=0.9.0
    member ready 0
    member speed 1 width=0 since=1.0.0

struct scan slot=metadata version=A
    field n scalar type=u16
        key plugin_n since=1.0.0
    field m inline_array2d type="" element=u8 count=1 rows=2 cols=3 size=4
        key plugin_m

struct "" slot="" version=""
    field "" ""

family step op mode len length_type=u16 standalone
    field common scalar
        key plugin_c since=""
    variant idle
    variant "a \"quoted\" \\ #word=1"
        field f padding size=0
            key plugin_f since=1.0.0

family bare op mode len

unstored_key plugin_u
unstored_key plugin_v since=1.0.0
version scan 4294967295
end
"#;

#[test]
fn every_command_and_operand() {
    let folder = Folder::new("text_whole");
    let text = folder.file("whole.txt", WHOLE.as_bytes());
    let ran = run(&["assemble", &text]);
    assert_eq!((ran.status, ran.err.as_str()), (0, ""));
    let file = folder.file("whole.rec", &ran.out);
    assert_eq!(run(&["show", &file]).said(0), WHOLE);
    let used: std::collections::BTreeSet<u8> =
        commands(record(WHOLE).record()).expect("commands").iter().map(|said| said.command.byte).collect();
    assert_eq!(used.len(), 15);
}

/// The bytes that tools/cases.py writes for document 01's example, and that the check program takes.
#[test]
fn the_same_bytes_as_the_cases() {
    let tile = "head 1.0.0\nstruct tile\nfield n scalar type=u16\nfield skip scalar type=u8\n\
                field gap padding size=1\nend";
    let case = std::fs::read(top().join("cases/layout_list/example.in")).expect("the case");
    assert_eq!(run_on(&["assemble", "-"], tile.as_bytes()).out, case);
}

/// Ways of writing that give one record.
#[test]
fn blanks_comments_and_quotes() {
    let plain = record("head 1.0.0\nconstant N text=\"a b\" api since=0.9.0\nstruct s slot=metadata\nend");
    let others = [
        "head 1.0.0\nconstant N text \"a b\" api since 0.9.0\nstruct s slot metadata\nend\n",
        "# a comment, also with other letters: \u{b5}m\n\n\t head\t1.0.0 # release\r\n  \"constant\"",
        "head \"1.0.0\"\r\nconstant \"N\" text = \"a b\" since = \"0.9.0\" api\r\nstruct s slot= metadata\r\nend # done\r\n\r\n# more\n",
        "   head 1.0.0#\n",
    ];
    assert_eq!(record(others[0]), plain);
    assert_eq!(record(others[2]), plain);
    assert!(fault(others[1]).starts_with("line 4: expected one of the commands head, constant, "));
    assert!(fault(others[3]).starts_with("line 1: expected a blank or = after 1.0.0; "));
}

/// A name may read like a command or a keyword, since its place tells.
#[test]
fn names_that_read_like_keywords() {
    let text = "head \"unreleased\"\nconstant text text=text\nconstant api 1 api since=since\n\nstruct slot slot=version version=slot\n    field type kind type=element element=type\n        key since since=key\n\nend\n";
    assert_eq!(show(record(text).record()).as_deref(), Ok(text));
    let unreleased = record("head unreleased\nend");
    assert_eq!(show(unreleased.record()).as_deref(), Ok("head unreleased\nend\n"));
    assert_ne!(unreleased, record("head \"unreleased\"\nend"));
}

#[test]
fn absent_and_empty_are_told_apart() {
    let text = |operands: &str| record(&format!("head 1.0.0\nstruct s\nfield f scalar {operands}\nend"));
    let absent = text("");
    for empty in ["type=\"\"", "element=\"\"", "count=0", "rows=0", "cols=0", "size=0"] {
        assert_ne!(text(empty), absent, "{empty}");
        let shown = show(text(empty).record()).expect("a text");
        assert!(shown.contains(empty), "{shown}");
    }
    assert_ne!(record("head\nend"), record("head \"\"\nend"));
    assert_eq!(show(record("head \"\"\nend").record()).as_deref(), Ok("head \"\"\nend\n"));
}

#[test]
fn equal_texts_are_shared() {
    let shared = record("head 1.0.0\nalias one two\nalias two one\nconstant one text=two since=1.0.0\nend");
    assert_eq!(shared.pool, b"1.0.0onetwo");
}

/// What `assemble` says of a wrong text, without the column.
fn fault(text: &str) -> String {
    let fault = assemble(text.as_bytes()).expect_err(text);
    format!("line {}: {}", fault.line, fault.message)
}

/// Holds what is said of wrong texts to what is expected.
fn assert_faults(cases: &[(&str, &str)]) {
    for (text, expected) in cases {
        assert_eq!(fault(text), *expected, "{text}");
    }
}

const WRONG_WORDS: &[(&str, &str)] = &[
    (
        "head 1.0.0\nstuct s\nend",
        "line 2: expected one of the commands head, constant, alias, enum, value, \
      bitfield, member, struct, family, variant, field, key, unstored_key, version or end, found stuct",
    ),
    ("head 1.0.0\n\nstruct\nend", "line 3: expected the name of the struct, found the end of the line"),
    ("head\nstruct s\nfield n\nend", "line 3: expected the kind of the field, found the end of the line"),
    ("head\nalias a = b\nend", "line 2: expected the underlying type of the alias, found ="),
    (
        "head\nenum e\nend",
        "line 2: expected the size of the enum, a whole number from 0 to 4294967295, found \
      the end of the line",
    ),
    (
        "head\nenum e 4294967296\nend",
        "line 2: expected the size of the enum, a whole number from 0 to \
      4294967295, found 4294967296",
    ),
    (
        "head\nenum e -1\nend",
        "line 2: expected the size of the enum, a whole number from 0 to 4294967295, \
      found -1",
    ),
    (
        "head\nversion s \"1\"\nend",
        "line 2: expected the number of the version, a whole number from 0 to \
      4294967295, found \"1\"",
    ),
    (
        "head\nconstant c\nend",
        "line 2: expected `text` or the value of the constant, a whole number from \
      -9223372036854775808 to 9223372036854775807, found the end of the line",
    ),
    (
        "head\nconstant c +1\nend",
        "line 2: expected `text` or the value of the constant, a whole number from \
      -9223372036854775808 to 9223372036854775807, found +1",
    ),
    ("head\nconstant c text\nend", "line 2: expected the text of the constant, found the end of the line"),
    ("head\nconstant c 1 text=x\nend", "line 2: expected api, since or the end of the line, found text"),
    ("head\nstruct s slot=a slot=b\nend", "line 2: expected version or the end of the line, found slot"),
    ("head\nstruct s slot\nend", "line 2: expected the value of slot, found the end of the line"),
    ("head\nstruct s slot version=G\nend", "line 2: expected version or the end of the line, found ="),
    (
        "head\nstruct s \"slot\"=a\nend",
        "line 2: expected slot, version or the end of the line, found \"slot\"",
    ),
    (
        "head\nstruct s\nfield f scalar typ=u8\nend",
        "line 3: expected type, element, count, rows, cols, size or \
      the end of the line, found typ",
    ),
    (
        "head\nstruct s\nfield f scalar count=many\nend",
        "line 3: expected the value of count, a whole number \
      from 0 to 4294967295, found many",
    ),
    ("head\nend now", "line 2: expected the end of the line, found now"),
    ("head 1 2\nend", "line 1: expected unreleased or the end of the line, found 2"),
];

#[test]
fn faults_of_words() {
    assert_faults(WRONG_WORDS);
}

const WRONG_LETTERS: &[(&str, &str)] = &[
    ("head \"1.0.0\nend", "line 1: expected a closing quote"),
    ("head \"1\\n\"\nend", "line 1: expected \\\", \\\\ or \\u{..} inside the quotes"),
    ("head 1\\2\nend", "line 1: expected quotes around a text with \\, which is written as \\\\"),
    ("head\nalias a\u{7f} b\nend", "line 2: expected no control character, found 7F"),
    ("head\nalias \"a\tb\" b\nend", "line 2: expected no control character, found 09"),
    ("head\nalias a\rb c\nend", "line 2: expected no control character, found 0D"),
    (
        "head\nalias a\"b\" c\nend",
        "line 2: expected a blank or = after a; a text with \" or # in it is quoted",
    ),
    (
        "head\nalias \"a\"b c\nend",
        "line 2: expected a blank or = after \"a\"; a text with \" or # in it is quoted",
    ),
    ("head\nalias a#b c\nend", "line 2: expected a blank or = after a; a text with \" or # in it is quoted"),
];

#[test]
fn faults_of_letters() {
    assert_faults(WRONG_LETTERS);
}

const WRONG_PLACES: &[(&str, &str)] = &[
    ("", "line 1: expected `head`, and the text is at its end"),
    ("# only\n\n# comments\n", "line 3: expected `head`, and the text is at its end"),
    ("struct s\nend", "line 1: expected `head`, which is the first command"),
    ("head\nstruct s\n", "line 2: expected `end`, and the text is at its end"),
    ("head\nhead\nend", "line 2: expected another command, since `head` stands once, at the front"),
    (
        "head\nstruct s\nvalue v 1\nend",
        "line 3: expected another command, since a `value` stands after an \
      `enum` or a `value`",
    ),
    (
        "head\nenum e 1\nmember m 1\nend",
        "line 3: expected another command, since a `member` stands after a \
      `bitfield` or a `member`",
    ),
    (
        "head\nstruct s\nvariant v\nend",
        "line 3: expected another command, since a `variant` stands in a `family`",
    ),
    (
        "head\nfield f scalar\nend",
        "line 2: expected another command, since a `field` stands in a `struct`, a \
      `family` or a `variant`",
    ),
    (
        "head\nstruct s\nversion s 1\nfield f scalar\nend",
        "line 4: expected another command, since a `field` \
      stands in a `struct`, a `family` or a `variant`",
    ),
    (
        "head\nstruct s\nkey k\nend",
        "line 3: expected another command, since a `key` stands right after a `field`",
    ),
    (
        "head\nstruct s\nfield f scalar\nkey k\nkey l\nend",
        "line 5: expected another command, since a `key` \
      stands right after a `field`",
    ),
    ("head\nend\nstruct s", "line 3: expected nothing after `end`"),
    ("head\npool \"a\"\nend", "line 2: expected a command, since `pool` lines stand before `head`"),
    ("pool\nhead\nend", "line 1: expected the bytes of the pool, found the end of the line"),
    ("pool a b\nhead\nend", "line 1: expected the end of the line, found b"),
];

#[test]
fn faults_of_place() {
    assert_faults(WRONG_PLACES);
}

#[test]
fn limits() {
    let name = |length: usize| "n".repeat(length);
    assert!(assemble(format!("head\nalias {} u8\nend", name(255)).as_bytes()).is_ok());
    let long = fault(&format!("head\nalias {} u8\nend", name(256)));
    assert_eq!(long, "line 2: expected the name of the alias in at most 255 bytes, found 256");
    let long = fault(&format!("head {}\nend", name(256)));
    assert_eq!(long, "line 1: expected the release of the head in at most 255 bytes, found 256");
    let words = fault(&format!("head\nstruct s\nfield f scalar type=u8{}\nend", " x".repeat(100)));
    assert_eq!(words, "line 3: expected element, count, rows, cols, size or the end of the line, found x");
    let far = fault(&format!("head\n{}\nend", name(1000)));
    assert!(far.ends_with(&format!(", found {}.. (1000 bytes)", name(60))), "{far}");

    // 5 bytes of head, 4,681 aliases of 7 bytes and an end are 32,773 bytes.
    let aliases = |count: usize| format!("head\n{}end", "alias a b\n".repeat(count));
    assert_eq!(record(&aliases(4680)).stream.len(), 32_766);
    assert_eq!(
        fault(&aliases(4681)),
        "line 4682: expected `end` before this command: a stream has at most 32,768 bytes"
    );

    let names: String = (0..65).map(|i| format!("alias {}{i:02} u8\n", name(248))).collect();
    assert!(record(&format!("head\n{names}end")).pool.len() == 65 * 250 + 2);
    let more = format!("head\n{names}alias {} u8\nend", "m".repeat(133));
    let full =
        "line 67: expected fewer or shorter texts: with those of this line the pool is over 16,384 bytes";
    assert_eq!(fault(&more), full);
    assert_eq!(record(&more.replace("mmm ", "mm ")).pool.len(), 16_384);
}

/// Texts that overlap in the pool and would not fit it side by side.
#[test]
fn overlapping_texts() {
    let mut stream = vec![0x01, 0xFF, 0xFF, 0, 0];
    let pool: Vec<u8> = (0..500_u32).flat_map(|i| format!("{:x}\"\\ ", i * 7919).into_bytes()).collect();
    for start in 0..1000_u16 {
        let [low, high] = start.to_le_bytes();
        stream.extend_from_slice(&[0x03, low, high, 255, low, high, 0]);
    }
    stream.push(0x0F);
    let record = Parts { stream, pool };
    let text = show(record.record()).expect("a text");
    assert!(text.starts_with("pool \"0"), "{}", &text[..40]);
    let again = assemble(text.as_bytes()).expect("a record");
    assert_eq!(again.pool, record.pool);
    assert_eq!(commands(again.record()).map(|all| all.len()), Ok(1002));
    assert_eq!(show(again.record()), Ok(text));
}

/// A record that is refused for its sizes alone has a text form.
#[test]
fn a_vast_record_is_shown() {
    let text = "head 1.0.0\n\nstruct s\n    field a padding size=4294967295\n    field b scalar\n\nend\n";
    let folder = Folder::new("text_vast");
    let file = folder.record("vast.rec", text);
    assert!(run(&["list", &file])
        .complained(2)
        .contains(": 9 vast: current record, place 5 of the stream, command 08 struct: "));
    assert_eq!(run(&["show", &file]).said(0), text);
}

#[test]
fn damaged_records_are_not_shown() {
    let damaged: [(&[u8], &str); 4] = [
        (b"\x05\0\0\0\x01\xff\xff\0\0", "1 cut: record, place 5 of the stream, the end of the stream: "),
        (b"\x06\0\0\0\x01\xff\xff\0\x02\x0f", "6 flag: record, place 0 of the stream, command 01 head: "),
        (b"\x06\0\0\0\x01\0\0\x01\0\x0f", "4 outside: record, place 0 of the stream, command 01 head: "),
        (b"\0\x80\0\0", "1 cut: record, place 0 of the stream, the end of the stream: "),
    ];
    for (bytes, expected) in damaged {
        let ran = run_on(&["show", "-"], bytes);
        let line = ran.complained(2);
        assert!(line.starts_with(&format!("release: standard input: {expected}")), "{line}");
    }
}

#[test]
fn a_wrong_text_writes_no_record() {
    let folder = Folder::new("text_wrong");
    let text = folder.file("wrong.txt", b"head 1.0.0\nstruct\n");
    let said = format!(
        "release: {text}: line 2, column 7: expected the name of the struct, found the end of the line\n    \
         struct\n          ^\n"
    );
    assert_eq!(run(&["assemble", &text]).complained(2), said);
    let ran = run_on(&["assemble", "-"], b"");
    assert!(ran.complained(2).starts_with("release: standard input: line 1, column 1: expected `head`, "));
}

#[test]
fn usage_and_files() {
    assert!(run(&["assemble"]).complained(3).contains("usage: release assemble TEXT > RECORD"));
    assert!(run(&["assemble", "missing.txt"]).complained(3).contains("cannot read missing.txt"));
    assert!(run(&["assemble", "a", "--json"]).complained(3).contains("there is no option --json"));
    assert!(run(&["show", "missing.rec"]).complained(3).contains("cannot read missing.rec"));
    assert!(run(&["show", "a", "b"]).complained(3).contains("expected 1 operand, found 2"));
    let endless = vec![b'\n'; 16 * 1024 * 1024 + 1];
    assert!(run_on(&["assemble", "-"], &endless).complained(3).contains("is over 16 MiB"));
}
