//! Fixed records for the reader: findings A and B and the edges of document 01.

use crate::commands;
use crate::generate::encode::{Encoded, encode_spread, encode_tight};
use crate::generate::make::{
    alias, array, array2d, bit_field, content, enumeration, family, field, key, padding, scalar,
    structure, text, version,
};
use crate::model::{Content, Side};
use crate::reader::{POOL_LIMIT, STREAM_LIMIT};

/// A record, read as one side or as both.
#[derive(Clone, Debug)]
pub struct FixedRecord {
    pub label: &'static str,
    pub sides: &'static [Side],
    pub record: Encoded,
}

const BOTH: &[Side] = &[Side::Current, Side::Released];
const ABSENT: [u8; 3] = [0xFF, 0xFF, 0];

pub fn records() -> Vec<FixedRecord> {
    let mut records = vasts();
    records.extend(heads());
    records.extend(texts());
    records.extend(orders());
    records.extend(places());
    records.extend(keys());
    records.extend(unread());
    records.extend(limits());
    records
}

fn fixed(label: &'static str, record: Encoded) -> FixedRecord {
    FixedRecord {
        label,
        sides: BOTH,
        record,
    }
}

fn of(label: &'static str, content: Content) -> FixedRecord {
    fixed(label, encode_tight(&content))
}

fn plain() -> Content {
    content("0.9.0")
}

/// A record of raw commands after a head, with the pool `0.9.0abc`.
fn raw(commands: &[&[u8]]) -> Encoded {
    let mut stream = vec![commands::HEAD, 0, 0, 5, 0];
    commands.iter().for_each(|c| stream.extend_from_slice(c));
    headless(stream)
}

/// A record of these bytes alone, with the pool `0.9.0abc`.
fn headless(stream: Vec<u8>) -> Encoded {
    Encoded {
        stream,
        pool: b"0.9.0abc".to_vec(),
    }
}

/// The length of the pool `0.9.0abc`.
const POOL: u8 = 8;

/// Finding A1 to A3 and the limit of sizes.
fn vasts() -> Vec<FixedRecord> {
    let huge = enumeration("e", u32::MAX);
    let vast = || structure("s").field(array("x", "u32", 0x4000_0000));
    let heavy = [padding("p", u32::MAX), scalar("n", "u8")];
    vec![
        of("a01 a vast family front before a vast structure", {
            plain().with(huge.clone()).with(family("f")).with(vast())
        }),
        of("a01 a vast variant before a vast structure", {
            let f = family("f").variant("u", &[]).variant("v", &heavy);
            plain().with(f).with(vast())
        }),
        of("a01 a vast structure before a vast family", {
            plain().with(vast()).with(huge).with(family("f"))
        }),
        of("a02 a vast structure replaced by one of its name", {
            plain().with(vast()).with(structure("s"))
        }),
        of("a03 a vast enum declared after its use", {
            let used = structure("s").field(field("n", "enum").of("e"));
            let used = used.field(scalar("m", "u8"));
            plain().with(used).with(enumeration("e", u32::MAX))
        }),
        of("a03 the first of two enums is small", {
            let used = family("f");
            let (small, huge) = (enumeration("e", 1), enumeration("e", u32::MAX));
            plain().with(used).with(small).with(huge)
        }),
        of("a03 the first of two enums is huge", {
            let used = family("f");
            let (small, huge) = (enumeration("e", 1), enumeration("e", u32::MAX));
            plain().with(used).with(huge).with(small)
        }),
        of("c27 rows and columns whose product wraps to 0", {
            let x = array2d("x", "u32", 0x8000_0000, 0x8000_0000);
            plain().with(structure("s").field(x))
        }),
        of("c27 rows and columns beyond 64 bits", {
            let x = array2d("x", "u32", u32::MAX, u32::MAX);
            plain().with(structure("s").field(x))
        }),
        of("c27 rows and columns of an unknown element", {
            let x = array2d("x", "u64", u32::MAX, u32::MAX);
            plain().with(structure("s").field(x))
        }),
        of("edge a type that ends at 4294967295", {
            let s = structure("s").field(padding("p", u32::MAX - 1));
            plain().with(s.field(scalar("n", "u8")))
        }),
        of("edge a type that ends at 4294967296", {
            let s = structure("s").field(padding("p", u32::MAX));
            plain().with(s.field(scalar("n", "u8")))
        }),
    ]
}

/// Finding A4, and the head's own faults.
fn heads() -> Vec<FixedRecord> {
    vec![
        fixed(
            "a04 a head flagged 1",
            headless(vec![commands::HEAD, 0, 0, 5, 1, commands::END]),
        ),
        fixed(
            "a04 a head flagged 2",
            headless(vec![commands::HEAD, 0, 0, 5, 2, commands::END]),
        ),
        fixed(
            "edge a head without release",
            headless(vec![commands::HEAD, 0xFF, 0xFF, 0, 0, commands::END]),
        ),
        fixed(
            "b14 a head without release flagged 2",
            headless(vec![commands::HEAD, 0xFF, 0xFF, 0, 2, commands::END]),
        ),
    ]
}

/// Finding B13: what is a text, and what is inside the pool.
fn texts() -> Vec<FixedRecord> {
    let alias_at = |start: u8, length: u8| {
        raw(&[&[commands::ALIAS, start, 0, length, 0, 0, 0, commands::END]])
    };
    vec![
        fixed("b13 an empty text at the pool's end", alias_at(POOL, 0)),
        fixed(
            "b13 an empty text after the pool's end",
            alias_at(POOL + 1, 0),
        ),
        fixed("b13 a text up to the pool's end", alias_at(0, POOL)),
        fixed("b13 a text one byte past the pool", alias_at(0, POOL + 1)),
        fixed(
            "b13 the absent form where a text must stand",
            raw(&[&[commands::ALIAS, 0xFF, 0xFF, 0, 0, 0, 0, commands::END]]),
        ),
        fixed(
            "b13 the absent start with a length",
            raw(&[&[
                commands::STRUCT,
                0,
                0,
                0,
                0xFF,
                0xFF,
                1,
                0,
                0,
                0,
                commands::END,
            ]]),
        ),
        of("b13 an empty release", content("")),
        fixed("b20 equal and overlapping names", {
            let s = structure("abc").field(scalar("bc", "u8"));
            let twin = structure("abc").field(scalar("c", "u8"));
            encode_spread(&plain().with(s).with(twin))
        }),
        of("b20 a layout name of 512 bytes", {
            let f = family(&"f".repeat(255)).variant(&"v".repeat(255), &[scalar("n", "u8")]);
            plain().with(f)
        }),
        fixed("edge pool bytes 20 and 7e", {
            let mut record = encode_tight(&plain());
            record.pool.extend_from_slice(b" ~");
            record
        }),
        with_pool_byte("edge pool byte 1f", 0x1F),
        with_pool_byte("edge pool byte 7f", 0x7F),
        with_pool_byte("edge pool byte ff", 0xFF),
        fixed("edge a bad letter goes before an unknown command", {
            let mut record = raw(&[&[0x10]]);
            record.pool[2] = 0;
            record
        }),
    ]
}

fn with_pool_byte(label: &'static str, byte: u8) -> FixedRecord {
    let mut record = encode_tight(&plain());
    record.pool.push(byte);
    fixed(label, record)
}

/// A constant of raw operands: is-text, text, flag and date.
fn constant(is_text: u8, text: [u8; 3], ora_api: u8, date: [u8; 3]) -> Encoded {
    let mut command = vec![commands::CONSTANT, 5, 0, 1, is_text];
    command.extend_from_slice(&7i64.to_le_bytes());
    command.extend_from_slice(&text);
    command.push(ora_api);
    command.extend_from_slice(&date);
    command.push(commands::END);
    raw(&[&command])
}

/// Findings B14 and B15: the order of refusals.
fn orders() -> Vec<FixedRecord> {
    let outside = [POOL + 1, 0, 0];
    let inside = [5, 0, 1];
    let mut records = vec![
        fixed("b14 4 before 5 and 6", constant(1, ABSENT, 2, outside)),
        fixed("b14 5 before 6", constant(1, ABSENT, 2, inside)),
        fixed("b14 is-text 2 without text", constant(2, ABSENT, 0, inside)),
        fixed("b14 is-text 0 without text", constant(0, ABSENT, 0, inside)),
        fixed(
            "b14 an unused text outside",
            constant(0, outside, 0, inside),
        ),
        fixed("b14 a used text outside", constant(1, outside, 0, inside)),
        fixed("b14 an unused integer", constant(1, inside, 1, ABSENT)),
        fixed("b15 an empty stream", headless(Vec::new())),
        fixed("b15 the end alone", headless(vec![commands::END])),
        fixed("b15 an unknown byte alone", headless(vec![0x10])),
        fixed(
            "b15 another first command, whole",
            headless(vec![commands::VARIANT, 0, 0, 0]),
        ),
        fixed(
            "b15 another first command, cut",
            headless(vec![commands::ALIAS, 0, 0]),
        ),
        fixed("b15 a cut head", headless(vec![commands::HEAD, 0, 0, 5])),
        fixed("b15 no end", raw(&[])),
        fixed("b15 an unknown byte at the very end", raw(&[&[0x10]])),
        fixed("b15 byte 00 at the very end", raw(&[&[0]])),
        fixed(
            "b15 a misplaced command that is cut",
            raw(&[&[commands::VARIANT, 0]]),
        ),
        fixed(
            "b15 a misplaced command that is whole",
            raw(&[&[commands::VARIANT, 0, 0, 0]]),
        ),
        fixed("b15 a misplaced command with a text outside", {
            raw(&[&[commands::VARIANT, POOL + 1, 0, 0]])
        }),
        fixed("b15 a second head", {
            raw(&[&[commands::HEAD, 0, 0, 5, 0], &[commands::END]])
        }),
    ];
    records.extend([
        fixed(
            "b15 an unknown byte after the end",
            raw(&[&[commands::END, 0x10]]),
        ),
        fixed("b15 a second end", raw(&[&[commands::END, commands::END]])),
        fixed("b15 byte 00 after the end", raw(&[&[commands::END, 0]])),
    ]);
    records
}

/// A command whose operands are all zero: empty texts, flags and numbers 0.
fn blank(command: u8) -> Vec<u8> {
    let forms = commands::operands(command).expect("a command");
    let mut bytes = vec![0; commands::width(forms)];
    bytes[0] = command;
    bytes
}

/// A record of blank commands after a head, with an end.
fn blanks(list: &[u8]) -> Encoded {
    let mut bytes: Vec<u8> = list.iter().flat_map(|&c| blank(c)).collect();
    bytes.push(commands::END);
    raw(&[&bytes])
}

/// Finding B17: what may stand where.
fn places() -> Vec<FixedRecord> {
    use commands::*;
    let lists: [(&'static str, &[u8]); 26] = [
        (
            "b17 a second key of a field",
            &[STRUCT, FIELD, FIELD_KEY, FIELD_KEY],
        ),
        ("b17 a key without field", &[STRUCT, FIELD_KEY]),
        ("b17 a key after a variant", &[FAMILY, VARIANT, FIELD_KEY]),
        (
            "b17 a field after a key",
            &[STRUCT, FIELD, FIELD_KEY, FIELD],
        ),
        ("b17 a field after a constant", &[STRUCT, CONSTANT, FIELD]),
        ("b17 a field after an alias", &[STRUCT, ALIAS, FIELD]),
        ("b17 a field after an enum", &[STRUCT, ENUM, FIELD]),
        ("b17 a field after a bit field", &[STRUCT, BIT_FIELD, FIELD]),
        ("b17 a field after an unstored key", &[STRUCT, KEY, FIELD]),
        ("b17 a field after a version", &[STRUCT, VERSION, FIELD]),
        (
            "b17 a variant after an unstored key",
            &[FAMILY, KEY, VARIANT],
        ),
        (
            "b17 a variant after a constant",
            &[FAMILY, CONSTANT, VARIANT],
        ),
        ("b17 a variant of a structure", &[STRUCT, VARIANT]),
        (
            "b17 a variant of a structure after a family",
            &[FAMILY, STRUCT, VARIANT],
        ),
        (
            "b17 a variant of a structure with a field",
            &[STRUCT, FIELD, VARIANT],
        ),
        ("b17 a variant after a variant", &[FAMILY, VARIANT, VARIANT]),
        (
            "b17 a variant after a field",
            &[FAMILY, FIELD, VARIANT, FIELD, VARIANT],
        ),
        (
            "b17 a variant after a key",
            &[FAMILY, FIELD, FIELD_KEY, VARIANT, FIELD, FIELD_KEY, VARIANT],
        ),
        ("b17 a field of a variant", &[FAMILY, VARIANT, FIELD, FIELD]),
        (
            "b17 a field of a second structure",
            &[STRUCT, STRUCT, FIELD],
        ),
        ("b17 values", &[ENUM, VALUE, VALUE, ENUM]),
        ("b17 a value after an alias", &[ENUM, VALUE, ALIAS, VALUE]),
        (
            "b17 a value after a member",
            &[ENUM, BIT_FIELD, MEMBER, VALUE],
        ),
        ("b17 members", &[BIT_FIELD, MEMBER, MEMBER]),
        (
            "b17 a member after a value",
            &[BIT_FIELD, ENUM, VALUE, MEMBER],
        ),
        ("b17 an end between", &[STRUCT, END, FIELD]),
    ];
    let records = lists.into_iter();
    records
        .map(|(label, list)| fixed(label, blanks(list)))
        .collect()
}

/// The last command of a raw record, with its last text absent.
fn undated(list: &[u8]) -> Encoded {
    let mut record = blanks(list);
    let end = record.stream.len() - 1;
    record.stream[end - 3..end].copy_from_slice(&ABSENT);
    record
}

/// Finding B16 and the other texts that a current record must have.
fn keys() -> Vec<FixedRecord> {
    use commands::*;
    vec![
        fixed(
            "b16 an undated key of a structure",
            undated(&[STRUCT, FIELD, FIELD_KEY]),
        ),
        fixed(
            "b16 an undated key of a family",
            undated(&[FAMILY, FIELD, FIELD_KEY]),
        ),
        fixed(
            "b16 an undated key of a variant",
            undated(&[FAMILY, VARIANT, FIELD, FIELD_KEY]),
        ),
        fixed("b16 an undated unstored key", undated(&[KEY])),
        fixed("b16 an undated bit field", undated(&[BIT_FIELD])),
        fixed("b16 an undated enum", undated(&[ENUM])),
        fixed("b16 an undated value", undated(&[ENUM, VALUE])),
        fixed("b16 an undated member", undated(&[BIT_FIELD, MEMBER])),
        fixed("b16 an undated constant", undated(&[CONSTANT])),
    ]
}

/// Findings B18 and B19: what is read and not used.
fn unread() -> Vec<FixedRecord> {
    let mut padded = vec![commands::STRUCT, 0, 0, 0, 0xFF, 0xFF, 0, 0xFF, 0xFF, 0];
    padded.extend_from_slice(&[commands::FIELD, 0, 0, 0, 0, 0, 0]);
    padded.extend_from_slice(&[0xFF, 0xFF, 0, 0xFF, 0xFF, 0]);
    let numbers = |flag: u8| [flag, 0xFF, 0xFF, 0xFF, 0xFF].repeat(4);
    let field = |flag: u8| [padded.clone(), numbers(flag), vec![commands::END]].concat();
    let mut last_flag = field(0);
    let at = last_flag.len() - 6;
    last_flag[at] = 2;
    vec![
        fixed("b18 absent numbers with bytes", raw(&[&field(0)])),
        fixed("b18 present numbers of a kind without", raw(&[&field(1)])),
        fixed("b18 a number flagged 2", raw(&[&field(2)])),
        fixed("b18 the last number flagged 2", raw(&[&last_flag])),
        fixed("b18 a member's width flagged 2", {
            let mut bytes = [blank(commands::BIT_FIELD), blank(commands::MEMBER)].concat();
            let at = bytes.len() - 8;
            bytes[at] = 2;
            bytes.push(commands::END);
            raw(&[&bytes])
        }),
        fixed("b19 a slot outside", {
            raw(&[&[
                commands::STRUCT,
                0,
                0,
                0,
                POOL,
                0,
                1,
                0,
                0,
                0,
                commands::END,
            ]])
        }),
        fixed("b19 a version constant outside", {
            raw(&[&[
                commands::STRUCT,
                0,
                0,
                0,
                0,
                0,
                0,
                POOL,
                0,
                1,
                commands::END,
            ]])
        }),
        fixed("b19 a version's structure outside", {
            raw(&[&[commands::VERSION, POOL, 0, 1, 0, 0, 0, 0, commands::END]])
        }),
        of("b19 a text constant", plain().with(text("c", "text"))),
    ]
}

/// A readable record of 32,768 bytes: aliases of 7 bytes and versions of 8.
fn longest() -> Encoded {
    let mut full = plain().with(version("a", 1)).with(version("a", 2));
    for _ in 0..4678 {
        full = full.with(alias("a", "u8"));
    }
    encode_tight(&full)
}

/// The limits of stream and pool.
fn limits() -> Vec<FixedRecord> {
    let current: &[Side] = &[Side::Current];
    let released: &[Side] = &[Side::Released];
    let mut over = longest();
    over.stream.push(commands::END);
    let mut wide = encode_tight(&plain().with(key("k", "0.8.0")).with(bit_field("b", 1, "")));
    wide.pool.resize(POOL_LIMIT, b' ');
    let mut wider = wide.clone();
    wider.pool.push(0);
    let at = |sides, label, record| FixedRecord {
        label,
        sides,
        record,
    };
    assert_eq!(longest().stream.len(), STREAM_LIMIT);
    vec![
        at(current, "edge a stream of 32768 bytes", longest()),
        at(released, "edge a stream of 32769 bytes", over),
        at(released, "edge a pool of 16384 bytes", wide),
        at(current, "edge a pool of 16385 bytes", wider),
        at(released, "a10 a long pool beside an empty stream", {
            Encoded {
                stream: Vec::new(),
                pool: vec![b' '; POOL_LIMIT + 1],
            }
        }),
    ]
}
