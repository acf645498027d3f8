//! Fixed cases of request W-206: findings W-206.1 to W-206.9, and every row of
//! the table of RFC 3629 at its edges.

use super::lists::FixedList;
use super::owners::FixedQuestion;
use super::records::FixedRecord;
use super::{FixedPair, changed, metadata, now, pair, shared, then};
use crate::commands;
use crate::generate::encode::Encoded;
use crate::generate::make::{
    content, enumeration, family, field, integer, padding, pointer, scalar, structure, version,
};
use crate::generate::sequences::row_of;
use crate::model::Side;
use crate::reader::POOL_LIMIT;

const BOTH: &[Side] = &Side::BOTH;
const ABSENT: [u8; 3] = [0xFF, 0xFF, 0];

/// The release at the front of every pool here, and its length.
const RELEASE: &[u8] = b"0.9.0";
const FRONT: u8 = RELEASE.len() as u8;

/// Where the second byte of the pool `0.9.0µ` stands.
const INSIDE: u8 = FRONT + 1;

/// All fixed records.
pub fn records() -> Vec<FixedRecord> {
    [
        edges(),
        rows(),
        blocks(),
        stretches(),
        operands(),
        long_pools(),
    ]
    .concat()
}

/// The short and few ones, for every call that reads a record.
pub fn edges() -> Vec<FixedRecord> {
    [places(), let_through(), orders(), ends()].concat()
}

fn fixed(label: &'static str, record: Encoded) -> FixedRecord {
    FixedRecord {
        label,
        sides: BOTH,
        record,
    }
}

/// A head, these commands and an end, over a pool of a release and these bytes.
fn over(bytes: &[u8], commands: &[u8]) -> Encoded {
    let head = [commands::HEAD, 0, 0, FRONT, 0];
    Encoded {
        stream: [&head, commands, &[commands::END]].concat(),
        pool: [RELEASE, bytes].concat(),
    }
}

/// An alias whose name is this stretch of the pool.
fn alias_at(start: u8, length: u8) -> [u8; 7] {
    [commands::ALIAS, start, 0, length, 0, 0, 0]
}

/// Findings W-206.1 and W-206.4: the first of either sort, at its first byte, in
/// bytes that no text covers too.
fn places() -> Vec<FixedRecord> {
    let odd = |label, bytes: &[u8]| fixed(label, over(bytes, &[]));
    vec![
        odd("w206.1 a third byte that does not fit", b"a\xE2\x84a"),
        odd("w206.1 a fourth byte that does not fit", b"a\xF0\x9F\x94a"),
        odd("w206.1 a control byte in place of a tail", b"a\xE2\x0A\x84"),
        odd("w206.1 a control byte before a stray tail", b"\x1Fa\x80"),
        odd("w206.1 a stray tail before a control byte", b"\x80a\x1F"),
        odd("w206.1 a control byte behind a sequence", b"\xC2\xB5\x7F"),
        odd("w206.1 a tail too many", b"\xC2\xB5\xB5"),
        odd("w206.1 a lead byte before a sequence", b"\xC2\xC2\xB5"),
        fixed(
            "w206.4 a stray tail before an unknown command",
            over(b"\xBF", &[0x10]),
        ),
    ]
}

/// Finding W-206.3: characters that are let through, though few screens show
/// them.
fn let_through() -> Vec<FixedRecord> {
    let characters =
        "\u{80}\u{9f}\u{7ff}\u{800}\u{d7ff}\u{e000}\u{feff}\u{fffe}\u{ffff}\u{10000}\u{10ffff}";
    let name = |c: char| {
        let text = c.to_string();
        over(text.as_bytes(), &alias_at(FRONT, text.len() as u8))
    };
    characters
        .chars()
        .map(|c| fixed("w206.3 a character let through", name(c)))
        .collect()
}

/// Finding W-206.5: 4 in its turn.
fn orders() -> Vec<FixedRecord> {
    let micro = |label, commands: &[u8]| fixed(label, over("µ".as_bytes(), commands));
    let constant = |is_text: u8, text: [u8; 3], flag: u8, date: [u8; 3]| {
        let front = [commands::CONSTANT, 0, 0, 0, is_text, 0, 0, 0, 0, 0, 0, 0, 0];
        [&front[..], &text, &[flag], &date].concat()
    };
    let inside = [INSIDE, 0, 0];
    vec![
        micro(
            "w206.5 a text inside a sequence in a cut command",
            &[commands::KEY, INSIDE, 0],
        ),
        micro(
            "w206.5 a misplaced command with a text inside",
            &[commands::VARIANT, INSIDE, 0, 1],
        ),
        micro("w206.5 4 before 5 and 6", &constant(1, ABSENT, 2, inside)),
        micro("w206.5 4 before 6", &constant(0, ABSENT, 2, inside)),
        micro(
            "w206.5 an unused text inside",
            &constant(0, inside, 0, ABSENT),
        ),
        micro("w206.5 a used text inside", &constant(1, inside, 0, ABSENT)),
    ]
}

/// Findings W-206.6 to W-206.8: the pool's end, empty texts, and lengths in bytes.
fn ends() -> Vec<FixedRecord> {
    let micro = |label, start, length| fixed(label, over("µ".as_bytes(), &alias_at(start, length)));
    let long = |label, character: &str, times: usize| {
        let text = [
            character.repeat(times),
            "a".repeat(255 - times * character.len()),
        ]
        .concat();
        fixed(label, over(text.as_bytes(), &alias_at(FRONT, 255)))
    };
    vec![
        micro("w206.6 a text up to the pool's end", FRONT, 2),
        micro("w206.6 an empty text at the pool's end", FRONT + 2, 0),
        micro("w206.6 a text past the pool's end", FRONT, 3),
        micro("w206.6 an empty text past the pool's end", FRONT + 3, 0),
        micro("w206.7 an empty text before a sequence", FRONT, 0),
        micro("w206.7 an empty text inside a sequence", INSIDE, 0),
        long("w206.8 255 bytes of two-byte characters", "µ", 127),
        long("w206.8 255 bytes of three-byte characters", "焦", 85),
        long("w206.8 255 bytes of four-byte characters", "🔬", 63),
        fixed("w206.8 255 bytes that end inside", {
            over("µ".repeat(128).as_bytes(), &alias_at(FRONT, 255))
        }),
    ]
}

/// Finding W-206.2: each first byte from 80 to FF with each byte that follows it
/// at its bounds and beyond them, cut at every length, at the pool's end and
/// before a letter. A text covers the bytes on one side and not on the other.
fn rows() -> Vec<FixedRecord> {
    let tried = (0x80..=0xFF).flat_map(around).enumerate();
    tried
        .flat_map(|(nth, bytes)| {
            let cover = alias_at(FRONT, bytes.len() as u8);
            let covered = over(&bytes, &cover);
            let bare = over(&bytes, &alias_at(0, 0));
            let sides = if nth % 2 == 0 { [0, 1] } else { [1, 0] };
            [(covered, sides[0]), (bare, sides[1])]
        })
        .map(|(record, side)| FixedRecord {
            label: "w206.2 a row of the table",
            sides: &BOTH[side..=side],
            record,
        })
        .collect()
}

/// What is tried of a first byte.
fn around(first: u8) -> Vec<Vec<u8>> {
    let Some(row) = row_of(first) else {
        let behind: [&[u8]; 4] = [b"", b"a", b"\x80", b"\x80\x80\x80"];
        return behind.map(|bytes| [&[first], bytes].concat()).to_vec();
    };
    let whole = row.lowest(first);
    let mut tried = Vec::new();
    for cut in 1..row.length {
        tried.push(whole[..cut].to_vec());
        tried.push([&whole[..cut], b"a"].concat());
    }
    for at in 1..row.length {
        let (low, high) = if at == 1 { row.second } else { (0x80, 0xBF) };
        for byte in [low - 1, low, high, high + 1] {
            let mut bytes = whole.clone();
            bytes[at] = byte;
            tried.push(bytes);
        }
    }
    tried
}

/// Sequences of two, three and four bytes at every place about the end of a block
/// of 32 bytes, for code that judges many at a time: whole, with a wrong last
/// byte, and before a control byte.
fn blocks() -> Vec<FixedRecord> {
    let mut records = Vec::new();
    for character in ["µ", "焦", "🔬"] {
        for at in 20..=32 {
            let whole = character.as_bytes();
            let mut wrong = whole.to_vec();
            wrong[whole.len() - 1] = b'a';
            let controlled = [whole, &[0x1F]].concat();
            for sequence in [whole.to_vec(), wrong, controlled] {
                let bytes = [
                    &vec![b'x'; at],
                    &sequence[..],
                    b"behind it more than a word",
                ]
                .concat();
                let side = records.len() % 2;
                records.push(FixedRecord {
                    label: "w206.2 a sequence about the end of a block",
                    sides: &BOTH[side..=side],
                    record: over(&bytes, &alias_at(FRONT, at as u8)),
                });
            }
        }
    }
    records
}

/// Findings W-206.6 and W-206.7: every stretch of a pool with characters of one to
/// four bytes, and those that reach a byte past it.
fn stretches() -> Vec<FixedRecord> {
    let text = "aµ\u{212b}焦🔬";
    let end = FRONT + text.len() as u8;
    let all = (FRONT..=end + 1).flat_map(|start| (0..=(end + 2 - start)).map(move |n| (start, n)));
    all.map(|(start, length)| {
        let record = over(text.as_bytes(), &alias_at(start, length));
        fixed("w206.6 a stretch of the pool", record)
    })
    .collect()
}

/// Finding W-206.5: each text of each command, beginning inside a sequence, ending
/// there, and empty there.
fn operands() -> Vec<FixedRecord> {
    use commands::*;
    let commands: [(&[u8], u8); 13] = [
        (&[], CONSTANT),
        (&[], ALIAS),
        (&[], ENUM),
        (&[ENUM], VALUE),
        (&[], BIT_FIELD),
        (&[BIT_FIELD], MEMBER),
        (&[], STRUCT),
        (&[], FAMILY),
        (&[FAMILY], VARIANT),
        (&[STRUCT], FIELD),
        (&[STRUCT, FIELD], FIELD_KEY),
        (&[], KEY),
        (&[], VERSION),
    ];
    let mut records = Vec::new();
    for (before, command) in commands {
        let context: Vec<u8> = before.iter().flat_map(|&c| blank(c)).collect();
        for at in text_places(command) {
            for text in cut_texts() {
                let mut bytes = blank(command);
                bytes[at..at + 3].copy_from_slice(&text);
                let record = over("µ".as_bytes(), &[&context[..], &bytes].concat());
                records.push(fixed("w206.5 a text of a command", record));
            }
        }
    }
    for text in cut_texts() {
        let mut record = over("µ".as_bytes(), &[]);
        record.stream[1..4].copy_from_slice(&text);
        records.push(fixed("w206.5 a text of the head", record));
    }
    records
}

/// Texts of the pool `0.9.0µ` that begin inside its sequence, end there, and are
/// empty there.
fn cut_texts() -> [[u8; 3]; 3] {
    [[INSIDE, 0, 1], [FRONT, 0, 1], [INSIDE, 0, 0]]
}

/// A command whose operands are all zero: empty texts, flags and numbers 0.
fn blank(command: u8) -> Vec<u8> {
    let forms = commands::operands(command).expect("a command");
    let mut bytes = vec![0; commands::width(forms)];
    bytes[0] = command;
    bytes
}

/// Where the texts of a command stand in it.
fn text_places(command: u8) -> Vec<usize> {
    let mut at = 1;
    let mut places = Vec::new();
    for form in commands::operands(command).expect("a command") {
        if form.is_text() {
            places.push(at);
        }
        at += form.width();
    }
    places
}

/// Pools of the longest length: characters to the end, and one cut there; and an
/// ill-formed one that is too long, which is 8.
fn long_pools() -> Vec<FixedRecord> {
    let full = |label, side: usize, character: &str, last: &[u8]| {
        let mut record = over(&[], &[]);
        let room = POOL_LIMIT - last.len();
        while record.pool.len() + character.len() <= room {
            record.pool.extend(character.bytes());
        }
        record.pool.resize(room, b'.');
        record.pool.extend(last);
        FixedRecord {
            label,
            sides: &BOTH[side..=side],
            record,
        }
    };
    vec![
        full("w206.2 a full pool of four-byte characters", 0, "🔬", b""),
        full(
            "w206.2 a full pool that ends in a cut",
            1,
            "🔬",
            b"\xF0\x9F\x94",
        ),
        full("w206.2 a full pool of two-byte characters", 1, "µ", b""),
        full("w206.2 a full pool that ends in a tail", 0, "µ", b"a\x80"),
        FixedRecord {
            label: "w206.4 an ill-formed pool that is too long",
            sides: &BOTH[..1],
            record: over(&[0xBF; POOL_LIMIT], &[]),
        },
    ]
}

/// Finding W-206.9 in a check: names that look the same are others, and messages
/// have the bytes of their names.
pub fn pairs() -> Vec<FixedPair> {
    let step = |name: &str| structure("stage").field(scalar(name, "u16"));
    let spelled = |label, is: &str, was: &str| changed(label, step(is), step(was));
    let unit = |value: &str| enumeration("unit", 1).value(value, 0);
    vec![
        shared("w206.9 names in five scripts", {
            let mut s = structure("ställage");
            s.fields = ["µm", "λ", "шаг", "焦点", "🔬"]
                .map(|name| scalar(name, "u8"))
                .to_vec();
            s
        }),
        spelled("w206.9 a ring that was one character", "A\u{30a}", "\u{c5}"),
        spelled("w206.9 an angstrom that was a letter", "\u{212b}", "\u{c5}"),
        spelled("w206.9 a letter that was an angstrom", "\u{c5}", "\u{212b}"),
        spelled("w206.9 a mu that was a micro", "\u{3bc}m", "\u{b5}m"),
        changed(
            "w206.9 a type in another spelling",
            structure("\u{3bc}m").field(scalar("n", "u8")),
            structure("\u{b5}m").field(scalar("n", "u8")),
        ),
        changed("w206.9 a value renamed", unit("\u{3bc}m"), unit("\u{b5}m")),
        changed(
            "w206.9 a field resized",
            structure("Ångström").field(scalar("µm", "u32")),
            structure("Ångström").field(scalar("µm", "u16")),
        ),
        changed(
            "w206.9 a field redescribed",
            structure("Ångström").field(pointer("next", "Ångström")),
            structure("Ångström").field(pointer("next", "A\u{30a}ngström")),
        ),
        pair("w206.9 a constant changed", now(), then())
            .now(integer("MAX_µm", 2))
            .then(integer("MAX_µm", 1)),
        pair("w206.9 a generation not raised", now(), then())
            .both(integer("G", 3))
            .both(version("µ", 3))
            .now(metadata("µ").field(scalar("Å", "u8")))
            .then(metadata("µ").field(padding("Å", 1))),
        changed(
            "w206.9 a variant in another spelling",
            family("f").standalone().variant("\u{212b}", &[]),
            family("f").standalone().variant("\u{c5}", &[]),
        ),
    ]
}

/// Finding W-206.9 in a list: the order of names is that of their bytes.
pub fn lists() -> Vec<FixedList> {
    let names = [
        "\u{10000}",
        "\u{ffff}",
        "\u{212b}",
        "\u{c5}",
        "A\u{30a}",
        "B",
        "\u{3bc}",
        "\u{b5}",
        "a",
        "\u{1f52c}",
        "\u{80}",
        "\u{7ff}",
    ];
    let of = |label, content| FixedList { label, content };
    vec![
        of("w206.9 types in byte order", {
            let types = names.iter().map(|name| structure(name));
            types.fold(content("0.9.0"), |c, s| c.with(s.field(scalar("n", "u16"))))
        }),
        of(
            "w206.9 fields in record order",
            content("0.9.0").with(
                names
                    .iter()
                    .fold(structure("t"), |s, name| s.field(scalar(name, "u8"))),
            ),
        ),
        of("w206.9 variants in byte order", {
            let f = (names.iter()).fold(family("µ"), |f, name| {
                f.variant(name, &[scalar("n", "u8")])
            });
            content("0.9.0").with(f)
        }),
        of("w206.9 descriptions", {
            let s = structure("t")
                .field(field("焦点", "scalar").of("µ8"))
                .field(pointer("p", "Ångström"))
                .field(field("strange", "sc\u{430}lar").of("u8"));
            content("0.9.0").with(s)
        }),
    ]
}

/// Finding W-206.9 in the owner call: a name is its bytes.
pub fn questions() -> Vec<FixedQuestion> {
    let root = metadata("µ").field(pointer("p", "\u{c5}"));
    vec![FixedQuestion {
        label: "w206.9 owners by bytes",
        content: content("0.9.0")
            .with(root)
            .with(structure("\u{c5}").field(pointer("q", "🔬")))
            .with(structure("\u{212b}")),
        names: vec![
            "µ",
            "\u{3bc}",
            "\u{c5}",
            "\u{212b}",
            "A\u{30a}",
            "🔬",
            "\u{1f52d}",
        ],
    }]
}
