//! Fixed calls of a shelf: findings W-211.1 to W-211.14, with the answers that
//! document 02 asks for, worked out by hand.

use crate::edits::parts_of;
use crate::generate::edits::Series;
use crate::generate::encode::{Encoded, encode_spread};
use crate::generate::make::{content, structure};
use crate::generate::shelves::{Call, Editor};
use crate::shelf::{Row, Shelf};

/// Number, side, place, length and count.
pub type Answered = (u32, u32, usize, usize, usize);

#[derive(Clone, Debug)]
pub struct FixedCall {
    pub label: &'static str,
    pub editor: Editor,
    pub call: Call,
    pub answer: Answered,
}

pub fn fixed_calls() -> Vec<FixedCall> {
    [
        orders(),
        names(),
        rows(),
        every_place(),
        outside(),
        over(),
        parts(),
        room(),
        room_of_the_draft(),
        cut_places(),
        counts(),
        refusals(),
        strange_shelves(),
        arrangement(),
    ]
    .concat()
}

/// Set, or come back with the count of a copy without types.
const SET: Answered = (0, 0, 0, 0, 0);
const BACK: Answered = (0, 0, 0, 0, 1);

const FULL: Answered = (57, 0, 0, 0, 0);
const NONE: Answered = (58, 0, 0, 0, 0);

/// 10 with the length needed.
fn no_room(needed: usize) -> Answered {
    (10, 0, 0, needed, 0)
}

/// What the parts of a draft have beside the letters of its one structure's
/// name: both lengths, head, 08, 0F, and the release.
const BARE: usize = 8 + 5 + 10 + 1 + 5;

/// A draft of one structure whose parts have so many bytes.
fn draft(size: usize) -> Encoded {
    let name = "n".repeat(size - BARE);
    encode_spread(&content("0.9.0").with(structure(&name)))
}

/// A buffer of parts with ten bytes behind them.
fn lent(record: &Encoded) -> Vec<u8> {
    [parts_of(record), vec![0x5A; 10]].concat()
}

/// Names with drafts of these sizes, one behind the other in a buffer of this
/// length; a draft to set of this size, and a copy without types.
fn editor(held: &[(&str, usize)], room: usize, size: usize) -> Editor {
    let mut shelf = Shelf::default();
    let mut buffer = Vec::new();
    for (row, (name, size)) in shelf.iter_mut().zip(held) {
        *row = Row::new(name.as_bytes(), buffer.len(), *size);
        buffer.extend(parts_of(&draft(*size)));
    }
    buffer.resize(room, 0xA5);
    let copy = encode_spread(&content("0.8.0"));
    Editor {
        shelf,
        held: buffer,
        draft: Series::of(lent(&draft(size)), copy),
    }
}

/// Names with drafts of these sizes at these places.
fn laid(places: &[(&str, usize, usize)], room: usize, size: usize) -> Editor {
    let mut editor = editor(&[], room, size);
    for (row, (name, start, len)) in editor.shelf.iter_mut().zip(places) {
        *row = Row::new(name.as_bytes(), *start, *len);
        let rest = editor.held.get_mut(*start..);
        let place = rest.and_then(|rest| rest.get_mut(..*len));
        if let Some(place) = place.filter(|place| place.len() >= BARE) {
            place.copy_from_slice(&parts_of(&draft(*len)));
        }
    }
    editor
}

fn set(label: &'static str, editor: Editor, name: &[u8], answer: Answered) -> FixedCall {
    FixedCall {
        label,
        editor,
        call: Call::Set(name.to_vec()),
        answer,
    }
}

fn back(label: &'static str, editor: Editor, name: &[u8], answer: Answered) -> FixedCall {
    FixedCall {
        label,
        editor,
        call: Call::Back(name.to_vec()),
        answer,
    }
}

/// The editor with one of its rows put wrong.
fn with_row(mut editor: Editor, row: usize, change: impl Fn(&mut Row)) -> Editor {
    change(&mut editor.shelf[row]);
    editor
}

/// The editor with this buffer of the draft.
fn with_draft(mut editor: Editor, buffer: Vec<u8>) -> Editor {
    editor.draft.buffer = buffer;
    editor
}

fn with_copy(mut editor: Editor, copy: Encoded) -> Editor {
    editor.draft.copy = copy;
    editor
}

/// A free row of numbers that a held one could not have.
const JUNK: Row = Row {
    name: *b"a\0\0\0\0\0\0\0\0\0\0\0\0\0\0z",
    name_len: 0,
    start: usize::MAX,
    len: usize::MAX,
};

/// W-211.1: each refusal before the next.
fn orders() -> Vec<FixedCall> {
    let one = editor(&[("a", 40)], 40, 50);
    let outside = with_row(one.clone(), 0, |row| row.start = 1);
    let unreadable = with_draft(one.clone(), vec![0; 8]);
    let mut broken = with_copy(one.clone(), Encoded::default());
    broken.held[..8].fill(0);
    let small = with_draft(one.clone(), vec![0; 39]);
    vec![
        set("w211.1 57 before 58", outside.clone(), b"", FULL),
        set(
            "w211.1 58 before the draft",
            with_draft(outside.clone(), Vec::new()),
            b"b",
            NONE,
        ),
        set(
            "w211.1 the draft before 10",
            unreadable,
            b"b",
            (1, 0, 0, 0, 0),
        ),
        set("w211.1 10 last", one.clone(), b"b", no_room(90)),
        back(
            "w211.1 58 before the held draft",
            broken.clone(),
            b"b",
            NONE,
        ),
        back(
            "w211.1 58 for a place before the copy",
            with_copy(outside, Encoded::default()),
            b"a",
            NONE,
        ),
        back(
            "w211.1 the held draft before the copy",
            broken,
            b"a",
            (1, 0, 0, 0, 0),
        ),
        back(
            "w211.1 the copy before 10",
            with_copy(small.clone(), Encoded::default()),
            b"a",
            (1, 1, 0, 0, 0),
        ),
        back("w211.1 10 last, coming back", small, b"a", no_room(40)),
    ]
}

const EIGHT: [(&str, usize); 8] = [
    ("1", 31),
    ("2", 31),
    ("3", 31),
    ("4", 31),
    ("5", 31),
    ("6", 31),
    ("7", 31),
    ("8", 31),
];

/// W-211.2: lengths of names, and eight of them.
fn names() -> Vec<FixedCall> {
    let one = editor(&[("a", 40)], 100, 50);
    let eight = editor(&EIGHT, 300, 31);
    let nameless = with_row(eight.clone(), 7, |row| row.name_len = 17);
    vec![
        set("w211.2 no byte", one.clone(), b"", FULL),
        set("w211.2 one byte", one.clone(), b"b", SET),
        set("w211.2 sixteen bytes", one.clone(), &[b'b'; 16], SET),
        set("w211.2 seventeen bytes", one.clone(), &[b'b'; 17], FULL),
        set("w211.2 three hundred bytes", one.clone(), &[0; 300], FULL),
        set("w211.2 a ninth name", eight.clone(), b"9", FULL),
        set(
            "w211.2 a ninth name and a damaged draft",
            with_draft(eight.clone(), Vec::new()),
            b"9",
            FULL,
        ),
        set("w211.2 the first of eight again", eight.clone(), b"1", SET),
        set("w211.2 the last of eight again", eight, b"8", SET),
        set(
            "w211.2 a row of seventeen letters is held",
            nameless,
            b"9",
            FULL,
        ),
        back("w211.2 coming back to no byte", one.clone(), b"", NONE),
        back("w211.2 coming back to seventeen", one, &[b'a'; 17], NONE),
    ]
}

/// W-211.3: free rows, and names as bytes.
fn rows() -> Vec<FixedCall> {
    let mut junk = editor(&[("a", 40)], 100, 50);
    junk.shelf[1..].fill(JUNK);
    let free = with_row(editor(&[("a", 40)], 100, 50), 0, |row| row.name_len = 0);
    let two = editor(&[("ab", 40)], 100, 50);
    let behind = with_row(two.clone(), 0, |row| row.name[2..].fill(b'z'));
    let zero = editor(&[("ab\0", 40)], 100, 50);
    let wild = with_row(two.clone(), 0, |row| row.name[..2].fill(0xFF));
    vec![
        set("w211.3 a free row's numbers", junk.clone(), b"b", SET),
        back("w211.3 and coming back", junk, b"a", BACK),
        back("w211.3 a free row has no name", free, b"a", NONE),
        back("w211.3 a 00 counts", zero.clone(), b"ab", NONE),
        back("w211.3 a name with a 00", zero.clone(), b"ab\0", BACK),
        set("w211.3 a name beside one with a 00", zero, b"ab", SET),
        back("w211.3 no 00 is added", two.clone(), b"ab\0", NONE),
        back("w211.3 a name's front", two, b"a", NONE),
        back("w211.3 bytes after the name", behind.clone(), b"ab", BACK),
        set("w211.3 bytes after a name set again", behind, b"ab", SET),
        back("w211.3 bytes that are no text", wild, &[0xFF; 2], BACK),
    ]
}

/// W-211.4: every held place is judged.
fn every_place() -> Vec<FixedCall> {
    let bad = laid(&[("a", 0, 40), ("b", 40, 41)], 80, 40);
    let nameless = with_row(bad.clone(), 1, |row| row.name_len = 99);
    vec![
        back(
            "w211.4 another's place, coming back",
            bad.clone(),
            b"a",
            NONE,
        ),
        set("w211.4 another's place, setting", bad.clone(), b"c", NONE),
        set("w211.4 another's place, set again", bad.clone(), b"a", NONE),
        set("w211.4 the place about to go", bad.clone(), b"b", NONE),
        back("w211.4 the place asked for", bad, b"b", NONE),
        back("w211.4 a place without a name", nameless, b"a", NONE),
    ]
}

/// W-211.5: places inside the buffer.
fn outside() -> Vec<FixedCall> {
    let at = |start, len| laid(&[("a", start, len)], 40, 30);
    let unread = (1, 0, 0, 0, 0);
    vec![
        back("w211.5 up to the end", at(0, 40), b"a", BACK),
        back("w211.5 a byte past the end", at(0, 41), b"a", NONE),
        back("w211.5 a start too far", at(1, 40), b"a", NONE),
        back("w211.5 nothing at the end", at(40, 0), b"a", unread),
        set("w211.5 nothing at the end, setting", at(40, 0), b"b", SET),
        set("w211.5 nothing past the end", at(41, 0), b"b", NONE),
        set("w211.5 a sum that is 2^64", at(usize::MAX, 1), b"b", NONE),
        set("w211.5 a sum past 2^64", at(usize::MAX - 3, 8), b"b", NONE),
        back("w211.5 a length of 64 bits", at(10, usize::MAX), b"a", NONE),
        back(
            "w211.5 a length to 2^64",
            at(10, usize::MAX - 9),
            b"a",
            NONE,
        ),
        set("w211.5 a start above 32 bits", at(1 << 32, 0), b"b", NONE),
        set("w211.5 a length above 32 bits", at(0, 1 << 32), b"b", NONE),
        back(
            "w211.5 nothing in an empty buffer",
            laid(&[("a", 0, 0)], 0, 30),
            b"a",
            unread,
        ),
    ]
}

/// W-211.6: places over each other.
fn over() -> Vec<FixedCall> {
    let two = |one: (usize, usize), other: (usize, usize)| {
        laid(&[("b", other.0, other.1), ("a", one.0, one.1)], 100, 40)
    };
    let third = laid(&[("a", 0, 30), ("b", 30, 30), ("c", 10, 30)], 100, 40);
    let empties = laid(&[("a", 0, 40), ("b", 10, 0), ("c", 10, 0)], 100, 40);
    vec![
        back("w211.6 one place twice", two((0, 40), (0, 40)), b"a", NONE),
        back("w211.6 one start", two((0, 40), (0, 3)), b"a", NONE),
        back("w211.6 one end", two((0, 40), (35, 5)), b"a", NONE),
        back("w211.6 inside another", two((0, 40), (10, 5)), b"a", NONE),
        back("w211.6 around another", two((10, 5), (0, 40)), b"a", NONE),
        back("w211.6 the last byte", two((0, 40), (39, 30)), b"a", NONE),
        back("w211.6 the first byte", two((39, 30), (0, 40)), b"a", NONE),
        set(
            "w211.6 one byte, setting",
            two((0, 40), (39, 30)),
            b"c",
            NONE,
        ),
        back("w211.6 the third over the first", third, b"b", NONE),
        back("w211.6 touching", two((0, 40), (40, 40)), b"a", BACK),
        back(
            "w211.6 touching, reversed",
            two((40, 40), (0, 40)),
            b"a",
            BACK,
        ),
        back(
            "w211.6 nothing inside another",
            two((0, 40), (20, 0)),
            b"a",
            BACK,
        ),
        back(
            "w211.6 nothing at its start",
            two((0, 40), (0, 0)),
            b"a",
            BACK,
        ),
        set(
            "w211.6 nothing inside it, setting",
            two((0, 40), (20, 0)),
            b"c",
            SET,
        ),
        back("w211.6 nothing twice at one start", empties, b"a", BACK),
    ]
}

/// W-211.7: what is held of a draft.
fn parts() -> Vec<FixedCall> {
    let mut loose = draft(40);
    loose.pool.extend(b"no use");
    let whole = parts_of(&loose);
    let early = whole[..whole.len() - 3].to_vec();
    let mut bare = parts_of(&encode_spread(&content("")));
    bare.pop();
    let mut long = lent(&draft(40));
    long[..4].copy_from_slice(&32_769_u32.to_le_bytes());
    let in_room = |room, buffer: &[u8]| with_draft(editor(&[], room, 40), buffer.to_vec());
    vec![
        set(
            "w211.7 bytes of no use are held",
            in_room(46, &whole),
            b"a",
            SET,
        ),
        set(
            "w211.7 and take room",
            in_room(45, &whole),
            b"a",
            no_room(46),
        ),
        set(
            "w211.7 bytes behind are not",
            editor(&[], 40, 40),
            b"a",
            SET,
        ),
        set(
            "w211.7 a pool that ends early",
            in_room(43, &early),
            b"a",
            SET,
        ),
        set(
            "w211.7 counts as what came",
            in_room(42, &early),
            b"a",
            no_room(43),
        ),
        set("w211.7 a length that is cut", in_room(14, &bare), b"a", SET),
        set(
            "w211.7 is held whole",
            in_room(13, &bare),
            b"a",
            no_room(14),
        ),
        set(
            "w211.7 a stated length above the limit",
            in_room(90, &long),
            b"a",
            (8, 0, 0, 0, 0),
        ),
    ]
}

/// W-211.8: room for the drafts then held.
fn room() -> Vec<FixedCall> {
    let gaps = |room| laid(&[("a", 40, 40), ("b", 2, 30)], room, 50);
    let full = |size| editor(&[("a", 40), ("b", 50), ("c", 30)], 120, size);
    let long_place = |size| {
        let one = editor(&[("a", 40)], 100, size);
        with_row(one, 0, |row| row.len = 60)
    };
    vec![
        set("w211.8 exact room", editor(&[("a", 40)], 90, 50), b"b", SET),
        set(
            "w211.8 a byte less",
            editor(&[("a", 40)], 89, 50),
            b"b",
            no_room(90),
        ),
        set("w211.8 gaps are closed", gaps(120), b"c", SET),
        set("w211.8 and give no more", gaps(119), b"c", no_room(120)),
        set("w211.8 as long in a full buffer", full(50), b"b", SET),
        set("w211.8 shorter in a full buffer", full(35), b"b", SET),
        set("w211.8 shorter, the first", full(35), b"a", SET),
        set(
            "w211.8 longer in a full buffer",
            full(51),
            b"b",
            no_room(121),
        ),
        set("w211.8 longer, the last", full(31), b"c", no_room(121)),
        set(
            "w211.8 longer in just the room",
            editor(&[("a", 40), ("b", 50), ("c", 30)], 130, 60),
            b"b",
            SET,
        ),
        set(
            "w211.8 a place with bytes behind its parts",
            long_place(40),
            b"b",
            SET,
        ),
        set("w211.8 counts whole", long_place(41), b"b", no_room(101)),
        set(
            "w211.8 an empty buffer",
            editor(&[], 0, 30),
            b"a",
            no_room(30),
        ),
        set(
            "w211.8 one of eight, shorter",
            editor(&EIGHT, 248, 30),
            b"3",
            SET,
        ),
        set(
            "w211.8 one of eight, longer",
            editor(&EIGHT, 248, 32),
            b"3",
            no_room(249),
        ),
        set(
            "w211.8 longer with room",
            editor(&EIGHT, 258, 41),
            b"3",
            SET,
        ),
    ]
}

/// W-211.9: room for the draft that comes back.
fn room_of_the_draft() -> Vec<FixedCall> {
    let lend = |room| with_draft(editor(&[("a", 40)], 100, 40), vec![0x5A; room]);
    let long = |room| with_row(lend(room), 0, |row| row.len = 60);
    vec![
        back("w211.9 exact room", lend(40), b"a", BACK),
        back("w211.9 a byte less", lend(39), b"a", no_room(40)),
        back("w211.9 more room", lend(90), b"a", BACK),
        back("w211.9 an empty buffer", lend(0), b"a", no_room(40)),
        back("w211.9 a place's rest needs none", long(40), b"a", BACK),
        back("w211.9 nor is it counted", long(39), b"a", no_room(40)),
    ]
}

/// W-211.10: a place cut short.
fn cut_places() -> Vec<FixedCall> {
    let cut = |len| with_row(editor(&[("a", 40)], 100, 50), 0, |row| row.len = len);
    let mut loose = draft(40);
    loose.pool.extend(b"no use");
    let mut free = editor(&[("a", 40)], 100, 50);
    free.held[..46].copy_from_slice(&parts_of(&loose));
    let free = |len, room| {
        let lent = with_draft(free.clone(), vec![0x5A; room]);
        with_row(lent, 0, |row| row.len = len)
    };
    let next = editor(&[("a", 40), ("b", 40)], 100, 50);
    let next = with_row(next, 0, |row| row.len = 39);
    vec![
        back(
            "w211.10 a letter is cut off",
            cut(39),
            b"a",
            (4, 0, 5, 0, 0),
        ),
        back(
            "w211.10 the bytes behind are not read",
            next,
            b"a",
            (4, 0, 5, 0, 0),
        ),
        back(
            "w211.10 the pool is cut off",
            cut(24),
            b"a",
            (4, 0, 0, 0, 0),
        ),
        back("w211.10 the end is cut off", cut(19), b"a", (4, 0, 0, 0, 0)),
        back("w211.10 a length is cut", cut(3), b"a", (1, 0, 0, 0, 0)),
        back("w211.10 all is cut off", cut(0), b"a", (1, 0, 0, 0, 0)),
        back(
            "w211.10 bytes of no use are cut off",
            free(43, 43),
            b"a",
            BACK,
        ),
        back(
            "w211.10 what came is whole",
            free(43, 42),
            b"a",
            no_room(43),
        ),
        set("w211.10 a cut place moves as it is", cut(39), b"b", SET),
    ]
}

/// W-211.11: the count.
fn counts() -> Vec<FixedCall> {
    let one = editor(&[("a", 40)], 100, 50);
    let copy = |size| {
        let mut copy = content("0.8.0");
        copy.items.push(structure(&"n".repeat(size - BARE)).into());
        encode_spread(&copy)
    };
    vec![
        set("w211.11 none on setting", one.clone(), b"b", SET),
        back(
            "w211.11 against a copy without types",
            one.clone(),
            b"a",
            BACK,
        ),
        back(
            "w211.11 against a copy of the draft",
            with_copy(one.clone(), copy(40)),
            b"a",
            (0, 0, 0, 0, 0),
        ),
        back(
            "w211.11 against another copy",
            with_copy(one.clone(), copy(41)),
            b"a",
            (0, 0, 0, 0, 2),
        ),
        back(
            "w211.11 none on a refusal",
            with_draft(one, vec![0x5A; 30]),
            b"a",
            no_room(40),
        ),
    ]
}

/// W-211.12: what a refusal leaves, and what coming back leaves.
fn refusals() -> Vec<FixedCall> {
    let mut two = editor(&[("a", 40), ("b", 50)], 100, 50);
    two.shelf[2..].fill(JUNK);
    let spread = with_row(two.clone(), 1, |row| row.start = 50);
    vec![
        set("w211.12 57 leaves the shelf", two.clone(), b"", FULL),
        set(
            "w211.12 58 leaves the shelf",
            with_row(two.clone(), 1, |row| row.start = 51),
            b"c",
            NONE,
        ),
        set(
            "w211.12 the draft's refusal leaves the shelf",
            with_draft(spread.clone(), Vec::new()),
            b"c",
            (1, 0, 0, 0, 0),
        ),
        set("w211.12 10 leaves the shelf", spread, b"c", no_room(140)),
        back(
            "w211.12 10 leaves the draft",
            with_draft(two.clone(), vec![0x5A; 39]),
            b"a",
            no_room(40),
        ),
        back("w211.12 names set later stay", two, b"a", BACK),
    ]
}

/// W-211.13: shelves that no call made.
fn strange_shelves() -> Vec<FixedCall> {
    let named = editor(&[("a", 40), ("sixteen letters.", 30)], 100, 30);
    let nameless = with_row(named, 1, |row| row.name_len = 17);
    let vast = with_row(nameless.clone(), 1, |row| row.name_len = usize::MAX);
    let twice = |size| laid(&[("a", 40, 50), ("a", 0, 40)], 90, size);
    let lend = |room| with_draft(twice(50), vec![0x5A; room]);
    vec![
        set(
            "w211.13 a place without a name moves",
            nameless.clone(),
            b"a",
            SET,
        ),
        set(
            "w211.13 and takes room",
            with_draft(nameless.clone(), lent(&draft(71))),
            b"a",
            no_room(101),
        ),
        set(
            "w211.13 its letters are another name",
            nameless.clone(),
            b"sixteen letters.",
            SET,
        ),
        back(
            "w211.13 its letters do not find it",
            nameless,
            b"sixteen letters.",
            NONE,
        ),
        back(
            "w211.13 nor does a longer name",
            vast,
            b"sixteen letters.\0",
            NONE,
        ),
        back("w211.13 the first of two rows", lend(50), b"a", BACK),
        back("w211.13 and not the second", lend(49), b"a", no_room(50)),
        set("w211.13 the first of two is replaced", twice(50), b"a", SET),
        set("w211.13 the second stays", twice(51), b"a", no_room(91)),
    ]
}

/// W-211.14: where names and drafts lie.
fn arrangement() -> Vec<FixedCall> {
    let mut apart = laid(&[("a", 60, 40), ("", 90, 7), ("c", 10, 30)], 160, 50);
    apart.shelf[1].name_len = 0;
    vec![
        set("w211.14 the first free row", apart.clone(), b"b", SET),
        set("w211.14 the row of the name", apart, b"a", SET),
    ]
}
