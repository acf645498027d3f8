//! Fixed calls of a draft: findings W-210.1 to W-210.18, with the answers that
//! document 02 asks for, worked out by hand.

use crate::commands;
use crate::edits::{Edit, parts_of};
use crate::generate::encode::{Encoded, encode_spread, encode_tight};
use crate::generate::make::{
    content, enumeration, family, field, integer, padding, scalar, structure,
};
use crate::model::{Content, Item};
use crate::reader::{POOL_LIMIT, STREAM_LIMIT};

/// The count that every fixed edit is given, which is not the right one.
pub const GIVEN: usize = 77;

/// A call on a draft: the count, or an edit.
#[derive(Clone, Debug)]
pub struct FixedEdit {
    pub label: &'static str,
    pub buffer: Vec<u8>,
    pub call: Option<Edit>,
    pub copy: Encoded,
    /// Number, side, place, length and count.
    pub answer: (u32, u32, usize, usize, usize),
}

pub fn edits() -> Vec<FixedEdit> {
    [
        orders(),
        shapes(),
        heads(),
        names(),
        texts(),
        limits(),
        parts(),
        counts(),
    ]
    .concat()
}

/// An enum, a structure, and a family with a variant: three layouts.
fn items(release: &str) -> Content {
    content(release)
        .with(enumeration("e", 1))
        .with(structure("tile").field(scalar("n", "u16")))
        .with(family("fam").variant("v", &[scalar("x", "u8")]))
}

fn draft() -> Encoded {
    encode_spread(&items("0.9.0"))
}

fn copy() -> Encoded {
    encode_spread(&items("0.8.0"))
}

fn addition(item: impl Into<Item>) -> Encoded {
    encode_spread(&content("0.9.0").with(item))
}

fn add(item: impl Into<Item>) -> Option<Edit> {
    Some(Edit::Add(addition(item)))
}

fn remove(name: &str) -> Option<Edit> {
    Some(Edit::Remove(name.as_bytes().to_vec()))
}

/// A record's parts with room behind them.
fn lent(record: &Encoded) -> Vec<u8> {
    with_room(record, 200)
}

fn with_room(record: &Encoded, room: usize) -> Vec<u8> {
    let mut buffer = parts_of(record);
    buffer.resize(buffer.len() + room, 0xA5);
    buffer
}

fn vast() -> Item {
    let fields = [padding("p", u32::MAX), scalar("n", "u8")];
    let mut s = structure("vast");
    s.fields = fields.to_vec();
    s.into()
}

fn fixed(
    label: &'static str,
    buffer: Vec<u8>,
    call: Option<Edit>,
    copy: Encoded,
    answer: (u32, u32, usize, usize, usize),
) -> FixedEdit {
    FixedEdit {
        label,
        buffer,
        call,
        copy,
        answer,
    }
}

/// A draft of three layouts beside an equal copy.
fn plain(
    label: &'static str,
    call: Option<Edit>,
    answer: (u32, u32, usize, usize, usize),
) -> FixedEdit {
    fixed(label, lent(&draft()), call, copy(), answer)
}

/// What an addition of fresh texts needs beside the draft: its commands without
/// head and end, and its texts without the head's.
fn needed(draft: &Encoded, addition: &Encoded) -> usize {
    let commands = draft.stream.len() + addition.stream.len() - 6;
    8 + commands + draft.pool.len() + addition.pool.len() - "0.9.0".len()
}

/// W-210.1 and W-210.2: each refusal before the next, and the count given back.
fn orders() -> Vec<FixedEdit> {
    let mut cut = addition(structure("tile"));
    cut.stream.pop();
    let end = cut.stream.len();
    let cut = Some(Edit::Add(cut));
    let mut held_vast = vast();
    if let Item::Struct(s) = &mut held_vast {
        s.name = "tile".into();
    }
    let more = structure("more");
    let fresh = needed(&draft(), &addition(more.clone()));
    let tight = with_room(&draft(), 0);
    vec![
        fixed(
            "w210.1 the draft before the copy",
            vec![0; 8],
            cut.clone(),
            Encoded::default(),
            (1, 0, 0, 0, GIVEN),
        ),
        fixed(
            "w210.1 the copy before the addition",
            lent(&draft()),
            cut.clone(),
            Encoded::default(),
            (1, 1, 0, 0, GIVEN),
        ),
        plain("w210.1 the addition before 55", cut, (1, 2, end, 0, GIVEN)),
        plain("w210.1 55 before 9", add(held_vast), (55, 0, 0, 0, GIVEN)),
        fixed(
            "w210.1 9 before 10",
            tight.clone(),
            add(vast()),
            copy(),
            (9, 0, draft().stream.len() - 1, 0, GIVEN),
        ),
        fixed(
            "w210.1 10 last",
            tight,
            add(more),
            copy(),
            (10, 0, 0, fresh, GIVEN),
        ),
        plain(
            "w210.2 56 gives the count back",
            remove("nobody"),
            (56, 0, 0, 0, GIVEN),
        ),
        fixed(
            "w210.2 a refused count is 0",
            vec![0; 8],
            None,
            copy(),
            (1, 0, 0, 0, 0),
        ),
        fixed(
            "w210.2 the copy's refusal of a count is 0",
            lent(&draft()),
            None,
            Encoded::default(),
            (1, 1, 0, 0, 0),
        ),
    ]
}

/// W-210.3: head, one type, 0F.
fn shapes() -> Vec<FixedEdit> {
    let shaped = |content: Content| Some(Edit::Add(encode_spread(&content)));
    let behind = |bytes: &[u8]| {
        let mut record = addition(structure("more"));
        record.stream.extend(bytes);
        Some(Edit::Add(record))
    };
    let before_end = |bytes: &[u8]| {
        let mut record = addition(structure("more"));
        record.stream.pop();
        record.stream.extend(bytes);
        Some(Edit::Add(record))
    };
    let none = content("0.9.0");
    let two = content("0.9.0").with(structure("a")).with(family("b"));
    let constant = content("0.9.0").with(integer("c", 1)).with(structure("a"));
    let version = [commands::VERSION, 0, 0, 1, 1, 0, 0, 0, commands::END];
    vec![
        plain("w210.3 no type", shaped(none), (3, 2, 5, 0, GIVEN)),
        plain(
            "w210.3 a constant before the type",
            shaped(constant),
            (3, 2, 5, 0, GIVEN),
        ),
        plain("w210.3 a second type", shaped(two), (3, 2, 15, 0, GIVEN)),
        plain(
            "w210.3 a version entry",
            before_end(&version),
            (3, 2, 15, 0, GIVEN),
        ),
        plain("w210.3 a byte after 0F", behind(&[0]), (3, 2, 16, 0, GIVEN)),
        plain(
            "w210.3 2 before 3",
            before_end(&[0x11]),
            (2, 2, 15, 0, GIVEN),
        ),
        plain(
            "w210.3 1 before 3",
            before_end(&version[..5]),
            (1, 2, 15, 0, GIVEN),
        ),
        plain(
            "w210.3 a variant in a structure",
            before_end(&[commands::VARIANT, 0, 0, 1]),
            (3, 2, 15, 0, GIVEN),
        ),
        plain(
            "w210.3 3 before 4",
            before_end(&[commands::ALIAS, 0xFF, 0, 1, 0, 0, 1]),
            (3, 2, 15, 0, GIVEN),
        ),
    ]
}

/// W-210.4 and W-210.5: the addition's head is judged and left, its sizes are
/// the draft's.
fn heads() -> Vec<FixedEdit> {
    let undated = encode_spread(&content("").without_release().with(structure("more")));
    let mut flagged = addition(structure("more"));
    flagged.stream[4] = 2;
    let mut long = content("a release that is longer than the type");
    long.items.push(structure("more").into());
    let long = encode_spread(&long);
    let room = "more".len() + 10;
    let sized = |size| encode_spread(&content("0.9.0").with(enumeration("big", size)));
    let user = structure("user")
        .field(field("h", "enum").of("big"))
        .field(scalar("n", "u8"));
    let full = sized(u32::MAX);
    vec![
        plain(
            "w210.4 the head's release is required",
            Some(Edit::Add(undated)),
            (5, 2, 0, 0, GIVEN),
        ),
        plain(
            "w210.4 the head's flag is judged",
            Some(Edit::Add(flagged)),
            (6, 2, 0, 0, GIVEN),
        ),
        fixed(
            "w210.4 the head takes no room",
            with_room(&draft(), room),
            Some(Edit::Add(long)),
            copy(),
            (0, 0, 0, 0, 1),
        ),
        fixed(
            "w210.5 sizes are the draft's",
            lent(&full),
            add(user.clone()),
            copy(),
            (9, 0, full.stream.len() - 1, 0, GIVEN),
        ),
        fixed(
            "w210.5 a size at the limit",
            lent(&sized(u32::MAX - 1)),
            add(user.clone()),
            copy(),
            (0, 0, 0, 0, 4),
        ),
        plain(
            "w210.5 a type that the draft lacks",
            add(user),
            (0, 0, 0, 0, 1),
        ),
    ]
}

/// W-210.6 to W-210.9: which names are held, and which is the first.
fn names() -> Vec<FixedEdit> {
    let doubled = encode_spread(
        &items("0.9.0")
            .with(structure("fam"))
            .with(structure("tile").field(scalar("m", "u8"))),
    );
    let shared =
        |first: Item, second: Item| encode_spread(&content("0.9.0").with(first).with(second));
    let kept = structure("a").field(scalar("n", "u16"));
    let family_first = shared(family("a").variant("v", &[]).into(), kept.clone().into());
    let structure_first = shared(kept.clone().into(), family("a").variant("v", &[]).into());
    let beside = encode_spread(&content("0.8.0").with(kept));
    vec![
        plain(
            "w210.6 a family under a structure's name",
            add(family("tile")),
            (55, 0, 0, 0, GIVEN),
        ),
        plain(
            "w210.6 a structure under a family's name",
            add(structure("fam")),
            (55, 0, 0, 0, GIVEN),
        ),
        fixed(
            "w210.6 a replaced type's name",
            lent(&doubled),
            add(structure("tile")),
            copy(),
            (55, 0, 0, 0, GIVEN),
        ),
        plain(
            "w210.6 a variant's name",
            add(structure("v")),
            (0, 0, 0, 0, 1),
        ),
        plain(
            "w210.6 an enum's name",
            add(structure("e")),
            (0, 0, 0, 0, 1),
        ),
        plain(
            "w210.6 the name of a variant's layout",
            add(structure("fam::v")),
            (0, 0, 0, 0, 0),
        ),
        plain("w210.6 the empty name", add(structure("")), (0, 0, 0, 0, 1)),
        plain(
            "w210.7 the name of a variant's layout",
            remove("fam::v"),
            (56, 0, 0, 0, GIVEN),
        ),
        plain("w210.7 an enum's name", remove("e"), (56, 0, 0, 0, GIVEN)),
        plain("w210.7 a name's front", remove("til"), (56, 0, 0, 0, GIVEN)),
        plain("w210.7 the empty name", remove(""), (56, 0, 0, 0, GIVEN)),
        fixed(
            "w210.8 the family stands first",
            lent(&family_first),
            remove("a"),
            beside.clone(),
            (0, 0, 0, 0, 0),
        ),
        fixed(
            "w210.8 the structure stands first",
            lent(&structure_first),
            remove("a"),
            beside,
            (0, 0, 0, 0, 2),
        ),
        fixed(
            "w210.8 a replaced type goes, the later stays",
            lent(&doubled),
            remove("tile"),
            copy(),
            (0, 0, 0, 0, 1),
        ),
        plain("w210.9 all parts go", remove("fam"), (0, 0, 0, 0, 2)),
    ]
}

/// W-210.10, W-210.11 and W-210.14: what is covered, and the room it takes.
fn texts() -> Vec<FixedEdit> {
    let more = structure("more").field(scalar("n", "u16"));
    let fresh = needed(&draft(), &addition(more.clone()));
    let exact = fresh - parts_of(&draft()).len();
    let mut unused = encode_spread(
        &content("0.9.0")
            .with(integer("c", 1))
            .with(structure("tile")),
    );
    unused.pool.extend(b"unused");
    unused.stream[18..21].copy_from_slice(&[(unused.pool.len() - 6) as u8, 0, 6]);
    let shared = encode_tight(
        &content("0.9.0")
            .with(structure("abcd").field(scalar("bc", "u8")))
            .with(structure("cdx")),
    );
    let mut free = draft();
    free.pool.extend(b"no text covers these");
    let free_room = with_room(&free, exact - 20);
    let empty = structure("").field(scalar("", ""));
    let empty_need = 8 + draft().stream.len() + 43 + draft().pool.len() + "scalar".len();
    vec![
        fixed(
            "w210.11 exact room",
            with_room(&draft(), exact),
            add(more.clone()),
            copy(),
            (0, 0, 0, 0, 1),
        ),
        fixed(
            "w210.11 a byte less",
            with_room(&draft(), exact - 1),
            add(more.clone()),
            copy(),
            (10, 0, 0, fresh, GIVEN),
        ),
        fixed(
            "w210.11 free bytes are room",
            free_room.clone(),
            add(more.clone()),
            copy(),
            (0, 0, 0, 0, 1),
        ),
        fixed(
            "w210.11 and no more than they are",
            free_room[..free_room.len() - 1].to_vec(),
            add(more),
            copy(),
            (10, 0, 0, fresh, GIVEN),
        ),
        fixed(
            "w210.10 a constant's unused text covers",
            with_room(&unused, 0),
            add(structure("b")),
            copy(),
            (10, 0, 0, parts_of(&unused).len() + 11, GIVEN),
        ),
        fixed(
            "w210.10 absent and empty texts cover nothing",
            with_room(&draft(), 0),
            add(empty),
            copy(),
            (10, 0, 0, empty_need, GIVEN),
        ),
        fixed(
            "w210.14 shared texts stay",
            with_room(&shared, 0),
            remove("abcd"),
            copy(),
            (0, 0, 0, 0, 4),
        ),
        fixed(
            "w210.14 overlapping texts stay",
            with_room(&shared, 0),
            remove("cdx"),
            copy(),
            (0, 0, 0, 0, 4),
        ),
    ]
}

/// W-210.12 and W-210.13: 8 of the result, and a removal without a refusal.
fn limits() -> Vec<FixedEdit> {
    let mut wide = structure("wide");
    for nth in 0..64 {
        wide.fields.push(scalar(&format!("{nth:x<250}"), "u8"));
    }
    let wide = encode_tight(&content("0.9.0").with(wide));
    let mut padded = draft();
    padded.pool.resize(POOL_LIMIT, b' ');
    let mut long = structure("long");
    long.fields = vec![scalar("n", "u8"); (STREAM_LIMIT - 16) / 33];
    let long = encode_tight(&content("0.9.0").with(long));
    let tail = structure(&"m".repeat(250)).field(scalar(&"k".repeat(200), "u16"));
    let small = encode_spread(&content("0.8.0"));
    vec![
        fixed(
            "w210.12 covered bytes above the pool's limit",
            with_room(&wide, 1000),
            add(tail),
            small.clone(),
            (8, 0, 0, 0, GIVEN),
        ),
        fixed(
            "w210.12 commands above the stream's limit",
            with_room(&long, 1000),
            add(structure("m").field(scalar("n", "u8"))),
            small.clone(),
            (8, 0, 0, 0, GIVEN),
        ),
        fixed(
            "w210.12 a pool full of free bytes",
            with_room(&padded, 0),
            add(structure("more")),
            copy(),
            (0, 0, 0, 0, 1),
        ),
        fixed(
            "w210.13 a removal needs no room",
            with_room(&draft(), 0),
            remove("tile"),
            copy(),
            (0, 0, 0, 0, 1),
        ),
        fixed(
            "w210.13 a removal from the longest draft",
            with_room(&long, 0),
            remove("long"),
            small,
            (0, 0, 0, 0, 0),
        ),
    ]
}

/// W-210.15: a draft in parts, cut short or with stated lengths above a limit.
fn parts() -> Vec<FixedEdit> {
    let mut behind = draft();
    behind.pool.extend(b"free");
    let cut = |bytes: usize| {
        let whole = parts_of(&behind);
        whole[..whole.len() - bytes].to_vec()
    };
    let stated = |at: usize, length: u32| {
        let mut buffer = lent(&draft());
        buffer[at..at + 4].copy_from_slice(&length.to_le_bytes());
        buffer
    };
    let pool_at = 4 + draft().stream.len();
    vec![
        fixed(
            "w210.15 a pool that ends early",
            cut(2),
            remove("tile"),
            copy(),
            (0, 0, 0, 0, 1),
        ),
        fixed(
            "w210.15 a pool whose length is cut",
            parts_of(&draft())[..pool_at + 3].to_vec(),
            None,
            copy(),
            (4, 0, 0, 0, 0),
        ),
        fixed(
            "w210.15 an empty buffer",
            Vec::new(),
            remove("tile"),
            copy(),
            (1, 0, 0, 0, GIVEN),
        ),
        fixed(
            "w210.15 a stated stream above its limit",
            stated(0, 32_769),
            remove("tile"),
            copy(),
            (8, 0, 0, 0, GIVEN),
        ),
        fixed(
            "w210.15 a stated pool above its limit",
            stated(pool_at, 16_385),
            remove("tile"),
            copy(),
            (8, 0, 0, 0, GIVEN),
        ),
        fixed(
            "w210.15 a stated pool that did not come",
            stated(pool_at, 16_384),
            None,
            copy(),
            (7, 0, draft().pool.len(), 0, 0),
        ),
    ]
}

/// W-210.16 to W-210.18: the count.
fn counts() -> Vec<FixedEdit> {
    let bare = encode_spread(&content("0.8.0"));
    let unreleased = encode_spread(&items("0.8.0").unreleased());
    let padded =
        |size| encode_spread(&content("0.9.0").with(structure("s").field(padding("p", size))));
    let many = family("many")
        .variant("a", &[])
        .variant("b", &[scalar("n", "u8")]);
    let composed = structure("many::b").field(scalar("n", "u16"));
    let hidden = encode_spread(&items("0.9.0").with(composed.clone()));
    let shipped = encode_spread(&items("0.8.0").with(composed));
    let restored =
        encode_spread(&items("0.8.0").with(structure("many::b").field(scalar("n", "u8"))));
    vec![
        plain("w210.16 equal layouts", None, (0, 0, 0, 0, 0)),
        fixed(
            "w210.16 types of the draft alone",
            lent(&draft()),
            None,
            bare.clone(),
            (0, 0, 0, 0, 3),
        ),
        fixed(
            "w210.16 types of the copy alone",
            lent(&encode_spread(&content("0.9.0"))),
            None,
            copy(),
            (0, 0, 0, 0, 3),
        ),
        fixed(
            "w210.16 a type without fields",
            lent(&addition(structure("a"))),
            None,
            bare.clone(),
            (0, 0, 0, 0, 1),
        ),
        fixed(
            "w210.16 padding counts",
            lent(&padded(1)),
            None,
            padded(2),
            (0, 0, 0, 0, 1),
        ),
        fixed(
            "w210.16 an unreleased copy",
            lent(&draft()),
            None,
            unreleased,
            (0, 0, 0, 0, 0),
        ),
        plain(
            "w210.17 a family and its variants",
            add(many.clone()),
            (0, 0, 0, 0, 3),
        ),
        fixed(
            "w210.17 a variant hides an equal layout",
            lent(&hidden),
            add(many.clone()),
            shipped,
            (0, 0, 0, 0, 3),
        ),
        fixed(
            "w210.17 a variant hides an unequal layout",
            lent(&hidden),
            add(many),
            restored,
            (0, 0, 0, 0, 2),
        ),
        fixed(
            "w210.18 a wrong count is set right",
            lent(&draft()),
            remove("tile"),
            bare,
            (0, 0, 0, 0, 2),
        ),
    ]
}
