//! `release reordered`: the same sections in another order, or what parts two records.
mod common;

use common::{record, run, run_on, vectors, Drawn, Folder};
use menqachu::record::commands::by_byte;
use menqachu::record::parts::Parts;
use menqachu::record::reorder::{order, Bytes, Moves, Order};
use menqachu::record::room::{check_whole, list_whole};
use menqachu::record::sections::{cut, readable};
use menqachu::record::twice::twice;
use menqachu::Side;

/// A record with every sort of section, and with two values, members and variants.
const ONE: &str = "head 1.2.0\nconstant G 5\nalias a u16\nenum e 1 since=1.0.0\nvalue X 0\nvalue Y 1\n\
                   bitfield b 1 since=1.0.0\nmember m 0\nmember n 1 width=3\nstruct s slot=info version=G\n\
                   field f scalar type=u8\nfield g cstr_ptr\nkey k since=1.1.0\nfamily t d e l\n\
                   field c scalar type=u8\nvariant X\nfield p scalar type=u32\nvariant Y\n\
                   unstored_key u since=1.0.0\nversion s 4\nversion s 5\nend\n";

/// Both records over the pool of the first.
fn pooled(one: &str, other: &str) -> (Parts, Parts) {
    let pool = record(one).pool;
    let pool = String::from_utf8(pool).expect("a pool is ASCII");
    let over = |text: &str| record(&format!("pool \"{pool}\"\n{text}"));
    (over(one), over(other))
}

/// What is printed of two texts over one pool, with the status.
fn said(one: &str, other: &str) -> (i32, String) {
    let (one, other) = pooled(one, other);
    let ran = run_on(&["reordered", "-", "-"], &[one.to_bytes(), other.to_bytes()].concat());
    assert_eq!(ran.err, "");
    (ran.status, ran.text().to_string())
}

/// What parts a record from the one above, of which this line or these lines are replaced.
fn parted(old: &str, new: &str) -> String {
    assert!(ONE.contains(old), "{old}");
    let (status, line) = said(ONE, &ONE.replace(old, new));
    let line = line.strip_prefix("not reordered: ").and_then(|line| line.strip_suffix('\n'));
    assert_eq!((status, line.is_some()), (1, true), "{old}");
    line.unwrap_or_default().to_string()
}

#[test]
fn nothing_moved() {
    assert_eq!(said(ONE, ONE), (0, "equal: 9 sections, nothing moved\n".to_string()));
    assert_eq!(said("head\nend", "head\nend").1, "equal: 0 sections, nothing moved\n");
}

#[test]
fn sections_and_what_is_in_them() {
    let other =
        "head 1.2.0\nversion s 5\nenum e 1 since=1.0.0\nvalue Y 1\nvalue X 0\nalias a u16\nfamily t d e l\n\
                 field c scalar type=u8\nvariant Y\nvariant X\nfield p scalar type=u32\n\
                 struct s slot=info version=G\nfield f scalar type=u8\nfield g cstr_ptr\nkey k since=1.1.0\n\
                 bitfield b 1 since=1.0.0\nmember n 1 width=3\nmember m 0\nunstored_key u since=1.0.0\n\
                 version s 4\nconstant G 5\nend";
    let lines = "reordered: 6 of 9 sections, 2 values, 2 members and 2 variants stand at another place\n\
                 either is accepted where the other is, beside any record in which no name or slot stands twice\n";
    assert_eq!(said(ONE, other), (0, lines.to_string()));
    assert_eq!(said(other, ONE), (0, lines.to_string()));
    let swapped = ONE.replace("value X 0\nvalue Y 1\n", "value Y 1\nvalue X 0\n");
    let front = "reordered: 0 of 9 sections, 2 values, 0 members and 0 variants stand ";
    assert!(said(ONE, &swapped).1.starts_with(front));
}

#[test]
fn operands_that_differ() {
    let in_both = |what: &str, first: &str, second: &str| {
        format!("{what} is {first} in the first record and {second} in the second")
    };
    let head = in_both("head: release", "1.2.0", "1.1.0");
    assert_eq!(parted("head 1.2.0", "head 1.1.0"), head);
    assert_eq!(parted("head 1.2.0", "head 1.2.0 unreleased"), in_both("head: unreleased", "not set", "set"));
    assert_eq!(parted("constant G 5", "constant G 6"), in_both("constant G: value", "5", "6"));
    assert_eq!(parted("constant G 5", "constant G text=5"), in_both("constant G: value", "5", "text=5"));
    assert_eq!(parted("constant G 5", "constant G 5 api"), in_both("constant G: api", "not set", "set"));
    assert_eq!(parted("alias a u16", "alias a u8"), in_both("alias a: underlying type", "u16", "u8"));
    assert_eq!(parted("enum e 1", "enum e 2"), in_both("enum e: size", "1", "2"));
    assert_eq!(parted("value Y 1", "value Y 2"), in_both("enum e, value Y: number", "1", "2"));
    let since = in_both("enum e, value X: since", "absent", "1.0.0");
    assert_eq!(parted("value X 0", "value X 0 since=1.0.0"), since);
    let absent = in_both("enum e, value X: since", "absent", "\"absent\"");
    assert_eq!(parted("value X 0", "value X 0 since=absent"), absent);
    assert_eq!(parted("width=3", "width=2"), in_both("bitfield b, member n: width", "3", "2"));
    assert_eq!(parted("slot=info ", ""), in_both("struct s: slot", "info", "absent"));
    assert_eq!(parted("g cstr_ptr", "g string"), in_both("struct s, field g: kind", "cstr_ptr", "string"));
    assert_eq!(parted("key k since=1.1.0", "key k"), in_both("struct s, key k: since", "1.1.0", "absent"));
    assert_eq!(parted("family t d e l", "family t d e m"), in_both("family t: length field", "l", "m"));
    assert_eq!(parted("type=u32", "type=u16"), in_both("family t, variant X, field p: type", "u32", "u16"));
    let key = in_both("unstored_key u: since", "1.0.0", "1.1.0");
    assert_eq!(parted("unstored_key u since=1.0.0", "unstored_key u since=1.1.0"), key);
}

/// Fields and their keys keep their order.
#[test]
fn fields_that_differ() {
    let swapped =
        parted("field f scalar type=u8\nfield g cstr_ptr", "field g cstr_ptr\nfield f scalar type=u8");
    assert_eq!(swapped, "struct s: the first record has field f where the second has field g");
    let gone = parted("key k since=1.1.0\n", "");
    assert_eq!(gone, "struct s: the first record has key k where the second has no more");
    let common = parted("field c scalar type=u8\n", "");
    assert_eq!(common, "family t: the first record has field c where the second has no more");
    let added = parted("variant Y\n", "variant Y\nfield q scalar\n");
    assert_eq!(added, "family t, variant Y: the first record has no more where the second has field q");
}

#[test]
fn sections_that_one_lacks() {
    assert_eq!(parted("alias a u16\n", ""), "alias a is in the first record alone");
    assert_eq!(parted("alias a u16\n", "alias a u16\nalias z u8\n"), "alias z is in the second record alone");
    assert_eq!(parted("value Y 1\n", ""), "enum e, value Y is in the first record alone");
    assert_eq!(
        parted("member m 0\n", "member o 7\nmember m 0\n"),
        "bitfield b, member o is in the second record alone"
    );
    assert_eq!(parted("variant X\n", "variant Z\n"), "family t, variant X is in the first record alone");
    assert_eq!(parted("version s 5", "version s 6"), "version s 5 is in the first record alone");
    let twice = parted("version s 5", "version s 5\nversion s 5");
    assert_eq!(twice, "version s 5 stands 1 time in the first record and 2 times in the second");
    // The first in the first record's order, although the second record's own comes before it.
    assert_eq!(
        parted("alias a u16\nenum e 1", "alias z u16\nenum e 2"),
        "alias a is in the first record alone"
    );
}

/// The premise: the first name or slot that stands twice. Version entries and the keys of families are free.
#[test]
fn names_that_stand_twice() {
    let cases = [
        ("constant c 1\nconstant c 2", "constant c"),
        ("alias c u8\nalias c u16", "alias c"),
        ("enum c 1\nenum c 2", "enum c"),
        ("enum c 1\nvalue v 1\nvalue v 2", "enum c, value v"),
        ("bitfield c 1\nbitfield c 2", "bitfield c"),
        ("bitfield c 1\nmember v 1\nmember v 2", "bitfield c, member v"),
        ("struct c\nstruct c\nfield f scalar", "struct c"),
        ("family c d e l\nfamily c d e m", "family c"),
        ("struct c\nfield f scalar\nkey v\nunstored_key v", "plugin key v"),
        ("struct c slot=x\nstruct d slot=x", "slot x"),
        ("struct c\nfamily c d e l", "layout c"),
        ("family c d e l\nvariant v\nvariant v\nfield f scalar", "layout c::v"),
        ("family c d e l\nvariant \":v\"\nfamily c: d e l\nvariant v", "layout c:::v"),
    ];
    for (sections, name) in cases {
        let (one, other) =
            (format!("head\n{sections}\nalias z u8\nend"), format!("head\nalias z u8\n{sections}\nend"));
        let (status, lines) = said(&one, &other);
        let last = format!("\n{name} stands twice, so one may be accepted where the other is not\n");
        assert!(status == 1 && lines.starts_with("reordered: ") && lines.ends_with(&last), "{lines}");
        assert_eq!(said(&one, &one).0, 0, "{name}");
    }
    let free =
        "version s 1\nversion s 1\nfamily c d e l\nfield f scalar\nkey v\nstruct w\nfield f scalar\nkey v\n\
                alias w u8\nenum w 1\nvalue v 1\nenum x 1\nvalue v 1";
    let (one, other) = (format!("head\n{free}\nalias z u8\nend"), format!("head\nalias z u8\n{free}\nend"));
    assert_eq!(said(&one, &other).0, 0);
}

/// Contents are compared, and another pool is said to be one.
#[test]
fn other_pools_and_other_places() {
    let folder = Folder::new("reordered_pools");
    let one = folder.record("one.rec", ONE);
    let other =
        folder.record("other.rec", &ONE.replace("constant G 5\nalias a u16", "alias a u16\nconstant G 5"));
    let lines = "reordered: 2 of 9 sections, 0 values, 0 members and 0 variants stand at another place\n\
                 the pool is another one, which the proof does not cover\n";
    assert_eq!(run(&["reordered", &one, &other]).said(1), lines);
    let longer = folder.record("longer.rec", &format!("pool \"zz\"\n{ONE}"));
    let lines = "in the same order: 9 sections, nothing moved\nthe pool is another one, which the proof does not cover\n";
    assert_eq!(run(&["reordered", &one, &longer]).said(1), lines);
    // The pool is "aa"; an alias of u8 is no text of it, so both names are moved by a byte.
    let mut moved = record("pool \"aa\"\nhead\nalias a a\nend");
    let kept = folder.file("kept.rec", &moved.to_bytes());
    moved.stream[6] = 1;
    let moved = folder.file("moved.rec", &moved.to_bytes());
    let lines = "in the same order: 1 section, nothing moved\n\
                 texts lie at other places of the pool, or bytes differ that nothing reads, which the proof does not cover\n";
    assert_eq!(run(&["reordered", &kept, &moved]).said(1), lines);
}

#[test]
fn json() {
    let ran = |one: &Parts, other: &Parts| {
        run_on(&["reordered", "--json", "-", "-"], &[one.to_bytes(), other.to_bytes()].concat())
    };
    let (one, other) = pooled("head\nalias a a\nversion a 1\nend", "head\nversion a 1\nalias a a\nend");
    let moved = "{\"refusal\":null,\"order\":{\"answer\":\"reordered\",\"covered\":true,\"sections\":2,\
                 \"moved\":{\"sections\":2,\"values\":0,\"members\":0,\"variants\":0},\"same_pool\":true,\
                 \"same_bytes\":true,\"twice\":null,\"apart\":null}}\n";
    assert_eq!(ran(&one, &other).said(0), moved);
    assert!(ran(&one, &one)
        .said(0)
        .starts_with("{\"refusal\":null,\"order\":{\"answer\":\"equal\",\"covered\":true,"));
    let doubled = pooled("head\nalias a a\nalias a b\nend", "head\nalias a b\nalias a a\nend");
    assert!(ran(&doubled.0, &doubled.1).said(1).contains(",\"twice\":\"alias a\",\"apart\":null}"));
    let apart = |at: &str, what: &str| {
        format!(
            "{{\"refusal\":null,\"order\":{{\"answer\":\"apart\",\"covered\":false,\"sections\":null,\"moved\":null,\
             \"same_pool\":null,\"same_bytes\":null,\"twice\":null,\"apart\":{{\"at\":[{at}],{what}}}}}}}\n"
        )
    };
    let other = record("head\nenum a 1\nvalue v 2\nend");
    let operand = "\"what\":\"operand\",\"operand\":\"number\",\"first\":\"1\",\"second\":\"2\"";
    let expected = apart("\"enum a\",\"value v\"", operand);
    assert_eq!(ran(&record("head\nenum a 1\nvalue v 1\nend"), &other).said(1), expected);
    let count = "\"what\":\"count\",\"operand\":null,\"first\":0,\"second\":1";
    assert_eq!(ran(&record("head\nend"), &other).said(1), apart("\"enum a\"", count));
    let command = "\"what\":\"command\",\"operand\":null,\"first\":\"field f\",\"second\":null";
    let (one, other) = (record("head\nstruct s\nfield f scalar\nend"), record("head\nstruct s\nend"));
    assert_eq!(ran(&one, &other).said(1), apart("\"struct s\"", command));
}

/// The commands of a stream, as their bytes.
fn commands(stream: &[u8]) -> Vec<&[u8]> {
    let mut rest = stream;
    let mut all = Vec::new();
    while let Some(&byte) = rest.first() {
        let (command, after) = rest.split_at(by_byte(byte).expect("a command").width());
        all.push(command);
        rest = after;
    }
    all
}

/// A readable record with its sections, and the parts of each, in a drawn order.
fn shuffled(parts: &Parts, drawn: &mut Drawn) -> Parts {
    let all = commands(&parts.stream);
    let [head, inside @ .., end] = &all[..] else { panic!("a head and an end") };
    let mut sections: Vec<Vec<u8>> = inside
        .chunk_by(|_, next| matches!(next[0], 5 | 7 | 10..=12))
        .map(|section| {
            let first =
                section.iter().position(|command| matches!(command[0], 5 | 7 | 10)).unwrap_or(section.len());
            let (fixed, rest) = section.split_at(first);
            let mut inner: Vec<&[&[u8]]> = rest.chunk_by(|_, next| !matches!(next[0], 5 | 7 | 10)).collect();
            shuffle(&mut inner, drawn);
            [fixed.concat(), inner.concat().concat()].concat()
        })
        .collect();
    shuffle(&mut sections, drawn);
    Parts { stream: [head, &sections.concat()[..], end].concat(), pool: parts.pool.clone() }
}

fn shuffle<T>(list: &mut [T], drawn: &mut Drawn) {
    for at in (1..list.len()).rev() {
        list.swap(at, drawn.below(at + 1));
    }
}

/// How the sections of two records stand to each other, and whether no name of the first stands twice.
fn compared(one: &Parts, other: &Parts) -> (Order, bool) {
    let (said, there) =
        (readable(one.record()).expect("readable"), readable(other.record()).expect("readable"));
    let (first, second) = (cut(&said, &one.stream), cut(&there, &other.stream));
    (order((one.record(), &first), (other.record(), &second)), twice(&first).is_none())
}

/// Readable pairs of the vectors, both records shuffled: they are reordered, and where no name stands twice the check
/// accepts them as before.
#[test]
fn shuffled_records_are_accepted_alike() {
    let mut drawn = Drawn(214);
    let (mut moved, mut accepted, mut refused) = (0, 0, 0);
    for pair in vectors::pairs() {
        let (current, released) = (&pair.current, &pair.released);
        if (1..=9).contains(&check_whole(current.record(), released.record()).0.number) {
            continue;
        }
        let (now, was) = (shuffled(current, &mut drawn), shuffled(released, &mut drawn));
        let mut once = true;
        for (one, other) in [(current, &now), (released, &was)] {
            let (order, alone) = compared(one, other);
            let Order::Alike { moves, bytes } = order else { panic!("{one:?} and {other:?}") };
            assert!(matches!(bytes, Bytes::Equal | Bytes::Moved), "{bytes:?}");
            assert_eq!(bytes == Bytes::Equal, one == other);
            moved += usize::from(moves != Moves::default());
            once &= alone;
        }
        if once {
            let before = check_whole(current.record(), released.record()).0.number;
            let after = check_whole(now.record(), was.record()).0.number;
            assert_eq!(before == 0, after == 0, "{current:?} {released:?} {now:?} {was:?}");
            *(if before == 0 { &mut accepted } else { &mut refused }) += 1;
        }
    }
    assert!(moved > 1_000 && accepted > 300 && refused > 800, "{moved} {accepted} {refused}");
}

/// One changed byte of a readable record is no reordering, unless nothing reads it.
#[test]
fn a_changed_byte_is_told() {
    let (mut drawn, mut apart, mut alike) = (Drawn(7), 0, 0);
    for one in vectors::records() {
        if list_whole(one.record(), Side::Released).0.number != 0 {
            continue;
        }
        let mut other = shuffled(&one, &mut drawn);
        let at = drawn.below(other.stream.len());
        other.stream[at] ^= 1 << drawn.below(8);
        if list_whole(other.record(), Side::Released).0.number != 0 {
            continue;
        }
        match compared(&one, &other).0 {
            Order::Apart(_) => apart += 1,
            Order::Alike { bytes, .. } => {
                assert_eq!(bytes, Bytes::OtherPlaces);
                alike += 1;
            }
        }
    }
    assert!(apart > 300 && alike > 30, "{apart} {alike}");
}

/// As many sections as a stream holds, in the opposite order.
#[test]
fn thousands_of_sections() {
    let names: Vec<String> = (0..3_000).map(|number| format!("{number:04}")).collect();
    let text = |names: &mut dyn Iterator<Item = &String>| {
        let sections: String = names.map(|name| format!("alias {name} u8\n")).collect();
        format!("head\n{sections}end")
    };
    let (one, other) = pooled(&text(&mut names.iter()), &text(&mut names.iter().rev()));
    let ran = run_on(&["reordered", "-", "-"], &[one.to_bytes(), other.to_bytes()].concat());
    assert!(ran.said(0).starts_with("reordered: 3000 of 3000 sections, "), "{}", ran.text());
}

#[test]
fn damaged_records() {
    let folder = Folder::new("reordered_damaged");
    let good = folder.record("good.rec", "head\nend");
    let cut = folder.file("cut.rec", b"");
    let line = format!(
        "release: {cut}: 1 cut: record, place 0 of the stream, the end of the stream: \
         the stream ends inside a command, or without 0F\n"
    );
    assert_eq!(run(&["reordered", &good, &cut]).complained(2), line);
    assert_eq!(run(&["reordered", &cut, &good]).complained(2), line);
    let ran = run(&["reordered", "--json", &good, &cut]);
    assert_eq!((ran.status, ran.err.as_str()), (2, line.as_str()));
    let front =
        "{\"refusal\":{\"accepted\":false,\"number\":1,\"word\":\"cut\",\"message\":null,\"side\":null";
    assert!(ran.text().starts_with(front) && ran.text().ends_with(",\"order\":null}\n"), "{}", ran.text());
    let vast =
        folder.record("vast.rec", "head\nstruct s\nfield a padding size=4294967295\nfield b scalar\nend");
    assert!(run(&["reordered", &vast, &vast]).complained(2).contains(": 9 vast: record, place "));
}

#[test]
fn usage_and_files() {
    assert!(run(&["reordered", "a"]).complained(3).contains("expected 2 operands, found 1"));
    assert!(run(&["reordered", "missing.rec", "b"]).complained(3).contains("cannot read missing.rec"));
    assert!(run(&["reordered", "a", "b", "--released"])
        .complained(3)
        .contains("there is no option --released"));
}
