//! `release lint`, and the notes of `release check` and `release chain`: where records are outside the premises.
mod common;

use common::vectors::records;
use common::{record, run, top, Drawn, Folder};
use menqachu::premises::chain::{outside, Link};
use menqachu::premises::record::SIXTEEN;
use menqachu::premises::remarks::remarks;
use menqachu::premises::{Asked, PREMISES};
use menqachu::record::commands::Said;
use menqachu::record::decode;
use menqachu::record::owners::owners;
use menqachu::record::room::list_whole;
use menqachu::{owner, Owner, Side};

fn page(name: &str) -> String {
    std::fs::read_to_string(top().join(name)).expect("the page")
}

/// Sentences of 01's list that ask nothing of a record: what a chain and its words are.
const MEANINGS: [&str; 8] = [
    "Number 0 accepts, whatever the buffer",
    "The check keeps nothing between calls",
    "The first record and the accepted ones, in order, are the chain",
    "Fields are those of the layouts",
    "(A list is one section",
    "(a first record that only a missing",
    "(The team shows this for records",
    "That integer is the generation number",
];

/// Document 01's list, as docs/PROVED.md has it sentence by sentence: each is a premise of the table or a meaning.
#[test]
fn the_table_has_every_sentence() {
    let page = page("docs/PROVED.md");
    let table = page.split("| Document 01, \"Premises of the chain\" |").nth(1).expect("the table");
    let rows: Vec<&str> = table
        .lines()
        .skip(2)
        .take_while(|line| line.starts_with("| "))
        .filter_map(|line| line.split(" | ").next())
        .collect();
    assert_eq!(rows.len(), 17);
    let words = |row: &str| PREMISES.iter().filter(|premise| row.contains(premise.words)).count();
    let meanings = |row: &str| MEANINGS.iter().filter(|words| row.contains(*words)).count();
    for row in &rows {
        assert!((words(row) > 0) != (meanings(row) > 0), "{row}");
    }
    for premise in PREMISES {
        assert_eq!(rows.iter().filter(|row| row.contains(premise.words)).count(), 1, "{}", premise.key);
    }
}

/// trials/src/premises.rs tests the premises of one record in one expression; the table has each of its parts.
#[test]
fn the_table_has_what_the_trials_test() {
    let page = page("trials/src/premises.rs");
    let body = page.split("pub fn hold(content: &Content) -> bool {").nth(1).expect("the test");
    let mut body = body.split("\n}").next().expect("a body").to_string();
    for premise in PREMISES {
        assert_eq!(premise.trials.is_empty(), premise.asked == Asked::Generation, "{}", premise.key);
        for part in premise.trials {
            assert!(body.contains(part), "{part}");
            body = body.replacen(part, "", 1);
        }
    }
    let glue = body.replace("names(content).iter().all(|list|", "").replace("&&", "");
    assert!(glue.chars().all(|letter| letter.is_whitespace() || letter == ')'), "{glue}");
    let plain =
        page.split("const PLAIN_KINDS").nth(1).and_then(|rest| rest.split("];").next()).expect("kinds");
    let plain: Vec<&str> = plain.split('"').skip(1).step_by(2).collect();
    let pointers = SIXTEEN.iter().filter(|kind| kind.ends_with("_ptr")).count();
    assert_eq!((plain.len(), pointers), (8, 8));
    assert!(plain.iter().all(|kind| SIXTEEN.contains(kind) && !kind.ends_with("_ptr")));
}

/// The walk over all owners answers as the proved call, for every name of the vectors' records.
#[test]
fn owners_are_the_proved_call_s() {
    let (mut named, mut nobody) = (0, 0);
    for parts in records() {
        let record = parts.record();
        let Ok(commands) = decode::commands(record) else { continue };
        if list_whole(record, Side::Current).0.number != 0 {
            continue;
        }
        let owners = owners(&commands);
        let texts =
            commands.iter().flat_map(|said| (0..said.values.len()).filter_map(|index| said.text(index)));
        for name in texts.collect::<std::collections::BTreeSet<_>>() {
            let found = owners.get(name).copied();
            match owner(record, name) {
                Owner::Named { start, len } => {
                    assert_eq!(found, record.pool.get(start..start + len));
                    named += 1;
                }
                Owner::Nobody => {
                    assert_eq!(found, None);
                    nobody += 1;
                }
                Owner::Refused { .. } => panic!("a record that can be listed"),
            }
        }
    }
    assert!(named > 3000 && nobody > 5000, "{named} {nobody}");
}

/// The premises that the records of these texts are outside, as keys, with what is found.
fn found(texts: &[&str]) -> Vec<(String, String)> {
    let parts: Vec<_> = texts.iter().map(|text| record(text)).collect();
    let link = |(index, parts): (usize, _)| {
        let parts: &menqachu::record::parts::Parts = parts;
        let commands = decode::commands(parts.record()).expect("commands");
        Link { label: format!("r{index}"), commands }
    };
    let links: Vec<Link> = parts.iter().enumerate().map(link).collect();
    let outside = outside(&links);
    outside.into_iter().map(|outside| (outside.premise.key.to_string(), outside.what)).collect()
}

fn keys(texts: &[&str]) -> Vec<String> {
    let mut keys: Vec<String> = found(texts).into_iter().map(|(key, _)| key).collect();
    keys.dedup();
    keys
}

const ROOT: &str = "constant G 1\nstruct scan slot=metadata version=G\n";

/// The cases of the tests in trials/src/premises.rs.
#[test]
fn one_record() {
    let of = |items: &str| {
        keys(&[&format!(
            "head 1.0.0\n{ROOT}field t struct_ptr type=t\nfield f tagged_fam_ptr type=f\n{items}\nend"
        )])
    };
    let none: [&str; 0] = [];
    assert_eq!(
        of("struct t\nfield n scalar type=u16\nfield gap padding size=1\nfamily f d e l\nvariant V"),
        none
    );
    assert_eq!(keys(&["head 1.0.0 unreleased\nend"]), ["unreleased"]);
    assert_eq!(of("constant c 1\nconstant c 2"), ["twice"]);
    assert_eq!(of("struct t\nfamily t d e l"), ["twice"]);
    assert_eq!(of("struct t slot=other\nstruct f slot=other"), ["twice", "owned"]);
    assert_eq!(of("struct t\nfield n scalar\nkey k since=0.8.0\nunstored_key k since=0.8.0"), ["twice"]);
    assert_eq!(of("family f d e l\nfield d scalar type=u8"), ["twice"]);
    assert_eq!(
        of("family f d e l\nfield n scalar\nkey k since=0.8.0\nunstored_key k since=0.8.0"),
        ["twice"]
    );
    assert_eq!(of("enum e 1\nvalue v 1\nvalue v 2"), ["twice"]);
    assert_eq!(of("bitfield b 1 since=0.8.0\nmember m 1\nmember m 2"), ["twice"]);
    assert_eq!(of("family f d e l\nvariant V\nvariant V"), ["twice"]);
    assert_eq!(of("family f d e l\nvariant V\nfield n scalar\nfield n scalar"), ["twice"]);
    assert_eq!(of("version scan 1\nversion scan 1"), none);
    assert_eq!(of("struct t\nfield n \"padding u8\""), ["kinds"]);
    assert_eq!(of("family f d e l\nvariant V\nfield n scaler"), ["kinds"]);
    assert_eq!(of("constant a:b 1"), ["colon"]);
    assert_eq!(of("family f d e l\nvariant a:b"), ["colon"]);
}

/// A name that stands twice is told once, with what it is the name of.
#[test]
fn what_is_said() {
    let what = |items: &str| -> Vec<String> {
        let text = format!(
            "head 1.0.0\n{ROOT}field t struct_ptr type=t\nfield f tagged_fam_ptr type=f\n{items}\nend"
        );
        found(&[&text]).into_iter().map(|(_, what)| what).collect()
    };
    assert_eq!(what("struct t\nstruct t\nstruct t"), ["struct t stands twice"]);
    assert_eq!(what("struct t\nfamily t d e l"), ["layout t stands twice"]);
    assert_eq!(what("family f d e l\nvariant V\nvariant V"), ["variant V of f stands twice"]);
    assert_eq!(what("enum e 1\nvalue \"a b\" 1\nvalue \"a b\" 2"), ["value \"a b\" of e stands twice"]);
    assert_eq!(
        what("family f d e l\nfield d scaler"),
        ["field d of f has the kind scaler, which is none of the sixteen", "field d of f stands twice"]
    );
    assert_eq!(
        what("struct t slot=metadata"),
        ["slot metadata is filled twice", "struct t names no constant in r0", "nobody owns t in r0"]
    );
}

/// The premises of the generation clause, in chains of two and three records.
#[test]
fn chains() {
    let text = |release: &str, items: &str| format!("head {release}\n{items}\nend");
    let whole = |slot: &str, constant: &str, rest: &str| {
        format!("constant G 1\nconstant H 1\nstruct scan slot={slot} version={constant}\nfield t struct_ptr type=t\nstruct t\n{rest}")
    };
    let a = text("1.0.0", &whole("metadata", "G", ""));
    let b = text("1.1.0", &whole("metadata", "G", ""));
    assert_eq!(found(&[&a, &b]), []);
    assert_eq!(found(&[&a, &text("1.1.0", &whole("info", "G", ""))]), []);
    let said = |texts: &[&str]| -> Vec<String> {
        found(texts).into_iter().map(|(key, what)| format!("{key}: {what}")).collect()
    };
    // The first record may name another constant: what counts is that it holds the one of the later records.
    assert_eq!(found(&[&a, &text("1.1.0", &whole("metadata", "H", ""))]), []);
    assert_eq!(
        said(&[&a, &b, &text("1.2.0", &whole("metadata", "H", ""))]),
        ["constant: struct scan names the constant G in r1 and H in r2"]
    );
    let later = text(
        "1.1.0",
        "constant K 1\nstruct scan slot=metadata version=K\nfield t struct_ptr type=t\nstruct t",
    );
    assert_eq!(said(&[&a, &later]), ["integer: constant K, which struct scan names, is not in r0"]);
    let texted = text(
        "1.0.0",
        "constant K text=x\nstruct scan slot=metadata version=K\nfield t struct_ptr type=t\nstruct t",
    );
    assert_eq!(said(&[&texted, &later]), ["integer: constant K, which struct scan names, is a text in r0"]);
    assert_eq!(
        said(&[&a, &text("1.1.0", &whole("other", "G", ""))]),
        [
            "slot: struct scan fills the slot metadata in r0 and none of the three in r1",
            "owned: nobody owns scan in r1",
            "owned: nobody owns t in r1",
        ]
    );
    let moved = "constant G 1\nconstant H 1\nstruct scan slot=metadata version=G\n\
                 struct live slot=runtime version=H\nfield t struct_ptr type=t\nstruct t";
    assert_eq!(
        said(&[&a, &text("1.1.0", moved)]),
        ["owned: t is owned by scan in r0 and by live in r1", "described: live is not described in r0",]
    );
    let unowned = "constant G 1\nconstant H 1\nstruct scan slot=metadata version=G\nstruct t";
    assert_eq!(said(&[&a, &text("1.1.0", unowned)]), ["owned: nobody owns t in r1"]);
    // A standalone family answers to a rule of its own.
    let family = |standing: &str| whole("metadata", "G", &format!("family f d e l {standing}\nvariant V"));
    assert_eq!(found(&[&text("1.0.0", &family("standalone")), &text("1.1.0", &family("standalone"))]), []);
    assert_eq!(
        said(&[&text("1.0.0", &family("")), &text("1.1.0", &family(""))]),
        ["owned: nobody owns f in r1"]
    );
    // A first record that only a missing text keeps from being read as current.
    assert_eq!(found(&[&a.replace("head 1.0.0", "head"), &b]), []);
}

#[test]
fn lint() {
    let folder = Folder::new("lint");
    let clean = folder.record("clean.rec", &format!("head 1.0.0\n{ROOT}field n scalar type=u16\nend"));
    assert_eq!(run(&["lint", &clean]).said(0), "no remarks\n");
    assert_eq!(
        run(&["lint", &clean, "--json"]).said(0),
        "{\"refusal\":null,\"premises\":[],\"remarks\":[]}\n"
    );
    let odd = folder.record(
        "odd.rec",
        "head 1.0.0\nalias wide u64\nstruct tile\nfield x scaler\nfield n scalar type=u64\nfield a inline_array element=f32 count=2\n\
         field e enum type=mode\nfield e2 enum\nfield l type_alias type=none\nfield w type_alias type=wide\nfield b bitfield type=flags\n\
         family f d mode l length_type=u24\nend",
    );
    let lines = "kinds: field x of tile has the kind scaler, which is none of the sixteen
owned: nobody owns f in the record
owned: nobody owns tile in the record
remark: alias wide has the scalar word u64, which is none of u8, char, u16 and u32 and counts as 0 bytes
remark: the length of family f has the scalar word u24, which is none of u8, char, u16 and u32 and counts as 0 bytes
remark: family f names mode, which is declared nowhere as an enum and counts as 1 byte
remark: field n of tile has the scalar word u64, which is none of u8, char, u16 and u32 and counts as 0 bytes
remark: field a of tile has the scalar word f32, which is none of u8, char, u16 and u32 and counts as 0 bytes
remark: field e of tile names mode, which is declared nowhere as an enum and counts as 1 byte
remark: field e2 of tile names no enum and counts as 1 byte
remark: field l of tile names none, which is declared nowhere as an alias and counts as 2 bytes
remark: field b of tile names flags, which is declared nowhere as a bit field and counts as 0 bytes
";
    assert_eq!(run(&["lint", &odd]).said(1), lines);
    // The sizes are the list's.
    let list = run(&["list", &odd]);
    for line in [
        "tile.x 0 0 scaler",
        "tile.n 0 0 ",
        "tile.e 0 1 ",
        "tile.l 2 2 ",
        "tile.w 4 0 ",
        "tile.b 4 0 ",
        "f.d 0 1 ",
        "f.l 1 0 ",
    ] {
        assert!(list.said(0).contains(line), "{line}");
    }
    let json = run(&["lint", "--json", &odd]);
    let front = "{\"refusal\":null,\"premises\":[{\"premise\":\"kinds\",\"words\":\"All kinds among the sixteen.\",\"what\":\"field x of \
                 tile has the kind scaler, which is none of the sixteen\"},";
    assert!(json.said(1).starts_with(front), "{}", json.text());
    let unnamed = folder.record("unnamed.rec", &format!("head\n{ROOT}end"));
    assert_eq!(run(&["lint", &unnamed]).said(0), "no remarks\n");
}

#[test]
fn lint_of_what_cannot_be_read() {
    let folder = Folder::new("lint_damaged");
    let empty = folder.file("empty.rec", b"");
    assert!(run(&["lint", &empty]).complained(2).contains("1 cut: record, place 0 of the stream"));
    let ran = run(&["lint", &empty, "--json"]);
    assert_eq!(ran.status, 2);
    assert!(
        ran.text().starts_with("{\"refusal\":{") && ran.text().ends_with(",\"premises\":null}\n"),
        "{}",
        ran.text()
    );
    assert!(run(&["lint"]).complained(3).contains("expected 1 operand, found 0"));
    assert!(run(&["lint", "missing.rec"]).complained(3).contains("cannot read missing.rec"));
}

/// After an accepted record there is a note for each premise, and the exit status stays.
#[test]
fn notes_of_check() {
    let folder = Folder::new("notes_check");
    let text =
        |release: &str, kind: &str| format!("head {release}\n{ROOT}field x {kind}\nfield y {kind}\nend");
    let old = folder.record("old.rec", &text("1.0.0", "scaler"));
    let new = folder.record("new.rec", &text("1.1.0", "scaler"));
    let lines = "accepted\nnote: what is proved of chains does not cover the released record: field x of scan has the kind scaler, \
                 which is none of the sixteen; and 3 more\n";
    assert_eq!(run(&["check", &new, &old]).said(0), lines);
    let json = run(&["check", &new, &old, "--json"]);
    let places = json.said(0).split("\"premises\":[").nth(1).expect("premises");
    assert_eq!(places.matches("{\"premise\":\"kinds\",\"record\":\"the ").count(), 4);
    // A record that is dropped is in no chain.
    let other = folder.record("other.rec", &text("1.1.0", "scalar"));
    assert!(!run(&["check", &other, &old]).said(1).contains("note:"));
    assert!(run(&["check", &other, &old, "--json"]).said(1).contains("\"premises\":[]"));
}

#[test]
fn notes_of_chain() {
    let folder = Folder::new("notes_chain");
    let text = |release: &str, constant: &str| {
        format!(
            "head {release}\nconstant G 1\nconstant H 1\nstruct scan slot=metadata version={constant}\nend"
        )
    };
    let a = folder.record("a.rec", &text("1.0.0", "G"));
    let b = folder.record("b.rec", &text("1.1.0", "G"));
    let bad = folder.record("bad.rec", "head 1.2.0 unreleased\nend");
    let c = folder.record("c.rec", &text("1.2.0", "H"));
    let ran = run(&["chain", &a, &b, &bad, &c]);
    let lines: Vec<&str> = ran.said(1).lines().collect();
    assert_eq!(lines.len(), 4);
    assert_eq!(lines[2], format!("{c}: accepted after {b}"));
    let note = format!(
        "note: what is proved of generation numbers does not cover it: struct scan names the constant G in {b} and H in {c}"
    );
    assert_eq!(lines[3], note);
    let json = run(&["chain", "--json", &a, &b, &c]);
    assert!(
        json.said(0).contains(&format!(
            "\"last\":\"{c}\",\"premises\":[{{\"premise\":\"constant\",\"record\":\"{c}\","
        )),
        "{}",
        json.text()
    );
}

/// Every record of the vectors, and drawn ones that can be decoded, by itself and beside another: nothing ends the program.
#[test]
fn any_record() {
    let mut drawn = Drawn(0x11A7);
    let (mut found, mut remarked) = (0, 0);
    let mut before = decode::commands(record("head 1.0.0\nend").record()).expect("commands");
    for mut parts in records() {
        for _ in 0..drawn.below(3) {
            let at = drawn.below(parts.stream.len());
            if let Some(byte) = parts.stream.get_mut(at) {
                *byte = drawn.next() as u8;
            }
        }
        let Ok(commands) = decode::commands(parts.record()) else { continue };
        remarked += remarks(&commands).len();
        let link =
            |label: &str, commands: &[Said]| Link { label: label.to_string(), commands: commands.to_vec() };
        let outside = outside(&[link("a", &before), link("b", &commands)]);
        found += outside.len();
        assert!(outside.iter().all(|one| one.record < 2 && !one.what.is_empty()));
        before = commands;
    }
    assert!(found > 1000 && remarked > 1000, "{found} {remarked}");
}
