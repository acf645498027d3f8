//! `release shelf`.
mod common;

use std::ffi::OsString;
use std::os::unix::ffi::OsStringExt;

use common::{record, run, run_on, Drawn, Folder, Ran};
use menqachu::record::shelf::Shelved;

const RELEASED: &str = "head 0.8.0\nstruct tile\nfield n scalar type=u16\nend";
const ONE: &str = "head 0.9.0\nstruct tile\nfield n scalar type=u16\nend";
const TWO: &str = "head 0.9.0\nstruct tile\nfield n scalar type=u16\nstruct well\nend";

/// The files of a test: a released record, two drafts, and the name of a shelf that is not there yet.
struct Files {
    folder: Folder,
    released: String,
    one: String,
    two: String,
    shelf: String,
}

impl Files {
    fn new(name: &str) -> Files {
        let folder = Folder::new(name);
        let shelf = folder.path().join("plate.shelf").to_str().expect("a path in UTF-8").to_string();
        let [released, one, two] = [("released", RELEASED), ("one", ONE), ("two", TWO)]
            .map(|(name, text)| folder.record(&format!("{name}.rec"), text));
        Files { folder, released, one, two, shelf }
    }

    fn set(&self, name: &str, draft: &str) -> Ran {
        run(&["shelf", "set", &self.shelf, name, draft])
    }

    fn back(&self, name: &str, draft: &str) -> Ran {
        run(&["shelf", "back", &self.shelf, name, draft, &self.released])
    }

    fn list(&self) -> Ran {
        run(&["shelf", "list", &self.shelf])
    }

    fn shelved(&self) -> Shelved {
        Shelved::read(&bytes(&self.shelf)).expect("a shelf")
    }

    /// How many files there are.
    fn count(&self) -> usize {
        std::fs::read_dir(self.folder.path()).expect("the folder").count()
    }
}

fn bytes(file: &str) -> Vec<u8> {
    std::fs::read(file).expect(file)
}

/// Two drafts left and taken back, one of them replaced in between.
#[test]
fn drafts_come_back() {
    let files = Files::new("shelf_back");
    assert_eq!(files.set("before the move", &files.one).said(0), "held 1\n");
    assert_eq!(files.set("wells", &files.two).said(0), "held 2\n");
    let lens = [&files.one, &files.two].map(|file| bytes(file).len());
    let listed = format!("before the move: {} bytes\nwells: {} bytes\n", lens[0], lens[1]);
    assert_eq!(files.list().said(0), listed);
    let draft = files.folder.file("draft.rec", b"something else, and no text\0");
    assert_eq!(files.back("wells", &draft).said(0), "changed 1\n");
    assert_eq!(bytes(&draft), bytes(&files.two));
    assert_eq!(files.back("before the move", &draft).said(0), "changed 0\n");
    assert_eq!(bytes(&draft), bytes(&files.one));
    assert_eq!(files.set("before the move", &files.two).said(0), "held 2\n");
    assert_eq!(bytes(&files.shelf).len(), 8 + 320 + 2 * lens[1]);
    assert_eq!(files.set("wells", &files.one).said(0), "held 2\n");
    assert_eq!(bytes(&files.shelf).len(), 8 + 320 + lens[0] + lens[1]);
    assert_eq!(files.back("before the move", &draft).said(0), "changed 1\n");
    assert_eq!(bytes(&draft), bytes(&files.two));
    let new = files.folder.path().join("new.rec");
    assert_eq!(files.back("wells", new.to_str().expect("a path")).said(0), "changed 0\n");
    assert_eq!(std::fs::read(new).expect("the draft"), bytes(&files.one));
    assert_eq!(files.count(), 6);
}

/// Every byte of stream and pool comes back, bytes that no text covers too, and no byte behind the parts.
#[test]
fn drafts_are_whole() {
    let files = Files::new("shelf_whole");
    let mut parts = record(ONE);
    parts.pool.extend_from_slice(b"of no use");
    let mut given = parts.to_bytes();
    given.extend_from_slice(b"behind");
    let loose = files.folder.file("loose.rec", &given);
    assert_eq!(files.set("loose", &loose).said(0), "held 1\n");
    assert_eq!(files.back("loose", &loose).said(0), "changed 0\n");
    assert_eq!(bytes(&loose), parts.to_bytes());
    let piped = run_on(&["shelf", "set", &files.shelf, "piped", "-"], &given);
    assert_eq!(piped.said(0), "held 2\n");
    assert_eq!(files.back("piped", &loose).said(0), "changed 0\n");
    assert_eq!(bytes(&loose), parts.to_bytes());
}

/// Names are bytes, and one that would break a line is shown in one.
#[test]
fn names_are_bytes() {
    let files = Files::new("shelf_names");
    let words = |name: &[u8]| {
        let name = OsString::from_vec(name.to_vec());
        let words =
            [&"shelf".into(), &"set".into(), &files.shelf.clone().into(), &name, &files.one.clone().into()];
        run(&words.map(OsString::clone))
    };
    assert_eq!(words(b"a\n\xff").said(0), "held 1\n");
    assert_eq!(words(b"--").status, 3);
    let size = bytes(&files.one).len();
    assert_eq!(files.list().said(0), format!("a\\n\u{fffd}: {size} bytes\n"));
    let json = run(&["shelf", "list", &files.shelf, "--json"]);
    let drafts = format!("[{{\"name\":\"a\\u000a\u{fffd}\",\"bytes\":{size}}}]");
    assert_eq!(json.said(0), format!("{{\"refusal\":null,\"drafts\":{drafts}}}\n"));
}

/// 57: eight names and another, and names of bad length. The shelf is not touched.
#[test]
fn names_not_taken() {
    let files = Files::new("shelf_57");
    for nth in 0..8 {
        assert_eq!(files.set(&format!("draft {nth}"), &files.one).said(0), format!("held {}\n", nth + 1));
    }
    let before = bytes(&files.shelf);
    let eight = files.set("another", &files.one);
    assert!(eight.complained(3).ends_with("plate.shelf: 57 name not taken: eight other names are held\n"));
    let long = files.set("seventeen letters", &files.one);
    let why = "57 name not taken: a name has 1 to 16 bytes, and this one 17\n";
    assert!(long.complained(3).ends_with(why), "{}", long.err);
    assert!(files.set("", &files.one).complained(3).ends_with("and this one 0\n"));
    let json = run(&["shelf", "set", &files.shelf, "another", &files.one, "--json"]);
    assert_eq!(json.status, 3);
    let refusal = "{\"refusal\":{\"accepted\":false,\"number\":57,\"word\":\"name not taken\",";
    assert!(
        json.text().starts_with(refusal) && json.text().ends_with(",\"held\":null}\n"),
        "{}",
        json.text()
    );
    assert_eq!(bytes(&files.shelf), before);
    assert_eq!(files.set("draft 3", &files.two).said(0), "held 8\n");
}

/// 58 for a name that is not held, and the refusals of the records. No file is touched.
#[test]
fn refusals() {
    let files = Files::new("shelf_refused");
    let cut = files.folder.file("cut.rec", &record(ONE).to_bytes()[..20]);
    let bad = files.set("cut", &cut);
    assert!(
        bad.complained(2).contains("cut.rec: 4 outside: current record, place 0 of the stream"),
        "{}",
        bad.err
    );
    assert!(!std::path::Path::new(&files.shelf).exists());
    let absent = files.list();
    assert!(absent.complained(3).contains("plate.shelf; `release shelf set` makes one"), "{}", absent.err);
    assert_eq!(files.set("one", &files.one).said(0), "held 1\n");
    let before = [bytes(&files.shelf), bytes(&files.two)];
    let none = files.back("two", &files.two);
    assert!(none.complained(3).ends_with("plate.shelf: 58 not held: no draft two\n"), "{}", none.err);
    let against = run(&["shelf", "back", &files.shelf, "one", &files.two, &cut]);
    assert!(
        against.complained(2).contains("cut.rec: 4 outside: released record, place 0"),
        "{}",
        against.err
    );
    let json = run(&["shelf", "back", &files.shelf, "two", &files.two, &files.released, "--json"]);
    let refusal = "{\"refusal\":{\"accepted\":false,\"number\":58,\"word\":\"not held\",";
    assert!(
        json.text().starts_with(refusal) && json.text().ends_with(",\"changed\":null}\n"),
        "{}",
        json.text()
    );
    assert_eq!(json.status, 3);
    for words in [
        vec!["set", "-", "one", &files.one],
        vec!["back", &files.shelf, "one", "-", &files.released],
        vec!["set", &files.shelf, "one"],
        vec!["list", &files.shelf, "one"],
        vec!["drop", &files.shelf],
    ] {
        run(&[&["shelf"], &words[..]].concat()).complained(3);
    }
    assert_eq!([bytes(&files.shelf), bytes(&files.two)], before);
    assert_eq!(files.count(), 5);
}

/// A file that is no shelf, and one cut inside its rows.
#[test]
fn files_that_are_no_shelf() {
    let files = Files::new("shelf_none");
    assert_eq!(files.set("one", &files.one).said(0), "held 1\n");
    let whole = bytes(&files.shelf);
    for (nth, given) in [&whole[..0], &whole[..7], &whole[..327], &bytes(&files.one)].iter().enumerate() {
        let file = files.folder.file("strange.shelf", given);
        for words in [
            vec!["set", &file, "one", &files.one],
            vec!["back", &file, "one", &files.two, &files.released],
            vec!["list", &file],
        ] {
            let ran = run(&[&["shelf"], &words[..]].concat());
            assert!(ran.complained(2).ends_with("strange.shelf is no shelf\n"), "{nth}: {}", ran.err);
        }
        assert_eq!(bytes(&file), *given);
    }
}

/// Shelves whose rows were changed by hand: each call gives 58, or the refusal of the held draft, and changes no file.
#[test]
fn forged_shelves() {
    let files = Files::new("shelf_forged");
    assert_eq!(files.set("one", &files.one).said(0), "held 1\n");
    assert_eq!(files.set("two", &files.two).said(0), "held 2\n");
    let sound = files.shelved();
    let forged = |change: &dyn Fn(&mut Shelved)| {
        let mut shelved = sound.clone();
        change(&mut shelved);
        files.folder.file("plate.shelf", &shelved.to_bytes());
        shelved.to_bytes()
    };
    let places: [&dyn Fn(&mut Shelved); 5] = [
        &|file| file.shelf.starts[1] = 0,
        &|file| file.shelf.lens[1] += 1,
        &|file| file.shelf.starts[1] = usize::MAX,
        &|file| file.shelf.lens[0] = usize::MAX,
        &|file| file.held.truncate(10),
    ];
    for (nth, change) in places.iter().enumerate() {
        let before = forged(change);
        for ran in [files.set("three", &files.one), files.back("one", &files.two), files.list()] {
            let why = "58 not held: a held draft lies outside the shelf's bytes or over another\n";
            assert!(ran.complained(3).ends_with(why), "{nth}: {}", ran.err);
        }
        assert_eq!(bytes(&files.shelf), before);
    }
    forged(&|file| file.shelf.lens[0] -= 1);
    let cut = files.back("one", &files.two);
    let why =
        "plate.shelf: 4 outside: current record, place 15 of the stream, command 0B field: a text reaches";
    assert!(cut.complained(2).contains(why), "{}", cut.err);
    forged(&|file| file.shelf.name_lens[0] = 17);
    let listed = format!("(no name): {} bytes\ntwo: {} bytes\n", sound.shelf.lens[0], sound.shelf.lens[1]);
    assert_eq!(files.list().said(0), listed);
    assert_eq!(files.back("two", &files.one).said(0), "changed 1\n");
    let json = run(&["shelf", "list", &files.shelf, "--json"]);
    assert!(json.said(0).starts_with("{\"refusal\":null,\"drafts\":[{\"name\":null,\"bytes\":"));
    forged(&|file| file.shelf.name_lens = [99; 8]);
    assert_eq!(files.list().said(0).matches("(no name): ").count(), 8);
    assert!(files.set("three", &files.one).complained(3).contains("57 name not taken"));
    forged(&|file| (file.shelf.name_lens, file.shelf.lens[7]) = ([99; 8], 1));
    assert!(files.list().complained(3).contains("58 not held: a held draft lies outside"));
}

/// Drawn bytes in the rows: an answer each time, and no call that ends in another way.
#[test]
fn drawn_shelves() {
    let files = Files::new("shelf_drawn");
    assert_eq!(files.set("one", &files.one).said(0), "held 1\n");
    assert_eq!(files.set("two", &files.two).said(0), "held 2\n");
    let sound = bytes(&files.shelf);
    let mut drawn = Drawn(211);
    for _ in 0..40 {
        let mut forged = sound.clone();
        for _ in 0..1 + drawn.below(6) {
            let at = 8 + drawn.below(forged.len() - 8);
            forged[at] = drawn.next() as u8;
        }
        forged.truncate(if drawn.below(4) == 0 { drawn.below(forged.len()) } else { forged.len() });
        files.folder.file("plate.shelf", &forged);
        let draft = files.folder.file("draft.rec", b"");
        for ran in [files.list(), files.back("one", &draft), files.set("two", &files.one)] {
            assert!(
                matches!(ran.status, 0 | 2 | 3) && (ran.status == 0) == ran.err.is_empty(),
                "{}",
                ran.err
            );
        }
    }
}

/// The files keep their permissions, a link stays a link, and nothing is left beside them.
#[test]
fn what_is_written() {
    use std::os::unix::fs::{symlink, PermissionsExt};
    let files = Files::new("shelf_written");
    assert_eq!(files.set("one", &files.one).said(0), "held 1\n");
    let link = files.folder.path().join("link.shelf");
    symlink(&files.shelf, &link).expect("a link");
    let mode = |file: &str| std::fs::metadata(file).expect(file).permissions().mode() & 0o777;
    for file in [&files.shelf, &files.two] {
        std::fs::set_permissions(file, std::fs::Permissions::from_mode(0o640)).expect("permissions");
    }
    let shelf = link.to_str().expect("a path");
    assert_eq!(run(&["shelf", "set", shelf, "two", &files.two]).said(0), "held 2\n");
    assert_eq!(run(&["shelf", "back", shelf, "one", &files.two, &files.released]).said(0), "changed 0\n");
    assert_eq!((mode(&files.shelf), mode(&files.two)), (0o640, 0o640));
    assert!(std::fs::symlink_metadata(&link).expect("the link").is_symlink());
    assert_eq!((files.shelved().rows().count(), files.count()), (2, 5));
    let nowhere = files.folder.path().join("no/plate.shelf");
    let ran = run(&["shelf", "set", nowhere.to_str().expect("a path"), "one", &files.one]);
    assert!(ran.complained(3).contains("cannot write"), "{}", ran.err);
}
