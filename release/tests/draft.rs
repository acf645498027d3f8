//! `release draft`.
mod common;

use common::vectors::records;
use common::{record, run, run_on, Drawn, Folder};
use menqachu::record::commands::Said;
use menqachu::record::decode::commands;
use menqachu::record::parts::Parts;
use menqachu::text::{added, assemble, removed, show};
use menqachu::{draft_add, draft_remove, DraftAnswer};

const RELEASED: &str = "head 0.8.0\nenum op 1\nstruct tile\nfield n scalar type=u16\nend";
const DRAFT: &str = "head 0.9.0\nenum op 1\nstruct tile\nfield n scalar type=u16\nversion scan 4\nend";
const FAMILY: &str = "head 0.9.0\nfamily fam kind op len\nvariant a\nfield x scalar\nvariant b\nend";

/// The same draft after an addition and a removal, and what the command says on the way.
#[test]
fn edits() {
    let folder = Folder::new("draft_edits");
    let released = folder.record("released.rec", RELEASED);
    let draft = folder.record("draft.rec", DRAFT);
    let family = folder.record("family.rec", FAMILY);
    assert_eq!(run(&["draft", "count", &draft, &released]).said(0), "changed 0\n");
    assert_eq!(run(&["draft", "add", &draft, &family, &released]).said(0), "changed 3\n");
    let shown = run(&["show", &draft]);
    let text = shown.said(0);
    let end = "version scan 4\n\nfamily fam kind op len\n    variant a\n        field x scalar\n    variant b\n\nend\n";
    assert!(text.ends_with(end), "{text}");
    assert_eq!(run(&["draft", "remove", &draft, "tile", &released]).said(0), "changed 4\n");
    assert_eq!(run(&["draft", "remove", &draft, "fam", &released, "--json"]).said(0), JSON_ONE);
    assert_eq!(run(&["draft", "count", "-", &released]).status, 2);
    let bytes = std::fs::read(&draft).expect("the draft");
    assert_eq!(run_on(&["draft", "count", "-", &released], &bytes).said(0), "changed 1\n");
    let left = "head 0.9.0\n\nenum op 1\n\nversion scan 4\nend\n";
    assert_eq!(run(&["show", &draft]).said(0), left);
}

const JSON_ONE: &str = "{\"refusal\":null,\"changed\":1}\n";

/// Each refusal with its status and its words; the draft is not touched, and nothing is left beside it.
#[test]
fn refused_edits() {
    let folder = Folder::new("draft_refused");
    let released = folder.record("released.rec", RELEASED);
    let draft = folder.record("draft.rec", DRAFT);
    let tile = folder.record("tile.rec", "head 0.9.0\nfamily tile kind op len\nend");
    let two = folder.record("two.rec", "head 0.9.0\nstruct a\nstruct b\nend");
    let vast = folder
        .record("vast.rec", "head 0.9.0\nstruct v\nfield p padding size=4294967295\nfield n scalar\nend");
    let cut = folder.file("cut.rec", &record(DRAFT).to_bytes()[..20]);
    let before = std::fs::read(&draft).expect("the draft");
    let said = |words: &[&str], status: i32, what: &str| {
        let ran = run(&[&["draft"], words].concat());
        let line = ran.complained(status);
        assert!(line.contains(what), "{line}");
    };
    said(&["add", &draft, &tile, &released], 3, "draft.rec: 55 name held\n");
    said(&["remove", &draft, "fam", &released], 3, "draft.rec: 56 no such name\n");
    said(
        &["add", &draft, &two, &released],
        2,
        "two.rec: 3 misplaced: current record, place 15 of the stream",
    );
    said(&["add", &draft, &vast, &released], 2, "draft.rec: 9 vast: record, place 68 of the stream");
    said(&["add", &cut, &tile, &released], 2, "cut.rec: 4 outside: current record");
    said(&["remove", &draft, "tile", &cut], 2, "cut.rec: 4 outside: released record");
    said(&["count", &cut, &released], 2, "cut.rec: 4 outside: current record");
    said(&["add", "-", &tile, &released], 3, "an edit writes the draft again");
    said(&["drop", &draft, "tile", &released], 3, "expected add, remove or count");
    said(&["count", &draft, "tile", &released], 3, "expected add, remove or count");
    let ran = run(&["draft", "add", &draft, &tile, &released, "--json"]);
    assert_eq!(ran.status, 3);
    assert!(
        ran.text().starts_with("{\"refusal\":{\"accepted\":false,\"number\":55,\"word\":\"name held\","),
        "{}",
        ran.text()
    );
    assert!(ran.text().ends_with(",\"changed\":null}\n"));
    assert_eq!(std::fs::read(&draft).expect("the draft"), before);
    let files = std::fs::read_dir(folder.path()).expect("the folder").count();
    assert_eq!(files, 6);
}

/// A draft whose pool has bytes of no use, and whose length is cut short, is whole and packed after an edit; the file
/// keeps its permissions, and a link stays a link.
#[test]
fn what_is_written() {
    use std::os::unix::fs::{symlink, PermissionsExt};
    let folder = Folder::new("draft_written");
    let released = folder.record("released.rec", RELEASED);
    let mut parts = record(DRAFT);
    parts.pool.extend_from_slice(b"of no use");
    let bytes = parts.to_bytes();
    let draft = folder.file("draft.rec", &bytes[..bytes.len() - 3]);
    std::fs::set_permissions(&draft, std::fs::Permissions::from_mode(0o640)).expect("permissions");
    let link = folder.path().join("link.rec");
    symlink(&draft, &link).expect("a link");
    let link = link.to_str().expect("a path in UTF-8");
    assert_eq!(run(&["draft", "remove", link, "tile", &released]).said(0), "changed 1\n");
    let text = "head 0.9.0\nenum op 1\nversion scan 4\nend";
    let pool: usize = ["0.9.0", "op", "scan"].map(str::len).iter().sum();
    let written = std::fs::read(&draft).expect("the draft");
    assert_eq!(written.len(), 8 + record(text).stream.len() + pool);
    assert_eq!(std::fs::metadata(&draft).expect("the draft").permissions().mode() & 0o777, 0o640);
    assert!(std::fs::symlink_metadata(link).expect("the link").is_symlink());
}

/// A text with comments and empty lines put in, and the names of its types.
fn commented(parts: &Parts, drawn: &mut Drawn) -> Option<(String, Vec<Vec<u8>>)> {
    let text = show(parts.record()).ok()?;
    let mut lines: Vec<&str> = text.lines().collect();
    for _ in 0..drawn.below(4) {
        lines.insert(drawn.below(lines.len() + 1), ["", "# struct tile", "  # end", "\t"][drawn.below(4)]);
    }
    let types = |said: &&Said| matches!(said.command.word, "struct" | "family");
    let all = commands(parts.record()).ok()?;
    let names = all.iter().filter(types).filter_map(|said| said.text(0)).map(<[u8]>::to_vec).collect();
    Some((lines.join("\n"), names))
}

/// The text of a head, the first type of a name in another text, and an end: what is left of that without all other lines.
fn alone(text: &str, name: &[u8]) -> Option<String> {
    let less = String::from_utf8(removed(text.as_bytes(), name).ok()?).ok()?;
    let mut kept = less.lines().peekable();
    let block: Vec<&str> = text.lines().filter(|line| kept.next_if_eq(line).is_none()).collect();
    let text = format!("head 1.0.0\n{}\nend\n", block.join("\n"));
    assemble(text.as_bytes()).is_ok().then_some(text)
}

/// What the lines of an edited text say is what the proved call makes of the record, on the records of the vectors.
#[test]
fn edits_in_lines() {
    let mut drawn = Drawn(0xD2AF7);
    let mut addition = None;
    let mut made = [0; 2];
    for parts in records().into_iter().filter(|parts| parts.stream.len() < 4000) {
        let Some((text, names)) = commented(&parts, &mut drawn) else { continue };
        let draft = record(&text);
        let Some(name) = names.get(drawn.below(names.len())) else { continue };
        let mut holds = |which: usize, edited: Vec<u8>, call: &dyn Fn(&mut [u8]) -> DraftAnswer| {
            let mut buffer = draft.to_bytes();
            buffer.resize(60_000, 0);
            if call(&mut buffer).answer.number != 0 {
                return;
            }
            let result = Parts::read(&mut &buffer[..]).expect("a slice can be read");
            let again = assemble(&edited).unwrap_or_else(|fault| panic!("{fault} of:\n{text}"));
            assert_eq!(commands(again.record()), commands(result.record()), "of:\n{text}");
            made[which] += 1;
        };
        let less = removed(text.as_bytes(), name).expect("lines");
        holds(0, less, &|buffer| draft_remove(0, buffer, name, draft.record()));
        if let Some(addition) = &addition {
            let more = added(text.as_bytes(), String::as_bytes(addition)).expect("lines");
            let parts = record(addition);
            holds(1, more, &|buffer| draft_add(0, buffer, parts.record(), draft.record()));
        }
        addition = alone(&text, name).or(addition);
    }
    assert!(made.iter().all(|count| *count > 300), "{made:?}");
}
