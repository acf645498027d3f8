//! `release explain`: a page for every number that is given, and an example that gives it.
mod common;

use std::collections::BTreeSet;
use std::process::Command;

use common::vectors::pairs;
use common::{command, run, top, Folder};
use menqachu::explain::example::Example;
use menqachu::explain::{page, pages};
use menqachu::record::numbers::{all, word};

/// The numbers of the verdicts, from the table that writes them.
fn verdicts() -> Vec<u32> {
    let table = std::fs::read_to_string(top().join("tools/verdicts.py")).expect("the table");
    let rows = table.lines().filter_map(|line| line.strip_prefix("    (")?.split_once(", '"));
    rows.filter_map(|(number, _)| number.parse().ok()).collect()
}

#[test]
fn every_number_has_a_page() {
    let numbers: Vec<u32> = pages().map(|page| page.number).collect();
    let set: BTreeSet<u32> = numbers.iter().copied().collect();
    assert!(numbers.iter().copied().eq(set.iter().copied()), "each once, and in order");
    let verdicts = verdicts();
    assert_eq!(verdicts.len(), 36);
    let answered: BTreeSet<u32> = pairs().iter().map(|pair| pair.answer.number).collect();
    assert!(answered.len() > 36);
    let given: BTreeSet<u32> = all().chain(verdicts).chain(answered).filter(|number| *number != 0).collect();
    let lacking: Vec<u32> = given.difference(&set).copied().collect();
    assert!(lacking.is_empty(), "no page for {lacking:?}");
    let unknown: Vec<u32> = set.difference(&given).copied().collect();
    assert!(unknown.is_empty(), "a page for {unknown:?}, which nothing gives");
}

#[test]
fn every_example_gives_its_number() {
    for page in pages() {
        let number = page.number;
        let answer = page.example.answer().unwrap_or_else(|fault| panic!("{number}: {fault}"));
        assert_eq!(answer.number, number);
        // A text wherever one can say it.
        let in_bytes = matches!(page.example, Example::Bytes { .. });
        assert_eq!(in_bytes, matches!(number, 1..=4 | 6..=8), "{number}");
    }
}

#[test]
fn what_is_printed() {
    for page in pages() {
        let ran = run(&["explain".to_string(), page.number.to_string()]);
        let text = ran.said(0);
        let title = word(page.number).map_or(String::new(), |word| format!(" {word}"));
        assert!(text.starts_with(&format!("{}{title}\n\nmeans      ", page.number)), "{text}");
        let words: Vec<&str> = text.split_whitespace().collect();
        for part in [page.means, page.why, page.cure] {
            let part: Vec<&str> = part.split_whitespace().collect();
            assert!(words.windows(part.len()).any(|window| window == part), "{part:?} in {text}");
        }
        let explained = text.split("\nexample\n").next().expect("a front");
        assert!(explained.lines().all(|line| line.len() <= 88), "{text}");
        assert!(text.contains(&format!(" gives\n    {}{title}", page.number)), "{text}");
    }
    let ran = run(&["explain", "35"]);
    let expected = "example
  current
    head 1.1.0
    struct tile
        field gap padding size=1
        field n scalar type=u16
    end
  released
    head 1.0.0
    struct tile
        field n scalar type=u16
    end
  release check current released gives
    35 moved: tile.n was at offset 0 in the last release and is at 1 now - a shipped field's bytes stay where they are
";
    assert!(ran.said(0).ends_with(expected), "{}", ran.text());
    assert_eq!(run(&["explain", "moved"]).said(0), ran.text());
}

/// The file of a page in bytes is what its printf writes, and `release check` gives the page's number.
#[test]
fn files_in_bytes() {
    let folder = Folder::new("explain_bytes");
    let other = folder.record("other.rec", "head 1.0.0\nend");
    let mut count = 0;
    for page in pages().filter(|page| matches!(page.example, Example::Bytes { .. })) {
        let text = run(&["explain".to_string(), page.number.to_string()]).text().to_string();
        let line = text.lines().find(|line| line.trim_start().starts_with("printf ")).expect("a printf");
        let shell = Command::new("sh").current_dir(folder.path()).arg("-c").arg(line).status();
        assert!(shell.expect("a shell").success());
        let ran = command().current_dir(folder.path()).args(["check", "example.rec", &other]).output();
        let ran = ran.expect("the command runs");
        assert_eq!(ran.status.code(), Some(2));
        let answer = String::from_utf8_lossy(&ran.stdout).into_owned();
        let answer = answer.lines().next().unwrap_or_default();
        assert!(
            answer.starts_with(&format!("{} ", page.number)) && text.contains(answer),
            "{answer}: {text}"
        );
        count += 1;
    }
    assert_eq!(count, 7);
}

#[test]
fn all_of_them_and_json() {
    let ran = run(&["explain"]);
    let lines: Vec<&str> = ran.said(0).lines().collect();
    assert_eq!(lines.len(), pages().count() + 1);
    assert_eq!((lines[0], lines[34]), (" 1  cut", "35  moved"));
    let page = page(22).expect("a page");
    let json = format!(
        "{{\"number\":22,\"word\":\"enum gone\",\"means\":\"{}\",\"why\":\"{}\",\"cure\":\"{}\"}}\n",
        page.means, page.why, page.cure
    );
    assert_eq!(run(&["explain", "22", "--json"]).said(0), json);
    let ran = run(&["explain", "--json"]);
    assert_eq!(ran.said(0).matches("{\"number\":").count(), pages().count());
    assert!(ran.text().starts_with("[{\"number\":1,") && ran.text().contains(json.trim_end()));
}

#[test]
fn usage() {
    for odd in ["0", "47", "99", "-1", "", "mooved", "4294967296"] {
        let ran = run(&["explain", "--", odd]);
        let expected = format!("release: no number {odd} is given; `release explain` lists all of them\n");
        assert_eq!(ran.complained(3), expected);
    }
    assert!(run(&["explain", "1", "2"]).complained(3).contains("expected 0 to 1 operand, found 2"));
}
