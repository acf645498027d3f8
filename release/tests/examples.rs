//! The commands in README.md, examples/README.md, docs/CI.md and docs/TEXT-FORM.md, with what they print, and the records there.
mod common;

use std::fs;
use std::path::Path;
use std::process::Command;

use common::{record, run_on, top, Folder};
use menqachu::record::room::list_whole;
use menqachu::text::show;
use menqachu::Side;

/// The indented blocks of a page, without their indentation. A line without letters belongs to the block
/// around it.
fn blocks(page: &str) -> Vec<String> {
    let mut blocks = Vec::new();
    let mut open: Option<String> = None;
    for line in page.lines() {
        match (line.strip_prefix("    "), &mut open) {
            (Some(inside), Some(block)) => block.push_str(&format!("{inside}\n")),
            (Some(inside), None) => open = Some(format!("{inside}\n")),
            (None, Some(block)) if line.is_empty() => block.push('\n'),
            (None, _) => blocks.extend(open.take()),
        }
    }
    blocks.extend(open);
    blocks.into_iter().map(|block| format!("{}\n", block.trim_end())).collect()
}

/// The commands of a block, each with what it prints.
fn session(block: &str) -> Vec<(&str, String)> {
    let mut steps: Vec<(&str, String)> = Vec::new();
    for line in block.lines() {
        match (line.strip_prefix("$ "), steps.last_mut()) {
            (Some(command), _) => steps.push((command, String::new())),
            (None, Some((_, printed))) => printed.push_str(&format!("{line}\n")),
            (None, None) => {}
        }
    }
    steps
}

/// Runs the commands of a page in a folder, and gives how many there were.
fn replay(page: &str, folder: &Path) -> usize {
    let program = Path::new(env!("CARGO_BIN_EXE_release")).parent().expect("a folder");
    let path = format!("{}:{}", program.display(), std::env::var("PATH").unwrap_or_default());
    let page = fs::read_to_string(top().join(page)).expect("the page");
    let blocks = blocks(&page);
    let steps: Vec<_> = blocks.iter().flat_map(|block| session(block)).collect();
    for (command, printed) in &steps {
        let mut shell = Command::new("sh");
        shell.current_dir(folder).env("PATH", &path).arg("-c").arg(format!("{{ {command}\n}} 2>&1"));
        let output = shell.output().expect("a shell");
        assert_eq!(&String::from_utf8_lossy(&output.stdout), printed, "{command}");
    }
    steps.len()
}

/// A folder with the examples.
fn with_examples(name: &str) -> Folder {
    let folder = Folder::new(name);
    for entry in fs::read_dir(top().join("examples")).expect("the examples") {
        let path = entry.expect("an example").path();
        let name = path.file_name().and_then(|name| name.to_str()).expect("a name");
        if name.ends_with(".txt") || name == "damaged.rec" {
            fs::copy(&path, folder.path().join(name)).expect("a copy");
        }
    }
    folder
}

#[test]
fn the_page_of_the_examples() {
    assert_eq!(replay("examples/README.md", with_examples("examples").path()), 65);
}

#[test]
fn the_first_path_of_the_readme() {
    assert_eq!(replay("README.md", with_examples("readme").path()), 1);
}

#[test]
fn the_page_of_ci_systems() {
    assert_eq!(replay("docs/CI.md", with_examples("ci").path()), 5);
}

#[test]
fn the_page_of_the_text_form() {
    let folder = Folder::new("text_form");
    assert_eq!(replay("docs/TEXT-FORM.md", folder.path()), 1);
}

/// The records on that page: the short one, and the one with every command, whose list follows it.
#[test]
fn the_records_of_the_text_form() {
    let page = fs::read_to_string(top().join("docs/TEXT-FORM.md")).expect("the page");
    let blocks = blocks(&page);
    assert!(blocks[0].starts_with("head 1.0.0\nstruct tile\n"));
    record(&blocks[0]);
    let [.., example, list] = &blocks[..] else { panic!("two blocks at the end") };
    let parts = record(example);
    assert_eq!(list_whole(parts.record(), Side::Current).1, list.as_bytes());
    let shown = show(parts.record()).expect("a text");
    assert_eq!(record(&shown), parts);
    for line in shown.lines().filter(|line| !line.is_empty()) {
        assert!(example.contains(line), "{line}");
    }
    let words = |text: &str| {
        text.lines().filter_map(|line| line.split_whitespace().next().map(String::from)).collect()
    };
    let used: std::collections::BTreeSet<String> = words(&shown);
    assert_eq!(used.len(), 15, "{used:?}");
}

/// The check program's input is the two record files, one behind the other.
#[test]
fn record_files_are_the_program_s_input() {
    let text = |name: &str| fs::read_to_string(top().join("examples").join(name)).expect("an example");
    let both = [record(&text("moved.txt")).to_bytes(), record(&text("first.txt")).to_bytes()].concat();
    assert!(run_on(&["check", "-", "-"], &both).said(1).starts_with("35 moved: tile.n was at offset 0 "));
}
