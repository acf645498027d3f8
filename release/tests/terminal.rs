//! Colours and progress, which are for a terminal alone.
mod common;

use std::io::Write;
use std::process::{Command, Stdio};
use std::time::Duration;

use common::terminal::{seen, On};
use common::{command, record, run, Folder};

const OLD: &str = "head 1.0.0\nconstant A 1\nstruct t\nfield n scalar type=u16\nfield k scalar\nend";
const NEW: &str =
    "head 1.1.0\nconstant A 2\nstruct t\nfield n scalar type=u16\nfield m scalar\nfield k scalar\nend";
const CLEAR: &str = "\r\x1b[K";

fn diff(folder: &Folder, more: &[&str]) -> Command {
    let (new, old) = (folder.record("new.rec", NEW), folder.record("old.rec", OLD));
    let mut command = command();
    command.args(["diff", &new, &old]).args(more).env_remove("NO_COLOR").env("TERM", "xterm");
    command
}

/// The text without its colours.
fn plain(text: &str) -> String {
    let mut plain = String::new();
    let mut parts = text.split("\x1b[");
    plain.push_str(parts.next().unwrap_or_default());
    parts.for_each(|part| plain.push_str(part.split_once('m').expect("a colour").1));
    plain
}

#[test]
fn colours_on_a_terminal() {
    let folder = Folder::new("terminal_colours");
    let piped = diff(&folder, &[]).output().expect("the command ends").stdout;
    let piped = String::from_utf8(piped).expect("UTF-8");
    assert!(!piped.contains('\x1b'), "{piped}");
    let (status, coloured) = seen(diff(&folder, &[]), On::Output);
    assert_eq!(status, Some(0));
    for part in [
        "\x1b[31m21 constant changed\x1b[0m",
        "\x1b[31m35 moved\x1b[0m",
        "\x1b[32mnew\x1b[0m",
        "\x1b[33mchanged\x1b[0m",
    ] {
        assert!(coloured.contains(part), "{part:?} in {coloured:?}");
    }
    assert_eq!(plain(&coloured), piped);
    // --all has faint lines too.
    let (_, all) = seen(diff(&folder, &["--all"]), On::Output);
    assert_eq!(plain(&all).as_bytes(), diff(&folder, &["--all"]).output().expect("ends").stdout);
}

#[test]
fn no_colours_where_none_are_wanted() {
    let folder = Folder::new("terminal_plain");
    let mut unwanted = diff(&folder, &[]);
    unwanted.env("NO_COLOR", "1");
    let mut dumb = diff(&folder, &[]);
    dumb.env("TERM", "dumb");
    for command in [unwanted, dumb, diff(&folder, &["--json"])] {
        let (status, shown) = seen(command, On::Output);
        assert!(status == Some(0) && !shown.contains('\x1b'), "{shown:?}");
    }
    // An empty NO_COLOR says nothing.
    let mut empty = diff(&folder, &[]);
    empty.env("NO_COLOR", "");
    assert!(seen(empty, On::Output).1.contains("\x1b[31m"));
}

/// The bar grows, and nothing of it is left at the end.
#[test]
fn progress_of_a_burn_in() {
    let burn = |more: &[&str]| {
        let mut command = command();
        command.args(["burn-in", "--seeds", "0..4000"]).args(more);
        command
    };
    let (status, shown) = seen(burn(&["--json"]), On::Errors);
    assert_eq!(status, Some(0));
    assert!(shown.contains(&format!("{CLEAR}[#")) && shown.contains(" %"), "{shown:?}");
    assert!(shown.ends_with(CLEAR), "{shown:?}");
    // Lines take the place of the bar.
    let (_, shown) = seen(burn(&[]), On::Both);
    let left: Vec<&str> = shown.lines().map(|line| line.rsplit(CLEAR).next().unwrap_or_default()).collect();
    assert_eq!(left.len(), 5, "{shown:?}");
    assert!(
        left[0].starts_with("1000 seeds, 6000 pairs, ")
            && left[4].starts_with("seeds 0..4000: 24000 pairs, ")
    );
}

/// Nothing is left of a short run, and nothing is written where standard error is no terminal.
#[test]
fn no_progress() {
    let mut short = command();
    short.args(["burn-in", "--seeds", "0..1"]);
    let (status, shown) = seen(short, On::Errors);
    assert!(status == Some(0) && (shown.is_empty() || shown.ends_with(CLEAR)), "{shown:?}");
    assert_eq!(run(&["burn-in", "--seeds", "0..3000", "--json"]).err, "");
}

/// Records of a chain that take their time.
#[test]
fn progress_of_a_chain() {
    let (reader, mut writer) = std::io::pipe().expect("a pipe");
    let mut chain = command();
    chain.args(["chain", "-", "-", "-"]).stdin(Stdio::from(reader));
    let feed = std::thread::spawn(move || {
        for release in ["1.0.0", "1.1.0", "1.2.0"] {
            std::thread::sleep(Duration::from_millis(250));
            let _ = writer.write_all(&record(&format!("head {release}\nend")).to_bytes());
        }
    });
    let (status, shown) = seen(chain, On::Errors);
    feed.join().expect("the records are written");
    assert_eq!(status, Some(0));
    assert!(shown.contains(&format!("{CLEAR}[######")) && shown.contains("]  16 %"), "{shown:?}");
    assert!(shown.ends_with(CLEAR), "{shown:?}");
}
