//! The oracle's commands. README.md says what each of them prints or writes.

use std::collections::BTreeMap;
use std::io::{self, Read, Write};
use std::process::ExitCode;

use oracle::parts::Parts;
use oracle::{
    Answer, Side, answers, draft_vectors, load, pairs, replay, samples, shelf_vectors, stats,
    utf8_vectors, vectors,
};

const USAGE: &str = "\
oracle stats --seed S --pairs N
oracle vectors-record --seed S --count N [--longs K] OUT
oracle vectors-owner --seed S --count N OUT
oracle vectors-list --seed S --count N OUT
oracle vectors-check --seed S --count N OUT
oracle vectors-pointers --seed S --count N OUT
oracle vectors-pairs
oracle load --from A --to B
oracle load-pair --outcome N --seed S OUT
oracle vectors-draft --seed S --count N OUT
oracle vectors-shelf --seed S --count N OUT
oracle utf8-record|utf8-owner|utf8-list|utf8-check|utf8-pointers|utf8-draft --seed S --count N OUT
oracle replay record|owner|list|check|pointers|draft FILE [OUT]
oracle samples --seed S --per-number K
oracle samples-list --seed S --per-number K
oracle samples-owner --seed S --per-number K
oracle answer-check ROOM < FOUR_PARTS
oracle answer-list SIDE ROOM < TWO_PARTS
oracle answer-owner NAME < TWO_PARTS
oracle answer-pointers < TWO_PARTS
";

fn main() -> ExitCode {
    let printed = Args::read(std::env::args().skip(1)).and_then(|args| run(&args));
    match printed {
        Some(output) => match io::stdout().write_all(output.as_bytes()) {
            Ok(()) => ExitCode::SUCCESS,
            Err(_) => ExitCode::FAILURE,
        },
        None => {
            eprint!("{USAGE}");
            ExitCode::FAILURE
        }
    }
}

/// What a command prints, or nothing if it is not one of those above.
fn run(args: &Args) -> Option<String> {
    match args.word(0)? {
        "stats" => Some(stats::run(args.seed()?, args.number("--pairs")?).report()),
        "vectors-record" => {
            let longs = args.number("--longs").unwrap_or(vectors::LONGS);
            args.write(&vectors::records(args.seed()?, args.count()?, longs))
        }
        "vectors-owner" => args.write(&vectors::owners(args.seed()?, args.count()?)),
        "vectors-list" => args.write(&vectors::lists(args.seed()?, args.count()?)),
        "vectors-check" => args.write(&vectors::checks(args.seed()?, args.count()?)),
        "vectors-pointers" => args.write(&vectors::pointers(args.seed()?, args.count()?)),
        "vectors-pairs" => Some(pairs::summary()),
        "load" => Some(load_summary(args.number("--from")?, args.number("--to")?)),
        "load-pair" => {
            let outcome = u32::try_from(args.number("--outcome")?).ok()?;
            args.write(&load::pair(
                outcome,
                u32::try_from(args.number("--seed")?).ok()?,
            )?)
        }
        "vectors-draft" => args.write(&draft_vectors::drafts(args.seed()?, args.count()?)),
        "vectors-shelf" => args.write(&shelf_vectors::shelves(args.seed()?, args.count()?)),
        "utf8-record" => args.write(&utf8_vectors::records(args.seed()?, args.count()?)),
        "utf8-owner" => args.write(&utf8_vectors::owners(args.seed()?, args.count()?)),
        "utf8-list" => args.write(&utf8_vectors::lists(args.seed()?, args.count()?)),
        "utf8-check" => args.write(&utf8_vectors::checks(args.seed()?, args.count()?)),
        "utf8-pointers" => args.write(&utf8_vectors::pointers(args.seed()?, args.count()?)),
        "utf8-draft" => args.write(&utf8_vectors::drafts(args.seed()?, args.count()?)),
        "replay" => replayed(args),
        "samples" => lines(samples::pairs(args.seed()?, args.per_number()?)),
        "samples-list" => lines(samples::lists(args.seed()?, args.per_number()?)),
        "samples-owner" => lines(samples::owners(args.seed()?, args.per_number()?)),
        "answer-check" => answer_check(args),
        "answer-list" => answer_list(args),
        "answer-owner" => answer_owner(args),
        "answer-pointers" => Some(answer_pointers()),
        _ => None,
    }
}

/// What the pairs of the seeds from one up to another come to; the first that is
/// amiss ends it.
fn load_summary(from: usize, to: usize) -> String {
    let summary = load::summary(from as u32..to as u32);
    summary.unwrap_or_else(|amiss| panic!("{amiss}"))
}

/// What a file of cases comes to when it is asked again; with a second path the
/// file is written there with the answers of now.
fn replayed(args: &Args) -> Option<String> {
    let path = args.word(2)?;
    let file = std::fs::read(path).unwrap_or_else(|error| panic!("{path}: {error}"));
    let replayed = replay::replay(args.word(1)?, &file)?;
    if let Some(out) = args.word(3) {
        std::fs::write(out, &replayed.file).unwrap_or_else(|error| panic!("{out}: {error}"));
    }
    Some(replayed.said)
}

fn lines(lines: Vec<String>) -> Option<String> {
    Some(lines.iter().map(|line| format!("{line}\n")).collect())
}

fn answer_check(args: &Args) -> Option<String> {
    let room = args.word(1)?.parse().ok()?;
    let mut parts = input();
    let [a, b, c, d] = [parts.part(), parts.part(), parts.part(), parts.part()];
    Some(shown(&answers::check(&a, &b, &c, &d, room)))
}

fn answer_list(args: &Args) -> Option<String> {
    let side = match args.word(1)? {
        "0" => Side::Current,
        "1" => Side::Released,
        _ => return None,
    };
    let room = args.word(2)?.parse().ok()?;
    let mut parts = input();
    let [stream, pool] = [parts.part(), parts.part()];
    Some(shown(&answers::list(&stream, &pool, side, room)))
}

fn answer_owner(args: &Args) -> Option<String> {
    let name = args.word(1)?;
    let mut parts = input();
    let [stream, pool] = [parts.part(), parts.part()];
    let answer = answers::owner(&stream, &pool, name.as_bytes());
    let (kind, a, b) = answer.numbers();
    Some(format!("{kind} {a} {b}\n"))
}

fn answer_pointers() -> String {
    let mut parts = input();
    let [stream, pool] = [parts.part(), parts.part()];
    shown(&oracle::pointers(&stream, &pool))
}

/// An answer's four numbers on a line, and its text after that.
fn shown(answer: &Answer) -> String {
    let Answer {
        number,
        side,
        place,
        length,
        text,
    } = answer;
    format!("{number} {side} {place} {length}\n{text}")
}

fn input() -> Parts {
    let mut bytes = Vec::new();
    let read = io::stdin().read_to_end(&mut bytes);
    read.expect("standard input can be read");
    Parts::new(bytes)
}

/// The words after the program's name: options with their numbers, and others.
struct Args {
    options: BTreeMap<String, usize>,
    words: Vec<String>,
}

impl Args {
    fn read(mut args: impl Iterator<Item = String>) -> Option<Self> {
        let mut read = Args {
            options: BTreeMap::new(),
            words: Vec::new(),
        };
        while let Some(arg) = args.next() {
            match arg.starts_with("--") {
                true => {
                    let number = args.next()?.parse().ok()?;
                    read.options.insert(arg, number);
                }
                false => read.words.push(arg),
            }
        }
        Some(read)
    }

    fn word(&self, at: usize) -> Option<&str> {
        self.words.get(at).map(String::as_str)
    }

    fn number(&self, option: &str) -> Option<usize> {
        self.options.get(option).copied()
    }

    fn seed(&self) -> Option<u64> {
        self.number("--seed").map(|seed| seed as u64)
    }

    fn count(&self) -> Option<usize> {
        self.number("--count")
    }

    fn per_number(&self) -> Option<usize> {
        self.number("--per-number")
    }

    /// Write a file to the path given, and say its size.
    fn write(&self, bytes: &[u8]) -> Option<String> {
        let path = self.word(1)?;
        if let Err(error) = std::fs::write(path, bytes) {
            panic!("{path}: {error}");
        }
        Some(format!("{path}: {} bytes\n", bytes.len()))
    }
}
