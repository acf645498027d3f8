//! Drawn texts and records to the commands: none panics, and none takes more than 0.2 s of processor.
//!
//! 300 of each are drawn here, and MENQACHU_FUZZ=10000 draws so many, others with MENQACHU_FUZZ_SEED=2; each is given to six
//! of the calls below. The texts of the largest records are given to all calls.
mod common;

use std::process::Stdio;
use std::thread::sleep;
use std::time::{Duration, Instant};

use common::vectors::records;
use common::{command, run_in, Drawn, Folder};
use menqachu::record::parts::Parts;
use menqachu::record::room::load_whole;
use menqachu::text::{assemble, show};

/// How long a run may take, in seconds of processor.
const LIMIT: f64 = 0.2;

/// How many of the calls a drawn input is given to.
const EACH: usize = 6;

/// What an input is given to, as FILE, beside a record or text that can be read, as GOOD.
const CALLS: [&str; 25] = [
    "check FILE GOOD",
    "check GOOD FILE --json",
    "check FILE FILE",
    "chain GOOD FILE GOOD",
    "chain FILE GOOD --json",
    "list FILE",
    "list FILE --released --json",
    "owner FILE tile",
    "pointers FILE",
    "pointers FILE --json",
    "diff FILE GOOD",
    "diff GOOD FILE --all",
    "diff GOOD FILE --json",
    "report FILE GOOD",
    "report GOOD FILE",
    "draft count FILE GOOD",
    "draft remove FILE tile GOOD",
    "draft add FILE MORE GOOD",
    "draft add COPY FILE GOOD",
    "shelf set SHELF name FILE",
    "shelf back SHELF name COPY FILE",
    "reordered FILE GOOD",
    "lint FILE",
    "show FILE",
    "assemble FILE",
];

/// Words that the mutations of a text put in.
const WORDS: [&str; 28] = [
    "head",
    "pool \"tile tile\"",
    "constant",
    "enum",
    "value",
    "bitfield",
    "member",
    "struct",
    "struct \"\" slot=metadata version=GENERATION",
    "family",
    "variant",
    "field",
    "field f struct_ptr type=tile",
    "field f scaler size=4294967295",
    "key",
    "version",
    "end",
    "slot=info",
    "size=4294967295",
    "count=4294967295",
    "-9223372036854775808",
    "\"\\u{202E}\"",
    "\"",
    "\\",
    "=",
    "#",
    "\u{feff}",
    "µm\u{30a}",
];

/// The texts that others are drawn from: the examples, the vectors', pairs of the load, and texts of the largest records.
fn bases() -> Vec<String> {
    let mut bases: Vec<String> = std::fs::read_dir(common::top().join("examples"))
        .expect("the examples")
        .map(|entry| entry.expect("an example").path())
        .filter(|path| path.extension().is_some_and(|extension| extension == "txt"))
        .map(|path| std::fs::read_to_string(path).expect("a text"))
        .collect();
    bases.sort();
    bases.extend(records().iter().step_by(7).filter_map(|record| show(record.record()).ok()));
    for seed in 0..8 {
        let (_, pair) = load_whole(35, seed);
        let mut rest = &pair[..];
        let record = Parts::read(&mut rest).expect("a record");
        bases.extend(show(record.record()));
    }
    bases.extend(largest());
    bases
}

/// Texts of records with as many commands of one sort, or as long texts, as there is room for.
fn largest() -> Vec<String> {
    let many = |front: &str, count: usize, line: &dyn Fn(usize) -> String| {
        let lines: String = (0..count).map(|index| line(index) + "\n").collect();
        format!("head 1.0.0\nconstant G 1\n{front}{lines}end\n")
    };
    let root = "struct s slot=metadata version=G\n";
    vec![
        many("", 4000, &|i| format!("alias a{} b", i % 900)),
        many("", 3500, &|i| format!("struct s{}", i % 2000)),
        many(root, 980, &|i| format!("field f{i} struct_ptr type=s")),
        many(root, 980, &|_| "field f scalar type=u8".to_string()),
        many("enum e 1\n", 2200, &|i| format!("value v{i} {i}")),
        many("bitfield b 1 since=1.0.0\n", 2000, &|i| format!("member m{i} {i}")),
        many("family f k e l\n", 2900, &|i| format!("variant v{i}")),
        many("", 60, &|i| format!("alias {}{i} u8", "n".repeat(250))),
        many("", 480, &|i| format!("struct t{i}\nfield f struct_ptr type=t{}", i + 1)),
        many("", 4000, &|_| "version s 1".to_string()),
        many("", 1100, &|i| format!("constant c{} {i} api since=1.{i}.0", i % 600)),
        format!(
            "pool \"{}\"\n{}",
            "ab".repeat(8000),
            many("", 4000, &|i| format!("alias {} {}", "ab".repeat(i % 120 + 1), "ba".repeat(i % 127 + 1)))
        ),
    ]
}

/// A text whose pool comes first, and whose commands name as many different stretches of it as there is room for.
fn stretches() -> String {
    let mut drawn = Drawn(0x7E47);
    let letters: String = (0..16_000).map(|_| char::from(b'a' + drawn.below(26) as u8)).collect();
    let aliases =
        (0..4600).map(|at| format!("alias {} {}\n", &letters[3 * at..][..60], &letters[3 * at + 1..][..60]));
    format!("pool {letters}\nhead 1.0.0\n{}end\n", aliases.collect::<String>())
}

/// A text with a few lines or words put in, taken out, doubled or moved, or bytes changed.
fn drawn_text(drawn: &mut Drawn, bases: &[String]) -> Vec<u8> {
    let base = &bases[drawn.below(bases.len())];
    let mut lines: Vec<String> = base.lines().map(String::from).collect();
    for _ in 0..drawn.below(6) {
        let (at, other) = (drawn.below(lines.len()), drawn.below(lines.len()));
        match drawn.below(8) {
            0 if !lines.is_empty() => drop(lines.remove(at)),
            1 if !lines.is_empty() => lines.insert(other, lines[at].clone()),
            2 if !lines.is_empty() => lines.swap(at, other),
            3 => lines.insert(at, WORDS[drawn.below(WORDS.len())].to_string()),
            4 => {
                let from = &bases[drawn.below(bases.len())];
                let from: Vec<&str> = from.lines().collect();
                let start = drawn.below(from.len());
                let end = (start + drawn.below(40)).min(from.len());
                lines.splice(at..at, from[start..end].iter().map(|line| line.to_string()));
            }
            _ if !lines.is_empty() => {
                let mut words: Vec<&str> = lines[at].split(' ').collect();
                let place = drawn.below(words.len());
                let word = WORDS[drawn.below(WORDS.len())];
                match drawn.below(3) {
                    0 => words[place] = word,
                    1 => words.insert(place, word),
                    _ => drop(words.remove(place)),
                }
                lines[at] = words.join(" ");
            }
            _ => {}
        }
    }
    let mut bytes = lines.join(if drawn.below(9) == 0 { "\r\n" } else { "\n" }).into_bytes();
    if drawn.below(3) == 0 {
        damage(&mut bytes, drawn);
    }
    bytes
}

/// A record of a drawn text, or of a base where that one is wrong, with bytes changed in most.
fn drawn_record(drawn: &mut Drawn, bases: &[String]) -> Vec<u8> {
    let text = drawn_text(drawn, bases);
    let parts = assemble(&text).or_else(|_| assemble(bases[drawn.below(bases.len())].as_bytes()));
    let mut bytes = parts.unwrap_or_default().to_bytes();
    if drawn.below(4) != 0 {
        damage(&mut bytes, drawn);
    }
    bytes
}

/// Some bytes changed, put in or taken out, or the end cut off.
fn damage(bytes: &mut Vec<u8>, drawn: &mut Drawn) {
    for _ in 0..1 + drawn.below(4) {
        let at = drawn.below(bytes.len());
        match (drawn.below(6), bytes.get_mut(at)) {
            (0, Some(_)) => drop(bytes.remove(at)),
            (1, Some(_)) => bytes.insert(at, drawn.next() as u8),
            (2, Some(byte)) => *byte ^= 1 << drawn.below(8),
            (3, Some(byte)) => *byte = [0, 1, 0x0F, 0x10, 0x7F, 0x80, 0xFF][drawn.below(7)],
            (_, Some(byte)) => *byte = drawn.next() as u8,
            (_, None) => bytes.push(drawn.next() as u8),
        }
    }
    if drawn.below(6) == 0 {
        bytes.truncate(drawn.below(bytes.len() + 1));
    }
}

/// The processor time of all children that have ended, in seconds, by what the system counts in hundredths.
fn processor() -> f64 {
    let stat = std::fs::read_to_string("/proc/self/stat").expect("the process's own numbers");
    let (_, numbers) = stat.rsplit_once(')').expect("the program's name");
    let ticks = numbers.split_whitespace().skip(13).take(2).map(|ticks| ticks.parse::<f64>().expect("ticks"));
    ticks.sum::<f64>() / 100.0
}

/// The files that a call speaks of.
fn filled(call: &str) -> String {
    let names = [("FILE", "file"), ("GOOD", "good"), ("MORE", "more"), ("COPY", "copy"), ("SHELF", "shelf")];
    names.iter().fold(call.to_string(), |call, (word, name)| call.replace(word, name))
}

/// Some of the calls.
fn drawn_calls(drawn: &mut Drawn) -> Vec<&'static str> {
    (0..EACH).map(|_| CALLS[drawn.below(CALLS.len())]).collect()
}

/// Gives an input to these calls, and gives the longest time of processor that one took.
fn hold(folder: &Folder, calls: &[&str], input: &[u8], good: &[u8], round: &str) -> f64 {
    let mut longest: f64 = 0.0;
    folder.file("good", good);
    for call in calls.iter().map(|call| filled(call)) {
        let (status, mut took) = timed(folder, &call, input, good);
        // Other work on the machine makes a run longer, so the shortest of ten counts, each a little later.
        for pause in 1..10 {
            if took > LIMIT {
                sleep(Duration::from_millis(100 * pause));
                took = took.min(timed(folder, &call, input, good).1);
            }
        }
        longest = longest.max(took);
        if !matches!(status, Some(0..=3)) || took > LIMIT {
            let kept = folder.file("kept", input);
            let said = run_in(folder.path(), &call).err;
            panic!("{round}: {call}: status {status:?}, {took} s of processor; the input is {kept}\n{said}");
        }
    }
    longest
}

/// The status of a run, and its time of processor.
fn timed(folder: &Folder, call: &str, input: &[u8], good: &[u8]) -> (Option<i32>, f64) {
    // Some commands write the files again.
    folder.file("file", input);
    folder.file("copy", good);
    let mut command = command();
    command.current_dir(folder.path()).args(call.split(' '));
    command.stdin(Stdio::null()).stdout(Stdio::null()).stderr(Stdio::null());
    let before = processor();
    let status = command.status().expect("the command starts").code();
    // A difference of two such numbers is rounded, since 0.2 s is not more than 0.2 s.
    (status, ((processor() - before) * 100.0).round() / 100.0)
}

#[test]
fn drawn_texts_and_records() {
    let asked = |name: &str| std::env::var(name).ok().map(|number| number.parse::<u64>().expect(name));
    let count = asked("MENQACHU_FUZZ").unwrap_or(300);
    let seed = asked("MENQACHU_FUZZ_SEED").unwrap_or(1);
    let folder = Folder::new(&format!("fuzz_{seed}"));
    folder.file("more", b"head 1.0.0\nstruct more\nfield n scalar\nend\n");
    let bases = bases();
    let mut drawn = Drawn(0xF022 * seed.max(1));
    let (mut longest, began) = (0.0_f64, Instant::now());
    for base in largest().into_iter().chain([stretches()]) {
        longest = longest.max(hold(&folder, &CALLS, base.as_bytes(), base.as_bytes(), "largest"));
    }
    let mut sorts = [0; 4];
    for round in 0..count {
        let good = &bases[drawn.below(bases.len())];
        let (text, record) = (drawn_text(&mut drawn, &bases), drawn_record(&mut drawn, &bases));
        sorts[usize::from(assemble(&text).is_ok())] += 1;
        let read = Parts::read(&mut &record[..]).expect("a slice can be read");
        sorts[2 + usize::from(show(read.record()).is_ok())] += 1;
        longest = longest.max(hold(
            &folder,
            &drawn_calls(&mut drawn),
            &text,
            good.as_bytes(),
            &format!("text {round}"),
        ));
        let good = assemble(good.as_bytes()).map_or(good.as_bytes().to_vec(), |parts| parts.to_bytes());
        longest =
            longest.max(hold(&folder, &drawn_calls(&mut drawn), &record, &good, &format!("record {round}")));
    }
    // Both sorts of both are there: those that can be read, and those that cannot.
    assert!(sorts.iter().all(|found| *found > count / 10), "{sorts:?}");
    println!(
        "{count} texts and {count} records, {sorts:?}: at most {longest} s, {:?} in all",
        began.elapsed()
    );
}
