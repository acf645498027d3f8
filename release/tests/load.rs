//! Pairs of the load call, by document 02's sentences, and the two commands that make them.
mod common;

use common::{run, run_on, top, Folder};
use menqachu::record::pair::{Pair, OUTCOMES};
use menqachu::record::room::{check_whole, load_whole};
use menqachu::{load, Answer};

const LAST: u32 = 2_147_483_647;
const UNFIT: Answer = Answer { number: 61, side: 0, place: 0, len: 0 };

fn next(seed: u64) -> u64 {
    (seed * 1_103_515_245 + 12_345) % 2_147_483_648
}

/// The released structures of a pair, each with its number of fields, read off the command bytes.
fn released_fields(seed: u32) -> Vec<usize> {
    let (_, bytes) = load_whole(0, seed);
    let pair = Pair::read(&bytes).expect("a pair");
    let shown = menqachu::text::show(pair.released.record()).expect("a text");
    let mut counts = Vec::new();
    let mut inside = false;
    for line in shown.lines() {
        match line.split_whitespace().next() {
            Some("struct") => {
                inside = true;
                counts.push(0);
            }
            Some("field") if inside => *counts.last_mut().expect("a structure") += 1,
            Some("field" | "key") | None => {}
            Some(_) => inside = false,
        }
    }
    counts
}

/// 61 for every other outcome, of all 32 bits, and every seed above the last, whatever the buffer.
#[test]
fn w213_1_unfit() {
    let strange = [1, 10, 11, 19, 21, 33, 37, 42, 44, 46, 47, 61, 256, 276, 290, 299, 65_536, u32::MAX];
    for room in [0, 1, 20_000] {
        let mut out = vec![0xA5; room];
        for outcome in strange {
            for seed in [0, LAST, LAST + 1] {
                assert_eq!(load(outcome, seed, &mut out), UNFIT, "{outcome} {seed}");
            }
        }
        for outcome in OUTCOMES {
            for seed in [LAST + 1, LAST + 2, u32::MAX] {
                assert_eq!(load(outcome, seed, &mut out), UNFIT, "{outcome} {seed}");
            }
        }
        assert!(out.iter().all(|&byte| byte == 0xA5));
    }
    assert!(OUTCOMES.iter().all(|&outcome| load_whole(outcome, LAST).0.number == 0));
}

/// The seed moves before it is used, with 64 bits, and a draw divides it by 65,536 first.
#[test]
fn w213_2_3_4_first_draws() {
    assert_eq!((next(0), next(1)), (12_345, 1_103_527_590));
    for seed in (0..300).chain([LAST, LAST - 1, 1 << 30]) {
        let first = next(seed.into());
        let (structs, fields) = (first / 65_536 % 8 + 1, next(first) / 65_536 % 16 + 2);
        let found = released_fields(seed);
        assert_eq!(found.len() as u64, structs, "seed {seed}");
        assert!(found.iter().all(|&count| count as u64 == fields), "seed {seed}: {found:?}");
    }
}

/// The outcome is the whole check's first verdict.
#[test]
fn w213_5_outcomes() {
    for seed in (0..500).chain([LAST]) {
        for outcome in OUTCOMES {
            let pair = Pair::read(&load_whole(outcome, seed).1).expect("a pair");
            let (answer, _) = check_whole(pair.current.record(), pair.released.record());
            assert_eq!(answer.number, outcome, "seed {seed}");
        }
    }
}

/// Four parts with true lengths and nothing behind; a buffer just long enough, and one a byte short.
#[test]
fn w213_6_parts_and_room() {
    for (seed, outcome) in (0..60).zip(OUTCOMES.iter().copied().cycle()) {
        let (answer, bytes) = load_whole(outcome, seed);
        assert_eq!(answer, Answer { number: 0, side: 0, place: 0, len: bytes.len() });
        let pair = Pair::read(&bytes).expect("a pair");
        assert_eq!([pair.current.to_bytes(), pair.released.to_bytes()].concat(), bytes);
        let mut just = vec![0xA5; bytes.len()];
        assert_eq!((load(outcome, seed, &mut just), &just), (answer, &bytes));
        let mut short = vec![0xA5; bytes.len() - 1];
        assert_eq!(load(outcome, seed, &mut short), Answer { number: 10, ..answer });
        assert!(short.iter().all(|&byte| byte == 0xA5));
        let mut long = vec![0xA5; bytes.len() + 9];
        assert_eq!(load(outcome, seed, &mut long), answer);
        assert!(long.starts_with(&bytes) && long[bytes.len()..].iter().all(|&byte| byte == 0xA5));
    }
}

/// A pair that is made again has the same bytes, and every outcome has the same released record.
#[test]
fn w213_7_the_same_again() {
    for seed in 0..50 {
        let accepted = Pair::read(&load_whole(0, seed).1).expect("a pair");
        for outcome in OUTCOMES {
            let bytes = load_whole(outcome, seed).1;
            assert_eq!(bytes, load_whole(outcome, seed).1);
            assert_eq!(Pair::read(&bytes).expect("a pair").released, accepted.released);
        }
    }
}

/// All sixteen kinds over the seeds 0 to 999, in the released records.
#[test]
fn w213_8_kinds() {
    let mut kinds = std::collections::BTreeSet::new();
    for seed in 0..1000 {
        let pair = Pair::read(&load_whole(43, seed).1).expect("a pair");
        let shown = menqachu::text::show(pair.released.record()).expect("a text");
        let structs = shown.split_once("\nstruct ").expect("a structure").1;
        for line in structs.lines().filter_map(|line| line.trim_start().strip_prefix("field ")) {
            kinds.insert(line.split_whitespace().nth(1).expect("a kind").to_string());
        }
    }
    assert_eq!(kinds.len(), 16, "{kinds:?}");
}

/// The other draws, as docs/LOAD.md has them: what the draws 3 to 11 of a seed decide shows in its records.
#[test]
fn w213_9_other_draws() {
    for seed in 0..200 {
        let mut drawn = vec![u64::from(seed)];
        (0..11).for_each(|at| drawn.push(next(drawn[at])));
        let below = |draw: usize, n: u64| (drawn[draw] / 65_536 % n) as usize;
        let pair = Pair::read(&load_whole(0, seed).1).expect("a pair");
        let released = menqachu::text::show(pair.released.record()).expect("a text");
        let current = menqachu::text::show(pair.current.record()).expect("a text");
        let releases = [["0.8.0", "0.9.0"], ["0.9.0", "0.10.0"], ["0.10.0", "1.0.0"], ["1.9.9", "1.10.0"]];
        let [was, now] = releases[below(3, 4)];
        assert!(
            released.starts_with(&format!("head {was}\n")) && current.starts_with(&format!("head {now}\n"))
        );
        let generation = below(6, 32_768);
        assert!(released.contains(&format!("constant GENERATION {generation}\n")), "seed {seed}");
        assert!(current.contains(&format!("constant GENERATION {}\n", generation + 1)), "seed {seed}");
        assert!(released.contains(&format!("constant TILE_LIMIT {} api", below(7, 32_768))), "seed {seed}");
        let slot = ["metadata", "runtime", "info"][below(4, 3)];
        let roots: Vec<usize> = released
            .lines()
            .filter(|line| line.starts_with("struct "))
            .enumerate()
            .filter(|(_, line)| line.contains(&format!("slot={slot} version=GENERATION")))
            .map(|(at, _)| at)
            .collect();
        assert_eq!(roots, [below(8, below(1, 8) as u64 + 1)], "seed {seed}");
    }
}

/// The command writes what the call does, which the check program reads as it is.
#[test]
fn the_command_load() {
    let ran = run(&["load", "35", "7"]);
    assert_eq!((ran.status, ran.err.as_str()), (0, ""));
    assert_eq!(ran.out, load_whole(35, 7).1);
    assert!(run_on(&["check", "-", "-"], &ran.out).said(1).starts_with("35 moved: "));
    let unfit =
        "release: 61 unfit: the outcome is one of 0, 20, 34, 35, 36, 43, the seed at most 2147483647\n";
    assert_eq!(run(&["load", "37", "7"]).complained(3), unfit);
    assert_eq!(run(&["load", "0", "2147483648"]).complained(3), unfit);
    assert!(run(&["load", "x", "7"]).complained(3).contains("expected an outcome, found x"));
    assert!(run(&["load", "0", "4294967296"]).complained(3).contains("expected a seed, found 4294967296"));
    assert!(run(&["load", "0"]).complained(3).contains("expected 2 operands, found 1"));
}

#[test]
fn the_command_burn_in() {
    let said = run(&["burn-in", "--seeds", "0..2000"]).said(0).to_string();
    let lines: Vec<&str> = said.lines().collect();
    assert_eq!(lines.len(), 3);
    assert!(
        lines[0].starts_with("1000 seeds, 6000 pairs, ") && lines[1].starts_with("2000 seeds, 12000 pairs, ")
    );
    assert!(
        lines[2].starts_with("seeds 0..2000: 12000 pairs, ") && lines[2].ends_with(", each with its outcome")
    );
    let bytes: usize = (3..7).map(|seed| load_whole(43, seed).1.len()).sum();
    let json = format!(
        "{{\"from\":3,\"to\":7,\"outcomes\":[43],\"pairs\":4,\"bytes\":{bytes},\"difference\":null}}\n"
    );
    assert_eq!(run(&["burn-in", "--seeds=3..7", "--outcome=43", "--json"]).said(0), json);
    let last = run(&["burn-in", "--outcome", "0", "--seeds", "2147483647..2147483648"]);
    assert!(last.said(0).starts_with("seeds 2147483647..2147483648: 1 pair, "));
}

#[test]
fn what_burn_in_refuses() {
    for seeds in ["5..5", "5..4", "0..2147483649", "x..3", "3", "..", "0..-1"] {
        let refused = run(&["burn-in", "--seeds", seeds]);
        assert!(refused.complained(3).contains(&format!("found {seeds}")), "{seeds}");
    }
    assert!(run(&["burn-in"]).complained(3).contains("expected --seeds A..B"));
    assert!(run(&["burn-in", "--seeds"]).complained(3).contains("--seeds takes a value"));
    let twice = run(&["burn-in", "--seeds", "0..1", "--outcome", "0", "--outcome=20"]);
    assert!(twice.complained(3).contains("--outcome is given twice"));
    assert!(run(&["burn-in", "--seedsx", "0..1"]).complained(3).contains("there is no option --seedsx"));
    assert!(run(&["burn-in", "--seeds", "0..1", "--outcome", "11"]).complained(3).contains("61 unfit: "));
    assert!(run(&["burn-in", "0..1"]).complained(3).contains("expected 0 operands, found 1"));
}

/// The check program's input is a pair as it is written.
#[test]
fn a_pair_is_the_program_s_input() {
    let folder = Folder::new("load");
    let pair = folder.path().join("pair");
    for outcome in OUTCOMES {
        std::fs::write(&pair, load_whole(outcome, 322).1).expect("a file");
        let program = top().join("crates/release_check/out/release_check");
        let input = std::fs::File::open(&pair).expect("the pair");
        let ran = std::process::Command::new(program).stdin(input).output().expect("the check program");
        let printed = String::from_utf8_lossy(&ran.stdout).into_owned();
        assert_eq!(printed.split_whitespace().next(), Some(outcome.to_string().as_str()), "{printed}");
    }
}
