//! The calls over the linked library, and the check program, on the oracle's answers that the gate replays. Every call is made on a thread of
//! 512 KiB, with each slice a block of its own length.
mod common;

use std::collections::HashSet;
use std::io::Write;
use std::process::{Command, Stdio};
use std::thread;

use common::top;
use common::vectors::{pairs, Vectors};
use menqachu::record::pair::OUTCOMES;
use menqachu::{
    check, draft_add, draft_count, draft_remove, list, load, owner, pairs_compared, pointers, shelf_back,
    shelf_new, shelf_set, Answer, DraftAnswer, Owner, Shelf, ShelfAnswer, Side,
};

const STACK: usize = 512 * 1024;
const MARK: u8 = 0xa5;

fn on_small_stack(run: impl FnOnce() + Send + 'static) {
    thread::Builder::new().stack_size(STACK).spawn(run).unwrap().join().unwrap();
}

/// What a buffer of marks holds after a text was written at its front.
fn written(room: usize, text: &[u8]) -> Vec<u8> {
    let mut out = vec![MARK; room];
    out[..text.len()].copy_from_slice(text);
    out
}

#[test]
fn check_answers_as_the_oracle() {
    let all = pairs();
    assert!(all.len() >= 3000);
    on_small_stack(move || {
        for (i, pair) in all.iter().enumerate() {
            let mut out = vec![MARK; pair.room].into_boxed_slice();
            let answer = check(pair.current.record(), pair.released.record(), &mut out);
            assert_eq!(answer, pair.answer, "pair {i}");
            assert!(*out == written(pair.room, &pair.message)[..], "buffer of pair {i}");
        }
    });
}

#[test]
fn list_answers_as_the_oracle() {
    let mut file = Vectors::open("crates/vectors_list/data/lists");
    on_small_stack(move || {
        let mut count = 0;
        while !file.done() {
            let record = file.record();
            let side = if file.byte() == 0 { Side::Current } else { Side::Released };
            let room = file.number();
            let expected = file.answer();
            let text = if expected.number == 0 { file.take(expected.len) } else { Vec::new() };
            let mut out = vec![MARK; room].into_boxed_slice();
            let answer = list(record.record(), side, &mut out);
            assert_eq!(answer, expected, "list {count}");
            assert!(*out == written(room, &text)[..], "buffer of list {count}");
            count += 1;
        }
        assert!(count >= 600);
    });
}

/// The sums over the pairs of the seeds 0 to 999 are those that the oracle prints of its model.
#[test]
fn load_writes_as_the_oracle() {
    let printed =
        std::fs::read_to_string(top().join("crates/vectors_load/stdout")).expect("the oracle's lines");
    on_small_stack(move || {
        for outcome in OUTCOMES {
            let mut sum = 0;
            for seed in 0..1000 {
                let room = load(outcome, seed, &mut []).len;
                let mut out = vec![MARK; room].into_boxed_slice();
                assert_eq!((load(outcome, seed, &mut out).number, out.len()), (0, room), "seed {seed}");
                sum = out.iter().fold(sum, |sum, &byte| (sum * 257 + u64::from(byte) + 1) % 4_294_967_291);
            }
            assert!(
                printed.contains(&format!("outcome {outcome}: 1000 pairs met, sum {sum}, kinds ")),
                "{sum}"
            );
        }
    });
}

#[test]
fn owner_answers_as_the_oracle() {
    let mut file = Vectors::open("crates/vectors_owner/data/owners");
    on_small_stack(move || {
        let mut count = 0;
        while !file.done() {
            let (record, name) = (file.record(), file.part());
            let (kind, a, b) = (file.byte(), file.number(), file.number());
            let expected = match kind {
                0 => Owner::Nobody,
                1 => Owner::Named { start: a, len: b },
                _ => Owner::Refused { number: a as u32, place: b },
            };
            assert_eq!(owner(record.record(), &name), expected, "owner {count}");
            count += 1;
        }
        assert!(count >= 300);
    });
}

#[test]
fn pointers_answers_as_the_oracle() {
    let mut file = Vectors::open("crates/vectors_pointers/data/pointers");
    on_small_stack(move || {
        let mut counts = [0; 61];
        while !file.done() {
            let record = file.record();
            let (number, place) = (file.byte(), file.number());
            let expected = Answer { number: number.into(), side: 0, place, len: 0 };
            assert_eq!(pointers(record.record()), expected);
            counts[usize::from(number)] += 1;
        }
        assert!(counts[0] >= 40 && counts[59] >= 40 && counts[60] >= 40, "{counts:?}");
        assert!((1..=9).all(|number| counts[number] >= 2), "{counts:?}");
    });
}

#[test]
fn drafts_answer_as_the_oracle() {
    let mut file = Vectors::open("crates/vectors_draft/data/drafts");
    on_small_stack(move || {
        let mut count = 0;
        while !file.done() {
            let (call, given) = (file.byte(), file.number());
            let expected = DraftAnswer { answer: file.answer(), changed: file.number() };
            let before = file.part();
            let (addition, copy, front) = (file.record(), file.record(), file.part());
            let mut draft = before.clone().into_boxed_slice();
            let answer = match call {
                0 => draft_count(&draft, copy.record()),
                1 => draft_add(given, &mut draft, addition.record(), copy.record()),
                _ => draft_remove(given, &mut draft, &addition.stream, copy.record()),
            };
            assert_eq!(answer, expected, "draft {count}");
            assert!(*draft == [&front, &before[front.len()..]].concat(), "buffer of draft {count}");
            count += 1;
        }
        assert!(count >= 1000);
    });
}

/// Every length from 0 to 300 with the unequal pair at every place, in front of a common back: the count is the length of that back and one.
/// Without an unequal pair it is the length, and with a byte more in front of either, none.
#[test]
fn pairs_compared_counts_from_the_back() {
    on_small_stack(|| {
        for length in 0..=300 {
            let name: Box<[u8]> = (0..length).map(|at| (at * 7 + length) as u8).collect();
            let longer = [&[name.first().copied().unwrap_or(1)], &name[..]].concat().into_boxed_slice();
            assert_eq!(pairs_compared(&name, &name.clone()), length, "equal, {length}");
            assert_eq!(pairs_compared(&name, &longer), 0, "one byte more, {length}");
            assert_eq!(pairs_compared(&longer, &name), 0, "one byte less, {length}");
            for at in 0..length {
                let mut other = name.clone();
                other[at] ^= 1 << (at % 8);
                assert_eq!(pairs_compared(&name, &other), length - at, "place {at} of {length}");
                other[..at].fill(0);
                assert_eq!(pairs_compared(&other, &name), length - at, "place {at} of {length}, zeros");
            }
        }
    });
}

#[test]
fn shelves_answer_as_the_oracle() {
    let mut file = Vectors::open("crates/vectors_shelf/data/shelves");
    on_small_stack(move || {
        let mut counts = [0; 59];
        while !file.done() {
            let (call, answer, changed) = (file.byte(), file.answer(), file.number());
            let (given, after) = (shelf_of(&file.part()), shelf_of(&file.part()));
            let [name, draft, held] = [(); 3].map(|()| file.part());
            let (copy, front) = (file.record(), file.part());
            let [mut lent_draft, mut lent_held] =
                [&draft, &held].map(|bytes| bytes.clone().into_boxed_slice());
            let (answered, before, written, other) = match call {
                0 => (
                    shelf_set(given, &name, &lent_draft, &mut lent_held),
                    &held,
                    &lent_held,
                    *lent_draft == draft[..],
                ),
                _ => {
                    let answered = shelf_back(given, &name, &mut lent_draft, &lent_held, copy.record());
                    (answered, &draft, &lent_draft, *lent_held == held[..])
                }
            };
            let count: usize = counts.iter().sum();
            assert_eq!(answered, ShelfAnswer { answer, changed, shelf: after }, "call {count}");
            assert!(
                **written == [&front, &before[front.len()..]].concat() && other,
                "buffer of call {count}"
            );
            counts[answer.number as usize] += 1;
        }
        assert!([0, 10, 57, 58].iter().all(|&number| counts[number] >= 40), "{counts:?}");
        assert!((1..=9).all(|number| counts[number] >= 16), "{counts:?}");
    });
}

#[test]
fn a_new_shelf_is_all_zero() {
    assert_eq!(shelf_new(), shelf_of(&[0; 320]));
}

/// A shelf from the bytes of its struct.
fn shelf_of(bytes: &[u8]) -> Shelf {
    let numbers = |from: usize| {
        std::array::from_fn(|row| {
            let bytes = bytes[from + 8 * row..][..8].try_into().expect("eight bytes");
            u64::from_le_bytes(bytes) as usize
        })
    };
    let names = bytes[..128].try_into().expect("the names");
    Shelf { names, name_lens: numbers(128), starts: numbers(192), lens: numbers(256) }
}

/// What the check program prints.
fn printed(given: &[u8]) -> Vec<u8> {
    let mut child = Command::new(top().join("crates/release_check/out/release_check"))
        .stdin(Stdio::piped())
        .stdout(Stdio::piped())
        .spawn()
        .expect("release_check starts");
    let mut pipe = child.stdin.take().expect("a pipe");
    // A program that has read its parts may have closed the pipe before the rest is written.
    let _ = pipe.write_all(given);
    drop(pipe);
    child.wait_with_output().expect("release_check ends").stdout
}

#[test]
fn program_prints_each_answer() {
    let mut seen = HashSet::new();
    for pair in pairs() {
        let a = pair.answer;
        if a.number == 10 || !seen.insert((a.number, a.side)) {
            continue;
        }
        let expected = match a.number {
            0 => b"0\n".to_vec(),
            1..=9 => format!("{} {} {}\n", a.number, a.side, a.place).into_bytes(),
            _ => [format!("{} ", a.number).as_bytes(), &pair.message, b"\n"].concat(),
        };
        assert_eq!(printed(&pair.bytes()), expected, "number {} side {}", a.number, a.side);
    }
    assert_eq!(seen.len(), 1 + 2 * 9 + 36);
}
