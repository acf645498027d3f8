//! How much stack the calls take. Each is run on a thread of a given size in a process of its own, since a stack that is too
//! small ends the process; the least size at which it returns is found by bisection.

use std::process::{Command, Stdio};
use std::thread;

use menqachu::Owner;
use oracle::answers::ROOM;
use oracle::verdicts::FIRST_VERDICT;

use crate::differ::record;
use crate::edit_rows::Edits;
use crate::inputs::{self, Input};
use crate::shelf_rows::{self, Shelves};

/// What every call has to do with, in KiB.
const ENOUGH: usize = 512;

/// Sizes are found to this many KiB, a page.
const STEP: usize = 4;

type Call = fn(&Input);

const CALLS: [(&str, Call); 8] = [
    ("check", check),
    ("list", list),
    ("owner", owner),
    ("pointers", pointers),
    ("draft_remove", remove),
    ("draft_add", add),
    ("shelf_set", set),
    ("shelf_back", back),
];

/// The largest records, and the deepest walk.
fn largest() -> Vec<Input> {
    let large = [
        inputs::new_variants,
        inputs::fronted_variants,
        inputs::enums_last,
        inputs::owned_chain,
        inputs::owned_fan,
    ];
    let mut all = inputs::named();
    all.extend(large.map(|input| input(32 * 1_024)));
    all.push(inputs::deepest());
    all
}

/// Measure every call on every input; whether each does with what is enough.
pub fn run() -> bool {
    println!("| call | input | the smallest thread that suffices, KiB |\n|---|---|---|");
    let mut all = true;
    for (call, _) in CALLS {
        for (nth, input) in largest().iter().enumerate() {
            let least = least(call, nth);
            let shown = least.map_or(format!("more than {ENOUGH}"), |kib| kib.to_string());
            println!("| {call} | {} | {shown} |", input.name);
            all &= least.is_some();
        }
    }
    all
}

/// The least thread that suffices, if one of the size that is enough does.
fn least(call: &str, nth: usize) -> Option<usize> {
    let (mut low, mut high) = (0, ENOUGH / STEP);
    if !returns(call, nth, ENOUGH) {
        return None;
    }
    while low + 1 < high {
        let middle = (low + high) / 2;
        match returns(call, nth, middle * STEP) {
            true => high = middle,
            false => low = middle,
        }
    }
    Some(high * STEP)
}

/// Whether a process that makes this call on a thread of so many KiB comes to its end.
fn returns(call: &str, nth: usize, kib: usize) -> bool {
    let program = std::env::current_exe().expect("the program knows its path");
    let words = ["stack-of", call, &nth.to_string(), &kib.to_string()].map(str::to_string);
    let run = Command::new(program).args(words).stdout(Stdio::null()).stderr(Stdio::null()).status();
    run.expect("the program can be run").success()
}

/// Make a call on a thread of so many KiB; none where there is no such call or input.
pub fn call(name: &str, nth: usize, kib: usize) -> Option<bool> {
    let (_, call) = CALLS.into_iter().find(|(call, _)| *call == name)?;
    let input = largest().into_iter().nth(nth)?;
    let thread = thread::Builder::new().stack_size(kib * 1_024);
    Some(thread.spawn(move || call(&input)).expect("a thread can be made").join().is_ok())
}

/// The records and the buffer stand on the heap.
fn check(input: &Input) {
    let pair = input.records();
    let mut out = vec![0; ROOM];
    let answer = menqachu::check(record(&pair.current), record(&pair.released), &mut out);
    assert!(matches!(answer.number, 0 | FIRST_VERDICT..), "both records can be read");
}

/// The room is for any list, so that every line is written.
fn list(input: &Input) {
    let pair = input.records();
    let mut out = vec![0; 1 << 22];
    let answer = menqachu::list(record(&pair.current), menqachu::Side::Current, &mut out);
    assert_eq!(answer.number, 0, "the record is listed");
}

fn owner(input: &Input) {
    let pair = input.records();
    let owner = menqachu::owner(record(&pair.current), input.asked.as_bytes());
    assert!(matches!(owner, Owner::Named { .. }), "the name has an owner");
}

fn pointers(input: &Input) {
    let pair = input.records();
    let answer = menqachu::pointers(record(&pair.current));
    assert!(matches!(answer.number, 0 | 59), "the record can be read");
}

/// The draft's last type is taken out.
fn remove(input: &Input) {
    let edits = Edits::of(input);
    let mut buffer = edits.whole.clone();
    assert_eq!(edits.remove(&mut buffer), 0, "the type is taken out");
}

/// The draft's last type is added again.
fn add(input: &Input) {
    let edits = Edits::of(input);
    let mut buffer = edits.whole.clone();
    assert!(matches!(edits.add(&mut buffer), 0 | 8), "the type is added, or the texts are too many");
}

/// The first of eight drafts is set again.
fn set(input: &Input) {
    let shelves = Shelves::of(input);
    let mut held = shelves.held.clone();
    assert_eq!(shelves.set(&mut held), 0, "the draft is set");
}

/// The last of eight drafts comes back.
fn back(input: &Input) {
    let shelves = Shelves::of(input);
    assert_eq!(shelves.back(&mut shelf_rows::lent()), 0, "the draft comes back");
}
