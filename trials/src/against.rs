//! The time of the calls beside those of another archive, on the same records, in one run.

use std::hint::black_box;

use crate::bench::{Call, Case, cases, refused_at_its_end, room, room_for};
use crate::clock::{least, timed};
use crate::differ::record;
use crate::inputs::{self, Input};
use crate::other::{Calls, OURS};
use crate::table::grouped;

const HEAD: &str = "\
| call | input | this archive, ns | the other, ns | this / the other |
|---|---|---|---|---|";

/// A line for each case that `bench` measures.
pub fn run(others: &Calls) {
    println!("{HEAD}");
    for case in cases() {
        let (call, input) = (case.call.name(), case.name());
        let shown = |time: f64| grouped(time.round() as u64);
        match measured(&case, others) {
            Times::Both([ours, theirs]) => {
                let ratio = ours / theirs;
                println!("| {call} | {input} | {} | {} | {ratio:.3} |", shown(ours), shown(theirs));
            }
            Times::Ours(ours) => println!("| {call} | {input} | {} | refuses it | |", shown(ours)),
        }
    }
}

/// Nanoseconds of a call.
enum Times {
    Both([f64; 2]),
    /// The other archive is from before request W-206 and refuses the record.
    Ours(f64),
}

/// The nanoseconds of both, which must answer alike, unless the record has texts that are not ASCII.
fn measured(case: &Case, others: &Calls) -> Times {
    let (pair, name) = (case.input.records(), case.input.asked.as_bytes());
    let damaged = refused_at_its_end(&pair.current);
    let mut out = match case.call {
        Call::List => room_for(record(&pair.current)),
        _ => room(),
    };
    let mut there = out.clone();
    let answer = |calls: &Calls, out: &mut [u8]| match case.call {
        Call::Check { .. } => (calls.check)(&pair, out),
        Call::List => (calls.list)(&pair.current, out),
        Call::Owner => (calls.owner)(&pair.current, name),
        Call::Reading => (calls.owner)(&damaged, name),
    };
    let numbers = [answer(&OURS, &mut out), answer(others, &mut there)];
    if numbers[0] != numbers[1] && !pair.current.pool.is_ascii() {
        let [ours] = least([&mut || timed(|| answer(&OURS, &mut out))]);
        return Times::Ours(ours);
    }
    assert_eq!(numbers[0], numbers[1], "{}", case.name());
    Times::Both(least([&mut || timed(|| answer(&OURS, &mut out)), &mut || {
        timed(|| answer(others, &mut there))
    }]))
}

/// The measured input of this name, of those that are not made in growing sizes.
pub fn named(name: &str) -> Option<Input> {
    let full = 32 * 1_024;
    let hard = [inputs::fronted_variants, inputs::enums_last, inputs::owned_chain, inputs::owned_fan]
        .map(|input| input(full));
    let mut all = inputs::named().into_iter().chain(hard).chain([inputs::deepest(), inputs::many_pointers()]);
    all.find(|input| input.name == name)
}

/// One call on one input so many times and nothing else, for a tool that counts what the code does; none where the words name
/// no call or no input.
pub fn repeat(calls: &Calls, call: &str, name: &str, turns: u64) -> Option<()> {
    let input = named(name)?;
    let pair = input.records();
    let mut out = room_for(record(&pair.current));
    for _ in 0..turns {
        let number = match call {
            "check" => (calls.check)(&pair, &mut out),
            "list" => (calls.list)(&pair.current, &mut out),
            "owner" => (calls.owner)(&pair.current, input.asked.as_bytes()),
            _ => return None,
        };
        black_box(number);
    }
    Some(())
}
