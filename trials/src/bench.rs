//! The time of the proved calls beside the Rust's, on the same records, in one run. Ours read the records first; the Rust's
//! are measured on values already built, and what building them takes is a column of its own.

use std::fmt;

use menqachu::Record;
use oracle::generate::encode::Encoded;
use oracle::layout::{Layout, compare};
use oracle::values;

use crate::clock::{least, timed};
use crate::differ::record;
use crate::edit_rows;
use crate::inputs::{self, Input};
use crate::load;
use crate::pairs;
use crate::pointers;
use crate::shelf_rows;
use crate::table::grouped;

/// A line of the table: nanoseconds a call.
struct Row {
    call: &'static str,
    input: String,
    bytes: usize,
    ours: f64,
    theirs: f64,
    build: f64,
    /// How many times the line before this one takes, where this one is the next of a series.
    grown: Option<f64>,
}

const HEAD: &str = "\
| call | input | stream, bytes | ours, ns | the Rust's, ns | ours / the Rust's | its values built, ns | ours / built and called | ours / the size before |
|---|---|---|---|---|---|---|---|---|";

impl fmt::Display for Row {
    fn fmt(&self, f: &mut fmt::Formatter) -> fmt::Result {
        let (ratio, whole) = (self.ours / self.theirs, self.ours / (self.build + self.theirs));
        let [bytes, ours, theirs, build] = [self.bytes as f64, self.ours, self.theirs, self.build]
            .map(|number| grouped(number.round() as u64));
        let grown = self.grown.map_or(String::new(), |times| format!("{times:.2}"));
        let (call, input) = (self.call, &self.input);
        write!(
            f,
            "| {call} | {input} | {bytes} | {ours} | {theirs} | {ratio:.2} | {build} | {whole:.2} | {grown} |"
        )
    }
}

/// The room for text that the programs lend.
pub fn room() -> Vec<u8> {
    vec![0; oracle::answers::ROOM]
}

/// The check beside `compare`; `number` is what both must answer.
fn check(input: &Input, number: u32) -> Row {
    let pair = input.records();
    let (now, was) = (record(&pair.current), record(&pair.released));
    let mut out = room();
    let answer = menqachu::check(now, was, &mut out);
    assert_eq!((answer.number, pair.check(out.len()).number), (number, number), "{}", input.name);
    let (schema, copy) = (values::schema(&input.current), values::released(&input.released));
    let [ours, theirs, build] = least([
        &mut || timed(|| menqachu::check(now, was, &mut out)),
        &mut || timed(|| compare(&schema, &copy)),
        &mut || timed(|| (values::schema(&input.current), values::released(&input.released))),
    ]);
    row("check", input, &pair.current, [ours, theirs, build])
}

/// The room for a record's list: the programs', or as much as the list asks for.
pub fn room_for(now: Record) -> Vec<u8> {
    let mut out = room();
    let asked = menqachu::list(now, menqachu::Side::Current, &mut out);
    out.resize(out.len().max(asked.len), 0);
    out
}

/// The list call beside the Rust's flattening, which writes no lines.
fn list(input: &Input) -> Row {
    let pair = input.records();
    let now = record(&pair.current);
    let mut out = room_for(now);
    assert_eq!(menqachu::list(now, menqachu::Side::Current, &mut out).number, 0, "{}", input.name);
    let schema = values::schema(&input.current);
    let [ours, theirs, build] = least([
        &mut || timed(|| menqachu::list(now, menqachu::Side::Current, &mut out)),
        &mut || timed(|| Layout::of_schema(&schema)),
        &mut || timed(|| values::schema(&input.current)),
    ]);
    row("list", input, &pair.current, [ours, theirs, build])
}

/// The owner call beside the Rust's map of all owners and a look into it.
fn owner(input: &Input) -> Row {
    let pair = input.records();
    let now = record(&pair.current);
    assert!(
        matches!(menqachu::owner(now, input.asked.as_bytes()), menqachu::Owner::Named { .. }),
        "{}",
        input.name
    );
    asked(input, &pair.current)
}

/// A record with a byte after its end: it is read from the front to the end and refused, so the time of the owner call on it
/// is the time of reading, but for number 9.
pub fn refused_at_its_end(record: &Encoded) -> Encoded {
    let mut given = record.clone();
    given.stream.push(0);
    given
}

fn reading(input: &Input, name: String) -> Row {
    let mut given = input.clone();
    given.name = name;
    let current = refused_at_its_end(&input.records().current);
    let answer = menqachu::owner(record(&current), input.asked.as_bytes());
    let place = current.stream.len() - 1;
    assert!(matches!(answer, menqachu::Owner::Refused { place: at, .. } if at == place), "{}", given.name);
    asked(&given, &current)
}

/// A line of the owner call on this record.
fn asked(input: &Input, current: &Encoded) -> Row {
    let (now, name) = (record(current), input.asked.as_str());
    let schema = values::schema(&input.current);
    let [ours, theirs, build] = least([
        &mut || timed(|| menqachu::owner(now, name.as_bytes())),
        &mut || timed(|| schema.ownership().get(name).map(|root| root.len())),
        &mut || timed(|| values::schema(&input.current)),
    ]);
    row("owner", input, current, [ours, theirs, build])
}

fn row(call: &'static str, input: &Input, current: &Encoded, [ours, theirs, build]: [f64; 3]) -> Row {
    Row { call, input: input.name.clone(), bytes: current.stream.len(), ours, theirs, build, grown: None }
}

/// A call that is measured.
#[derive(Clone, Copy)]
pub enum Call {
    /// The check, whose answer has this number.
    Check {
        number: u32,
    },
    List,
    Owner,
    /// The owner call on a record that is refused at its end.
    Reading,
}

impl Call {
    pub fn name(self) -> &'static str {
        match self {
            Call::Check { .. } => "check",
            Call::List => "list",
            Call::Owner | Call::Reading => "owner",
        }
    }
}

const ACCEPTED: Call = Call::Check { number: 0 };

/// A call on an input; `grows` where the case before is the same in another size.
pub struct Case {
    pub call: Call,
    pub input: Input,
    grows: bool,
}

impl Case {
    fn of(call: Call, input: Input) -> Case {
        Case { call, input, grows: false }
    }

    pub fn name(&self) -> String {
        match self.call {
            Call::Reading => format!("{}, refused at its end", self.input.name),
            _ => self.input.name.clone(),
        }
    }

    fn measured(&self) -> Row {
        match self.call {
            Call::Check { number } => check(&self.input, number),
            Call::List => list(&self.input),
            Call::Owner => owner(&self.input),
            Call::Reading => reading(&self.input, self.name()),
        }
    }
}

/// One call on one input in growing sizes.
fn series(call: Call, sizes: &[usize], input: fn(usize) -> Input) -> Vec<Case> {
    let sized = |(at, &kib): (usize, &usize)| {
        let mut given = input(kib * 1_024);
        given.name = format!("{}, {kib} KiB", given.name);
        Case { call, input: given, grows: at > 0 }
    };
    sizes.iter().enumerate().map(sized).collect()
}

/// All that is measured, in the order of the table.
pub fn cases() -> Vec<Case> {
    let mut cases = Vec::new();
    for call in [ACCEPTED, Call::List, Call::Owner, Call::Reading] {
        cases.extend(inputs::named().into_iter().map(|input| Case::of(call, input)));
    }
    for input in inputs::named() {
        cases.push(Case::of(Call::Check { number: 15 }, input.clone().unraised()));
        cases.push(Case::of(Call::Check { number: 17 }, input.late()));
    }
    for call in [ACCEPTED, Call::List, Call::Owner] {
        cases.extend(series(call, &[1, 2, 4, 8, 16, 32], inputs::realistic));
    }
    let sizes = [8, 16, 32];
    let many = [inputs::shipped_variants, inputs::new_variants, inputs::fronted_variants, inputs::enums_last];
    many.into_iter().for_each(|input| cases.extend(series(ACCEPTED, &sizes, input)));
    for input in [inputs::owned_chain, inputs::owned_fan] {
        cases.extend(series(ACCEPTED, &sizes, input));
        cases.extend(series(Call::Owner, &sizes, input));
    }
    cases.push(Case::of(Call::Check { number: 41 }, inputs::deepest()));
    cases.push(Case::of(Call::Owner, inputs::deepest()));
    cases
}

pub fn run() {
    println!("{HEAD}");
    let mut before = f64::INFINITY;
    for case in cases() {
        let mut row = case.measured();
        row.grown = case.grows.then_some(row.ours / before);
        before = row.ours;
        println!("{row}");
    }
    pointers::bench();
    pairs::bench();
    load::bench();
    edit_rows::run();
    shelf_rows::run();
}
