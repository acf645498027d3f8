//! `release draft`: a type added to a draft or taken out of it, and the number of layouts changed.

use menqachu::record::decode::commands;
use menqachu::record::parts::{Parts, POOL_LIMIT, STREAM_LIMIT};
use menqachu::text::{added, assemble, removed, show, Fault};
use menqachu::{draft_add, draft_count, draft_remove, Answer, DraftAnswer, Record, Side};

use super::answer::Told;
use super::args::{Args, Operand};
use super::files::{self, Given};
use super::json::Json;
use super::output::print_line;
use super::{alike, help, problem, Done, Stop, DONE};

const KEY: &str = "changed";

/// The parts of every record fit into so many bytes.
const WHOLE: usize = 8 + STREAM_LIMIT + POOL_LIMIT;

pub fn run(args: &Args) -> Done {
    match (args.operands[0].to_str(), &args.operands[1..]) {
        (Some("count"), [draft, released]) => count(args, draft, released),
        (Some("add"), [draft, addition, released]) => add(args, draft, addition, released),
        (Some("remove"), [draft, name, released]) => remove(args, draft, name, released),
        _ => Err(Stop::failed(format!(
            "draft: expected add, remove or count with what it takes\n{}\n`release draft --help` says more",
            help::usage(help::DRAFT)
        ))),
    }
}

fn count(args: &Args, draft: &Operand, released: &Operand) -> Done {
    let pair = Pair { draft: files::record(draft)?, released: files::record(released)?, json: args.json };
    let changed = pair.counted(&pair.draft.bytes())?;
    pair.say(changed)
}

fn add(args: &Args, draft: &Operand, addition: &Operand, released: &Operand) -> Done {
    let draft = edited(draft)?;
    let addition = files::record(addition)?;
    let pair = Pair { draft, released: files::record(released)?, json: args.json };
    pair.edit(&Edit::Add(addition))
}

fn remove(args: &Args, draft: &Operand, name: &Operand, released: &Operand) -> Done {
    let pair = Pair { draft: edited(draft)?, released: files::record(released)?, json: args.json };
    let name = name.as_encoded_bytes();
    let done = pair.edit(&Edit::Remove(name));
    if done.is_err() && !args.json {
        alike::tell(&[pair.draft.record()], name, name);
    }
    done
}

enum Edit<'a> {
    Add(Given),
    Remove(&'a [u8]),
}

impl Edit<'_> {
    /// The edit of a record, by the proved call.
    fn of_record(&self, changed: usize, buffer: &mut [u8], released: Record) -> DraftAnswer {
        match self {
            Edit::Add(addition) => draft_add(changed, buffer, addition.record(), released),
            Edit::Remove(name) => draft_remove(changed, buffer, name, released),
        }
    }

    /// The edit of a text, in its lines.
    fn of_text(&self, text: &[u8]) -> Result<Vec<u8>, Fault> {
        match self {
            Edit::Add(addition) => match addition.text() {
                Some(more) => added(text, more),
                None => added(text, show(addition.record()).unwrap_or_default().as_bytes()),
            },
            Edit::Remove(name) => removed(text, name),
        }
    }
}

/// A draft that is to be written again, and so cannot come from standard input.
fn edited(draft: &Operand) -> Result<Given, Stop> {
    if &**draft == "-" {
        return Err(Stop::failed("draft: an edit writes the draft again; name its file"));
    }
    files::record(draft)
}

/// A draft and the copy that it is counted against.
struct Pair {
    draft: Given,
    released: Given,
    json: bool,
}

impl Pair {
    fn key(&self) -> Option<&'static str> {
        self.json.then_some(KEY)
    }

    /// The count found afresh, or what ends the command.
    fn counted(&self, buffer: &[u8]) -> Result<usize, Stop> {
        let DraftAnswer { answer, changed } = draft_count(buffer, self.released.record());
        let (side, given) = match answer {
            Answer { number: 0, .. } => return Ok(changed),
            Answer { side: 0, .. } => (Side::Current, &self.draft),
            _ => (Side::Released, &self.released),
        };
        let told = Told::of_given(answer.number, Some(side), answer.place, given);
        Err(problem::refused(&told, given, self.key()))
    }

    /// Makes an edit in a buffer that has room for every record, and puts the result in the draft's place.
    fn edit(&self, edit: &Edit) -> Done {
        let mut buffer = self.draft.bytes();
        buffer.resize(buffer.len().max(WHOLE), 0);
        let changed = self.counted(&buffer)?;
        let DraftAnswer { answer, changed } = edit.of_record(changed, &mut buffer, self.released.record());
        if answer.number != 0 {
            return Err(self.declined(&answer, edit));
        }
        let result = Parts::read(&mut buffer.as_slice()).expect("a slice can be read");
        let bytes = match self.draft.text() {
            Some(text) => self.edited_text(text, edit, &result)?,
            None => result.to_bytes(),
        };
        files::replace(&self.draft.file, &bytes)?;
        self.say(changed)
    }

    /// The draft's text with the edit in its lines. It has to say what the proved call made.
    fn edited_text(&self, text: &[u8], edit: &Edit, result: &Parts) -> Result<Vec<u8>, Stop> {
        let file = self.draft.shown();
        let unfit = |fault| Stop::failed(format!("{file}: the text with the edit in its lines: {fault}"));
        let edited = edit.of_text(text).map_err(unfit)?;
        let again = assemble(&edited).map_err(unfit)?;
        match (commands(again.record()), commands(result.record())) {
            (Ok(again), Ok(result)) if again == result => Ok(edited),
            _ => Err(Stop::failed(format!(
                "{file}: the edited text does not say what the edit makes; this is a fault of this program, and \
                 the draft is left as it was"
            ))),
        }
    }

    /// Why an edit is not made: the draft and the copy were read, so a refusal speaks of the addition or of the result.
    fn declined(&self, answer: &Answer, edit: &Edit) -> Stop {
        let Answer { number, side, place, .. } = *answer;
        match (number, side, edit) {
            (1..=9, 2, Edit::Add(given)) => {
                let told = Told::of_given(number, Some(Side::Current), place, given);
                problem::refused(&told, given, self.key())
            }
            (1..=9, ..) => problem::refused(&Told::of_result(number, place), &self.draft, self.key()),
            _ => {
                let told = Told::of_number(number);
                let stop = problem::refused(&told, &self.draft, self.key());
                Stop::failed(stop.message)
            }
        }
    }

    fn say(&self, changed: usize) -> Done {
        let line = match self.json {
            true => {
                let value = vec![("refusal", Json::Null), (KEY, Json::Number(changed as u64))];
                Json::Object(value).to_string()
            }
            false => format!("{KEY} {changed}"),
        };
        print_line(&line).map(|()| DONE)
    }
}
