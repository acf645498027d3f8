//! `release shelf`: drafts left under names in one file, and taken back.

use std::ffi::OsStr;

use menqachu::record::parts::{Parts, POOL_LIMIT, STREAM_LIMIT};
use menqachu::record::shelf::Shelved;
use menqachu::text::show;
use menqachu::{shelf_back, Answer, ShelfAnswer, Side};

use super::answer::Told;
use super::args::{Args, Operand};
use super::files::{self, shown, shown_file, Given};
use super::json::Json;
use super::output::print_line;
use super::{help, problem, Done, Stop, DONE};

const NOT_TAKEN: u32 = 57;
const NOT_HELD: u32 = 58;

/// The parts of every record fit into so many bytes.
const WHOLE: usize = 8 + STREAM_LIMIT + POOL_LIMIT;

pub fn run(args: &Args) -> Done {
    match (args.operands[0].to_str(), &args.operands[1..]) {
        (Some("set"), [shelf, name, draft]) => set(args, shelf, name, draft),
        (Some("back"), [shelf, name, draft, released]) => back(args, shelf, name, draft, released),
        (Some("list"), [shelf]) => list(args, shelf),
        _ => Err(Stop::failed(format!(
            "shelf: expected set, back or list with what it takes\n{}\n`release shelf --help` says more",
            help::usage(help::SHELF)
        ))),
    }
}

/// A shelf's file, with the key that an answer has in JSON, if that is asked for.
struct File<'a> {
    file: &'a OsStr,
    shelved: Shelved,
    key: &'static str,
    json: bool,
}

impl<'a> File<'a> {
    /// The shelf in a file, or what `absent` gives where there is none.
    fn open(
        args: &Args,
        file: &'a OsStr,
        key: &'static str,
        absent: impl FnOnce() -> Result<Shelved, Stop>,
    ) -> Result<File<'a>, Stop> {
        if file == "-" {
            return Err(Stop::failed("shelf: a shelf is written again; name its file"));
        }
        let shelved = match files::shelf(file)? {
            None => absent()?,
            Some(bytes) => Shelved::read(&bytes)
                .ok_or_else(|| Stop::damaged(format!("{} is no shelf", shown_file(file))))?,
        };
        Ok(File { file, shelved, key, json: args.json })
    }

    fn json_key(&self) -> Option<&'static str> {
        self.json.then_some(self.key)
    }

    /// Ends the command for a number that speaks of the shelf.
    fn declined(&self, number: u32, why: &str) -> Stop {
        let told = Told::of_number(number);
        if let Err(stop) = problem::print_refusal(&told, self.json_key()) {
            return stop;
        }
        Stop::failed(format!("{}: {}: {why}", shown_file(self.file), told.line()))
    }

    /// Ends the command for a place that is bad.
    fn unsound(&self) -> Stop {
        self.declined(NOT_HELD, "a held draft lies outside the shelf's bytes or over another")
    }

    fn say(&self, line: String, value: Json) -> Done {
        let line = match self.json {
            true => Json::Object(vec![("refusal", Json::Null), (self.key, value)]).to_string(),
            false => line,
        };
        print_line(&line).map(|()| DONE)
    }
}

fn missing(file: &OsStr) -> Result<Shelved, Stop> {
    Err(Stop::failed(format!("there is no shelf {}; `release shelf set` makes one", shown_file(file))))
}

fn set(args: &Args, file: &OsStr, name: &OsStr, draft: &Operand) -> Done {
    let mut shelf = File::open(args, file, "held", || Ok(Shelved::empty()))?;
    let draft = files::record(draft)?;
    let ShelfAnswer { answer, .. } = shelf.shelved.set(name.as_encoded_bytes(), &draft.bytes());
    match answer.number {
        0 => {}
        NOT_TAKEN => {
            let why = match name.len() {
                1..=16 => "eight other names are held".to_string(),
                len => format!("a name has 1 to 16 bytes, and this one {len}"),
            };
            return Err(shelf.declined(NOT_TAKEN, &why));
        }
        NOT_HELD => return Err(shelf.unsound()),
        number => {
            let told = Told::of_given(number, Some(Side::Current), answer.place, &draft);
            return Err(problem::refused(&told, &draft, shelf.json_key()));
        }
    }
    files::replace(file, &shelf.shelved.to_bytes())?;
    let held = shelf.shelved.rows().count();
    shelf.say(format!("held {held}"), Json::Number(held as u64))
}

fn back(args: &Args, file: &OsStr, name: &OsStr, draft: &Operand, released: &Operand) -> Done {
    if &**draft == "-" {
        return Err(Stop::failed("shelf: the draft is written to a file; name it"));
    }
    let shelf = File::open(args, file, "changed", || missing(file))?;
    let released = files::record(released)?;
    let letters = name.as_encoded_bytes();
    let mut buffer = vec![0; WHOLE];
    let Shelved { shelf: rows, held } = &shelf.shelved;
    let ShelfAnswer { answer, changed, .. } =
        shelf_back(*rows, letters, &mut buffer, held, released.record());
    if answer.number != 0 {
        return Err(not_back(&shelf, &answer, name, &released));
    }
    let record = Parts::read(&mut buffer.as_slice()).expect("a slice can be read");
    files::replace(draft, &written(draft, record)?)?;
    shelf.say(format!("changed {changed}"), Json::Number(changed as u64))
}

/// A draft as it is written to a file: as its text form where the file is a text, or where the caller says so.
fn written(draft: &Operand, record: Parts) -> Result<Vec<u8>, Stop> {
    if !files::written_as_text(draft) {
        return Ok(record.to_bytes());
    }
    let given = Given::within(draft, record);
    let text = show(given.record()).map_err(|problem| problem::stop(problem, &given, None, None))?;
    Ok(text.into_bytes())
}

/// Why a draft does not come back.
fn not_back(shelf: &File, answer: &Answer, name: &OsStr, released: &Given) -> Stop {
    let Answer { number, side, place, .. } = *answer;
    let row = shelf.shelved.row(name.as_encoded_bytes());
    let Some(row) = row else { return shelf.declined(number, &format!("no draft {}", shown(name))) };
    if number == NOT_HELD {
        return shelf.unsound();
    }
    let bytes = shelf.shelved.bytes(&row).unwrap_or_default();
    let draft = Given::within(shelf.file, Parts::read(&mut &*bytes).expect("a slice can be read"));
    let (side, given) = if side == 0 { (Side::Current, &draft) } else { (Side::Released, released) };
    let told = Told::of_given(number, Some(side), place, given);
    problem::refused(&told, given, shelf.json_key())
}

fn list(args: &Args, file: &OsStr) -> Done {
    let shelf = File::open(args, file, "drafts", || missing(file))?;
    if !shelf.shelved.is_sound() {
        return Err(shelf.unsound());
    }
    let rows: Vec<_> = shelf.shelved.rows().collect();
    if args.json {
        let drafts = rows.iter().map(|row| {
            let name = Json::or_null(row.name.map(Json::bytes));
            Json::Object(vec![("name", name), ("bytes", Json::Number(row.len as u64))])
        });
        return shelf.say(String::new(), Json::List(drafts.collect()));
    }
    for row in rows {
        let name = row.name.map_or("(no name)".to_string(), files::shown_bytes);
        print_line(&format!("{name}: {} bytes", row.len))?;
    }
    Ok(DONE)
}
